//! Binomial setups of any n and p, and draws from made setups and from lent ones of any floats.
use crate::binomial::{self, Setup};
use crate::chance::Chance;
use crate::records::Sink;
use crate::rules;

fn trials(chance: &mut Chance) -> u64 {
    match chance.below(16) {
        0 => chance.near(rules::MOST_TRIALS),
        1 => chance.any_size(),
        2..=4 => chance.below(rules::MOST_TRIALS + 1),
        5..=7 => chance.below(2000),
        8..=9 => chance.near(110),
        _ => chance.below(25),
    }
}

/// A probability: likely one whose product with n is below 10, at times at an edge or none at all.
fn probability(chance: &mut Chance, n: u64) -> f64 {
    let most = (10.0 / (n as f64).max(1.0)).min(0.5);
    let small = chance.unit() * most;
    let edges = [0.0, 1.0, 0.5, most, 1.0 - most, f64::EPSILON / 2.0, f64::EPSILON / 4.0, 1.0 - f64::EPSILON / 2.0];
    match chance.below(16) {
        0 => chance.float(),
        1 => f64::from_bits(chance.word()),
        2..=3 => {
            let edge = chance.of(&edges);
            chance.beside(edge)
        }
        4 => chance.unit(),
        5..=7 => 1.0 - small,
        8 => small * f64::from_bits((1023 - chance.below(70)) << 52),
        _ => small,
    }
}

/// A unit's word: any, at an end, or where the count of this setup rises.
fn word(chance: &mut Chance, setup: &Setup) -> u64 {
    match chance.below(8) {
        0 => chance.of(&[0, u64::MAX, 1 << 63, (1 << 63) - 1, 4096, 4095]),
        1 => u64::MAX - (chance.any_size() >> 4),
        2..=3 => rise(chance, setup),
        _ => chance.word(),
    }
}

/// A word whose unit is close to the sum of the first few chances of a setup.
fn rise(chance: &mut Chance, setup: &Setup) -> u64 {
    let &Setup::Binv { mut r, s, a, .. } = setup else {
        return chance.word();
    };
    let mut sum = r;
    for count in 1..=chance.below(6) {
        r *= a / count as f64 - s;
        sum += r;
    }
    chance.near((sum * 4_503_599_627_370_496.0) as u64) << 12
}

fn draw(sink: &mut Sink, chance: &mut Chance, setup: &Setup) {
    let words = if chance.one_in(24) { 0 } else { 1 + chance.below(3) };
    let pool: Vec<u64> = (0..words).map(|_| word(chance, setup)).collect();
    setup.draw(sink, &pool);
}

/// A setup that was made, with something in it changed.
fn changed(chance: &mut Chance, setup: Setup) -> Setup {
    let Setup::Binv { mut n, mut r, mut s, mut a, mut flip } = setup else {
        let near = chance.near(rules::MOST_TRIALS);
        return Setup::Constant(chance.of(&[near, u64::MAX, 0, 1]));
    };
    match chance.below(6) {
        0 => n = trials(chance),
        1 => r *= chance.unit(),
        2 => r = chance.float(),
        3 => s = chance.float(),
        4 => a = chance.float(),
        _ => flip = !flip,
    }
    Setup::Binv { n, r, s, a, flip }
}

/// A setup of any floats.
fn lent(chance: &mut Chance) -> Setup {
    let n = trials(chance);
    if chance.one_in(16) {
        return Setup::Constant(n);
    }
    Setup::Binv { n, r: chance.float(), s: chance.float(), a: chance.float(), flip: chance.one_in(2) }
}

/// A setup that is made and drawn from, one that was changed, and one that is lent.
pub fn session(sink: &mut Sink, chance: &mut Chance) {
    let n = trials(chance);
    let p = probability(chance, n);
    if let Some(setup) = binomial::make(sink, n, p) {
        (0..3).for_each(|_| draw(sink, chance, &setup));
        let setup = changed(chance, setup);
        draw(sink, chance, &setup);
    }
    if chance.one_in(2) {
        let setup = lent(chance);
        draw(sink, chance, &setup);
    }
}

//! Ziggurat rounds with the real tables and with tables of any bits, at any word and at those where a round turns.
use crate::chance::Chance;
use crate::records::Sink;
use crate::ziggurat_round::{self, Table, Tables};

/// Lengths of which none is 257.
const LENGTHS: [usize; 4] = [0, 1, 256, 258];

/// A word: any, with the top bits at an end, or where a sample turns into a wedge; the tail's layer comes up more often
/// than by chance.
fn word(chance: &mut Chance, symmetric: bool, x: &Table) -> u64 {
    let layer = if chance.one_in(8) { chance.of(&[0, 0, 1, 254, 255]) } else { chance.below(256) };
    let top = match chance.below(8) {
        0 => chance.of(&[0, 1 << 63, (1 << 63) - 4096, u64::MAX, 4096]),
        1 => u64::MAX - (chance.any_size() >> 4),
        2 => chance.any_size() >> 4,
        3..=4 => turn(chance, symmetric, x.at(layer + 1) / x.at(layer)),
        _ => chance.word(),
    };
    (top & !255) | layer
}

/// A word whose u is close to a number between 0 and 1, or to its negative.
fn turn(chance: &mut Chance, symmetric: bool, u: f64) -> u64 {
    let scale = 2_251_799_813_685_248.0; // 2^51
    let top = match symmetric {
        true if chance.one_in(2) => scale - u * scale,
        true => scale + u * scale,
        false => 2.0 * u * scale,
    };
    chance.near(top as u64) << 12
}

fn pool(chance: &mut Chance, symmetric: bool, x: &Table) -> Vec<u64> {
    let words = if chance.one_in(24) { chance.below(2) } else { 2 + chance.below(2) };
    (0..words).map(|_| word(chance, symmetric, x)).collect()
}

fn tables(chance: &mut Chance, all: &Tables) -> [Table; 2] {
    match chance.below(8) {
        0..=2 => all.normal,
        3..=5 => all.exponential,
        _ => [chance.of(&all.others), chance.of(&all.others)],
    }
}

/// A round or two.
pub fn session(sink: &mut Sink, chance: &mut Chance, all: &Tables) {
    let tables = tables(chance, all);
    // the normal tables are symmetric ones, the exponential are not; either form takes either
    let symmetric = chance.one_in(2);
    for _ in 0..2 {
        ziggurat_round::round(sink, symmetric, tables, &pool(chance, symmetric, &tables[0]));
    }
    if chance.one_in(64) {
        let wrong = vec![chance.word(); chance.of(&LENGTHS)];
        let other = vec![chance.word(); chance.of(&[0, 256, 257, 258])];
        let lent: [&[u64]; 2] = if chance.one_in(2) { [&wrong, &other] } else { [&other, &wrong] };
        ziggurat_round::bad_length(sink, symmetric, lent, &pool(chance, symmetric, &tables[0]));
    }
}

//! Trees of any size: made, damaged, changed and drawn from, in sessions that carry the store along.
use crate::chance::Chance;
use crate::records::Sink;
use crate::rules;
use crate::tree::{self, Lent};

/// How many slots: mostly a few, at times many.
pub fn size(chance: &mut Chance) -> usize {
    match chance.below(2048) {
        0..=2 => chance.near(rules::MOST_SLOTS) as usize,
        3..=12 => chance.index(4097),
        13..=200 => chance.index(65),
        201..=700 => chance.index(17),
        _ => chance.index(9),
    }
}

/// Weights of every shape: small, uniform, one heavy, mostly zeros, powers of two, near the limit, of any size.
pub fn weights(chance: &mut Chance, n: usize) -> Vec<u64> {
    let most = u64::MAX / (n as u64).max(1);
    let shape = chance.below(9);
    // the bits that a sum of n such powers of two has room for
    let bits = u64::from((n as u64).leading_zeros());
    let same = chance.any_size();
    let mut list: Vec<u64> = (0..n)
        .map(|_| match shape {
            0 => chance.below(4),
            1 => chance.below(100),
            2 => same.min(most),
            3 => 1 + chance.below(3),
            4 => chance.below(4) / 3 * chance.below(9),
            5 => 1 << chance.below(bits),
            6 => most - chance.below(3).min(most),
            7 => chance.any_size().min(most),
            _ => chance.any_size(),
        })
        .collect();
    if shape == 3 && n > 0 {
        list[chance.index(n)] = most / 2;
    }
    list
}

/// A word that is accepted for a total above 0 and gives the target.
fn accepted(chance: &mut Chance, total: u64, target: u64) -> u64 {
    let times = (1u128 << 64) / u128::from(total);
    let time = (u128::from(chance.word()) * times) >> 64;
    (time * u128::from(total)) as u64 + target
}

/// Words that give a target below a total above 0: at times behind some that are skipped, or cut off before it.
pub fn pool(chance: &mut Chance, total: u64, target: u64) -> Vec<u64> {
    let mut words = Vec::new();
    let spill = rules::spill(total);
    if spill > 0 && chance.one_in(8) {
        for _ in 0..=chance.below(2) {
            words.push(u64::MAX - chance.below(spill));
        }
    }
    if !chance.one_in(40) {
        words.push(accepted(chance, total, target));
    }
    words
}

/// Junk in lent memory.
pub fn junk(chance: &mut Chance, length: usize) -> Vec<u64> {
    (0..length).map(|_| chance.any_size()).collect()
}

/// A length that is n, and at times is not.
pub fn length(chance: &mut Chance, n: usize) -> usize {
    if chance.one_in(40) { chance.of(&[0, n + 1, n.saturating_sub(1), n + 7]) } else { n }
}

/// A target at an edge of what some slot is drawn for: a way down to a cell, and the edges there.
fn edge(chance: &mut Chance, lent: &Lent) -> u64 {
    let read = |at| rules::cell(&lent.store, lent.count, at);
    let (mut at, mut base) = (0, 0u64);
    while 2 * at + 1 < lent.count && !chance.one_in(3) {
        let right = chance.one_in(2);
        if right {
            base = base.wrapping_add(read(2 * at + 1));
        }
        at = 2 * at + 1 + u64::from(right);
    }
    let (left, right) = (read(2 * at + 1), read(2 * at + 2));
    let ends = [0, left, left.wrapping_add(right), read(at)];
    let offset = chance.of(&ends).wrapping_sub(chance.below(2));
    base.wrapping_add(offset)
}

/// A target: at an edge, or any; at times at or above the total.
fn target(chance: &mut Chance, lent: &Lent) -> u64 {
    let total = lent.total();
    match chance.below(16) {
        0 => chance.near(total),
        1 => chance.word(),
        2..=8 if total > 0 => chance.below(total),
        _ if total > 0 => edge(chance, lent) % total,
        _ => chance.below(3),
    }
}

/// A weight for push and update: of any kind, or just what fills the tree up.
fn weight(chance: &mut Chance, lent: &Lent) -> u64 {
    match chance.below(8) {
        0 => chance.near(u64::MAX - lent.total()),
        1 => chance.any_size(),
        2 => chance.near(rules::cell(&lent.store, lent.count.min(lent.store.len() as u64), 0)),
        _ => chance.below(8),
    }
}

/// Changes a cell or some, so that the store is most likely unsound.
fn damage(chance: &mut Chance, lent: &mut Lent) {
    for _ in 0..=chance.below(2) {
        if !lent.store.is_empty() {
            let at = chance.index(lent.store.len());
            let old = lent.store[at];
            let other = chance.any_size();
            lent.store[at] = chance.of(&[0, old.wrapping_add(1), old.wrapping_sub(1), old / 2, other, u64::MAX]);
        }
    }
}

/// A count that most likely is none of this store.
fn bad_count(chance: &mut Chance, lent: &Lent) -> u64 {
    let length = lent.store.len() as u64;
    chance.of(&[length + 1, length, 4096, 4097, u64::MAX, 1 << 63, 1 << 32])
}

/// One call of a session.
fn call(sink: &mut Sink, chance: &mut Chance, lent: &mut Lent) {
    let index = if chance.one_in(20) { chance.near(lent.count) } else { chance.below(lent.count.max(1)) };
    match chance.below(20) {
        0 => lent.is_valid(sink),
        1 => lent.is_sound(sink),
        2..=4 => lent.get(sink, index),
        5..=6 => lent.pop(sink),
        7..=9 => {
            let weight = weight(chance, lent);
            lent.push(sink, weight);
        }
        10..=12 => {
            let weight = weight(chance, lent);
            lent.update(sink, index, weight);
        }
        13..=15 => {
            let target = target(chance, lent);
            lent.walk(sink, target);
        }
        _ => draw(sink, chance, lent),
    }
}

fn draw(sink: &mut Sink, chance: &mut Chance, lent: &Lent) {
    let total = lent.total().max(1);
    let target = target(chance, lent) % total;
    let mut words = pool(chance, total, target);
    if chance.one_in(8) {
        words.push(chance.word());
    }
    lent.draw(sink, &words);
}

/// A tree of n slots that is made, perhaps damaged, and then changed, read and drawn from.
pub fn session(sink: &mut Sink, chance: &mut Chance, n: usize) {
    let weights = weights(chance, n);
    let length = if chance.one_in(40) { length(chance, n) } else { n + chance.index(8) };
    let mut lent = Lent { store: junk(chance, length), count: 0 };
    if lent.make(sink, &weights) != 0 {
        lent.count = chance.below(length as u64 + 1).min(rules::MOST_SLOTS);
    }
    if chance.one_in(4) {
        damage(chance, &mut lent);
    }
    for _ in 0..if n > 64 { 8 } else { 24 } {
        if chance.one_in(50) {
            let count = lent.count;
            lent.count = bad_count(chance, &lent);
            call(sink, chance, &mut lent);
            lent.count = count;
        } else {
            call(sink, chance, &mut lent);
        }
    }
    if lent.total() <= 24 && chance.one_in(8) {
        (0..=lent.total()).for_each(|target| lent.walk(sink, target));
    }
}

/// Numbers from words, for totals of any size.
pub fn numbers(sink: &mut Sink, chance: &mut Chance) {
    let edges = [0, 1, 2, 3, 6, 1 << 63, (1 << 63) + 1, (1 << 63) - 1, u64::MAX, u64::MAX - 1];
    let total = if chance.one_in(4) { chance.of(&edges) } else { chance.any_size() };
    let target = chance.below(total.max(1));
    let mut words = pool(chance, total.max(1), target);
    words.extend((0..chance.below(3)).map(|_| chance.word()));
    tree::number_below(sink, total, &words);
}

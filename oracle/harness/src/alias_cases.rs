//! Alias tables of every shape: built, changed into strangers' tables, weighed, checked and drawn from.
use crate::alias::{self, Table};
use crate::chance::Chance;
use crate::records::Sink;
use crate::tree_cases::{junk, length, pool, weights};

const END: u64 = u32::MAX as u64;

/// Lent links, which hold no more than a u32.
fn links(chance: &mut Chance, length: usize) -> Vec<u64> {
    (0..length).map(|_| chance.word() >> 32).collect()
}

/// A draw of some pair: the number at an edge of the slot's odds, or any.
fn draw(sink: &mut Sink, chance: &mut Chance, table: &Table) {
    let n = table.odds.len() as u64;
    let sum = table.sum.max(1);
    let slot = chance.below(n.max(1));
    let odd = table.odds.get(slot as usize).copied().unwrap_or_default();
    let number = if chance.one_in(2) { chance.below(sum) } else { odd.wrapping_sub(chance.below(2)) % sum };
    let mut words = pool(chance, n.max(1), slot);
    words.extend(pool(chance, sum, number));
    if chance.one_in(8) {
        words.push(chance.word());
    }
    table.draw(sink, &words);
}

/// Changes a few cells of a table, or its sum.
fn estrange(chance: &mut Chance, table: &mut Table) {
    let n = table.odds.len();
    for _ in 0..=chance.below(2) {
        let at = chance.index(n);
        let (old, other) = (table.odds[at], chance.any_size());
        let sum = table.sum;
        let within = chance.below(sum.max(1));
        match chance.below(5) {
            0 => table.odds[at] = chance.of(&[0, old.wrapping_add(1), old.wrapping_sub(1), sum, other, within]),
            1 => table.odds[at] = chance.near(sum),
            2 => table.links[at] = chance.below(n as u64),
            3 => table.links[at] = chance.of(&[n as u64, END, n as u64 - 1, 0, at as u64]),
            // a slot that is drawn as before: its link is not looked at, or its odds count as the sum
            _ if old >= sum => {
                table.links[at] = chance.word() >> 32;
                table.odds[at] = sum.saturating_add(chance.any_size());
            }
            _ => table.odds.swap(0, at),
        }
    }
    if chance.one_in(16) {
        table.sum = chance.of(&[0, 1, table.sum.wrapping_add(1), u64::MAX]);
    }
}

/// A table of odds and links that nobody built: every link is a slot's, most odds are below the sum.
fn drawn_by_lot(chance: &mut Chance, n: usize, sum: u64) -> Table {
    Table {
        odds: (0..n).map(|_| if chance.one_in(4) { sum } else { chance.below(sum.max(1)) }).collect(),
        links: (0..n).map(|_| chance.below(n as u64)).collect(),
        sum,
    }
}

fn weigh_and_check(sink: &mut Sink, chance: &mut Chance, table: &Table, weights: &[u64]) {
    let n = table.odds.len();
    let output = length(chance, n);
    let work = length(chance, n);
    table.weights(sink, &junk(chance, output));
    table.check(sink, weights, &junk(chance, work));
}

/// A table of n slots that is made, read and drawn from; then a stranger's.
pub fn session(sink: &mut Sink, chance: &mut Chance, n: usize) {
    let weights = weights(chance, n);
    let (odds, slots) = (length(chance, n), length(chance, n));
    let (odds, slots) = (junk(chance, odds), links(chance, slots));
    let built = alias::make(sink, &weights, &odds, &slots);
    let stays = built.is_some();
    let mut table = built.unwrap_or(Table { odds, links: slots, sum: chance.any_size() });
    let draws = if n > 64 { 4 } else { 8 };
    if stays || chance.one_in(8) {
        weigh_and_check(sink, chance, &table, &weights);
        (0..draws).for_each(|_| draw(sink, chance, &table));
    }
    if stays && chance.one_in(2) {
        if chance.one_in(4) {
            let sum = if chance.one_in(2) { table.sum } else { chance.any_size() };
            table = drawn_by_lot(chance, n, sum);
        } else {
            estrange(chance, &mut table);
        }
        weigh_and_check(sink, chance, &table, &weights);
        (0..draws / 2).for_each(|_| draw(sink, chance, &table));
    }
}

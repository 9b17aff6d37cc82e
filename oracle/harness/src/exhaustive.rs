//! Every case of the small ones: trees and tables of a few slots with small weights, at every target and every pair.
use crate::alias::{self, Table};
use crate::records::Sink;
use crate::stream::Part;
use crate::tree::Lent;

/// What a lent cell holds that is to be overwritten, or left alone.
const JUNK: u64 = 77;

/// Every list of that length whose numbers are at most `most`.
pub fn lists(length: usize, most: u64) -> impl Iterator<Item = Vec<u64>> {
    let base = most + 1;
    (0..base.pow(length as u32)).map(move |code| (0..length).map(|i| code / base.pow(i as u32) % base).collect())
}

/// Every call over trees made from weights of at most `most`.
pub fn trees(sink: &mut Sink, slots: usize, most: u64) {
    for weights in lists(slots, most) {
        let mut lent = Lent { store: vec![JUNK; slots + 1], count: 0 };
        lent.make(sink, &weights);
        every_call(sink, &lent, most);
    }
}

/// Every tree made from weights of at most `most`, and its walk at every target.
pub fn walks(sink: &mut Sink, slots: usize, most: u64) {
    for weights in lists(slots, most) {
        let mut lent = Lent { store: vec![JUNK; slots], count: 0 };
        lent.make(sink, &weights);
        (0..lent.total()).for_each(|target| lent.walk(sink, target));
    }
}

/// Every call over stores of any subtotals of at most `most`, sound or not.
pub fn stores(sink: &mut Sink, cells: usize, most: u64) {
    for mut store in lists(cells, most) {
        store.push(JUNK);
        every_call(sink, &Lent { store, count: cells as u64 }, most);
    }
}

/// Every index and one more, every weight up to `most`, every target and one more, every word below the total.
fn every_call(sink: &mut Sink, lent: &Lent, most: u64) {
    lent.is_valid(sink);
    lent.is_sound(sink);
    lent.clone().pop(sink);
    for weight in 0..=most {
        lent.clone().push(sink, weight);
    }
    for index in 0..=lent.count {
        lent.get(sink, index);
        for weight in 0..=most {
            lent.clone().update(sink, index, weight);
        }
    }
    for target in 0..=lent.total() {
        lent.walk(sink, target);
        lent.draw(sink, &[target]);
    }
}

/// Every table made from weights of at most `most`: its weights, its check and every pair.
pub fn tables(sink: &mut Sink, slots: usize, most: u64) {
    for weights in lists(slots, most) {
        let junk = vec![JUNK; slots];
        if let Some(table) = alias::make(sink, &weights, &junk, &junk) {
            table.weights(sink, &junk);
            table.check(sink, &weights, &junk);
            every_pair(sink, &table);
        }
    }
}

fn every_pair(sink: &mut Sink, table: &Table) {
    for slot in 0..table.odds.len() as u64 {
        for number in 0..table.sum {
            table.draw(sink, &[slot, number]);
        }
    }
}

/// Every table of odds up to one above the sum and of links up to n, for every weights of at most `most`.
pub fn strangers(sink: &mut Sink, slots: usize, most: u64) {
    let junk = vec![JUNK; slots];
    for weights in lists(slots, most) {
        let sum: u64 = weights.iter().sum();
        for odds in lists(slots, sum + 1) {
            for links in lists(slots, slots as u64) {
                let table = Table { odds: odds.clone(), links, sum };
                table.check(sink, &weights, &junk);
            }
        }
    }
    for sum in 0..=most {
        for odds in lists(slots, sum + 1) {
            for links in lists(slots, slots as u64) {
                let table = Table { odds: odds.clone(), links, sum };
                table.weights(sink, &junk);
                every_pair(sink, &table);
            }
        }
    }
}

/// All of it, as the long run begins, for the parts that are wanted.
pub fn all(sink: &mut Sink, parts: &[Part]) {
    if parts.contains(&Part::Tree) {
        (0..=4).for_each(|slots| trees(sink, slots, 3));
        (1..=4).for_each(|cells| stores(sink, cells, 5));
    }
    if parts.contains(&Part::Alias) {
        (0..=4).for_each(|slots| tables(sink, slots, 3));
        strangers(sink, 1, 3);
        strangers(sink, 2, 3);
        strangers(sink, 3, 1);
    }
}

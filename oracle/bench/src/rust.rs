//! The Rust's calls, as functions that are not inlined into the driver: the port's are not either.
use crate::{Handed, utils, word_first, ziggurat_tables};
use rand_distr::weighted::{WeightedAliasIndex, WeightedTreeIndex};
use rand_distr::{Binomial, Distribution};

pub type Tree = WeightedTreeIndex<u64>;
pub type Table = WeightedAliasIndex<u64>;

#[inline(never)]
pub fn tree_new(weights: &[u64]) -> Tree {
    WeightedTreeIndex::new(weights).unwrap()
}

#[inline(never)]
pub fn tree_get(tree: &Tree, index: usize) -> u64 {
    tree.get(index)
}

#[inline(never)]
pub fn tree_walk(tree: &Tree, target: u64) -> usize {
    tree.try_sample(&mut Handed::new(target, 0)).unwrap()
}

#[inline(never)]
pub fn tree_update(tree: &mut Tree, index: usize, weight: u64) {
    tree.update(index, weight).unwrap();
}

#[inline(never)]
pub fn tree_pop(tree: &mut Tree) -> Option<u64> {
    tree.pop()
}

#[inline(never)]
pub fn tree_push(tree: &mut Tree, weight: u64) {
    tree.push(weight).unwrap();
}

#[inline(never)]
pub fn alias_new(weights: &[u64]) -> Table {
    WeightedAliasIndex::new(weights.to_vec()).unwrap()
}

#[inline(never)]
pub fn alias_draw(table: &Table, slot: u64, number: u64) -> usize {
    table.sample(&mut Handed::new(slot, number))
}

#[inline(never)]
pub fn alias_weights(table: &Table) -> Vec<u64> {
    table.weights()
}

#[inline(never)]
pub fn binomial_new(n: u64, p: f64) -> Binomial {
    Binomial::new(n, p).unwrap()
}

#[inline(never)]
pub fn binomial_draw(binomial: &Binomial, word: u64) -> u64 {
    binomial.sample(&mut Handed::new(word, 0))
}

/// A density above every height ends the round at the wedge.
#[inline(never)]
pub fn ziggurat_round(x: ziggurat_tables::ZigTable, f: ziggurat_tables::ZigTable, pool: &[u64; 2]) -> f64 {
    utils::ziggurat(&mut word_first(pool), true, x, f, |_| f64::INFINITY, |_, u| u)
}

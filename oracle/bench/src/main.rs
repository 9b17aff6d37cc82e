//! Times every kernel of the port beside rand_distr's on the same inputs, in one run: batches of both take turns, the
//! fastest batch of each counts, and the ratio is of these two. `tools/bench` builds and runs it.
//!
//! Two things are not the same on both sides and are said beside the figures: the Rust's `new` takes its memory from the
//! heap, and the port's draws take their numbers from words by its rule, where the Rust is handed them.
mod port;
mod rust;

use rand::Rng;
use std::hint::black_box;
use std::time::Instant;

include!(concat!(env!("OUT_DIR"), "/modules.rs"));

const INPUTS: usize = 1024;
const TURNS: usize = 40;

/// A small generator for the inputs (splitmix64).
struct Chance(u64);

impl Chance {
    fn word(&mut self) -> u64 {
        self.0 = self.0.wrapping_add(0x9e37_79b9_7f4a_7c15);
        let mixed = (self.0 ^ (self.0 >> 30)).wrapping_mul(0xbf58_476d_1ce4_e5b9);
        let mixed = (mixed ^ (mixed >> 27)).wrapping_mul(0x94d0_49bb_1331_11eb);
        mixed ^ (mixed >> 31)
    }
    fn below(&mut self, bound: u64) -> u64 {
        self.word() % bound
    }
}

/// What the Rust is handed in place of what it would draw.
struct Handed {
    word: u64,
    numbers: [u64; 2],
    at: usize,
}

impl Rng for Handed {
    fn next_u64(&mut self) -> u64 {
        self.word
    }
    fn next_number(&mut self) -> u64 {
        self.at += 1;
        self.numbers[self.at - 1]
    }
    fn next_unit(&mut self) -> f64 {
        self.at += 1;
        (self.numbers[self.at - 1] >> 12) as f64 / (1u64 << 52) as f64
    }
}

impl Handed {
    fn new(first: u64, second: u64) -> Handed {
        Handed { word: 0, numbers: [first, second], at: 0 }
    }
}

/// A pool of a round: its first word as it is, its second as a unit.
fn word_first(pool: &[u64; 2]) -> Handed {
    Handed { word: pool[0], numbers: [pool[1], pool[1]], at: 0 }
}

/// A batch: a call for each of some inputs.
fn each<T, R>(inputs: &[T], mut call: impl FnMut(&T) -> R) {
    for input in inputs {
        black_box(call(black_box(input)));
    }
}

/// Nanoseconds of a call, the fastest batch of so many calls.
fn compare(name: &str, slots: &str, calls: usize, mut port: impl FnMut(), mut rust: impl FnMut()) {
    let mut best = [f64::INFINITY; 2];
    for _ in 0..TURNS {
        for (side, batch) in [&mut port as &mut dyn FnMut(), &mut rust].into_iter().enumerate() {
            let begun = Instant::now();
            batch();
            best[side] = best[side].min(begun.elapsed().as_nanos() as f64 / calls as f64);
        }
    }
    println!("| {name} | {slots} | {:.1} | {:.1} | {:.2} |", best[0], best[1], best[0] / best[1]);
}

fn trees(chance: &mut Chance, n: usize) {
    let slots = n.to_string();
    let weights: Vec<u64> = (0..n).map(|_| 1 + chance.below(4096)).collect();
    let mut store = vec![0; n];
    let made = vec![(); 1 + INPUTS / n];
    let port = || each(&made, |_| port::tree_new(&mut store, &weights));
    compare("tree `new`", &slots, made.len(), port, || each(&made, |_| rust::tree_new(&weights)));

    let mut tree = rust::tree_new(&weights);
    let total: u64 = weights.iter().sum();
    let targets: Vec<u64> = (0..INPUTS).map(|_| chance.below(total)).collect();
    let indexes: Vec<usize> = (0..INPUTS).map(|_| chance.below(n as u64) as usize).collect();
    for &target in &targets {
        assert_eq!(port::tree_walk(&store, target), rust::tree_walk(&tree, target) as u64);
    }
    let port = || each(&indexes, |&i| port::tree_get(&store, i));
    compare("tree `get`", &slots, INPUTS, port, || each(&indexes, |&i| rust::tree_get(&tree, i)));
    let port = || each(&targets, |&target| port::tree_walk(&store, target));
    compare("tree `walk`", &slots, INPUTS, port, || {
        each(&targets, |&target| rust::tree_walk(&tree, target));
    });
    // another weight in every batch: the Rust is done at once where nothing changes
    let (mut batch, mut rust_batch) = (0, 0);
    let port = || {
        batch += 1;
        each(&indexes, |&i| port::tree_update(&mut store, i, weights[(i + batch) % n]));
    };
    compare("tree `update`", &slots, INPUTS, port, || {
        rust_batch += 1;
        each(&indexes, |&i| rust::tree_update(&mut tree, i, weights[(i + rust_batch) % n]));
    });
    let port = || {
        each(&indexes, |&i| {
            port::tree_pop(&mut store, n);
            port::tree_push(&mut store, n - 1, weights[i])
        });
    };
    compare("tree `pop` and `push`", &slots, INPUTS, port, || {
        each(&indexes, |&i| {
            rust::tree_pop(&mut tree);
            rust::tree_push(&mut tree, weights[i]);
        });
    });
}

fn tables(chance: &mut Chance, n: usize) {
    let slots = n.to_string();
    let weights: Vec<u64> = (0..n).map(|_| 1 + chance.below(4096)).collect();
    let (mut odds, mut links, mut output) = (vec![0; n], vec![0; n], vec![0; n]);
    let made = vec![(); 1 + INPUTS / n];
    let port = || each(&made, |_| port::alias_new(&weights, &mut odds, &mut links));
    compare("alias `new`", &slots, made.len(), port, || each(&made, |_| rust::alias_new(&weights)));

    let table = rust::alias_new(&weights);
    let sum: u64 = weights.iter().sum();
    let port = || each(&made, |_| port::alias_weights(&odds, &links, sum, &mut output));
    compare("alias `weights`", &slots, made.len(), port, || each(&made, |_| rust::alias_weights(&table)));
    assert_eq!(output, table.weights());

    let pairs: Vec<[u64; 2]> = (0..INPUTS).map(|_| [chance.below(n as u64), chance.below(sum)]).collect();
    for &[slot, number] in &pairs {
        let drawn = rust::alias_draw(&table, slot, number) as u64;
        assert_eq!(port::alias_draw(&odds, &links, sum, &[slot, number]), drawn);
    }
    let port = || each(&pairs, |pair| port::alias_draw(&odds, &links, sum, pair));
    compare("alias `draw`", &slots, INPUTS, port, || {
        each(&pairs, |&[slot, number]| rust::alias_draw(&table, slot, number));
    });
}

fn counts(chance: &mut Chance, n: u64, p: f64) {
    let trials = format!("n = {n}, p = {p}");
    let made = vec![n; INPUTS];
    let port = || each(&made, |&n| port::binomial_new(n, p));
    compare("binomial `new`", &trials, INPUTS, port, || each(&made, |&n| rust::binomial_new(n, p)));

    let (setup, binomial) = (port::binomial_new(n, p), rust::binomial_new(n, p));
    let pools: Vec<[u64; 1]> = (0..INPUTS).map(|_| [chance.word()]).collect();
    let port = || each(&pools, |pool| port::binomial_draw(&setup, pool));
    compare("binomial `draw`", &trials, INPUTS, port, || each(&pools, |pool| rust::binomial_draw(&binomial, pool[0])));
}

fn rounds(chance: &mut Chance) {
    let (x, f) = (&ziggurat_tables::ZIG_NORM_X, &ziggurat_tables::ZIG_NORM_F);
    let pools: Vec<[u64; 2]> = (0..INPUTS).map(|_| [chance.word(), chance.word()]).collect();
    let port = || each(&pools, |pool| port::ziggurat_round(x, f, pool));
    compare("ziggurat `round`", "normal", INPUTS, port, || each(&pools, |pool| rust::ziggurat_round(x, f, pool)));
}

fn main() {
    let mut chance = Chance(1);
    println!("| call | slots | port, ns | Rust, ns | ratio |\n|---|---|---|---|---|");
    for n in [16, 256, 4096] {
        trees(&mut chance, n);
    }
    for n in [16, 256, 4096] {
        tables(&mut chance, n);
    }
    counts(&mut chance, 19, 0.5);
    counts(&mut chance, 1000, 0.005);
    rounds(&mut chance);
}

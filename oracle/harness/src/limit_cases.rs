//! The calls at the boundaries that the rules name, for the fixed list.
use crate::alias::{self, Table};
use crate::binomial::{self, Setup};
use crate::records::Sink;
use crate::rules;
use crate::tree::{self, Lent};
use crate::ziggurat_round::{self, Tables};

const MOST: u64 = u64::MAX;
const HALF: u64 = 1 << 63;
/// The largest u64 divided by three.
const THIRD: u64 = MOST / 3;

/// A store of junk with room for so many cells.
fn empty(cells: usize) -> Lent {
    Lent { store: vec![7; cells], count: 0 }
}

fn made(sink: &mut Sink, weights: &[u64], room: usize) -> Lent {
    let mut lent = empty(weights.len() + room);
    lent.make(sink, weights);
    lent
}

/// Sums at the largest u64, and the calls that would pass it.
fn sums(sink: &mut Sink) {
    let mut one = made(sink, &[MOST], 1);
    one.walk(sink, MOST - 1);
    one.walk(sink, MOST);
    one.push(sink, 1);
    one.push(sink, 0);
    one.update(sink, 1, 1);
    one.update(sink, 0, 5);
    one.update(sink, 1, MOST - 5);
    one.update(sink, 1, MOST - 4);
    one.pop(sink);
    one.pop(sink);
    one.pop(sink);
    made(sink, &[MOST - 2, 1, 1], 1);
    made(sink, &[MOST - 1, 1, 1], 1);
    made(sink, &[1, MOST - 1, 1], 1);
    made(sink, &[1, 1, MOST - 1], 1);
    made(sink, &[0, 0, HALF, 0, 0, HALF], 0);
    made(sink, &[0, 0, HALF, 0, 0, HALF - 1], 0);
}

/// Counts and indexes at the store's ends.
fn counts(sink: &mut Sink) {
    let lent = made(sink, &[1, 2, 3, 4], 1);
    for count in [0, 1, 4, 5, 6, 4096, 4097, MOST] {
        let mut lent = Lent { count, ..lent.clone() };
        lent.is_valid(sink);
        lent.is_sound(sink);
        for index in [0, 3, 4, MOST] {
            lent.get(sink, index);
            lent.clone().update(sink, index, 9);
        }
        lent.walk(sink, 0);
        lent.draw(sink, &[3]);
        lent.draw(sink, &[]);
        lent.clone().push(sink, 9);
        lent.pop(sink);
    }
    for cells in 0..2 {
        let mut lent = empty(cells);
        lent.make(sink, &[]);
        lent.make(sink, &[3]);
        lent.make(sink, &[3, 4]);
        lent.pop(sink);
        lent.push(sink, 1);
        lent.push(sink, 1);
    }
}

/// Totals for which words are skipped: all, none, almost a half.
fn words(sink: &mut Sink) {
    for total in [0, 1, 2, 3, 6, HALF - 1, HALF, HALF + 1, MOST - 1, MOST] {
        let first = if total == 0 { 0 } else { 0u64.wrapping_sub(rules::spill(total)) };
        let lent = Lent { store: vec![total, 1], count: 2 };
        let pools =
            [vec![], vec![0], vec![first], vec![first.wrapping_sub(1)], vec![MOST], vec![MOST, first, total / 2, 5]];
        for pool in pools {
            tree::number_below(sink, total, &pool);
            lent.draw(sink, &pool);
            Table { odds: vec![1, total], links: vec![1, 0], sum: total }.draw(sink, &[&[1][..], &pool].concat());
        }
    }
    let six = [MOST, MOST - 1, MOST - 2, MOST - 3, MOST - 4];
    tree::number_below(sink, 6, &six);
    tree::number_below(sink, 6, &six[..4]);
}

/// 4,096 slots and one more, of the tree.
fn full_tree(sink: &mut Sink) {
    let weights: Vec<u64> = (0..4096).map(|i| i * i % 97).collect();
    let mut lent = made(sink, &weights, 1);
    let total = lent.total();
    lent.draw(sink, &[total / 2]);
    lent.pop(sink);
    lent.push(sink, 1);
}

/// Tables of unequal lengths, of heavy weights, of 4,096 slots and more.
fn tables(sink: &mut Sink) {
    let junk = [9; 4];
    for weights in [&[][..], &[0, 0], &[HALF, 0], &[HALF - 1, 1], &[1, 3]] {
        let n = weights.len();
        for (odds, links) in [(n, n), (n + 1, n), (n, n + 1), (0, n), (n, 0)] {
            let (odds, links) = (&junk[..odds], &junk[..links]);
            alias::make(sink, weights, odds, links);
            let table = Table { odds: odds.to_vec(), links: links.to_vec(), sum: 4 };
            table.check(sink, weights, &junk[..n]);
            table.check(sink, weights, &junk[..n + 1]);
            table.weights(sink, &junk[..n]);
            table.weights(sink, &junk[..n + 1]);
            table.draw(sink, &[0, 1]);
            Table { sum: 0, ..table.clone() }.draw(sink, &[]);
            Table { sum: 0, ..table }.weights(sink, &junk[..n]);
        }
    }
    for heavy in 0..4 {
        let weights: Vec<u64> = (0..3).map(|i| THIRD + u64::from(i == heavy)).collect();
        alias::make(sink, &weights, &junk[..3], &junk[..3]);
    }
    alias::make(sink, &[MOST], &junk[..1], &junk[..1]);
}

/// 4,096 slots and one more, of the alias table. Records of so many slots are large: the hand-worked list has the rest.
fn full_table(sink: &mut Sink) {
    let weights: Vec<u64> = (0..4096).map(|i| if i % 7 == 0 { MOST / 4096 } else { i }).collect();
    let junk = vec![9; 4096];
    if let Some(table) = alias::make(sink, &weights, &junk, &junk) {
        table.draw(sink, &[4095, table.sum - 1]);
    }
    let more = Table { odds: vec![1; 4097], links: vec![], sum: 0 };
    more.draw(sink, &[]);
    more.weights(sink, &[]);
    Table { odds: vec![], ..more.clone() }.check(sink, &more.odds, &[]);
}

/// Probabilities and trials at their edges.
fn setups(sink: &mut Sink) {
    let half = f64::EPSILON / 2.0;
    let probabilities = [
        0.0,
        -0.0,
        -5e-324,
        5e-324,
        half / 2.0,
        (half / 2.0).next_up(),
        half,
        0.001,
        0.3,
        0.5,
        0.5f64.next_up(),
        0.9,
        1.0 - half,
        1.0,
        1.0f64.next_up(),
        -1.0,
        f64::NAN,
        -f64::NAN,
        f64::INFINITY,
        f64::NEG_INFINITY,
        f64::MIN_POSITIVE,
    ];
    for p in probabilities {
        for n in [0, 1, 2, 3, 19, 20, 110, rules::MOST_TRIALS, rules::MOST_TRIALS + 1, MOST] {
            binomial::make(sink, n, p);
        }
    }
    for n in [20u64, 100, 1000, rules::MOST_TRIALS] {
        let p = 10.0 / n as f64;
        for p in [p.next_down(), p, p.next_up(), 1.0 - p, (1.0 - p).next_up(), (1.0 - p).next_down()] {
            binomial::make(sink, n, p);
        }
    }
}

/// Attempts that end at once, that count to 110 and one more, and past n.
fn attempts(sink: &mut Sink) {
    let words = [0, HALF, 3 << 62, 7 << 61, MOST, (HALF >> 1) - 1];
    for n in [0, 1, 2, 19] {
        for p in [0.5, 0.3, 0.7] {
            if let Some(setup) = binomial::make(sink, n, p) {
                words.iter().for_each(|&word| setup.draw(sink, &[word, 0]));
                setup.draw(sink, &[]);
            }
        }
    }
    // r stays the same: the count is the unit divided by r, rounded up, less 1
    for n in [109, 110, 111, 1000, rules::MOST_TRIALS, rules::MOST_TRIALS + 1] {
        for per in [109.0, 110.0, 111.0, 112.0] {
            for flip in [false, true] {
                let setup = Setup::Binv { n, r: 0.5 / per, s: -1.0, a: 0.0, flip };
                setup.draw(sink, &[HALF]);
                setup.draw(sink, &[HALF, HALF, 0]);
            }
        }
    }
    for constant in [0, 19, rules::MOST_TRIALS, rules::MOST_TRIALS + 1, MOST] {
        Setup::Constant(constant).draw(sink, &[]);
        Setup::Constant(constant).draw(sink, &[5]);
    }
    let floats = [0.0, f64::NAN, f64::INFINITY, f64::NEG_INFINITY, -1.0];
    for r in floats {
        for s in floats {
            Setup::Binv { n: 5, r, s, a: 1.0, flip: false }.draw(sink, &[HALF, 0]);
        }
    }
}

/// Words 0 and the last in both forms, the tail's layer, pools that end, and tables of other lengths.
fn rounds(sink: &mut Sink, tables: &Tables) {
    for (symmetric, real) in [(true, tables.normal), (false, tables.exponential)] {
        for word in [0, MOST, HALF, HALF | 1, HALF - 1, MOST - 255, 255] {
            ziggurat_round::round(sink, symmetric, real, &[word, HALF]);
        }
        ziggurat_round::round(sink, symmetric, real, &[]);
        ziggurat_round::round(sink, symmetric, real, &[MOST]);
        ziggurat_round::round(sink, symmetric, real, &[MOST, 0]);
        ziggurat_round::round(sink, symmetric, real, &[MOST, MOST]);
    }
    let table = [0; 258];
    for (x, f) in [(0, 0), (256, 257), (257, 256), (258, 257), (257, 258), (0, 257)] {
        ziggurat_round::bad_length(sink, true, [&table[..x], &table[..f]], &[1, 2]);
    }
    ziggurat_round::bad_length(sink, false, [&table[..0], &table[..1]], &[]);
}

/// All of them.
pub fn all(sink: &mut Sink, ziggurat_tables: &Tables) {
    sums(sink);
    counts(sink);
    words(sink);
    full_tree(sink);
    tables(sink);
    full_table(sink);
    setups(sink);
    attempts(sink);
    rounds(sink, ziggurat_tables);
}

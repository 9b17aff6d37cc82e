//! The wrapper's checks, on `core` alone: the tests of cargo run them one by one, and a machine that is no x86-64 runs
//! them under an emulator.

use core::fmt::{self, Write};
use slot_draw::{number_below, one_sided_u, symmetric_u, unit};
use slot_draw::{AliasTable, Binomial, Error, Round, Tree, Ziggurat};
use slot_draw::{MOST_SLOTS, MOST_TRIALS, TABLE_LENGTH};

/// Hands the names of all checks to a macro.
#[macro_export]
macro_rules! for_each_check {
    ($do:ident) => {
        $do!(
            tree_changed_and_drawn_from,
            tree_refuses,
            tree_of_other_cells,
            tree_of_most_slots,
            alias_checked_and_drawn_from,
            alias_refuses,
            numbers_from_words,
            binomial_draws,
            ziggurat_round,
            errors_say_what_they_are
        );
    };
}

pub fn tree_changed_and_drawn_from() {
    let mut store = [9; 6];
    let mut tree = Tree::new(&mut store, &[2, 0]).unwrap();
    assert_eq!((tree.len(), tree.is_empty()), (2, false));
    tree.push(1).unwrap();
    tree.update(1, 1).unwrap();
    assert_eq!(
        [tree.get(0), tree.get(1), tree.get(2)],
        [Ok(2), Ok(1), Ok(1)]
    );
    assert_eq!((tree.is_valid(), tree.is_sound()), (Ok(true), Ok(true)));
    assert_eq!([0, 1, 2, 3].map(|t| tree.walk(t).unwrap()), [1, 2, 0, 0]);
    let drawn = tree.draw(&[5, 8]).unwrap();
    assert_eq!((drawn.index, drawn.words), (2, 1));
    assert_eq!(tree.pop(), Ok(1));
    let (store, count) = tree.into_parts();
    assert_eq!((&store[..], count), (&[3, 1, 0, 9, 9, 9][..], 2));
}

pub fn tree_refuses() {
    let mut store = [7; 2];
    assert_eq!(Tree::new(&mut store, &[1; 3]).unwrap_err(), Error::Full);
    assert_eq!(
        Tree::new(&mut store, &[u64::MAX, 1]).unwrap_err(),
        Error::Overflow
    );
    assert_eq!(store, [7; 2]);
    let mut tree = Tree::new(&mut store, &[]).unwrap();
    assert_eq!(tree.pop(), Err(Error::Empty));
    assert_eq!(tree.draw(&[1]), Err(Error::InsufficientNonZero));
    assert_eq!(tree.is_valid(), Ok(false));
    tree.push(u64::MAX).unwrap();
    assert_eq!(tree.push(1), Err(Error::Overflow));
    assert_eq!(tree.walk(u64::MAX), Err(Error::BadTarget));
    assert_eq!(tree.get(1), Err(Error::BadIndex));
    assert_eq!(tree.update(1, 1), Err(Error::BadIndex));
    assert_eq!(tree.draw(&[u64::MAX]), Err(Error::OutOfWords));
    assert_eq!(tree.draw(&[]), Err(Error::OutOfWords));
    tree.push(0).unwrap();
    assert_eq!(tree.push(0), Err(Error::Full));
}

pub fn tree_of_other_cells() {
    let mut store = [5, 4, 4];
    let mut tree = Tree::from_parts(&mut store, 3);
    assert_eq!(tree.is_sound(), Ok(false));
    assert_eq!([tree.pop(), tree.get(0)], [Err(Error::Damaged); 2]);
    assert_eq!(tree.walk(0), Err(Error::Damaged));
    let mut tree = Tree::from_parts(&mut store, 4);
    assert_eq!(tree.is_valid(), Err(Error::BadCount));
    assert_eq!(tree.push(1), Err(Error::BadCount));
    let mut empty = Tree::from_parts(&mut [], 0);
    assert_eq!(empty.push(1), Err(Error::Full));
}

pub fn tree_of_most_slots() {
    let mut store = [0; MOST_SLOTS + 1];
    let weights = [1; MOST_SLOTS + 1];
    assert_eq!(Tree::new(&mut store, &weights).unwrap_err(), Error::Full);
    let mut tree = Tree::new(&mut store, &weights[1..]).unwrap();
    assert_eq!(tree.len(), MOST_SLOTS);
    assert_eq!(tree.push(1), Err(Error::Full));
    assert_eq!(tree.walk(4095), Ok(0));
}

pub fn alias_checked_and_drawn_from() {
    let weights = [1, 2, 3];
    let (mut odds, mut links, mut work, mut output) = ([8; 3], [8; 3], [8; 3], [8; 3]);
    let table = AliasTable::new(&weights, &mut odds, &mut links).unwrap();
    assert_eq!(table.sum(), 6);
    assert_eq!(table.parts(), (&[3, 6, 6][..], &[2, u32::MAX, 1][..]));
    assert_eq!(table.check(&weights, &mut work), Ok(true));
    assert_eq!(work, [3, 6, 9]);
    assert_eq!(table.check(&[2, 2, 2], &mut work), Ok(false));
    assert_eq!(work, [0; 3]);
    assert_eq!(table.weights(&mut output), Ok(3));
    assert_eq!(output, weights);
    let drawn = table.draw(&[0, 2, 9]).unwrap();
    assert_eq!((drawn.index, drawn.words), (0, 2));
    let linked = table.draw(&[u64::MAX, 0, u64::MAX, 3]).unwrap();
    assert_eq!((linked.index, linked.words), (2, 4));
}

pub fn alias_refuses() {
    let (mut odds, mut links) = ([8; 2], [8; 2]);
    let mut make = |weights: &[u64], n: usize| {
        AliasTable::new(weights, &mut odds[..n], &mut links).map(|_| ())
    };
    assert_eq!(make(&[], 0), Err(Error::InvalidInput));
    assert_eq!(make(&[1; MOST_SLOTS + 1], 2), Err(Error::Full));
    assert_eq!(make(&[1, 1], 1), Err(Error::BadLength));
    assert_eq!(make(&[1 << 63, 1], 2), Err(Error::InvalidWeight));
    assert_eq!(make(&[0, 0], 2), Err(Error::InsufficientNonZero));
    assert_eq!((odds, links), ([8; 2], [8; 2]));
    let stranger = AliasTable::from_parts(&[0, 4], &[9, 9], 4);
    let mut output = [8; 2];
    assert_eq!(stranger.draw(&[0, 0]), Err(Error::Damaged));
    assert_eq!(stranger.draw(&[0]), Err(Error::OutOfWords));
    assert_eq!(stranger.weights(&mut output[..1]), Err(Error::BadLength));
    assert_eq!(output, [8; 2]);
    assert_eq!(stranger.weights(&mut output), Err(Error::Damaged));
    assert_eq!(output, [0; 2]);
}

pub fn numbers_from_words() {
    let six = [u64::MAX, u64::MAX - 3, u64::MAX - 4];
    let number = number_below(&six, 6).unwrap();
    assert_eq!((number.value, number.words), (5, 3));
    assert_eq!(number_below(&six[..2], 6), Err(Error::OutOfWords));
    assert_eq!(number_below(&six, 0), Err(Error::OutOfWords));
    assert_eq!(number_below(&six, 1).unwrap().words, 1);
    for word in [0, 4095, 4096, 1 << 63, u64::MAX] {
        let (k, whole) = ((word >> 12) as f64, (1u64 << 52) as f64);
        assert_eq!(unit(word), k / whole);
        assert_eq!(symmetric_u(word), (k - whole / 2.0) / (whole / 2.0));
        assert_eq!(one_sided_u(word), k / whole + 0.5 / whole);
    }
}

pub fn binomial_draws() {
    let coins = Binomial::new(2, 0.5).unwrap();
    let units = [1u64 << 63, 3 << 62, 7 << 61]; // 0.5, 0.75, 0.875
    assert_eq!(units.map(|u| coins.draw(&[u]).unwrap().count), [1, 1, 2]);
    assert_eq!(coins.draw(&[]), Err(Error::OutOfWords));
    assert_eq!(Binomial::new(2, f64::NAN), Err(Error::ProbabilityTooSmall));
    assert_eq!(Binomial::new(2, -f64::NAN), Err(Error::ProbabilityTooSmall));
    assert_eq!(
        Binomial::new(2, f64::from_bits(0x7ff0_0000_0000_0001)),
        Err(Error::ProbabilityTooSmall)
    );
    assert_eq!(Binomial::new(2, 1.5), Err(Error::ProbabilityTooLarge));
    assert_eq!(
        Binomial::new(MOST_TRIALS + 1, 0.0),
        Err(Error::TooManyTrials)
    );
    assert_eq!(Binomial::new(20, 0.5), Err(Error::NeedsBtpe));
    assert_eq!(Binomial::new(2, 1e-300), Err(Error::NeedsPoisson));
    let all = Binomial::new(MOST_TRIALS, 1.0).unwrap();
    assert_eq!(all, Binomial::constant(MOST_TRIALS));
    assert_eq!(all.draw(&[]).unwrap().count, MOST_TRIALS);
    assert_eq!(
        Binomial::constant(MOST_TRIALS + 1).draw(&[]),
        Err(Error::TooManyTrials)
    );
    let lent = Binomial::from_binv(0.25, f64::NAN, 3.0, 2, true);
    assert_eq!(lent.draw(&[u64::MAX]).unwrap().count, 1); // no u is above a NaN
    assert_eq!(Binomial::from_binv(0.25, 1.0, 3.0, 2, false), coins);
}

pub fn ziggurat_round() {
    let (mut edges, mut densities) = ([0.0; TABLE_LENGTH], [0.0; TABLE_LENGTH]);
    (edges[0], edges[1], edges[2]) = (9.0, 4.0, 2.0);
    (densities[1], densities[2]) = (1.0, 3.0);
    let pool = [(3 << 62) + 1, 1 << 63]; // layer 1 and u = 0.5, then v = 0.5
    let wedge = Ziggurat::symmetric(&edges, &densities)
        .round(&pool)
        .unwrap();
    assert_eq!(
        (wedge.round, wedge.words),
        (
            Round::Wedge {
                x: 2.0,
                height: 2.0
            },
            2
        )
    );
    assert_eq!(
        Ziggurat::symmetric(&edges, &densities).round(&pool[..1]),
        Err(Error::OutOfWords)
    );
    let tail = Ziggurat::one_sided(&edges, &densities)
        .round(&[1 << 63])
        .unwrap();
    assert_eq!(
        (tail.round, tail.words),
        (
            Round::Tail {
                u: one_sided_u(1 << 63)
            },
            1
        )
    );
    edges[2] = 3.0;
    let sample = Ziggurat::symmetric(&edges, &densities)
        .round(&pool)
        .unwrap();
    assert_eq!((sample.round, sample.words), (Round::Sample { x: 2.0 }, 1));
    let nans = [f64::from_bits(0xfff0_0000_0000_0001); TABLE_LENGTH];
    let Round::Wedge { x, height } = Ziggurat::symmetric(&nans, &nans)
        .round(&pool)
        .unwrap()
        .round
    else {
        panic!("no wedge");
    };
    assert!(x.is_nan() && height.is_nan());
    assert_eq!(
        Ziggurat::symmetric(&edges[1..], &densities).round(&pool),
        Err(Error::BadLength)
    );
}

/// A text of a known length, to hold what `Display` writes.
struct Text {
    bytes: [u8; 96],
    length: usize,
}

impl Write for Text {
    fn write_str(&mut self, s: &str) -> fmt::Result {
        let end = self.length + s.len();
        self.bytes
            .get_mut(self.length..end)
            .ok_or(fmt::Error)?
            .copy_from_slice(s.as_bytes());
        self.length = end;
        Ok(())
    }
}

fn says(error: &dyn core::error::Error, expected: &str) {
    let mut text = Text {
        bytes: [0; 96],
        length: 0,
    };
    write!(text, "{error}").unwrap();
    assert_eq!(&text.bytes[..text.length], expected.as_bytes());
}

pub fn errors_say_what_they_are() {
    says(&Error::Empty, "the tree has no slot to pop");
    says(&Error::NeedsPoisson, "the chance is too small beside 1");
    assert_eq!(
        (Error::InvalidInput.number(), Error::NeedsPoisson.number()),
        (1, 17)
    );
}

//! The harness's own tests: the cases that the rules work out, in the Rust; and that what `rules.rs` says of damage is
//! just where the Rust panics.
use crate::alias::{self, table_of};
use crate::binomial::{Setup, binomial_of, setup_of};
use crate::exhaustive::lists;
use crate::records::Sink;
use crate::rules;
use crate::script::Script;
use crate::tree::{cells_of, tree_of, walked};
use rand_distr::weighted::WeightedTreeIndex;
use rand_distr::{Binomial, Distribution};
use std::panic;

const END: u64 = u32::MAX as u64;

fn panics<T>(call: impl FnOnce() -> T + panic::UnwindSafe) -> bool {
    panic::catch_unwind(call).is_err()
}

#[test]
fn the_tree_of_the_rules() {
    let tree = WeightedTreeIndex::<u64>::new([1u64, 2, 3, 4]).unwrap();
    assert_eq!(cells_of(&tree), [10, 6, 3, 4]);
    let slots: Vec<usize> = (0..10).map(|target| walked(&tree, target).unwrap()).collect();
    assert_eq!(slots, [3, 3, 3, 3, 1, 1, 2, 2, 2, 0]);
    let mut tree = WeightedTreeIndex::<u64>::new([2u64, 0]).unwrap();
    tree.push(1).unwrap();
    tree.update(1, 1).unwrap();
    assert_eq!(cells_of(&tree), [4, 1, 1]);
    assert_eq!(tree.pop(), Some(1));
    assert_eq!(cells_of(&tree), [3, 1]);
}

#[test]
fn the_tables_of_the_rules() {
    let mut sink = Sink::new(std::io::sink(), u64::MAX, None);
    let mut made = |weights: &[u64]| {
        let junk = vec![9; weights.len()];
        alias::make(&mut sink, weights, &junk, &junk).map(|table| (table.odds, table.links, table.sum))
    };
    assert_eq!(made(&[1, 3]), Some((vec![2, 4], vec![1, END], 4)));
    assert_eq!(made(&[1, 2, 3]), Some((vec![3, 6, 6], vec![2, END, 1], 6)));
    let third = 6_148_914_691_236_517_205;
    assert!(made(&[third; 3]).is_some());
    assert_eq!(made(&[third, third + 1, third]), None);
}

#[test]
fn the_words_of_the_rules() {
    let last = [u64::MAX, u64::MAX - 1, u64::MAX - 2, u64::MAX - 3, u64::MAX - 4];
    assert_eq!(rules::number_below(&last, 6), Some((5, 5)));
    assert_eq!(rules::number_below(&last[..4], 6), None);
    assert_eq!(rules::number_below(&last, 1), Some((0, 1)));
    assert_eq!([rules::spill(6), rules::spill(1), rules::spill(1 << 63)], [4, 0, 0]);
    assert_eq!(rules::spill((1 << 63) + 1), (1 << 63) - 1);
}

#[test]
fn the_binomial_draws_of_the_rules() {
    let Ok(Setup::Binv { n, s, a, flip, .. }) = setup_of(&Binomial::new(2, 0.5).unwrap()) else {
        panic!("n = 2 is BINV")
    };
    let binomial = binomial_of(n, rules::power(0.5, 2), s, a, flip);
    let counts = [0.5, 0.75, 0.875].map(|unit| binomial.sample(&mut Script::attempt(unit)));
    assert_eq!(counts, [1, 1, 2]);
    assert!(matches!(setup_of(&Binomial::new(20, 0.5).unwrap()), Err(16)));
    assert!(setup_of(&Binomial::new(19, 0.5).unwrap()).is_ok());
}

#[test]
fn get_panics_just_where_a_cell_is_unsound() {
    for cells in lists(4, 3) {
        for index in 0..4 {
            let unsound = !rules::sound(&cells, 4, index);
            assert_eq!(panics(|| tree_of(&cells).get(index as usize)), unsound, "{cells:?} {index}");
        }
    }
}

#[test]
fn no_change_panics_on_a_sound_path() {
    for cells in lists(4, 3) {
        let sound = |at: u64| !rules::damaged(&cells, 4, rules::parents(at).chain([at]));
        assert!(!sound(3) || !panics(|| tree_of(&cells).pop()), "{cells:?}");
        assert!(rules::damaged(&cells, 4, rules::parents(4)) || !panics(|| tree_of(&cells).push(1)), "{cells:?}");
        for index in 0..4 {
            let update = |weight| panics(|| tree_of(&cells).update(index as usize, weight));
            assert!(!sound(index) || (0..4).all(|weight| !update(weight)), "{cells:?} {index}");
        }
    }
}

#[test]
fn weights_panics_just_where_a_table_is_damaged() {
    let near = [0, 1, 2, u64::MAX - 1, u64::MAX];
    for code in lists(3, near.len() as u64 - 1) {
        let [first, second, sum] = [0, 1, 2].map(|i| near[code[i] as usize]);
        for links in lists(2, 2) {
            let odds = [first, second];
            let weights = || table_of(&odds, &links, sum).weights();
            assert_eq!(panics(weights), rules::damaged_table(&odds, &links, sum), "{odds:?} {links:?} {sum}");
        }
    }
}

#[test]
fn pairs_counted_are_pairs_summed() {
    for odds in lists(3, 4) {
        for links in lists(3, 3) {
            for sum in 1..4 {
                assert_eq!(rules::counted(&odds, &links, sum), rules::summed(&odds, &links, u128::from(sum)));
            }
        }
    }
}

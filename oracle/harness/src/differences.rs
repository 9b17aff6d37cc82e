//! The intended differences of docs/DIFFERENCES.md: the smallest input that shows each, what the Rust does there, and
//! what the port is to answer. Each is run, and its record stands in the fixed list.
use crate::alias::{self, Table, table_of};
use crate::binomial::{self, Setup, binomial_of, q_of, setup_of};
use crate::records::Sink;
use crate::rules;
use crate::script::Script;
use crate::tree::{Lent, cells_of, tree_of, walked};
use rand_distr::weighted::{WeightedAliasIndex, WeightedTreeIndex};
use rand_distr::{Binomial, Distribution};
use std::fmt::Debug;
use std::panic::{self, AssertUnwindSafe};

/// What the Rust did, in words: its answer, or why it panicked.
fn seen<T: Debug>(call: impl FnOnce() -> T) -> String {
    match panic::catch_unwind(AssertUnwindSafe(call)) {
        Ok(answer) => format!("{answer:?}"),
        Err(why) => {
            let text = why.downcast_ref::<String>().cloned();
            let text = text.or_else(|| why.downcast_ref::<&str>().map(|text| text.to_string()));
            format!("panics: {}", text.unwrap_or_default())
        }
    }
}

/// The differences as they are gathered: each is printed if wished, and judged.
pub struct Shown<'a> {
    sink: &'a mut Sink,
    print: bool,
    pub number: usize,
    pub wrong: usize,
}

impl Shown<'_> {
    /// One difference. `record` puts the record of the same input, whose answer is what the port is to give.
    fn one<T: Debug>(
        &mut self,
        input: &str,
        rust: impl FnOnce() -> T,
        says: &str,
        port: &str,
        record: impl FnOnce(&mut Sink),
    ) {
        let rust = seen(rust);
        record(self.sink);
        let last = &self.sink.last;
        let answer = match last.refusal {
            0 => format!("answers {}, {}", last.values[0], last.values[1]),
            refusal => format!("refusal {refusal}"),
        };
        let right = rust == says && answer == port;
        self.number += 1;
        self.wrong += usize::from(!right);
        if self.print || !right {
            let text = format!("{input}\n    the Rust: {rust}\n    the port: {answer}");
            if right { println!("{text}") } else { eprintln!("NOT AS LISTED ({says}; {port}): {text}") }
        }
    }
}

fn lent(cells: &[u64]) -> Lent {
    Lent { store: cells.to_vec(), count: cells.len() as u64 }
}

/// A lent store with room for one more.
fn with_room(cells: &[u64]) -> Lent {
    let mut store = cells.to_vec();
    store.push(7);
    Lent { store, count: cells.len() as u64 }
}

const SUBTRACTS: &str = "panics: attempt to subtract with overflow";
const ADDS: &str = "panics: attempt to add with overflow";

fn unsound_cells(shown: &mut Shown) {
    for cells in [&[0, 1][..], &[5, 6, 0]] {
        let get = || tree_of(cells).get(0);
        shown.one(&format!("get(0) on subtotals {cells:?}"), get, SUBTRACTS, "refusal 13", |sink| {
            lent(cells).get(sink, 0)
        });
        let update = || tree_of(cells).update(0, 1);
        let input = format!("update(0, 1) on subtotals {cells:?}");
        shown.one(&input, update, SUBTRACTS, "refusal 13", |sink| lent(cells).update(sink, 0, 1));
    }
    let update = |weight| {
        let mut tree = tree_of(&[0, 1]);
        (tree.update(1, weight).is_ok(), cells_of(&tree))
    };
    let input = "update(1, 2) on subtotals [0, 1], whose cell 0 is unsound";
    shown.one(input, || update(2), "(true, [1, 2])", "refusal 13", |sink| lent(&[0, 1]).update(sink, 1, 2));
    let input = "update(1, 0) on subtotals [0, 1], whose cell 0 is unsound";
    shown.one(input, || update(0), SUBTRACTS, "refusal 13", |sink| lent(&[0, 1]).update(sink, 1, 0));
    let walk = |cells: &[u64], target| walked(&tree_of(cells), target);
    let input = "a walk with target 0 on subtotals [1, 2]";
    shown.one(input, || walk(&[1, 2], 0), "Ok(1)", "refusal 13", |sink| lent(&[1, 2]).walk(sink, 0));
    let input = "a walk with target 4 on subtotals [5, 6, 0]";
    shown.one(input, || walk(&[5, 6, 0], 4), "Ok(1)", "refusal 13", |sink| lent(&[5, 6, 0]).walk(sink, 4));
    let push = |cells: &[u64]| {
        let mut tree = tree_of(cells);
        (tree.push(1).is_ok(), cells_of(&tree))
    };
    let record = |cells: &'static [u64]| move |sink: &mut Sink| with_room(cells).push(sink, 1);
    let input = "push(1) on subtotals [0, 1]";
    shown.one(input, || push(&[0, 1]), "(true, [1, 1, 1])", "refusal 13", record(&[0, 1]));
    let input = "push(1) on subtotals [1, 5, 0]";
    shown.one(input, || push(&[1, 5, 0]), "(true, [2, 6, 0, 1])", "refusal 13", record(&[1, 5, 0]));
    for cells in [&[0, 1][..], &[10, 3, 3, 4]] {
        let pop = || tree_of(cells).pop();
        shown.one(&format!("pop() on subtotals {cells:?}"), pop, SUBTRACTS, "refusal 13", |sink| lent(cells).pop(sink));
    }
}

fn indexes_and_sizes(shown: &mut Shown) {
    let made = || tree_of(&[1]);
    let beyond = "panics: index out of bounds: the len is 1 but the index is 1";
    shown.one("get(1) of one slot", || made().get(1), beyond, "refusal 8", |sink| lent(&[1]).get(sink, 1));
    shown.one(
        "update(1, 0) of one slot",
        || made().update(1, 0),
        beyond,
        "refusal 8",
        |sink| lent(&[1]).update(sink, 1, 0),
    );
    let nothing = "panics: called `Result::unwrap()` on an `Err` value: InsufficientNonZero";
    let sample = || tree_of(&[0]).sample(&mut Script::empty());
    shown.one("a sample of subtotals [0]", sample, nothing, "refusal 3", |sink| lent(&[0]).draw(sink, &[0]));
    let many = vec![1; 4097];
    let tree = || WeightedTreeIndex::<u64>::new(&many).map(|tree| tree.len());
    shown.one("a tree of 4,097 weights", tree, "Ok(4097)", "refusal 10", |sink| {
        lent(&[]).make(sink, &many);
    });
    let full = cells_of(&WeightedTreeIndex::new(&many[1..]).expect("4,096 ones are a tree"));
    let push = || {
        let mut tree = tree_of(&full);
        (tree.push(1).is_ok(), tree.len())
    };
    shown.one("push at 4,096 slots", push, "(true, 4097)", "refusal 10", |sink| with_room(&full).push(sink, 1));
    let table = || WeightedAliasIndex::new(many.clone()).map(|table| table.weights().len()).is_ok();
    shown.one("an alias table of 4,097 weights", table, "true", "refusal 10", |sink| {
        alias::make(sink, &many, &[], &[]);
    });
}

fn strangers(shown: &mut Shown) {
    let table = |odds: &[u64], links: &[u64], sum| Table { odds: odds.to_vec(), links: links.to_vec(), sum };
    let draw = || table_of(&[0], &[1], 1).sample(&mut Script::pair(0, 0));
    let input = "an alias draw of slot 0 and number 0 from odds [0], links [1] with S = 1";
    shown.one(input, draw, "1", "refusal 13", |sink| table(&[0], &[1], 1).draw(sink, &[0, 0]));
    let draw = || table_of(&[2, 4], &[2, 0], 4).sample(&mut Script::pair(0, 2));
    let input = "an alias draw of slot 0 and number 2 from odds [2, 4], links [2, 0] with S = 4";
    shown.one(input, draw, "2", "refusal 13", |sink| table(&[2, 4], &[2, 0], 4).draw(sink, &[0, 2]));
    let weights = || table_of(&[0], &[1], 1).weights();
    let says = "panics: index out of bounds: the len is 1 but the index is 1";
    let input = "weights of odds [0], links [1] with S = 1";
    shown.one(input, weights, says, "refusal 13", |sink| table(&[0], &[1], 1).weights(sink, &[7]));
    let weights = || table_of(&[3, 4], &[2, 0], 4).weights();
    let says = "panics: index out of bounds: the len is 2 but the index is 2";
    let input = "weights of odds [3, 4], links [2, 0] with S = 4";
    shown.one(input, weights, says, "refusal 13", |sink| table(&[3, 4], &[2, 0], 4).weights(sink, &[7, 7]));
    let weights = || table_of(&[u64::MAX, 0], &[0, 0], 1).weights();
    let input = "weights of odds [18446744073709551615, 0], links [0, 0] with S = 1";
    shown.one(input, weights, ADDS, "refusal 13", |sink| table(&[u64::MAX, 0], &[0, 0], 1).weights(sink, &[7, 7]));
    let weights = || table_of(&[0, 0], &[0, 0], u64::MAX).weights();
    let input = "weights of odds [0, 0], links [0, 0] with S = 18446744073709551615";
    shown.one(input, weights, ADDS, "refusal 13", |sink| table(&[0, 0], &[0, 0], u64::MAX).weights(sink, &[7, 7]));
}

/// The method that the Rust takes, by name.
fn method(n: u64, p: f64) -> &'static str {
    match Binomial::new(n, p).map(|binomial| setup_of(&binomial)) {
        Ok(Ok(Setup::Binv { .. })) => "Binv",
        Ok(Ok(Setup::Constant(_))) => "Constant",
        Ok(Err(16)) => "Btpe",
        Ok(Err(_)) => "Poisson",
        Err(_) => "an error",
    }
}

fn binomial_setups(shown: &mut Shown) {
    let more = rules::MOST_TRIALS + 1;
    let setup = |n, p| {
        move |sink: &mut Sink| {
            binomial::make(sink, n, p);
        }
    };
    let input = "a binomial setup of n = 1048577, p = 2^-20";
    let small = 1.0 / 1_048_576.0;
    shown.one(input, || method(more, small), "\"Binv\"", "refusal 15", setup(more, small));
    let input = "a binomial setup of n = 1048577, p = 0";
    shown.one(input, || method(more, 0.0), "\"Constant\"", "refusal 15", setup(more, 0.0));
    let input = "a draw from a lent constant of 1048577";
    let constant: Binomial = serde::loaded(&[3, more]);
    let draw = || constant.sample(&mut Script::empty());
    shown.one(input, draw, "1048577", "refusal 15", |sink| Setup::Constant(more).draw(sink, &[]));
    shown.one("a binomial setup of n = 20, p = 0.5", || method(20, 0.5), "\"Btpe\"", "refusal 16", setup(20, 0.5));
    let tiny = f64::EPSILON / 4.0;
    let input = "a binomial setup of n = 0, p = 2^-54";
    shown.one(input, || method(0, tiny), "\"Poisson\"", "refusal 17", setup(0, tiny));
    power(shown);
}

/// The power rule against `powf`. The C library decides the Rust's last bit, so only that they differ is told.
fn power(shown: &mut Shown) {
    let own = |n, p| match setup_of(&Binomial::new(n, p).expect("p is a probability")) {
        Ok(Setup::Binv { r, .. }) => r,
        _ => f64::NAN,
    };
    let differ = |n: u64, p: f64| own(n, p).to_bits() != rules::power(q_of(p), n).to_bits();
    let input = "r of n = 3, p = 0.4 by powf is not r by the power rule; for n = 0, 1, 2 it is, for p = 0.001 to 1";
    let below = (0..=2).any(|n| (1..1000).any(|thousandth| differ(n, f64::from(thousandth) / 1000.0)));
    shown.one(
        input,
        || (differ(3, 0.4), below),
        "(true, false)",
        "answers 1, 3",
        |sink| {
            binomial::make(sink, 3, 0.4);
        },
    );
}

/// A lent setup of no trials whose attempt with the unit 0.5 counts 1.
fn counts_past_n(shown: &mut Shown) {
    let (r, s, a) = (0.25, -1.0, 0.0);
    let setup = |flip| Setup::Binv { n: 0, r, s, a, flip };
    let draw = |flip| binomial_of(0, r, s, a, flip).sample(&mut Script::attempt(0.5));
    let half = 1 << 63;
    let input = "BINV of n = 0, r = 0.25, s = -1, a = 0 with the unit 0.5";
    shown.one(input, || draw(false), "1", "refusal 12", |sink| setup(false).draw(sink, &[half]));
    let input = "the same, and the unit 0 behind it";
    shown.one(input, || draw(false), "1", "answers 0, 2", |sink| setup(false).draw(sink, &[half, 0]));
    let input = "the same, flipped";
    shown.one(input, || draw(true), SUBTRACTS, "answers 0, 2", |sink| setup(true).draw(sink, &[half, 0]));
}

/// Runs all of them: how many there are, and how many are not as listed.
pub fn all(sink: &mut Sink, print: bool) -> (usize, usize) {
    let hook = panic::take_hook();
    // the panics are what is looked for
    panic::set_hook(Box::new(|_| {}));
    let mut shown = Shown { sink, print, number: 0, wrong: 0 };
    unsound_cells(&mut shown);
    indexes_and_sizes(&mut shown);
    strangers(&mut shown);
    binomial_setups(&mut shown);
    counts_past_n(&mut shown);
    panic::set_hook(hook);
    (shown.number, shown.wrong)
}

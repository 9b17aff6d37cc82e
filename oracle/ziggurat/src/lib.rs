//! One round of the Rust's ziggurat: rand_distr's utils.rs as it is, over the shim that shows the wedge's height.
use rand::Rng;
use std::cell::Cell;

include!(concat!(env!("OUT_DIR"), "/modules.rs"));

pub use ziggurat_tables::ZigTable;

/// What a round came to.
#[derive(Clone, Copy, Debug)]
pub enum Round {
    Sample(f64),
    Tail(f64),
    Wedge(f64, f64),
}

/// The words that a round may take: the first as it is, the second as a unit.
struct Script {
    word: u64,
    unit: f64,
    used: u64,
}

impl Rng for Script {
    fn next_u64(&mut self) -> u64 {
        self.used += 1;
        self.word
    }
    fn next_unit(&mut self) -> f64 {
        self.used += 1;
        self.unit
    }
}

/// One round and the words that it took. The shim's test ends it at the wedge; the two closures say where it went.
pub fn round(symmetric: bool, x: ZigTable, f: ZigTable, word: u64, unit: f64) -> (Round, u64) {
    let mut script = Script { word, unit, used: 0 };
    let (wedge, tail) = (Cell::new(None), Cell::new(None));
    let density = |x| {
        wedge.set(Some(x));
        0.0
    };
    let zero_case = |_: &mut Script, u| {
        tail.set(Some(u));
        u
    };
    let sample = utils::ziggurat(&mut script, symmetric, x, f, density, zero_case);
    let came = match (tail.get(), wedge.get()) {
        (Some(u), _) => Round::Tail(u),
        (_, Some(x)) => Round::Wedge(x, rand::height()),
        _ => Round::Sample(sample),
    };
    (came, script.used)
}

//! The scripted generator that the Rust draws from.
use rand::Rng;

/// The values that stand in place of what the Rust draws.
#[derive(Default)]
pub struct Script {
    numbers: [u64; 2],
    units: [f64; 2],
    used: usize,
}

impl Script {
    /// No value: the Rust is to answer without one.
    pub fn empty() -> Script {
        Script { used: 2, ..Script::default() }
    }

    pub fn target(target: u64) -> Script {
        Script { numbers: [0, target], used: 1, ..Script::default() }
    }

    /// The slot and the number of an alias draw.
    pub fn pair(slot: u64, number: u64) -> Script {
        Script { numbers: [slot, number], ..Script::default() }
    }

    /// One attempt of BINV. Behind its unit stands one that is above no r: it ends the next attempt at once, so that
    /// the units used tell whether the first one gave up.
    pub fn attempt(unit: f64) -> Script {
        Script { units: [unit, f64::NEG_INFINITY], ..Script::default() }
    }

    pub fn used(&self) -> usize {
        self.used
    }
}

impl Rng for Script {
    fn next_u64(&mut self) -> u64 {
        panic!("script: no word is drawn here")
    }

    fn next_number(&mut self) -> u64 {
        self.used += 1;
        self.numbers[self.used - 1]
    }

    fn next_unit(&mut self) -> f64 {
        self.used += 1;
        self.units[self.used - 1]
    }
}

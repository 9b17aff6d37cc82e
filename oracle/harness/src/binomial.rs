//! The calls of the binomial draw: each asks the Rust, or the rules where the Rust can't say, and records the answer.
use crate::records::{self, Answer, Call, Origin, Sink};
use crate::rules;
use crate::script::Script;
use rand_distr::{Binomial, BinomialError, Distribution};

/// The places of the Rust's methods among its variants.
const BINV: u64 = 0;
const BTPE: u64 = 1;
const POISSON: u64 = 2;
const CONSTANT: u64 = 3;

/// A setup as it is lent to a draw. One that `make` answers has r by the rules' power; the rest of it is the Rust's.
#[derive(Clone, Copy, Debug)]
pub enum Setup {
    Constant(u64),
    Binv { n: u64, r: f64, s: f64, a: f64, flip: bool },
}

/// A float in an answer: every NaN is written in one way.
pub fn told(float: f64) -> u64 {
    if float.is_nan() { 0x7ff8_0000_0000_0000 } else { float.to_bits() }
}

/// The Rust's distribution of a setup.
pub fn binomial_of(n: u64, r: f64, s: f64, a: f64, flip: bool) -> Binomial {
    serde::loaded(&[BINV, r.to_bits(), s.to_bits(), a.to_bits(), n, u64::from(flip)])
}

/// The Rust's setup, with its own r.
pub fn setup_of(binomial: &Binomial) -> Result<Setup, u64> {
    let numbers = serde::saved(binomial);
    let float = |at: usize| f64::from_bits(numbers[at]);
    match numbers[0] {
        BINV => Ok(Setup::Binv { r: float(1), s: float(2), a: float(3), n: numbers[4], flip: numbers[5] != 0 }),
        CONSTANT => Ok(Setup::Constant(numbers[1])),
        BTPE => Err(16),
        POISSON => Err(17),
        _ => unreachable!("the Rust has four methods"),
    }
}

/// q of a probability strictly between 0 and 1, as the rules have it.
pub fn q_of(p: f64) -> f64 {
    let smaller = if p > 0.5 { 1.0 - p } else { p };
    1.0 - smaller
}

/// Makes a setup. 16 and 17 are told by the Rust's own choice of method; r is the rules' power.
pub fn make(sink: &mut Sink, n: u64, p: f64) -> Option<Setup> {
    let (answer, setup) = made(n, p);
    sink.put(&Call { code: records::BINOMIAL_NEW, numbers: &[n, p.to_bits()], lent: &[] }, &answer, &[]);
    setup
}

fn made(n: u64, p: f64) -> (Answer, Option<Setup>) {
    // 5 and 6 come before 15, so the Rust is asked with any n
    let binomial = match Binomial::new(n, p) {
        Err(BinomialError::ProbabilityTooSmall) => return (Answer::refused_by_rust(5), None),
        Err(BinomialError::ProbabilityTooLarge) => return (Answer::refused_by_rust(6), None),
        Err(_) => unreachable!("the Rust has two errors"),
        Ok(_) if n > rules::MOST_TRIALS => return (Answer::refused(15), None),
        Ok(binomial) => binomial,
    };
    match setup_of(&binomial) {
        Err(refusal) => (Answer::refused_by_rust(refusal), None),
        Ok(Setup::Constant(constant)) => (Answer::rust(&[0, constant]), Some(Setup::Constant(constant))),
        Ok(Setup::Binv { n, s, a, flip, .. }) => {
            let r = rules::power(q_of(p), n);
            let values = [1, n, told(r), told(s), told(a), u64::from(flip)];
            (Answer::rust(&values), Some(Setup::Binv { n, r, s, a, flip }))
        }
    }
}

impl Setup {
    fn numbers(&self) -> [u64; 6] {
        match *self {
            Setup::Constant(constant) => [0, constant, 0, 0, 0, 0],
            Setup::Binv { n, r, s, a, flip } => [1, n, r.to_bits(), s.to_bits(), a.to_bits(), u64::from(flip)],
        }
    }

    /// Draws with a pool, attempt by attempt.
    pub fn draw(&self, sink: &mut Sink, pool: &[u64]) {
        let answer = match *self {
            Setup::Constant(trials) | Setup::Binv { n: trials, .. } if trials > rules::MOST_TRIALS => {
                Answer::refused(15)
            }
            // the Rust draws no unit for a constant
            Setup::Constant(constant) => {
                let binomial: Binomial = serde::loaded(&[CONSTANT, constant]);
                Answer::rust(&[binomial.sample(&mut Script::empty()), 0])
            }
            Setup::Binv { n, r, s, a, flip } => drawn(n, [r, s, a], flip, pool),
        };
        sink.put(&Call { code: records::BINV_DRAW, numbers: &self.numbers(), lent: &[pool] }, &answer, &[]);
    }
}

/// What a draw answers. The Rust gives up past 110 only; the rules also past n, so an attempt whose count is above n is
/// one that gives up, and an answer behind such a one is marked as the rules'.
fn drawn(n: u64, [r, s, a]: [f64; 3], flip: bool, pool: &[u64]) -> Answer {
    let mut origin = Origin::Rust;
    for (before, &word) in pool.iter().enumerate() {
        let unit = rules::unit(word);
        let mut script = Script::attempt(unit);
        let count = binomial_of(n, r, s, a, false).sample(&mut script);
        if script.used() > 1 {
            continue;
        }
        if count > n {
            origin = Origin::Rules;
            continue;
        }
        let count = binomial_of(n, r, s, a, flip).sample(&mut Script::attempt(unit));
        return Answer { origin, ..Answer::rust(&[count, before as u64 + 1]) };
    }
    Answer::refused(12)
}

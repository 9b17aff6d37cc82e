//! The binomial setup and draw.
// SAFETY of each `unsafe` here: the pointer and length are those of a live slice, and the arrays are a field and locals.
// The functions ask nothing else.

use crate::{answered, ffi, Error};

/// How many trials succeeded, and the words that it took.
#[derive(Clone, Copy, Debug, PartialEq, Eq)]
pub struct Successes {
    /// How many trials succeeded.
    pub count: u64,
    /// How many words of the pool were used.
    pub words: usize,
}

/// The setup for n trials of one chance, drawn by inversion.
///
/// ```
/// use slot_draw::{Binomial, Error};
///
/// let coins = Binomial::new(2, 0.5)?;
/// let heads = coins.draw(&[7 << 61])?; // the unit 0.875
/// assert_eq!((heads.count, heads.words), (2, 1));
/// assert_eq!(Binomial::new(20, 0.5), Err(Error::NeedsBtpe));
/// # Ok::<(), Error>(())
/// ```
#[derive(Clone, Copy, Debug, PartialEq, Eq)]
pub struct Binomial {
    // the number, the kind, n or the constant, the bits of r, s and a, the flip
    setup: [u64; 7],
}

impl Binomial {
    /// The setup of n and p. Refuses, in order: [`Error::ProbabilityTooSmall`], [`Error::ProbabilityTooLarge`],
    /// [`Error::TooManyTrials`], [`Error::NeedsBtpe`], [`Error::NeedsPoisson`].
    pub fn new(n: u64, p: f64) -> Result<Self, Error> {
        let mut setup = [0; 7];
        unsafe { ffi::slot_draw_binomial_new(n, p, &mut setup) };
        Error::check(setup[0])?;
        Ok(Binomial { setup })
    }

    /// A setup that always draws a count and takes no word. A count above 1,048,576 is refused by the draw.
    pub fn constant(count: u64) -> Self {
        Binomial {
            setup: [0, 0, count, 0, 0, 0, 0],
        }
    }

    /// A setup from BINV's numbers, wherever they come from; any floats are taken, and the count drawn is at most n.
    pub fn from_binv(r: f64, s: f64, a: f64, n: u64, flip: bool) -> Self {
        Binomial {
            setup: [0, 1, n, r.to_bits(), s.to_bits(), a.to_bits(), flip as u64],
        }
    }

    /// The count that a pool of words draws. Refuses, in order: [`Error::TooManyTrials`], [`Error::OutOfWords`].
    pub fn draw(&self, pool: &[u64]) -> Result<Successes, Error> {
        let [count, words] = answered(|answer| unsafe {
            ffi::slot_draw_binomial_draw(&self.setup, pool.as_ptr(), pool.len(), answer)
        })?;
        Ok(Successes {
            count,
            words: words as usize,
        })
    }
}

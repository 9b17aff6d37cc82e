//! Numbers and floats from words.
// SAFETY of each `unsafe` here: the pointer and length are those of a live slice, and the answer is a local array. The
// functions ask nothing else.

use crate::{answered, ffi, Error};

/// A number below a total, and the words that it took.
#[derive(Clone, Copy, Debug, PartialEq, Eq)]
pub struct Number {
    /// The number.
    pub value: u64,
    /// How many words of the pool were used: the place of the accepted word, counted from one.
    pub words: usize,
}

/// The number below a total that the pool's first accepted word gives: a word is accepted below 2^64 - (2^64 mod total),
/// so every number is as likely as any other. Refuses: [`Error::OutOfWords`], always for a total of 0.
///
/// ```
/// let six = slot_draw::number_below(&[u64::MAX, 13], 6).unwrap();
/// assert_eq!((six.value, six.words), (1, 2)); // the last four words are not accepted for 6
/// ```
pub fn number_below(pool: &[u64], total: u64) -> Result<Number, Error> {
    let [value, words] = answered(|answer| unsafe {
        ffi::slot_draw_number_below(pool.as_ptr(), pool.len(), total, answer)
    })?;
    Ok(Number {
        value,
        words: words as usize,
    })
}

/// The top 52 bits k of a word as k / 2^52, exactly.
///
/// ```
/// assert_eq!(slot_draw::unit(1 << 63), 0.5);
/// ```
pub fn unit(word: u64) -> f64 {
    unsafe { ffi::slot_draw_unit(word) }
}

/// The top 52 bits k of a word as (k - 2^51) / 2^51, exactly.
pub fn symmetric_u(word: u64) -> f64 {
    unsafe { ffi::slot_draw_symmetric_u(word) }
}

/// The top 52 bits k of a word as (2k + 1) / 2^53, exactly.
pub fn one_sided_u(word: u64) -> f64 {
    unsafe { ffi::slot_draw_one_sided_u(word) }
}

//! The alias table.
// SAFETY of each `unsafe` here: the pointers and lengths are those of live slices, what is lent as mutable is borrowed
// mutably, and the answer is a local array. The functions ask nothing else.

use crate::{answered, drawn, ffi, Drawn, Error};

/// An alias table in two lent slices, twelve bytes a slot. A draw takes two numbers however many slots there are; the
/// table can't be changed once it is made.
///
/// ```
/// use slot_draw::{AliasTable, Error};
///
/// let (mut odds, mut links) = ([0; 2], [0; 2]);
/// let table = AliasTable::new(&[1, 3], &mut odds, &mut links)?;
/// assert_eq!(table.sum(), 4);
/// assert_eq!(table.draw(&[0, 1])?.index, 0);
/// let mut work = [0; 2];
/// assert_eq!(table.check(&[1, 3], &mut work), Ok(true));
/// # Ok::<(), Error>(())
/// ```
#[derive(Clone, Copy, Debug)]
pub struct AliasTable<'a> {
    odds: &'a [u64],
    links: &'a [u32],
    sum: u64,
}

impl<'a> AliasTable<'a> {
    /// Writes the table of the weights into odds and links, each as long as the weights, whatever they held. Refuses, in
    /// order: [`Error::InvalidInput`], [`Error::Full`], [`Error::BadLength`], [`Error::InvalidWeight`],
    /// [`Error::InsufficientNonZero`].
    pub fn new(weights: &[u64], odds: &'a mut [u64], links: &'a mut [u32]) -> Result<Self, Error> {
        let [sum, _] = answered(|answer| unsafe {
            ffi::slot_draw_alias_new(
                weights.as_ptr(),
                weights.len(),
                odds.as_mut_ptr(),
                odds.len(),
                links.as_mut_ptr(),
                links.len(),
                answer,
            )
        })?;
        Ok(AliasTable { odds, links, sum })
    }

    /// A table whoever made it, with the sum of its weights. Anything is taken: a call that can't use it refuses, and
    /// [`check`](Self::check) says whether it draws as its weights say.
    pub fn from_parts(odds: &'a [u64], links: &'a [u32], sum: u64) -> Self {
        AliasTable { odds, links, sum }
    }

    /// The sum of the weights.
    pub fn sum(&self) -> u64 {
        self.sum
    }

    /// The odds and the links.
    pub fn parts(&self) -> (&'a [u64], &'a [u32]) {
        (self.odds, self.links)
    }

    /// The slot that a pool of words draws. Refuses, in order: [`Error::InvalidInput`], [`Error::Full`],
    /// [`Error::BadLength`], [`Error::InsufficientNonZero`], [`Error::OutOfWords`], [`Error::Damaged`].
    pub fn draw(&self, pool: &[u64]) -> Result<Drawn, Error> {
        answered(|answer| unsafe {
            ffi::slot_draw_alias_draw(
                self.odds.as_ptr(),
                self.odds.len(),
                self.links.as_ptr(),
                self.links.len(),
                self.sum,
                pool.as_ptr(),
                pool.len(),
                answer,
            )
        })
        .map(drawn)
    }

    /// Whether the table draws each slot as often as its weight says. The work slice is as long as the weights; after yes
    /// it holds their number times each weight, after no zeros. Refuses, in order: [`Error::InvalidInput`],
    /// [`Error::Full`], [`Error::BadLength`], [`Error::InvalidWeight`], [`Error::InsufficientNonZero`].
    pub fn check(&self, weights: &[u64], work: &mut [u64]) -> Result<bool, Error> {
        let [yes, _] = answered(|answer| unsafe {
            ffi::slot_draw_alias_check(
                weights.as_ptr(),
                weights.len(),
                self.odds.as_ptr(),
                self.odds.len(),
                self.links.as_ptr(),
                self.links.len(),
                work.as_mut_ptr(),
                work.len(),
                answer,
            )
        })?;
        Ok(yes == 1)
    }

    /// Writes the weights that the table shows, and answers how many. The output is as long as the odds; where the table
    /// is damaged it holds zeros. Refuses, in order: [`Error::InvalidInput`], [`Error::Full`], [`Error::BadLength`],
    /// [`Error::InsufficientNonZero`], [`Error::Damaged`].
    pub fn weights(&self, output: &mut [u64]) -> Result<usize, Error> {
        let [count, _] = answered(|answer| unsafe {
            ffi::slot_draw_alias_weights(
                self.odds.as_ptr(),
                self.odds.len(),
                self.links.as_ptr(),
                self.links.len(),
                self.sum,
                output.as_mut_ptr(),
                output.len(),
                answer,
            )
        })?;
        Ok(count as usize)
    }
}

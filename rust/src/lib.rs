//! Weighted draws of slots over lent memory: safe types over the proved library `slot_draw`.
//!
//! Nothing is allocated and no generator is kept: a draw takes words from a lent pool and says how many it used. Every
//! call takes any numbers, any floats and memory of any content; what it can't do it refuses with an [`Error`], and then
//! everything lent stays as it was. `docs/RULES.md` of the repository says what each call answers and leaves.
//!
//! ```
//! use slot_draw::{Error, Tree};
//!
//! let mut store = [0; 8];
//! let mut tree = Tree::new(&mut store, &[72, 18, 128])?;
//! tree.push(32)?;
//! let words = [0x9e37_79b9_7f4a_7c15, 3];
//! let drawn = tree.draw(&words)?;
//! assert!(drawn.index < tree.len());
//! let rest = &words[drawn.words..]; // lend these to the next draw
//! assert_eq!(tree.update(9, 1), Err(Error::BadIndex));
//! # assert_eq!(rest, [3]);
//! # Ok::<(), Error>(())
//! ```
//!
//! The crate links `libslot_draw.a`, which is for x86-64: `build.rs` says where it is looked for. The interface of the
//! draws is not final.
#![no_std]
#![deny(missing_docs)]

mod alias;
mod binomial;
mod error;
mod ffi;
mod tree;
mod words;
mod ziggurat;

pub use alias::AliasTable;
pub use binomial::{Binomial, Successes};
pub use error::Error;
pub use tree::Tree;
pub use words::{number_below, one_sided_u, symmetric_u, unit, Number};
pub use ziggurat::{Round, Rounded, Ziggurat};

/// The most slots of a tree and of an alias table.
pub const MOST_SLOTS: usize = 4096;

/// The most trials of a [`Binomial`].
pub const MOST_TRIALS: u64 = 1_048_576;

/// The length of the two tables of a [`Ziggurat`].
pub const TABLE_LENGTH: usize = 257;

/// The slot that was drawn, and the words that it took: lend the rest of the pool to the next draw.
#[derive(Clone, Copy, Debug, PartialEq, Eq)]
pub struct Drawn {
    /// The index of the slot.
    pub index: usize,
    /// How many words of the pool were used.
    pub words: usize,
}

/// The two values of an answer, or the refusal.
fn answered(call: impl FnOnce(&mut [u64; 3])) -> Result<[u64; 2], Error> {
    let mut answer = [0; 3];
    call(&mut answer);
    let [number, first, second] = answer;
    Error::check(number)?;
    Ok([first, second])
}

/// An answer that is a slot and the words it took.
fn drawn([index, words]: [u64; 2]) -> Drawn {
    Drawn {
        index: index as usize,
        words: words as usize,
    }
}

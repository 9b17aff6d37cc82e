//! One round of the ziggurat.
// SAFETY of the `unsafe` here: the pointers and lengths are those of live slices, and the answer is a local array. The
// function asks nothing else.

use crate::{ffi, Error};

/// What a round ends with.
#[derive(Clone, Copy, Debug, PartialEq)]
pub enum Round {
    /// A finished sample.
    Sample {
        /// The sample.
        x: f64,
    },
    /// A sample in the tail is to be drawn.
    Tail {
        /// The u of the round's word.
        u: f64,
    },
    /// The sample is to be kept if the height is below the density at it.
    Wedge {
        /// The sample.
        x: f64,
        /// The height.
        height: f64,
    },
}

/// How a round ended, and the words that it took.
#[derive(Clone, Copy, Debug, PartialEq)]
pub struct Rounded {
    /// How it ended.
    pub round: Round,
    /// How many words of the pool were used: 1, or 2 for a wedge.
    pub words: usize,
}

/// A ziggurat over two borrowed tables of 257 floats: the edges of its layers, and the densities at them. The floats may
/// have any bits.
///
/// ```
/// use slot_draw::{Round, Ziggurat};
///
/// let (mut edges, mut densities) = ([0.0; 257], [0.0; 257]);
/// (edges[1], edges[2]) = (4.0, 3.0);
/// (densities[1], densities[2]) = (1.0, 3.0);
/// let ziggurat = Ziggurat::symmetric(&edges, &densities);
/// let rounded = ziggurat.round(&[(3 << 62) + 1]).unwrap(); // layer 1, u = 0.5
/// assert_eq!(rounded.round, Round::Sample { x: 2.0 });
/// ```
#[derive(Clone, Copy, Debug)]
pub struct Ziggurat<'a> {
    edges: &'a [f64],
    densities: &'a [f64],
    symmetric: bool,
}

impl<'a> Ziggurat<'a> {
    /// The ziggurat of a density on both sides of 0.
    pub fn symmetric(edges: &'a [f64], densities: &'a [f64]) -> Self {
        Ziggurat {
            edges,
            densities,
            symmetric: true,
        }
    }

    /// The ziggurat of a density above 0 alone.
    pub fn one_sided(edges: &'a [f64], densities: &'a [f64]) -> Self {
        Ziggurat {
            edges,
            densities,
            symmetric: false,
        }
    }

    /// The round that the words of a pool make. Refuses, in order: [`Error::BadLength`], [`Error::OutOfWords`].
    pub fn round(&self, pool: &[u64]) -> Result<Rounded, Error> {
        let mut answer = [0; 5];
        unsafe {
            ffi::slot_draw_ziggurat_round(
                self.edges.as_ptr(),
                self.edges.len(),
                self.densities.as_ptr(),
                self.densities.len(),
                self.symmetric,
                pool.as_ptr(),
                pool.len(),
                &mut answer,
            )
        };
        let [number, kind, first, second, words] = answer;
        Error::check(number)?;
        let first = f64::from_bits(first);
        let round = match kind {
            1 => Round::Sample { x: first },
            2 => Round::Tail { u: first },
            _ => Round::Wedge {
                x: first,
                height: f64::from_bits(second),
            },
        };
        Ok(Rounded {
            round,
            words: words as usize,
        })
    }
}

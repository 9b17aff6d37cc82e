//! The root over rand_distr's own files. Its own root names modules that are not wanted here; what stands below is what
//! the compiled files import from it. The files are compiled as they are, from where they lie.

extern crate alloc;

pub use self::binomial::{Binomial, Error as BinomialError};
use self::exponential::Exp1;
use self::normal::{Normal, StandardNormal};
pub use rand::distr::{Distribution, uniform};
use rand::distr::{Open01, StandardUniform, Uniform};

include!(concat!(env!("OUT_DIR"), "/modules.rs"));

//! What rand_distr's utils.rs names of rand, once more: here `random::<f64>()` gives a unit that can be followed. The
//! Rust forms the wedge's height from it and tests it against the density, and shows the height nowhere else.
use core::cmp::Ordering;
use core::ops::{Add, Mul};
use std::cell::Cell;

thread_local! {
    static HEIGHT: Cell<f64> = const { Cell::new(0.0) };
}

/// The height that was tested last.
pub fn height() -> f64 {
    HEIGHT.get()
}

/// A unit, or what was formed from one by the arithmetic of f64.
#[derive(Clone, Copy)]
pub struct Traced(f64);

impl Mul<Traced> for f64 {
    type Output = Traced;
    fn mul(self, unit: Traced) -> Traced {
        Traced(self * unit.0)
    }
}

impl Add<Traced> for f64 {
    type Output = Traced;
    fn add(self, traced: Traced) -> Traced {
        Traced(self + traced.0)
    }
}

impl PartialEq<f64> for Traced {
    fn eq(&self, other: &f64) -> bool {
        self.0 == *other
    }
}

impl PartialOrd<f64> for Traced {
    fn partial_cmp(&self, other: &f64) -> Option<Ordering> {
        self.0.partial_cmp(other)
    }
    /// The test `height < density`: keeps the height, and says yes so that the round ends.
    fn lt(&self, _density: &f64) -> bool {
        HEIGHT.set(self.0);
        true
    }
}

/// A script of words and units.
pub trait Rng {
    fn next_u64(&mut self) -> u64;
    fn next_unit(&mut self) -> f64;
}

/// What `random` gives for a type.
pub trait Random {
    type Given;
    fn given(unit: f64) -> Self::Given;
}

impl Random for f64 {
    type Given = Traced;
    fn given(unit: f64) -> Traced {
        Traced(unit)
    }
}

pub trait RngExt: Rng {
    fn random<T: Random>(&mut self) -> T::Given {
        T::given(self.next_unit())
    }
}

impl<R: Rng + ?Sized> RngExt for R {}

pub mod distr {
    pub mod hidden_export {
        /// As rand has it: the number becomes the fraction of a float with this exponent.
        pub trait IntoFloat {
            type F;
            fn into_float_with_exponent(self, exponent: i32) -> Self::F;
        }

        impl IntoFloat for u64 {
            type F = f64;
            fn into_float_with_exponent(self, exponent: i32) -> f64 {
                f64::from_bits((((1023 + exponent) as u64) << 52) | self)
            }
        }
    }
}

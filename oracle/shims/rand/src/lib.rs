//! What rand_distr's files name of rand 0.10, with a scripted generator: every line that draws a value is handed the
//! next value of the script, and nothing else is replaced.
use distr::uniform::{SampleRange, SampleUniform};
use distr::{Distribution, StandardUniform};

/// A script. `next_u64` is rand's own; the other two stand where rand has rules of its own for drawing.
pub trait Rng {
    /// A word as it is.
    fn next_u64(&mut self) -> u64;
    /// A number of a range: a target, a slot.
    fn next_number(&mut self) -> u64;
    /// A float that is at least 0 and below 1.
    fn next_unit(&mut self) -> f64;
}

impl<R: Rng + ?Sized> Rng for &mut R {
    fn next_u64(&mut self) -> u64 {
        (**self).next_u64()
    }
    fn next_number(&mut self) -> u64 {
        (**self).next_number()
    }
    fn next_unit(&mut self) -> f64 {
        (**self).next_unit()
    }
}

pub trait RngExt: Rng {
    fn random<T>(&mut self) -> T
    where
        StandardUniform: Distribution<T>,
    {
        StandardUniform.sample(self)
    }
    fn random_range<T: SampleUniform, S: SampleRange<T>>(&mut self, range: S) -> T {
        range.sample_single(self)
    }
    fn sample<T, D: Distribution<T>>(&mut self, distribution: D) -> T {
        distribution.sample(self)
    }
}

impl<R: Rng + ?Sized> RngExt for R {}

pub mod distr {
    use crate::Rng;
    pub use uniform::Uniform;

    pub trait Distribution<T> {
        fn sample<R: Rng + ?Sized>(&self, rng: &mut R) -> T;
    }

    impl<T, D: Distribution<T> + ?Sized> Distribution<T> for &D {
        fn sample<R: Rng + ?Sized>(&self, rng: &mut R) -> T {
            (*self).sample(rng)
        }
    }

    #[derive(Clone, Copy, Debug)]
    pub struct StandardUniform;

    #[derive(Clone, Copy, Debug)]
    pub struct Open01;

    impl Distribution<f64> for StandardUniform {
        fn sample<R: Rng + ?Sized>(&self, rng: &mut R) -> f64 {
            rng.next_unit()
        }
    }

    impl Distribution<f32> for StandardUniform {
        fn sample<R: Rng + ?Sized>(&self, rng: &mut R) -> f32 {
            rng.next_unit() as f32
        }
    }

    impl Distribution<f64> for Open01 {
        fn sample<R: Rng + ?Sized>(&self, rng: &mut R) -> f64 {
            rng.next_unit()
        }
    }

    pub mod hidden_export {
        /// As rand has it: the number becomes the fraction of a float with this exponent.
        pub trait IntoFloat {
            type F;
            fn into_float_with_exponent(self, exponent: i32) -> Self::F;
        }

        impl IntoFloat for u64 {
            type F = f64;
            fn into_float_with_exponent(self, exponent: i32) -> f64 {
                f64::from_bits((((1023 + exponent) as u64) << 52) | self)
            }
        }
    }

    pub mod uniform {
        use super::Distribution;
        use crate::Rng;

        #[derive(Clone, Copy, Debug, PartialEq, Eq)]
        pub enum Error {
            EmptyRange,
        }

        pub trait SampleUniform: Copy + PartialOrd {
            /// The script's next value, which must lie in the range.
            fn scripted<R: Rng + ?Sized>(rng: &mut R, low: Self, high: Self) -> Self;
        }

        macro_rules! whole_numbers {
            ($($t:ty)*) => {$(
                impl SampleUniform for $t {
                    fn scripted<R: Rng + ?Sized>(rng: &mut R, low: $t, high: $t) -> $t {
                        let number = <$t>::try_from(rng.next_number()).expect("script: too large");
                        assert!(low <= number && number < high, "script: not in the range");
                        number
                    }
                }
            )*};
        }
        whole_numbers!(u8 u16 u32 u64 u128 usize i8 i16 i32 i64 i128);

        macro_rules! floats {
            ($($t:ty)*) => {$(
                impl SampleUniform for $t {
                    fn scripted<R: Rng + ?Sized>(rng: &mut R, _low: $t, _high: $t) -> $t {
                        rng.next_unit() as $t
                    }
                }
            )*};
        }
        floats!(f32 f64);

        #[derive(Clone, Copy, Debug)]
        #[cfg_attr(feature = "serde", derive(serde::Serialize, serde::Deserialize))]
        pub struct Uniform<X: SampleUniform> {
            low: X,
            high: X,
        }

        impl<X: SampleUniform> Uniform<X> {
            pub fn new(low: X, high: X) -> Result<Self, Error> {
                if low < high { Ok(Uniform { low, high }) } else { Err(Error::EmptyRange) }
            }
        }

        impl<X: SampleUniform> Distribution<X> for Uniform<X> {
            fn sample<R: Rng + ?Sized>(&self, rng: &mut R) -> X {
                X::scripted(rng, self.low, self.high)
            }
        }

        pub trait SampleBorrow<B> {
            fn borrow(&self) -> &B;
        }

        impl<B: SampleUniform> SampleBorrow<B> for B {
            fn borrow(&self) -> &B {
                self
            }
        }

        impl<B: SampleUniform> SampleBorrow<B> for &B {
            fn borrow(&self) -> &B {
                self
            }
        }

        pub trait SampleRange<T> {
            fn sample_single<R: Rng + ?Sized>(self, rng: &mut R) -> T;
        }

        impl<T: SampleUniform> SampleRange<T> for core::ops::Range<T> {
            fn sample_single<R: Rng + ?Sized>(self, rng: &mut R) -> T {
                T::scripted(rng, self.start, self.end)
            }
        }
    }

    pub mod weighted {
        #[derive(Clone, Copy, Debug, PartialEq, Eq)]
        pub enum Error {
            InvalidInput,
            InvalidWeight,
            InsufficientNonZero,
            Overflow,
        }

        #[allow(clippy::result_unit_err)] // as rand has it
        pub trait Weight: Clone {
            const ZERO: Self;
            fn checked_add_assign(&mut self, v: &Self) -> Result<(), ()>;
        }

        macro_rules! weights {
            ($($t:ty)*) => {$(
                impl Weight for $t {
                    const ZERO: $t = 0;
                    fn checked_add_assign(&mut self, v: &$t) -> Result<(), ()> {
                        *self = self.checked_add(*v).ok_or(())?;
                        Ok(())
                    }
                }
            )*};
        }
        weights!(u8 u16 u32 u64 u128 usize i8 i16 i32 i64 i128);
    }
}

//! What rand_distr's files name of num-traits: the floats of the standard library under its trait's name.
use core::ops::{Add, Div, Mul, Neg, Rem, Sub};

pub trait ToPrimitive {
    fn to_f64(&self) -> Option<f64>;
    fn to_usize(&self) -> Option<usize>;
}

macro_rules! primitives {
    ($($t:ty)*) => {$(
        impl ToPrimitive for $t {
            fn to_f64(&self) -> Option<f64> {
                Some(*self as f64)
            }
            fn to_usize(&self) -> Option<usize> {
                Some(*self as usize)
            }
        }
    )*};
}
primitives!(f32 f64 i32 u32 u64);

pub trait Float:
    Copy
    + PartialOrd
    + ToPrimitive
    + Neg<Output = Self>
    + Add<Output = Self>
    + Sub<Output = Self>
    + Mul<Output = Self>
    + Div<Output = Self>
    + Rem<Output = Self>
{
    fn from<T: ToPrimitive>(number: T) -> Option<Self>;
    fn zero() -> Self;
    fn one() -> Self;
    fn exp(self) -> Self;
    fn ln(self) -> Self;
    fn sqrt(self) -> Self;
    fn floor(self) -> Self;
    fn abs(self) -> Self;
    fn recip(self) -> Self;
    fn signum(self) -> Self;
    fn powi(self, exponent: i32) -> Self;
    fn powf(self, exponent: Self) -> Self;
    fn is_finite(self) -> bool;
    fn is_nan(self) -> bool;
    fn is_sign_negative(self) -> bool;
}

macro_rules! floats {
    ($($t:ident)*) => {$(
        impl Float for $t {
            fn from<T: ToPrimitive>(number: T) -> Option<$t> {
                number.to_f64().map(|float| float as $t)
            }
            fn zero() -> $t {
                0.0
            }
            fn one() -> $t {
                1.0
            }
            fn exp(self) -> $t {
                $t::exp(self)
            }
            fn ln(self) -> $t {
                $t::ln(self)
            }
            fn sqrt(self) -> $t {
                $t::sqrt(self)
            }
            fn floor(self) -> $t {
                $t::floor(self)
            }
            fn abs(self) -> $t {
                $t::abs(self)
            }
            fn recip(self) -> $t {
                $t::recip(self)
            }
            fn signum(self) -> $t {
                $t::signum(self)
            }
            fn powi(self, exponent: i32) -> $t {
                $t::powi(self, exponent)
            }
            fn powf(self, exponent: $t) -> $t {
                $t::powf(self, exponent)
            }
            fn is_finite(self) -> bool {
                $t::is_finite(self)
            }
            fn is_nan(self) -> bool {
                $t::is_nan(self)
            }
            fn is_sign_negative(self) -> bool {
                $t::is_sign_negative(self)
            }
        }
    )*};
}
floats!(f32 f64);

#[allow(non_snake_case)] // as num-traits has it
pub trait FloatConst {
    fn PI() -> Self;
}

impl FloatConst for f64 {
    fn PI() -> f64 {
        core::f64::consts::PI
    }
}

impl FloatConst for f32 {
    fn PI() -> f32 {
        core::f32::consts::PI
    }
}

//! What rand_distr's files name of serde. It is the published way to the fields that are private: a value is saved to a
//! flat list of numbers and loaded from one. The fields follow each other in the order of their declaration; a sequence
//! has its length first, a variant its place among the variants; a float is its bits.
pub use serde_derive::{Deserialize, Serialize};

pub trait Serialize {
    fn save(&self, to: &mut Vec<u64>);
}

pub trait Deserialize<'de>: Sized {
    fn load(from: &mut &'de [u64]) -> Self;
}

/// The next number of a list.
pub fn next(from: &mut &[u64]) -> u64 {
    let (first, rest) = from.split_first().expect("serde: the list is too short");
    *from = rest;
    *first
}

/// A value as numbers.
pub fn saved<T: Serialize>(value: &T) -> Vec<u64> {
    let mut numbers = Vec::new();
    value.save(&mut numbers);
    numbers
}

/// The value that is these numbers.
pub fn loaded<'de, T: Deserialize<'de>>(mut numbers: &'de [u64]) -> T {
    let value = T::load(&mut numbers);
    assert!(numbers.is_empty(), "serde: the list is too long");
    value
}

macro_rules! plain {
    ($($t:ty, $to:expr, $from:expr;)*) => {$(
        impl Serialize for $t {
            fn save(&self, to: &mut Vec<u64>) {
                to.push($to(*self));
            }
        }
        impl<'de> Deserialize<'de> for $t {
            fn load(from: &mut &'de [u64]) -> $t {
                $from(next(from))
            }
        }
    )*};
}
plain! {
    u64, |x| x, |x| x;
    u32, u64::from, |x| u32::try_from(x).expect("serde: no u32");
    bool, u64::from, |x| x != 0;
    f64, f64::to_bits, f64::from_bits;
    f32, |x| u64::from(f32::to_bits(x)), |x| f32::from_bits(x as u32);
}

impl<T: Serialize> Serialize for [T] {
    fn save(&self, to: &mut Vec<u64>) {
        to.push(self.len() as u64);
        self.iter().for_each(|item| item.save(to));
    }
}

impl<T: Serialize> Serialize for Vec<T> {
    fn save(&self, to: &mut Vec<u64>) {
        self.as_slice().save(to);
    }
}

impl<T: Serialize> Serialize for Box<[T]> {
    fn save(&self, to: &mut Vec<u64>) {
        (**self).save(to);
    }
}

impl<'de, T: Deserialize<'de>> Deserialize<'de> for Vec<T> {
    fn load(from: &mut &'de [u64]) -> Vec<T> {
        let length = next(from);
        (0..length).map(|_| T::load(from)).collect()
    }
}

impl<'de, T: Deserialize<'de>> Deserialize<'de> for Box<[T]> {
    fn load(from: &mut &'de [u64]) -> Box<[T]> {
        Vec::load(from).into_boxed_slice()
    }
}

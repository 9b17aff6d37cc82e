//! Why a call is refused.

use core::fmt;

/// Why a call is refused, by the numbers of `docs/RULES.md`. A refused call consumes no words and leaves what it was lent
/// as it was; only [`AliasTable::weights`](crate::AliasTable::weights) leaves zeros where a table is damaged.
#[derive(Clone, Copy, Debug, PartialEq, Eq, Hash)]
#[repr(u8)]
pub enum Error {
    /// An alias table of no slots.
    InvalidInput = 1,
    /// A weight is too large for an alias table of so many slots.
    InvalidWeight = 2,
    /// The total of the weights is 0.
    InsufficientNonZero = 3,
    /// A sum of weights would exceed `u64`.
    Overflow = 4,
    /// A probability below 0, or a NaN.
    ProbabilityTooSmall = 5,
    /// A probability above 1.
    ProbabilityTooLarge = 6,
    /// A count above 4,096, or above the length of the store.
    BadCount = 7,
    /// An index at or above the count.
    BadIndex = 8,
    /// A target at or above the total.
    BadTarget = 9,
    /// No room for the slots, or more than 4,096 of them.
    Full = 10,
    /// A pop from a tree of no slots.
    Empty = 11,
    /// The pool ended before the draw did.
    OutOfWords = 12,
    /// A cell below its children's sum, or a link that is no slot's.
    Damaged = 13,
    /// A lent slice is not as long as it has to be.
    BadLength = 14,
    /// More than 1,048,576 trials.
    TooManyTrials = 15,
    /// The trials times the smaller chance are 10 or more.
    NeedsBtpe = 16,
    /// The chance is so small that 1 less it is 1.
    NeedsPoisson = 17,
}

const ALL: [Error; 17] = [
    Error::InvalidInput,
    Error::InvalidWeight,
    Error::InsufficientNonZero,
    Error::Overflow,
    Error::ProbabilityTooSmall,
    Error::ProbabilityTooLarge,
    Error::BadCount,
    Error::BadIndex,
    Error::BadTarget,
    Error::Full,
    Error::Empty,
    Error::OutOfWords,
    Error::Damaged,
    Error::BadLength,
    Error::TooManyTrials,
    Error::NeedsBtpe,
    Error::NeedsPoisson,
];

impl Error {
    /// The number of the refusal, 1 to 17.
    pub const fn number(self) -> u8 {
        self as u8
    }

    /// The refusal of a number that the library told, where 0 is none.
    pub(crate) fn check(number: u64) -> Result<(), Error> {
        match number {
            0 => Ok(()),
            k => Err(ALL[k as usize - 1]),
        }
    }
}

impl fmt::Display for Error {
    fn fmt(&self, f: &mut fmt::Formatter<'_>) -> fmt::Result {
        f.write_str(match self {
            Error::InvalidInput => "an alias table has no slots",
            Error::InvalidWeight => "a weight is too large for an alias table of so many slots",
            Error::InsufficientNonZero => "the total of the weights is 0",
            Error::Overflow => "a sum of weights would exceed 64 bits",
            Error::ProbabilityTooSmall => "the probability is below 0 or not a number",
            Error::ProbabilityTooLarge => "the probability is above 1",
            Error::BadCount => "the count is above 4096 or above the length of the store",
            Error::BadIndex => "the index is not below the count",
            Error::BadTarget => "the target is not below the total",
            Error::Full => "there is no room for the slots, or they are more than 4096",
            Error::Empty => "the tree has no slot to pop",
            Error::OutOfWords => "the pool of words ended before the draw did",
            Error::Damaged => "the store or the table is damaged",
            Error::BadLength => "a lent slice is not as long as it has to be",
            Error::TooManyTrials => "there are more than 1048576 trials",
            Error::NeedsBtpe => "the trials times the smaller chance are 10 or more",
            Error::NeedsPoisson => "the chance is too small beside 1",
        })
    }
}

impl core::error::Error for Error {}

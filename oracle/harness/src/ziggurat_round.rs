//! One ziggurat round: the Rust's own, or the rules where the Rust can't say; and the tables that it is run with.
use crate::binomial::told;
use crate::chance::{Chance, EDGES};
use crate::records::{self, Answer, Call, Sink};
use crate::rules;
use ziggurat::{Round, ZigTable, ziggurat_tables};

/// A table as the Rust takes it and as it is recorded.
#[derive(Clone, Copy)]
pub struct Table {
    floats: ZigTable,
    bits: &'static [u64; 257],
}

impl Table {
    fn new(floats: ZigTable) -> Table {
        Table { floats, bits: Box::leak(Box::new(floats.map(f64::to_bits))) }
    }

    pub fn at(&self, place: u64) -> f64 {
        self.floats[place as usize]
    }

    /// The table of these bits, of which there are 257.
    pub fn of(bits: &[u64]) -> Table {
        let floats: Vec<f64> = bits.iter().map(|&bits| f64::from_bits(bits)).collect();
        Table::new(Box::leak(Box::new(floats.try_into().expect("257 floats"))))
    }
}

/// The tables of a run. The Rust wants them for the whole life of the program, so they are made once.
pub struct Tables {
    /// X and F of the normal distribution, and of the exponential one.
    pub normal: [Table; 2],
    pub exponential: [Table; 2],
    /// Tables of any bit pattern.
    pub others: Vec<Table>,
}

impl Tables {
    pub fn new(chance: &mut Chance, others: usize) -> Tables {
        Tables {
            normal: [Table::new(&ziggurat_tables::ZIG_NORM_X), Table::new(&ziggurat_tables::ZIG_NORM_F)],
            exponential: [Table::new(&ziggurat_tables::ZIG_EXP_X), Table::new(&ziggurat_tables::ZIG_EXP_F)],
            others: (0..others).map(|_| other(chance)).collect(),
        }
    }
}

/// A table of any bits, of floats at edges, of floats of all kinds, or that falls as a real one does.
fn other(chance: &mut Chance) -> Table {
    let kind = chance.below(4);
    let mut floats = [0.0; 257];
    for float in &mut floats {
        *float = match kind {
            0 => f64::from_bits(chance.word()),
            1 => chance.of(&EDGES),
            2 => chance.float(),
            _ => chance.unit() * 4.0,
        };
    }
    if kind == 3 {
        floats.sort_by(|a, b| b.total_cmp(a));
    }
    Table::new(Box::leak(Box::new(floats)))
}

/// One round with a pool.
pub fn round(sink: &mut Sink, symmetric: bool, [x, f]: [Table; 2], pool: &[u64]) {
    put(sink, symmetric, [x.bits, f.bits], pool, &rounded(symmetric, [x.floats, f.floats], pool));
}

/// A round whose tables have lengths of which at least one is wrong.
pub fn bad_length(sink: &mut Sink, symmetric: bool, [x, f]: [&[u64]; 2], pool: &[u64]) {
    assert!(x.len() != rules::TABLE || f.len() != rules::TABLE);
    put(sink, symmetric, [x, f], pool, &Answer::refused(14));
}

fn put(sink: &mut Sink, symmetric: bool, [x, f]: [&[u64]; 2], pool: &[u64], answer: &Answer) {
    let numbers = [u64::from(symmetric)];
    sink.put(&Call { code: records::ZIGGURAT_ROUND, numbers: &numbers, lent: &[x, f, pool] }, answer, &[]);
}

fn rounded(symmetric: bool, [x, f]: [ZigTable; 2], pool: &[u64]) -> Answer {
    let Some(&word) = pool.first() else {
        return Answer::refused(12);
    };
    let unit = pool.get(1).map_or(0.0, |&word| rules::unit(word));
    let (came, words) = ziggurat::round(symmetric, x, f, word, unit);
    if words > pool.len() as u64 {
        return Answer::refused(12);
    }
    match came {
        Round::Sample(x) => Answer::rust(&[1, told(x), 0, words]),
        Round::Tail(u) => Answer::rust(&[2, told(u), 0, words]),
        Round::Wedge(x, height) => Answer::rust(&[3, told(x), told(height), words]),
    }
}

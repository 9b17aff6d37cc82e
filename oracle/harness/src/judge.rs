//! Reads records. Holds a list against the Rust: each call is asked again, and the record must come out the same. So
//! the answers that were worked out by hand are the Rust's too, wherever it can be asked.
use crate::alias::{self, Table};
use crate::binomial::{self, Setup};
use crate::records::{self, Origin, Sink};
use crate::rules;
use crate::tree::{self, Lent};
use crate::ziggurat_round;
use std::io::Read;

/// A record's call and what is lent and handed in.
struct Asked {
    code: u64,
    numbers: Vec<u64>,
    lent: Vec<Vec<u64>>,
}

const MALFORMED: &str = "is malformed";

/// The call of a record and its eight lists.
fn parted(numbers: &[u64]) -> Result<(u64, Vec<Vec<u64>>), String> {
    let mut numbers = numbers.iter().copied();
    let mut next = || numbers.next().ok_or(MALFORMED);
    let (code, _origin) = (next()?, next()?);
    let mut lists = Vec::new();
    for _ in 0..8 {
        let length = next()?;
        lists.push((0..length).map(|_| next()).collect::<Result<Vec<u64>, _>>()?);
    }
    Ok((code, lists))
}

fn asked(numbers: &[u64]) -> Result<Asked, String> {
    let (code, mut lists) = parted(numbers)?;
    Ok(Asked { code, numbers: lists.remove(0), lent: lists })
}

/// The numbers of the next record of a stream.
fn next(from: &mut impl Read) -> Result<Vec<u64>, String> {
    let cut_off = |_| "is cut off".to_string();
    let mut head = [0; 4];
    from.read_exact(&mut head).map_err(cut_off)?;
    let (width, size) = records::header(head);
    let mut bytes = vec![0; size];
    from.read_exact(&mut bytes).map_err(cut_off)?;
    records::spelled(&bytes, width).ok_or(MALFORMED.into())
}

impl Asked {
    /// A number handed in, and 0 where the record has none.
    fn number(&self, at: usize) -> u64 {
        self.numbers.get(at).copied().unwrap_or_default()
    }

    fn ask(&self, sink: &mut Sink) -> Result<(), String> {
        match self.code {
            records::NEW..=records::IS_SOUND => self.ask_tree(sink),
            records::NUMBER_BELOW => tree::number_below(sink, self.number(0), &self.lent[0]),
            records::ALIAS_NEW..=records::ALIAS_CHECK => self.ask_alias(sink),
            records::BINOMIAL_NEW => {
                binomial::make(sink, self.number(0), f64::from_bits(self.number(1)));
            }
            records::BINV_DRAW => self.setup().draw(sink, &self.lent[0]),
            records::ZIGGURAT_ROUND => self.ask_ziggurat(sink),
            code => return Err(format!("has the call {code}, which there is not")),
        }
        Ok(())
    }

    fn ask_tree(&self, sink: &mut Sink) {
        let mut lent = Lent { store: self.lent[0].clone(), count: self.number(0) };
        match self.code {
            records::NEW => {
                lent.make(sink, &self.lent[1]);
            }
            records::IS_VALID => lent.is_valid(sink),
            records::GET => lent.get(sink, self.number(1)),
            records::POP => lent.pop(sink),
            records::PUSH => lent.push(sink, self.number(1)),
            records::UPDATE => lent.update(sink, self.number(1), self.number(2)),
            records::WALK => lent.walk(sink, self.number(1)),
            records::DRAW => lent.draw(sink, &self.lent[1]),
            _ => lent.is_sound(sink),
        }
    }

    fn ask_alias(&self, sink: &mut Sink) {
        let [first, second, third, fourth] = [0, 1, 2, 3].map(|at| &self.lent[at]);
        let table =
            |odds: &Vec<u64>, links: &Vec<u64>| Table { odds: odds.clone(), links: links.clone(), sum: self.number(0) };
        match self.code {
            records::ALIAS_NEW => {
                alias::make(sink, first, second, third);
            }
            records::ALIAS_DRAW => table(first, second).draw(sink, third),
            records::ALIAS_WEIGHTS => table(first, second).weights(sink, third),
            _ => table(second, third).check(sink, first, fourth),
        }
    }

    fn setup(&self) -> Setup {
        let float = |at| f64::from_bits(self.number(at));
        match self.number(0) {
            0 => Setup::Constant(self.number(1)),
            _ => Setup::Binv { n: self.number(1), r: float(2), s: float(3), a: float(4), flip: self.number(5) != 0 },
        }
    }

    fn ask_ziggurat(&self, sink: &mut Sink) {
        let symmetric = self.number(0) != 0;
        let [x, f, pool] = [0, 1, 2].map(|at| self.lent[at].as_slice());
        if x.len() == rules::TABLE && f.len() == rules::TABLE {
            ziggurat_round::round(sink, symmetric, [x, f].map(ziggurat_round::Table::of), pool);
        } else {
            ziggurat_round::bad_length(sink, symmetric, [x, f], pool);
        }
    }
}

/// Judges the records of a list: how many there are, and of how many the Rust was asked.
pub fn judge(bytes: &[u8]) -> Result<[u64; 2], String> {
    let mut sink = Sink::new(std::io::sink(), u64::MAX, None);
    let mut rest = bytes;
    let mut rust = 0;
    while !rest.is_empty() {
        let place = sink.written + 1;
        let told = |why| format!("record {place} {why}\n");
        let record = next(&mut rest).map_err(told)?;
        let asked = asked(&record).map_err(told)?;
        asked.ask(&mut sink).map_err(told)?;
        // the origin, which is the second number, may be another
        if sink.numbers()[0] != record[0] || sink.numbers()[2..] != record[2..] {
            return Err(format!("record {place} ({}) differs: {:?}\n", records::NAMES[asked.code as usize], sink.last));
        }
        rust += u64::from(sink.last.origin == Origin::Rust);
    }
    Ok([sink.written, rust])
}

/// The record at a place of a stream, counted from one, to be read.
pub fn show(mut from: impl Read, place: u64) -> Result<String, String> {
    let told = |why| format!("record {place} {why}\n");
    let mut record = Vec::new();
    for _ in 0..place {
        record = next(&mut from).map_err(told)?;
    }
    let (code, lists) = parted(&record).map_err(told)?;
    let named = ["numbers", "lent 1", "lent 2", "lent 3", "lent 4", "answer", "left 1", "left 2"].iter().zip(lists);
    let lines = named.filter(|(_, list)| !list.is_empty()).map(|(name, list)| format!("\n{name}: {list:?}"));
    Ok(format!("{}{}", records::NAMES.get(code as usize).unwrap_or(&"?"), lines.collect::<String>()))
}

//! Records of calls as docs/VECTORS.md describes them, and where they go.
use std::io::{BufWriter, Write};
use std::process;
use std::time::Instant;

/// The calls by their codes.
pub const NEW: u64 = 1;
pub const IS_VALID: u64 = 2;
pub const GET: u64 = 3;
pub const POP: u64 = 4;
pub const PUSH: u64 = 5;
pub const UPDATE: u64 = 6;
pub const WALK: u64 = 7;
pub const DRAW: u64 = 8;
pub const IS_SOUND: u64 = 9;
pub const NUMBER_BELOW: u64 = 10;
pub const ALIAS_NEW: u64 = 11;
pub const ALIAS_DRAW: u64 = 12;
pub const ALIAS_WEIGHTS: u64 = 13;
pub const ALIAS_CHECK: u64 = 14;
pub const BINOMIAL_NEW: u64 = 15;
pub const BINV_DRAW: u64 = 16;
pub const ZIGGURAT_ROUND: u64 = 17;

/// The names of the calls, by their codes.
pub const NAMES: [&str; 18] = [
    "",
    "new",
    "is_valid",
    "get",
    "pop",
    "push",
    "update",
    "walk",
    "draw",
    "is_sound",
    "number_below",
    "alias new",
    "alias draw",
    "alias weights",
    "alias check",
    "binomial new",
    "BINV draw",
    "ziggurat round",
];

/// Whose an answer is.
#[derive(Clone, Copy, Debug, PartialEq, Eq)]
pub enum Origin {
    Rust = 0,
    Rules = 1,
}

/// What a call answers: the number of its refusal or 0, and its values.
#[derive(Clone, Debug, PartialEq, Eq)]
pub struct Answer {
    pub origin: Origin,
    pub refusal: u64,
    pub values: [u64; 6],
}

impl Answer {
    /// A refusal that the Rust gives too.
    pub fn refused_by_rust(refusal: u64) -> Answer {
        Answer { origin: Origin::Rust, refusal, values: [0; 6] }
    }

    /// A refusal that only the rules have.
    pub fn refused(refusal: u64) -> Answer {
        Answer { origin: Origin::Rules, refusal, values: [0; 6] }
    }

    /// Values that the Rust gave.
    pub fn rust(values: &[u64]) -> Answer {
        Answer { origin: Origin::Rust, refusal: 0, values: padded(values) }
    }

    /// Values by the rules, where the Rust has no such call or gives something else.
    pub fn rules(values: &[u64]) -> Answer {
        Answer { origin: Origin::Rules, refusal: 0, values: padded(values) }
    }
}

fn padded(values: &[u64]) -> [u64; 6] {
    let mut all = [0; 6];
    all[..values.len()].copy_from_slice(values);
    all
}

/// How many values an answer of a call has behind the refusal.
fn size_of_answer(call: u64) -> usize {
    match call {
        BINOMIAL_NEW => 6,
        ZIGGURAT_ROUND => 4,
        _ => 2,
    }
}

/// The numbers that a record may have.
const MOST_NUMBERS: usize = 32_768;

/// How many bytes the largest of some numbers needs, one at least: the width of a record.
fn width_of(numbers: &[u64]) -> usize {
    let all = numbers.iter().fold(1, |all, number| all | number);
    8 - all.leading_zeros() as usize / 8
}

/// What a record begins with: the bytes of each number, and how many bytes follow.
pub fn header(bytes: [u8; 4]) -> (usize, usize) {
    let [width, size @ ..] = bytes;
    (width.into(), size.iter().fold(0, |size, byte| (size << 8) | usize::from(*byte)))
}

/// The numbers that bytes spell, each of so many.
pub fn spelled(bytes: &[u8], width: usize) -> Option<Vec<u64>> {
    let number = |bytes: &[u8]| bytes.iter().fold(0, |number, byte| (number << 8) | u64::from(*byte));
    ((1..=8).contains(&width) && bytes.len() % width == 0).then(|| bytes.chunks(width).map(number).collect())
}

/// A call as it is recorded, without its answer.
pub struct Call<'a> {
    pub code: u64,
    pub numbers: &'a [u64],
    pub lent: &'a [&'a [u64]],
}

/// Where records go: encoded and counted, up to a limit.
pub struct Sink {
    out: Box<dyn Write>,
    numbers: Vec<u64>,
    bytes: Vec<u8>,
    limit: u64,
    pub written: u64,
    /// How many records there are of each call with each refusal, by origin.
    pub tally: [[[u64; 2]; 18]; 18],
    /// The answer of the last record.
    pub last: Answer,
    progress: Option<Progress>,
}

/// What is said on standard error while records are written.
struct Progress {
    name: String,
    begun: Instant,
    shown: Instant,
}

impl Progress {
    fn new(name: &str) -> Progress {
        Progress { name: name.into(), begun: Instant::now(), shown: Instant::now() }
    }

    /// A line every five seconds; the clock is looked at once in so many records.
    fn show(&mut self, written: u64, limit: u64) {
        if written & 0x3fff == 0 && self.shown.elapsed().as_secs() >= 5 {
            self.shown = Instant::now();
            let seconds = self.begun.elapsed().as_secs_f64();
            let rate = written as f64 / seconds;
            eprintln!("{}: {written} of {limit} records, {seconds:.0} s, {rate:.0} a second", self.name);
        }
    }
}

impl Sink {
    /// A sink with a limit. Where it has a name, progress is shown under that.
    pub fn new(out: impl Write + 'static, limit: u64, name: Option<&str>) -> Sink {
        Sink {
            out: Box::new(BufWriter::with_capacity(1 << 18, out)),
            numbers: Vec::new(),
            bytes: Vec::new(),
            limit,
            written: 0,
            tally: [[[0; 2]; 18]; 18],
            last: Answer::rules(&[]),
            progress: name.map(Progress::new),
        }
    }

    /// Whether the limit is reached; what is put then is dropped.
    pub fn full(&self) -> bool {
        self.written >= self.limit
    }

    /// One record: the call, its answer, and the lent memory that it may change as it is to be after it.
    pub fn put(&mut self, call: &Call, answer: &Answer, after: &[&[u64]]) {
        if self.full() {
            return;
        }
        self.numbers.clear();
        self.numbers.extend([call.code, answer.origin as u64]);
        self.list(call.numbers);
        for i in 0..4 {
            self.list(call.lent.get(i).copied().unwrap_or_default());
        }
        let size = size_of_answer(call.code);
        self.numbers.extend([size as u64 + 1, answer.refusal]);
        self.numbers.extend_from_slice(&answer.values[..size]);
        for i in 0..2 {
            self.list(after.get(i).copied().unwrap_or_default());
        }
        assert!(self.numbers.len() <= MOST_NUMBERS, "compare can't hold this record");
        self.encode();
        self.out.write_all(&self.bytes).unwrap_or_else(|why| gone(&why));
        self.written += 1;
        self.tally[call.code as usize][answer.refusal as usize][answer.origin as usize] += 1;
        self.last.clone_from(answer);
        if let Some(progress) = &mut self.progress {
            progress.show(self.written, self.limit);
        }
    }

    fn encode(&mut self) {
        let width = width_of(&self.numbers);
        let header = (width << 24) | (width * self.numbers.len());
        self.bytes.clear();
        self.bytes.extend((header as u32).to_be_bytes());
        for number in &self.numbers {
            self.bytes.extend_from_slice(&number.to_be_bytes()[8 - width..]);
        }
    }

    fn list(&mut self, numbers: &[u64]) {
        self.numbers.push(numbers.len() as u64);
        self.numbers.extend_from_slice(numbers);
    }

    /// The numbers of the last record.
    pub fn numbers(&self) -> &[u64] {
        &self.numbers
    }

    /// How many records have the Rust's answers, and how many the rules', of one call.
    pub fn origins(&self, call: usize) -> [u64; 2] {
        [0, 1].map(|origin: usize| self.tally[call].iter().map(|by| by[origin]).sum())
    }

    /// Everything is handed on.
    pub fn finish(&mut self) {
        self.out.flush().unwrap_or_else(|why| gone(&why));
    }
}

/// The reader stops at the first record that differs, and says why itself.
fn gone(why: &std::io::Error) -> ! {
    eprintln!("harness: the records can't be written: {why}");
    process::exit(1)
}

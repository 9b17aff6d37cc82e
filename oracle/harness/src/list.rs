//! The fixed list that the gate replays: the same bytes on every run.
use crate::chance::Chance;
use crate::records::{NAMES, Sink};
use crate::stream::{Part, session};
use crate::ziggurat_round::Tables;
use crate::{differences, exhaustive, limit_cases};
use std::fs::File;

/// Every refusal of every call, as docs/RULES.md has them: the list must show each.
const REFUSALS: [&[usize]; 18] = [
    &[],
    &[10, 4],
    &[7],
    &[7, 8, 13],
    &[7, 11, 13],
    &[7, 10, 13, 4],
    &[7, 8, 13, 4],
    &[7, 3, 9, 13],
    &[7, 3, 12, 13],
    &[7],
    &[12],
    &[1, 10, 14, 2, 3],
    &[1, 10, 14, 3, 12, 13],
    &[1, 10, 14, 3, 13],
    &[1, 10, 14, 2, 3],
    &[5, 6, 15, 16, 17],
    &[15, 12],
    &[14, 12],
];

/// Random sessions of each part, as many as the size of the list allows.
const SESSIONS: [(Part, usize); 4] = [(Part::Tree, 110), (Part::Alias, 90), (Part::Binomial, 480), (Part::Ziggurat, 8)];

/// They have fewer slots than this.
const SLOTS: usize = 8;

const SEED: u64 = 6;

/// The small cases: every target of up to 4 slots with weights 0 to 3, every pair and every change of up to 3 slots,
/// and every pair and change of 4 slots with weights 0 to 2. The long run has what is left out here.
fn small(sink: &mut Sink) {
    for slots in 0..=3 {
        exhaustive::trees(sink, slots, 3);
    }
    exhaustive::trees(sink, 4, 2);
    exhaustive::walks(sink, 4, 3);
    for slots in 0..=3 {
        exhaustive::tables(sink, slots, 3);
    }
    exhaustive::tables(sink, 4, 2);
    exhaustive::stores(sink, 2, 3);
    exhaustive::stores(sink, 3, 3);
    exhaustive::strangers(sink, 1, 2);
    exhaustive::strangers(sink, 2, 1);
}

/// The refusals that are missing, and calls that are never refused nothing.
fn missing(sink: &Sink) -> Vec<String> {
    let mut found = Vec::new();
    for (call, refusals) in REFUSALS.iter().enumerate().skip(1) {
        for refusal in refusals.iter().chain(&[0]) {
            if sink.tally[call][*refusal] == [0, 0] {
                found.push(format!("{} with {refusal}", NAMES[call]));
            }
        }
    }
    found
}

/// How many records of each call there are, and whose answers they have.
fn summary(sink: &Sink) {
    for (call, name) in NAMES.iter().enumerate().skip(1) {
        let [rust, rules] = sink.origins(call);
        println!("{name}: {} records, {rust} with the Rust's answers, {rules} by the rules", rust + rules);
    }
    println!("{} records", sink.written);
}

/// Writes the list to a file; it fails if a refusal of some call is not in it.
pub fn list(file: &str) -> Result<(), String> {
    let out = File::create(file).map_err(|why| format!("{file}: {why}\n"))?;
    let mut sink = Sink::new(out, u64::MAX, None);
    let mut chance = Chance::new(SEED);
    let tables = Tables::new(&mut chance, 16);
    limit_cases::all(&mut sink, &tables);
    let (_, wrong) = differences::all(&mut sink, false);
    small(&mut sink);
    for (part, sessions) in SESSIONS {
        for _ in 0..sessions {
            let n = chance.index(SLOTS);
            session(&mut sink, &mut chance, &tables, part, n);
        }
    }
    sink.finish();
    summary(&sink);
    let missing = missing(&sink);
    if wrong > 0 || !missing.is_empty() {
        return Err(format!("harness: {wrong} differences are not as listed; missing: {missing:?}\n"));
    }
    Ok(())
}

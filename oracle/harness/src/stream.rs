//! The long run: every small case, then random ones over the whole domain, up to so many records.
use crate::chance::Chance;
use crate::records::{NAMES, Sink};
use crate::ziggurat_round::Tables;
use crate::{alias_cases, binomial_cases, exhaustive, tree_cases, ziggurat_cases};

#[derive(Clone, Copy, PartialEq, Eq)]
pub enum Part {
    Tree,
    Alias,
    Binomial,
    Ziggurat,
}

impl Part {
    pub const ALL: [Part; 4] = [Part::Tree, Part::Alias, Part::Binomial, Part::Ziggurat];
}

pub struct Wanted {
    pub calls: u64,
    pub seed: u64,
    pub parts: Vec<Part>,
    pub small_ones: bool,
    pub progress: bool,
}

pub fn parts(list: &str) -> Result<Vec<Part>, String> {
    let part = |name| match name {
        "tree" => Ok(Part::Tree),
        "alias" => Ok(Part::Alias),
        "binomial" => Ok(Part::Binomial),
        "ziggurat" => Ok(Part::Ziggurat),
        _ => Err(format!("no part is named {name}\n")),
    };
    list.split(',').map(part).collect()
}

/// Which part a session is of, in a hundred. A session of a tree has some 25 records, of a table 15, of a setup 4 and
/// of the ziggurat 2 large ones: so about 4 records in 10 are the tree's, 3 the tables', 2 the setups' and 1 is a round.
fn part(chance: &mut Chance) -> Part {
    match chance.below(100) {
        0..=11 => Part::Tree,
        12..=27 => Part::Alias,
        28..=65 => Part::Binomial,
        _ => Part::Ziggurat,
    }
}

/// One session of a part, with n slots where it has any.
pub fn session(sink: &mut Sink, chance: &mut Chance, tables: &Tables, part: Part, n: usize) {
    match part {
        Part::Tree => {
            tree_cases::session(sink, chance, n);
            tree_cases::numbers(sink, chance);
        }
        Part::Alias => alias_cases::session(sink, chance, n),
        Part::Binomial => binomial_cases::session(sink, chance),
        Part::Ziggurat => ziggurat_cases::session(sink, chance, tables),
    }
}

pub fn stream(wanted: &Wanted) {
    let name = format!("seed {}", wanted.seed);
    let mut sink = Sink::new(std::io::stdout(), wanted.calls, wanted.progress.then_some(&name));
    let mut chance = Chance::new(wanted.seed);
    let tables = Tables::new(&mut chance, 4096);
    if wanted.small_ones {
        exhaustive::all(&mut sink, &wanted.parts);
        eprintln!(
            "{name}: {} records of small cases{}",
            sink.written,
            if sink.full() { ", not all of them" } else { "" }
        );
    }
    while !sink.full() {
        let part = part(&mut chance);
        if wanted.parts.contains(&part) {
            let n = tree_cases::size(&mut chance);
            session(&mut sink, &mut chance, &tables, part, n);
        }
    }
    sink.finish();
    let rust: u64 = (1..NAMES.len()).map(|call| sink.origins(call)[0]).sum();
    eprintln!("{name}: {} records, {rust} of them with the Rust's answers, the others by the rules", sink.written);
}

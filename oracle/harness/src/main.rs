//! Writes records of rand_distr's answers, for the program `compare` to replay.
//!
//! The Rust answers wherever it can be asked; where it can't, the rules do, and the record says so (`rules.rs`).
mod alias;
mod alias_cases;
mod binomial;
mod binomial_cases;
mod chance;
mod differences;
mod exhaustive;
mod judge;
mod limit_cases;
mod list;
mod records;
mod rules;
mod script;
mod stream;
#[cfg(test)]
mod tests;
mod tree;
mod tree_cases;
mod ziggurat_cases;
mod ziggurat_round;

use records::Sink;
use std::process::ExitCode;
use stream::{Part, Wanted};

const USAGE: &str = "usage: harness COMMAND

  stream [--calls N] [--seed S] [--parts LIST] [--random-only] [--quiet]
          writes N records to standard output: every small case first, then random ones over the whole domain
          LIST: tree,alias,binomial,ziggurat or some of them
  list FILE
          writes the fixed list that the gate replays
  judge FILE
          asks the Rust again for every record of a list, and says whether it comes out the same
  show PLACE
          prints the record at a place of the stream on standard input, counted from one
  differences
          runs the inputs at which the port is to differ, and prints what the Rust does there
";

/// The options of `stream`.
fn wanted(mut options: impl Iterator<Item = String>) -> Result<Wanted, String> {
    let mut wanted = Wanted { calls: 1_000_000, seed: 1, parts: Part::ALL.to_vec(), small_ones: true, progress: true };
    while let Some(option) = options.next() {
        let mut value = || options.next().ok_or_else(|| format!("{option} wants a value\n"));
        let number = |value: String| value.parse().map_err(|_| format!("{value} is no number\n"));
        match option.as_str() {
            "--calls" => wanted.calls = value().and_then(number)?,
            "--seed" => wanted.seed = value().and_then(number)?,
            "--parts" => wanted.parts = stream::parts(&value()?)?,
            "--random-only" => wanted.small_ones = false,
            "--quiet" => wanted.progress = false,
            _ => return Err(USAGE.into()),
        }
    }
    Ok(wanted)
}

fn judge(file: &str) -> Result<(), String> {
    let bytes = std::fs::read(file).map_err(|why| format!("{file}: {why}\n"))?;
    let [all, rust] = judge::judge(&bytes)?;
    println!("{all} records come out the same, {rust} of them with the Rust's answers");
    Ok(())
}

fn show(place: &str) -> Result<(), String> {
    let place = place.parse().map_err(|_| format!("{place} is no number\n"))?;
    println!("{}", judge::show(std::io::stdin().lock(), place)?);
    Ok(())
}

fn differences() -> Result<(), String> {
    let (number, wrong) = differences::all(&mut Sink::new(std::io::sink(), u64::MAX, None), true);
    println!("{number} inputs, {wrong} not as listed");
    if wrong == 0 { Ok(()) } else { Err("harness: a difference is not as it is listed\n".into()) }
}

fn run(mut arguments: impl Iterator<Item = String>) -> Result<(), String> {
    let command = arguments.next().ok_or(USAGE)?;
    match command.as_str() {
        "stream" => stream::stream(&wanted(arguments)?),
        "list" => list::list(&arguments.next().ok_or(USAGE)?)?,
        "judge" => judge(&arguments.next().ok_or(USAGE)?)?,
        "show" => show(&arguments.next().ok_or(USAGE)?)?,
        "differences" => differences()?,
        _ => return Err(USAGE.into()),
    }
    Ok(())
}

fn main() -> ExitCode {
    match run(std::env::args().skip(1)) {
        Ok(()) => ExitCode::SUCCESS,
        Err(why) => {
            eprint!("{why}");
            ExitCode::from(2)
        }
    }
}

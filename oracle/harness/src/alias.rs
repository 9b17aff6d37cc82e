//! The calls of the alias table: each asks the Rust, or the rules where the Rust can't say, and records the answer.
use crate::records::{self, Answer, Call, Sink};
use crate::rules;
use crate::script::Script;
use crate::tree::number_of;
use rand_distr::Distribution;
use rand_distr::weighted::WeightedAliasIndex;

/// The Rust's table of these odds and links, whoever made them.
pub fn table_of(odds: &[u64], links: &[u64], sum: u64) -> WeightedAliasIndex<u64> {
    let n = odds.len() as u64;
    let mut numbers = vec![n];
    numbers.extend_from_slice(links);
    numbers.push(n);
    numbers.extend_from_slice(odds);
    // the ranges of the slot and of the number, and the sum
    numbers.extend([0, n, 0, sum, sum]);
    serde::loaded(&numbers)
}

/// A table with the sum of the weights that it was made from.
#[derive(Clone)]
pub struct Table {
    pub odds: Vec<u64>,
    pub links: Vec<u64>,
    pub sum: u64,
}

impl Table {
    fn of(table: &WeightedAliasIndex<u64>) -> Table {
        let numbers = serde::saved(table);
        let n = numbers[0] as usize;
        Table { links: numbers[1..=n].to_vec(), odds: numbers[n + 2..2 * n + 2].to_vec(), sum: numbers[2 * n + 6] }
    }

    fn lengths(&self) -> [usize; 1] {
        [self.links.len()]
    }

    /// Draws with a pool: the pair is taken from it by the rules, and the words are theirs; the slot is the Rust's.
    pub fn draw(&self, sink: &mut Sink, pool: &[u64]) {
        let call = Call { code: records::ALIAS_DRAW, numbers: &[self.sum], lent: &[&self.odds, &self.links, pool] };
        sink.put(&call, &self.drawn(pool), &[]);
    }

    fn drawn(&self, pool: &[u64]) -> Answer {
        let n = self.odds.len();
        if let Some(refusal) = rules::bad_table(n, &self.lengths()) {
            return Answer::refused(refusal);
        }
        if self.sum == 0 {
            return Answer::refused(3);
        }
        let Some((slot, first)) = rules::number_below(pool, n as u64) else {
            return Answer::refused(12);
        };
        let Some((number, second)) = rules::number_below(&pool[first as usize..], self.sum) else {
            return Answer::refused(12);
        };
        let found = table_of(&self.odds, &self.links, self.sum).sample(&mut Script::pair(slot, number));
        if found < n { Answer::rust(&[found as u64, first + second]) } else { Answer::refused(13) }
    }

    pub fn weights(&self, sink: &mut Sink, output: &[u64]) {
        let n = self.odds.len();
        let mut after = output.to_vec();
        let answer = if let Some(refusal) = rules::bad_table(n, &[self.links.len(), output.len()]) {
            Answer::refused(refusal)
        } else if self.sum == 0 {
            Answer::refused(3)
        } else if rules::damaged_table(&self.odds, &self.links, self.sum) {
            after.fill(0);
            Answer::refused(13)
        } else {
            after = table_of(&self.odds, &self.links, self.sum).weights();
            Answer::rust(&[after.len() as u64])
        };
        let call =
            Call { code: records::ALIAS_WEIGHTS, numbers: &[self.sum], lent: &[&self.odds, &self.links, output] };
        sink.put(&call, &answer, &[&after]);
    }

    /// The Rust has no such call. The sum is the weights' own.
    pub fn check(&self, sink: &mut Sink, weights: &[u64], work: &[u64]) {
        let n = weights.len();
        let mut after = work.to_vec();
        let unequal = rules::bad_table(n, &[self.odds.len(), self.links.len(), work.len()]);
        let answer = if let Some(refusal) = unequal.or_else(|| rules::bad_weights(weights)) {
            Answer::refused(refusal)
        } else {
            let fair = rules::fair(weights, &self.odds, &self.links);
            after = weights.iter().map(|weight| if fair { n as u64 * weight } else { 0 }).collect();
            Answer::rules(&[u64::from(fair)])
        };
        let lent: [&[u64]; 4] = [weights, &self.odds, &self.links, work];
        sink.put(&Call { code: records::ALIAS_CHECK, numbers: &[], lent: &lent }, &answer, &[&after]);
    }
}

/// Makes a table over odds and links that hold something else; answers it where it is not refused.
pub fn make(sink: &mut Sink, weights: &[u64], odds: &[u64], links: &[u64]) -> Option<Table> {
    let unequal = rules::bad_table(weights.len(), &[odds.len(), links.len()]);
    // no weights: the Rust refuses that too
    let (answer, table) = match unequal.filter(|&refusal| refusal != 1) {
        Some(refusal) => (Answer::refused(refusal), None),
        None => match WeightedAliasIndex::new(weights.to_vec()) {
            Ok(table) => {
                let table = Table::of(&table);
                (Answer::rust(&[table.sum]), Some(table))
            }
            Err(error) => (Answer::refused_by_rust(number_of(error)), None),
        },
    };
    let call = Call { code: records::ALIAS_NEW, numbers: &[], lent: &[weights, odds, links] };
    match &table {
        Some(table) => sink.put(&call, &answer, &[&table.odds, &table.links]),
        None => sink.put(&call, &answer, &[odds, links]),
    }
    table
}

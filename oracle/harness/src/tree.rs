//! The calls of the tree: each asks the Rust, or the rules where the Rust can't say, and records the answer.
use crate::records::{self, Answer, Call, Sink};
use crate::rules;
use crate::script::Script;
use rand_distr::weighted::{Error, WeightedTreeIndex};

/// The Rust's tree of these subtotals, sound or not.
pub fn tree_of(cells: &[u64]) -> WeightedTreeIndex<u64> {
    let mut numbers = vec![cells.len() as u64];
    numbers.extend_from_slice(cells);
    serde::loaded(&numbers)
}

/// The subtotals of the Rust's tree.
pub fn cells_of(tree: &WeightedTreeIndex<u64>) -> Vec<u64> {
    serde::saved(tree).split_off(1)
}

/// The number of the Rust's refusal.
pub fn number_of(error: Error) -> u64 {
    match error {
        Error::InvalidInput => 1,
        Error::InvalidWeight => 2,
        Error::InsufficientNonZero => 3,
        Error::Overflow => 4,
    }
}

/// The slot that the Rust's walk finds with a target below the total, or its refusal.
pub fn walked(tree: &WeightedTreeIndex<u64>, target: u64) -> Result<usize, Error> {
    tree.try_sample(&mut Script::target(target))
}

/// A store with the Rust's subtotals in its first cells.
fn overlaid(store: &[u64], tree: &WeightedTreeIndex<u64>) -> Vec<u64> {
    let mut after = cells_of(tree);
    after.extend_from_slice(&store[after.len()..]);
    after
}

/// A lent store and the count of its slots.
#[derive(Clone)]
pub struct Lent {
    pub store: Vec<u64>,
    pub count: u64,
}

impl Lent {
    /// The Rust's tree of the slots, where the count is none that is refused.
    fn tree(&self) -> WeightedTreeIndex<u64> {
        tree_of(&self.store[..self.count as usize])
    }

    pub fn total(&self) -> u64 {
        if rules::bad_count(&self.store, self.count) { 0 } else { rules::cell(&self.store, self.count, 0) }
    }

    fn damaged(&self, path: impl Iterator<Item = u64>) -> bool {
        rules::damaged(&self.store, self.count, path)
    }

    /// Makes a tree; the count is then the one of a call that is not refused.
    pub fn make(&mut self, sink: &mut Sink, weights: &[u64]) -> u64 {
        let before = self.store.clone();
        let answer = if weights.len() as u64 > rules::MOST_SLOTS || weights.len() > self.store.len() {
            Answer::refused(10)
        } else {
            match WeightedTreeIndex::<u64>::new(weights) {
                Ok(tree) => {
                    self.store = overlaid(&before, &tree);
                    self.count = tree.len() as u64;
                    Answer::rust(&[self.count])
                }
                Err(error) => Answer::refused_by_rust(number_of(error)),
            }
        };
        let call = Call { code: records::NEW, numbers: &[], lent: &[&before, weights] };
        sink.put(&call, &answer, &[&self.store]);
        answer.refusal
    }

    fn reads(&self, sink: &mut Sink, code: u64, numbers: &[u64], answer: &Answer) {
        sink.put(&Call { code, numbers, lent: &[&self.store] }, answer, &[]);
    }

    pub fn is_valid(&self, sink: &mut Sink) {
        let answer = if rules::bad_count(&self.store, self.count) {
            Answer::refused(7)
        } else {
            Answer::rust(&[u64::from(self.tree().is_valid())])
        };
        self.reads(sink, records::IS_VALID, &[self.count], &answer);
    }

    /// The Rust has no such check.
    pub fn is_sound(&self, sink: &mut Sink) {
        let answer = if rules::bad_count(&self.store, self.count) {
            Answer::refused(7)
        } else {
            Answer::rules(&[u64::from(!self.damaged(0..self.count))])
        };
        self.reads(sink, records::IS_SOUND, &[self.count], &answer);
    }

    pub fn get(&self, sink: &mut Sink, index: u64) {
        let answer = if rules::bad_count(&self.store, self.count) {
            Answer::refused(7)
        } else if index >= self.count {
            Answer::refused(8)
        } else if !rules::sound(&self.store, self.count, index) {
            Answer::refused(13)
        } else {
            Answer::rust(&[self.tree().get(index as usize)])
        };
        self.reads(sink, records::GET, &[self.count, index], &answer);
    }

    pub fn walk(&self, sink: &mut Sink, target: u64) {
        let answer = self.found(target);
        self.reads(sink, records::WALK, &[self.count, target], &answer);
    }

    /// What a walk answers.
    fn found(&self, target: u64) -> Answer {
        if rules::bad_count(&self.store, self.count) {
            return Answer::refused(7);
        }
        if self.total() > 0 && target >= self.total() {
            return Answer::refused(9);
        }
        if self.total() > 0 && self.damaged(rules::visited(&self.store, self.count, target).into_iter()) {
            return Answer::refused(13);
        }
        match walked(&self.tree(), target) {
            Ok(slot) => Answer::rust(&[slot as u64]),
            Err(error) => Answer::refused_by_rust(number_of(error)),
        }
    }

    /// The target is taken from the pool by the rules, and the words are theirs; the slot is the Rust's.
    pub fn draw(&self, sink: &mut Sink, pool: &[u64]) {
        let answer = if self.total() == 0 {
            self.found(0)
        } else {
            match rules::number_below(pool, self.total()) {
                Some((target, words)) => {
                    let mut answer = self.found(target);
                    answer.values[1] = if answer.refusal == 0 { words } else { 0 };
                    answer
                }
                None => Answer::refused(12),
            }
        };
        let call = Call { code: records::DRAW, numbers: &[self.count], lent: &[&self.store, pool] };
        sink.put(&call, &answer, &[]);
    }

    /// Records a call that may change the store, and leaves the store as it is after it.
    fn changes(&mut self, sink: &mut Sink, code: u64, numbers: &[u64], answer: &Answer, after: Vec<u64>) {
        sink.put(&Call { code, numbers, lent: &[&self.store] }, answer, &[&after]);
        self.store = after;
    }

    pub fn pop(&mut self, sink: &mut Sink) {
        let count = self.count;
        let mut after = self.store.clone();
        let answer = if rules::bad_count(&self.store, count) {
            Answer::refused(7)
        } else if count > 0 && self.damaged(rules::parents(count - 1).chain([count - 1])) {
            Answer::refused(13)
        } else {
            let mut tree = self.tree();
            match tree.pop() {
                Some(weight) => {
                    self.count = tree.len() as u64;
                    after[self.count as usize] = 0;
                    after = overlaid(&after, &tree);
                    Answer::rust(&[weight, self.count])
                }
                None => Answer::refused_by_rust(11),
            }
        };
        self.changes(sink, records::POP, &[count], &answer, after);
    }

    pub fn push(&mut self, sink: &mut Sink, weight: u64) {
        let count = self.count;
        let mut after = self.store.clone();
        let answer = if rules::bad_count(&self.store, count) {
            Answer::refused(7)
        } else if count == rules::MOST_SLOTS || count == self.store.len() as u64 {
            Answer::refused(10)
        } else if self.damaged(rules::parents(count)) {
            Answer::refused(13)
        } else {
            let mut tree = self.tree();
            match tree.push(weight) {
                Ok(()) => {
                    self.count = tree.len() as u64;
                    after = overlaid(&after, &tree);
                    Answer::rust(&[self.count])
                }
                Err(error) => Answer::refused_by_rust(number_of(error)),
            }
        };
        self.changes(sink, records::PUSH, &[count, weight], &answer, after);
    }

    pub fn update(&mut self, sink: &mut Sink, index: u64, weight: u64) {
        let mut after = self.store.clone();
        let answer = if rules::bad_count(&self.store, self.count) {
            Answer::refused(7)
        } else if index >= self.count {
            Answer::refused(8)
        } else if self.damaged(rules::parents(index).chain([index])) {
            Answer::refused(13)
        } else {
            let mut tree = self.tree();
            match tree.update(index as usize, weight) {
                Ok(()) => {
                    after = overlaid(&after, &tree);
                    Answer::rust(&[tree.len() as u64])
                }
                Err(error) => Answer::refused_by_rust(number_of(error)),
            }
        };
        self.changes(sink, records::UPDATE, &[self.count, index, weight], &answer, after);
    }
}

/// A number from words: the rules' own call.
pub fn number_below(sink: &mut Sink, total: u64, pool: &[u64]) {
    let answer = match (total > 0).then(|| rules::number_below(pool, total)).flatten() {
        Some((number, place)) => Answer::rules(&[number, place]),
        None => Answer::refused(12),
    };
    let call = Call { code: records::NUMBER_BELOW, numbers: &[total], lent: &[pool] };
    sink.put(&call, &answer, &[]);
}

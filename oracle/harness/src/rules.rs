//! What the rules say where the Rust can't: counts, lengths, words, damage, and the calls that it lacks. Written from
//! docs/RULES.md, in its words; nothing here is taken from the port.

pub const MOST_SLOTS: u64 = 4096;
pub const MOST_TRIALS: u64 = 1_048_576;
pub const TABLE: usize = 257;

// ---- words into numbers

/// How many words at the end are not accepted: 2^64 mod T, for T above 0.
pub fn spill(total: u64) -> u64 {
    ((1u128 << 64) % u128::from(total)) as u64
}

/// The number that a pool gives below a total above 0, and the place of its word, counted from one.
pub fn number_below(pool: &[u64], total: u64) -> Option<(u64, u64)> {
    let accepted = |word: u64| u128::from(word) < (1u128 << 64) - u128::from(spill(total));
    let at = pool.iter().position(|&word| accepted(word))?;
    Some((pool[at] % total, at as u64 + 1))
}

/// The unit of a word: its top 52 bits over 2^52.
pub fn unit(word: u64) -> f64 {
    (word >> 12) as f64 / 4_503_599_627_370_496.0
}

// ---- the tree

/// Refusal 7.
pub fn bad_count(store: &[u64], count: u64) -> bool {
    count > MOST_SLOTS || count > store.len() as u64
}

/// A cell at or beyond the count reads 0.
pub fn cell(store: &[u64], count: u64, at: u64) -> u64 {
    if at < count { store[at as usize] } else { 0 }
}

pub fn sound(store: &[u64], count: u64, at: u64) -> bool {
    let read = |at| u128::from(cell(store, count, at));
    read(at) >= read(2 * at + 1) + read(2 * at + 2)
}

/// The parents of a cell up to cell 0.
pub fn parents(at: u64) -> impl Iterator<Item = u64> {
    std::iter::successors(Some(at), |&at| at.checked_sub(1).map(|below| below / 2)).skip(1)
}

/// Whether some cell of a path is unsound.
pub fn damaged(store: &[u64], count: u64, mut path: impl Iterator<Item = u64>) -> bool {
    path.any(|at| !sound(store, count, at))
}

/// The cells that a walk visits.
pub fn visited(store: &[u64], count: u64, mut target: u64) -> Vec<u64> {
    let mut cells = vec![0];
    let mut at = 0;
    loop {
        let (left, right) = (cell(store, count, 2 * at + 1), cell(store, count, 2 * at + 2));
        if target < left {
            at = 2 * at + 1;
        } else if target - left < right {
            target -= left;
            at = 2 * at + 2;
        } else {
            return cells;
        }
        cells.push(at);
    }
}

// ---- the alias table

/// Refusals 1, 10 and 14, in this order, for a table of n slots and the lengths of what is lent beside it.
pub fn bad_table(n: usize, lengths: &[usize]) -> Option<u64> {
    if n == 0 {
        Some(1)
    } else if n as u64 > MOST_SLOTS {
        Some(10)
    } else if lengths.iter().any(|&length| length != n) {
        Some(14)
    } else {
        None
    }
}

/// Refusals 2 and 3 of weights that are neither none nor too many.
pub fn bad_weights(weights: &[u64]) -> Option<u64> {
    let most = u64::MAX / weights.len() as u64;
    if weights.iter().any(|&weight| weight > most) {
        Some(2)
    } else if weights.iter().all(|&weight| weight == 0) {
        Some(3)
    } else {
        None
    }
}

/// Whether `weights` finds a table damaged: a followed link of n or more, or a sum past u64.
pub fn damaged_table(odds: &[u64], links: &[u64], sum: u64) -> bool {
    let mut sums: Vec<u128> = odds.iter().map(|&odd| u128::from(odd)).collect();
    for (&odd, &link) in odds.iter().zip(links) {
        if odd < sum {
            match sums.get_mut(link as usize) {
                Some(total) => *total += u128::from(sum - odd),
                None => return true,
            }
        }
    }
    sums.iter().any(|&total| total > u128::from(u64::MAX))
}

/// What a pair draws.
pub fn pair(odds: &[u64], links: &[u64], slot: usize, number: u64) -> u64 {
    if number < odds[slot] { slot as u64 } else { links[slot] }
}

/// Whether, of the n times S pairs, exactly n times weight i draw i, for every i below n.
pub fn fair(weights: &[u64], odds: &[u64], links: &[u64]) -> bool {
    let n = weights.len() as u128;
    let sum: u128 = weights.iter().map(|&weight| u128::from(weight)).sum();
    let wanted = weights.iter().map(|&weight| n * u128::from(weight));
    let pairs = if n * sum <= 256 { counted(odds, links, sum as u64) } else { summed(odds, links, sum) };
    wanted.eq(pairs)
}

/// The pairs of each index, counted one by one.
pub fn counted(odds: &[u64], links: &[u64], sum: u64) -> Vec<u128> {
    let mut pairs = vec![0; odds.len()];
    for slot in 0..odds.len() {
        for number in 0..sum {
            if let Some(count) = pairs.get_mut(pair(odds, links, slot, number) as usize) {
                *count += 1;
            }
        }
    }
    pairs
}

/// The same by what each slot keeps and what it gives away.
pub fn summed(odds: &[u64], links: &[u64], sum: u128) -> Vec<u128> {
    let mut pairs = vec![0; odds.len()];
    for slot in 0..odds.len() {
        let kept = sum.min(u128::from(odds[slot]));
        pairs[slot] += kept;
        if let Some(count) = pairs.get_mut(links[slot] as usize) {
            *count += sum - kept;
        }
    }
    pairs
}

// ---- BINV

/// q to the power n: from the lowest bit of n up, multiplied where the bit is set, the power squared after each.
pub fn power(q: f64, n: u64) -> f64 {
    let (mut result, mut power, mut rest) = (1.0, q, n);
    while rest > 0 {
        if rest & 1 == 1 {
            result *= power;
        }
        power *= power;
        rest >>= 1;
    }
    result
}

//! The recorded calls of the repository (`docs/VECTORS.md`), replayed through the safe types: each answer, and every cell
//! that a call may change.

use slot_draw::{number_below, AliasTable, Binomial, Error, Round, Tree, Ziggurat};

/// The call of a record, and its eight lists: handed in, four lent, the answer, two left.
struct Record {
    call: u64,
    lists: Vec<Vec<u64>>,
}

fn records() -> Vec<Record> {
    let path = concat!(env!("CARGO_MANIFEST_DIR"), "/../crates/compare/stdin");
    let bytes = std::fs::read(path).expect("the recorded calls");
    let number = |bytes: &[u8]| bytes.iter().fold(0, |n, &byte| (n << 8) | u64::from(byte));
    let mut rest = bytes.as_slice();
    let mut records = Vec::new();
    while let [width, a, b, c, behind @ ..] = rest {
        let (record, behind) = behind.split_at(number(&[*a, *b, *c]) as usize);
        rest = behind;
        let mut whole = record.chunks_exact((*width).into()).map(number);
        let call = whole.next().unwrap();
        whole.next().expect("the origin");
        let mut list = || {
            let length = whole.next().expect("a length");
            whole.by_ref().take(length as usize).collect::<Vec<_>>()
        };
        let lists = (0..8).map(|_| list()).collect();
        records.push(Record { call, lists });
    }
    assert!(rest.is_empty(), "the last record is cut off");
    records
}

fn told(answer: Result<[u64; 2], Error>) -> Vec<u64> {
    match answer {
        Ok([first, second]) => vec![0, first, second],
        Err(error) => vec![error.number().into(), 0, 0],
    }
}

fn tree(r: &Record) -> Vec<u64> {
    let (given, second) = (&r.lists[0], &r.lists[2]);
    let mut store = r.lists[1].clone();
    if r.call == 1 {
        let made = Tree::new(&mut store, second).map(|tree| [tree.len() as u64, 0]);
        assert_eq!(store, r.lists[6]);
        return told(made);
    }
    let mut tree = Tree::from_parts(&mut store, given[0] as usize);
    let first = given.get(1).copied().unwrap_or(0);
    let answer = match r.call {
        2 => tree.is_valid().map(|yes| [yes.into(), 0]),
        3 => tree.get(first as usize).map(|weight| [weight, 0]),
        4 => tree.pop().map(|weight| [weight, tree.len() as u64]),
        5 => tree.push(first).map(|()| [tree.len() as u64, 0]),
        6 => tree
            .update(first as usize, given[2])
            .map(|()| [tree.len() as u64, 0]),
        7 => tree.walk(first).map(|index| [index as u64, 0]),
        8 => tree
            .draw(second)
            .map(|drawn| [drawn.index as u64, drawn.words as u64]),
        _ => tree.is_sound().map(|yes| [yes.into(), 0]),
    };
    let left = if (4..=6).contains(&r.call) {
        &r.lists[6]
    } else {
        &r.lists[1]
    };
    assert_eq!(&store, left);
    told(answer)
}

fn alias(r: &Record) -> Vec<u64> {
    let l = &r.lists[1..5];
    let links = |list: &[u64]| list.iter().map(|&link| link as u32).collect::<Vec<_>>();
    match r.call {
        11 => {
            let (mut odds, mut links) = (l[1].clone(), links(&l[2]));
            let made = AliasTable::new(&l[0], &mut odds, &mut links).map(|table| [table.sum(), 0]);
            assert_eq!(odds, r.lists[6]);
            assert!(links
                .iter()
                .map(|&link| u64::from(link))
                .eq(r.lists[7].iter().copied()));
            told(made)
        }
        12 => {
            let links = links(&l[1]);
            let table = AliasTable::from_parts(&l[0], &links, r.lists[0][0]);
            told(
                table
                    .draw(&l[2])
                    .map(|drawn| [drawn.index as u64, drawn.words as u64]),
            )
        }
        13 => {
            let (links, mut output) = (links(&l[1]), l[2].clone());
            let shown = AliasTable::from_parts(&l[0], &links, r.lists[0][0]).weights(&mut output);
            assert_eq!(output, r.lists[6]);
            told(shown.map(|count| [count as u64, 0]))
        }
        _ => {
            let (links, mut work) = (links(&l[2]), l[3].clone());
            let said = AliasTable::from_parts(&l[1], &links, 0).check(&l[0], &mut work);
            assert_eq!(work, r.lists[6]);
            told(said.map(|yes| [yes.into(), 0]))
        }
    }
}

fn binomial(r: &Record) -> Vec<u64> {
    let given = &r.lists[0];
    if r.call == 15 {
        // a setup keeps its numbers to itself: what it answers are those that it is made of again
        let expected = &r.lists[5];
        let [r, s, a] = [3, 4, 5].map(|i| f64::from_bits(expected[i]));
        let again = match expected[1] {
            0 => Binomial::constant(expected[2]),
            _ => Binomial::from_binv(r, s, a, expected[2], expected[6] != 0),
        };
        return match Binomial::new(given[0], f64::from_bits(given[1])) {
            Ok(setup) if setup == again => expected.clone(),
            Ok(setup) => panic!("{setup:?} is not {again:?}"),
            Err(error) => vec![error.number().into(), 0, 0, 0, 0, 0, 0],
        };
    }
    let [r_, s, a] = [2, 3, 4].map(|i| f64::from_bits(given[i]));
    let setup = match given[0] {
        0 => Binomial::constant(given[1]),
        _ => Binomial::from_binv(r_, s, a, given[1], given[5] != 0),
    };
    told(
        setup
            .draw(&r.lists[1])
            .map(|successes| [successes.count, successes.words as u64]),
    )
}

fn ziggurat(r: &Record) -> Vec<u64> {
    let floats = |list: &[u64]| {
        list.iter()
            .map(|&bits| f64::from_bits(bits))
            .collect::<Vec<_>>()
    };
    let (edges, densities) = (floats(&r.lists[1]), floats(&r.lists[2]));
    let ziggurat = match r.lists[0][0] {
        0 => Ziggurat::one_sided(&edges, &densities),
        _ => Ziggurat::symmetric(&edges, &densities),
    };
    match ziggurat.round(&r.lists[3]) {
        Err(error) => vec![error.number().into(), 0, 0, 0, 0],
        Ok(rounded) => {
            let [kind, first, second] = match rounded.round {
                Round::Sample { x } => [1, x.to_bits(), 0],
                Round::Tail { u } => [2, u.to_bits(), 0],
                Round::Wedge { x, height } => [3, x.to_bits(), height.to_bits()],
            };
            vec![0, kind, first, second, rounded.words as u64]
        }
    }
}

#[test]
fn every_record_agrees() {
    let mut called = [0; 18];
    for (at, r) in records().iter().enumerate() {
        let answer = match r.call {
            1..=9 => tree(r),
            10 => told(number_below(&r.lists[1], r.lists[0][0]).map(|n| [n.value, n.words as u64])),
            11..=14 => alias(r),
            15 | 16 => binomial(r),
            17 => ziggurat(r),
            call => panic!("no call has the code {call}"),
        };
        assert_eq!(answer, r.lists[5], "record {} of call {}", at + 1, r.call);
        called[r.call as usize] += 1;
    }
    assert!(called[1..].iter().all(|&count| count > 0), "{called:?}");
    println!("{} records agree", called.iter().sum::<usize>());
}

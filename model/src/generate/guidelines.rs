//! Guidelines, valid or with counts and numbers one too many and heads unbound.

use super::{Counts, Rng};

pub(super) type Record = [u8; 16];

/// Bytes 0 to 3 and the two numbers after them.
pub(super) fn record(small: [u8; 4], numbers: [u32; 2]) -> Record {
    let mut record = [0; 16];
    record[..4].copy_from_slice(&small);
    record[4..8].copy_from_slice(&numbers[0].to_le_bytes());
    record[8..12].copy_from_slice(&numbers[1].to_le_bytes());
    record
}

/// A guideline for a script with this many functions.
pub fn guideline(rng: &mut Rng, functions: usize, counts: Counts) -> Vec<u8> {
    let (mut out, atoms, variables): (_, _, &[u8]) = if rng.one_in(12) {
        let closed = if rng.one_in(2) { closure() } else { vec![] };
        ([graph(rng), closed].concat(), 2, &[0, 1, 2])
    } else {
        (facts(rng, counts), 4, &[0, 1, 2, 3])
    };
    for _ in 0..rng.below(6) {
        out.extend(rule(rng, atoms, variables, counts));
    }
    if functions > 0 {
        let most = rng.pick(&[0, 1, 2, 4]);
        let kinds: &[u8] = rng.pick(&[&[6, 7, 7, 8, 8], &[6, 7, 8, 9, 9]]);
        for _ in 0..count(rng, 8, counts) {
            let triggers = count(rng, most, counts);
            out.extend(clause(rng, functions, triggers, kinds, counts));
        }
    }
    // A fact may be repeated, up to 256 records in all.
    if out.first().is_some_and(|record| record[0] == 1) && rng.one_in(12) {
        let all = 256 + usize::from(counts == Counts::OneTooMany);
        out.splice(0..0, vec![out[0]; all - out.len()]);
    }
    out.concat()
}

/// A count up to `most`, at times `most` itself or one more.
fn count(rng: &mut Rng, most: usize, counts: Counts) -> usize {
    match rng.below(10) {
        0 if counts == Counts::OneTooMany => most + 1,
        0 | 1 => most,
        _ => rng.below(most.min(3) + 1),
    }
}

fn predicate(rng: &mut Rng) -> u8 {
    rng.pick(&[0, 0, 0, 1, 1, 2, 15])
}

/// Over few values, which scripts are likely to use, or over as many as there may be.
fn facts(rng: &mut Rng, counts: Counts) -> Vec<Record> {
    if rng.one_in(8) {
        let values: Vec<u32> = (0..64 + u32::from(counts == Counts::OneTooMany)).collect();
        let pairs = values.chunks(2).map(|pair| [pair[0], pair[pair.len() - 1]]);
        return pairs.map(|pair| record([1, predicate(rng), 3, 3], pair)).collect();
    }
    let fact = |rng: &mut Rng| {
        let kinds = [0; 2].map(|_| rng.pick(&[2, 3, 3, 3, 4]));
        let numbers = [0; 2].map(|_| rng.below(6) as u32);
        record([1, predicate(rng), kinds[0], kinds[1]], numbers)
    };
    (0..rng.pick(&[0, 4, 8, 16, 40])).map(|_| fact(rng)).collect()
}

/// Facts among up to 64 values, so many that rules derive most of the others; rules for them have
/// few variables, or else the plain joins take too long.
fn graph(rng: &mut Rng) -> Vec<Record> {
    let values = 2 + rng.below(63);
    let fact = |rng: &mut Rng| {
        let [a, b] = [0; 2].map(|_| rng.below(values) as u32);
        let [k, l] = [a, b].map(|value| 2 + (value % 3) as u8);
        record([1, rng.pick(&[0, 0, 1]), k, l], [a / 3, b / 3])
    };
    (0..values + rng.below(values)).map(|_| fact(rng)).collect()
}

/// Predicate 1 of all values that predicate 0 leads to by some steps and 1 by the last.
pub(super) fn closure() -> Vec<Record> {
    [[2, 1, 0, 2], [3, 0, 0, 1], [3, 1, 1, 2]].map(|small| record(small, [0, 0])).into()
}

/// A head and its atoms.
fn rule(rng: &mut Rng, most: usize, variables: &[u8], counts: Counts) -> Vec<Record> {
    let atom = |rng: &mut Rng, kind: u8, variables: &[u8]| {
        let places = [0; 2].map(|_| rng.pick(variables));
        record([kind, predicate(rng), places[0], places[1]], [0, 0])
    };
    let atoms = count(rng, most, counts).max(1);
    let mut rule: Vec<Record> = (0..atoms).map(|_| atom(rng, 3, variables)).collect();
    let mut variables: Vec<u8> = rule.iter().flat_map(|atom| [atom[2], atom[3]]).collect();
    if counts == Counts::OneTooMany && rng.one_in(8) {
        variables = vec![0, 1, 2, 3];
    }
    rule.insert(0, atom(rng, 2, &variables));
    rule
}

/// A head, its triggers and its conditions of these kinds.
fn clause(
    rng: &mut Rng,
    functions: usize,
    triggers: usize,
    kinds: &[u8],
    counts: Counts,
) -> Vec<Record> {
    let above = |rng: &mut Rng| usize::from(counts == Counts::OneTooMany && rng.one_in(12));
    let name = |rng: &mut Rng, kind: u8, i: u8| {
        let any = functions + above(rng);
        record([kind, 0, i, 0], [rng.below(any) as u32, 0])
    };
    let mut clause = vec![name(rng, 4, 0)];
    clause.extend((0..triggers).map(|_| name(rng, 5, 0)));
    for _ in 0..rng.pick(&[0, 0, 1, 2, 3, 6]) {
        let any = (triggers + above(rng)).min(4) + 1;
        let [i, j] = [0; 2].map(|_| rng.below(any) as u8);
        clause.push(match rng.pick(kinds) {
            6 => record([6, 0, i, j], [0, 0]),
            7 => record([7, predicate(rng), i, j], [0, 0]),
            8 => record([8, rng.below(2) as u8, i, j], [0, 0]),
            _ => name(rng, 9, i),
        });
    }
    clause
}

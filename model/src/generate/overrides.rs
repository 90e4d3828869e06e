//! Shows in which overrides are taken back: short ones that override, cancel and fire in any order,
//! and shows of which rewriting writes as many records as it can; and damaged conditions of kind 9.

use super::guidelines::record;
use super::histories::{guideline, Show};
use super::{of_kind, place, renumber, Rng};
use crate::script::push;

/// A valid script without commands and a valid guideline for it, most of whose conditions are of
/// kind 9.
pub fn overrides(rng: &mut Rng) -> (Vec<u8>, Vec<u8>) {
    let mut show = Show::new(rng);
    let functions = if show.rng.one_in(6) { show.turns().0 } else { cues(&mut show) };
    let Show { rng, values, out, .. } = show;
    let triggers: &[u8] = &[1, 1, 1, 2, 2, 3, 4];
    let kinds: &[u8] = &[6, 7, 8, 9, 9, 9, 9, 9];
    (out, guideline(rng, functions, &values, [triggers, kinds]))
}

/// A few functions, which main calls in any order; returns how many.
fn cues(show: &mut Show) -> usize {
    let functions = 2 + show.rng.below(5);
    show.definitions(functions);
    let length = 3 + show.rng.below(16);
    let calls: Vec<usize> = (0..length).map(|_| show.rng.below(functions)).collect();
    show.sequence(&calls, 0);
    functions
}

/// A valid script of 128 definitions and 1,024 records, or a few less, and a valid guideline that
/// logs eight functions and names all others: "a rewritten script has up to 1,296 records".
pub fn widest(rng: &mut Rng) -> (Vec<u8>, Vec<u8>) {
    let mut functions: Vec<usize> = (0..128).collect();
    for last in (1..128).rev() {
        functions.swap(last, rng.below(last + 1));
    }
    // Main calls two that are logged and two others.
    let called = &functions[6..10];
    let mut show = Show::new(rng);
    for number in 0..128 {
        push(&mut show.out, 8, number);
        show.leaf(1);
    }
    // An arm that is not taken has the records that are missing.
    push(&mut show.out, 10, 0);
    push(&mut show.out, 3, 0);
    let length = 2 + show.rng.below(12);
    let calls: Vec<usize> = (0..length).map(|_| show.rng.pick(called)).collect();
    show.sequence(&calls, 0);
    let records = show.rng.pick(&[1_022, 1_023, 1_024, 1_024, 1_024, 1_024]);
    for _ in show.out.len() / 8..records - 1 {
        push(&mut show.out, 4, 0);
    }
    push(&mut show.out, 3, 0);
    let Show { rng, out, .. } = show;
    (out, watching(rng, &functions, called))
}

/// Eight clauses for the first functions; conditions of kind 9 name the others, all in the last
/// clause or in any.
fn watching(rng: &mut Rng, functions: &[usize], called: &[usize]) -> Vec<u8> {
    let name =
        |kind: u8, i: usize, function: usize| record([kind, 0, i as u8, 0], [function as u32, 0]);
    let mut clauses: Vec<_> = functions[..8].iter().map(|head| vec![name(4, 0, *head)]).collect();
    for clause in &mut clauses {
        for _ in 0..rng.pick(&[0, 1, 1, 2]) {
            clause.push(name(5, 0, rng.pick(called)));
        }
    }
    let triggers: Vec<usize> = clauses.iter().map(|clause| clause.len() - 1).collect();
    let first = rng.pick(&[0, 7]);
    for h in &functions[8..] {
        let clause = first + rng.below(8 - first);
        let i = rng.below(triggers[clause] + 1);
        clauses[clause].push(name(9, i, *h));
    }
    clauses.concat().concat()
}

/// Damages one condition of kind 9: its kind, a byte that must be zero, i, h or place. Makes one of
/// another record at times, or where there is none.
pub fn damage_cancel(rng: &mut Rng, guideline: &mut Vec<u8>) {
    let cancel = record([9, 0, rng.below(3) as u8, 0], [rng.below(3) as u32, 0]);
    if guideline.len() < 16 {
        return guideline.extend(cancel);
    }
    let any = place(rng, guideline, 16);
    let found = of_kind(rng, guideline, 16, 9);
    let at = found.unwrap_or(any);
    match if found.is_none() { 0 } else { rng.below(9) } {
        0 => guideline[any] = 9,
        1 => guideline[at] = rng.below(12) as u8,
        2 | 3 => {
            let zero = at + rng.pick(&[1, 3, 8, 9, 10, 11, 12, 13, 14, 15]);
            guideline[zero] = rng.pick(&[1, 255]);
        }
        4 => guideline[at + 2] = rng.pick(&[0, 1, 2, 3, 4, 5, 6, 255]),
        5 => {
            // More than one function that is not defined tells in which order they are tested.
            renumber(rng, &mut guideline[at..at + 16], 16);
            (0..rng.below(3)).for_each(|_| renumber(rng, guideline, 16));
        }
        6 => (0..16).for_each(|byte| guideline.swap(at + byte, any + byte)),
        7 => drop(guideline.splice(at + 16..at + 16, record([5, 0, 0, 0], [0, 0]))),
        _ => {
            let all: usize = rng.pick(&[256, 257]);
            let more = guideline[at..at + 16].repeat(all.saturating_sub(guideline.len() / 16));
            drop(guideline.splice(at..at, more));
        }
    }
}

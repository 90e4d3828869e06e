//! Rewritten scripts made by hand: commands that no guideline calls for, and damaged ones.

use super::Rng;
use crate::script::push;

/// Gives some definitions callEvent, or callEvent and emit, whatever a guideline says.
pub fn commands(rng: &mut Rng, script: &[u8]) -> Vec<u8> {
    let rare = rng.pick(&[1, 1, 2, 8]);
    let mut out = Vec::new();
    for record in script.chunks(8) {
        out.extend(record);
        if record[0] == 8 && rng.one_in(rare) {
            let function = u32::from_le_bytes([record[4], record[5], record[6], record[7]]);
            for kind in rng.pick(&[&[6][..], &[6, 7]]) {
                push(&mut out, *kind, function);
                push(&mut out, 1, 0);
            }
        }
    }
    out
}

/// Damages one command: its kind, function, argument or place; adds one where there is none.
pub fn damage_command(rng: &mut Rng, script: &mut Vec<u8>) {
    let commands: Vec<usize> =
        (0..script.len()).step_by(8).filter(|&at| matches!(script[at], 6 | 7)).collect();
    let form = if commands.is_empty() { 6 } else { rng.below(8) };
    let at = if commands.is_empty() { 0 } else { rng.pick(&commands) };
    match form {
        0 => script[at] = 13 - script[at],
        1 => {
            let function = rng.pick(&[0, 1, 2, 500, u32::MAX]);
            script[at + 4..at + 8].copy_from_slice(&function.to_le_bytes());
        }
        2 => drop(script.splice(at + 8..at + 16, argument(rng))),
        3 => drop(script.drain(at..at + 16)),
        4 => {
            let twice = script[at..at + 16].to_vec();
            drop(script.splice(at..at, twice));
        }
        5 => {
            // Into the term that it stood before, where that is a sum or a branch.
            let end = script.len().min(at + 24);
            script[at..end].rotate_right(8);
        }
        _ => {
            // One more before any record, most often where a term begins.
            let mut command = Vec::new();
            push(&mut command, rng.pick(&[6, 7]), rng.below(3) as u32);
            command.extend(argument(rng));
            let place = 8 * rng.below(script.len() / 8);
            drop(script.splice(place..place, command));
        }
    }
}

/// Variable 0 or a term that a command must not have as its argument.
fn argument(rng: &mut Rng) -> Vec<u8> {
    let terms: [&[(u8, u32)]; 10] = [
        &[(1, 0)],
        &[(1, 1)],
        &[(2, 0)],
        &[(3, 0)],
        &[(4, 0), (1, 0)],
        &[(5, 0), (1, 0), (1, 0)],
        &[(6, 0), (1, 0), (1, 0)],
        &[(7, 0), (1, 0), (3, 1)],
        &[(9, 0), (1, 0), (1, 0)],
        &[(10, 0), (1, 0), (1, 0), (3, 1)],
    ];
    let mut out = Vec::new();
    for &(kind, number) in rng.pick(&terms) {
        push(&mut out, kind, number);
    }
    out
}

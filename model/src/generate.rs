//! Seeded cases: valid scripts and guidelines, rewritten scripts and scripts with other commands,
//! damaged files, long histories, overrides taken back, budgets and lengths of buffers. The same
//! seed gives the same case.

mod commands;
mod guidelines;
mod histories;
mod overrides;
mod scripts;

pub use commands::{commands, damage_command};
pub use guidelines::guideline;
pub use histories::{affordable, history};
pub use overrides::{damage_cancel, overrides, widest};
pub use scripts::script;

use crate::{rewrite, BUDGET, EXPRESSION, HISTORY, LOG, REWRITTEN, SCRATCH, TABLE};
use std::collections::BTreeSet;

/// Random numbers by SplitMix64.
pub struct Rng(pub u64);

impl Rng {
    pub fn word(&mut self) -> u64 {
        self.0 = self.0.wrapping_add(0x9e37_79b9_7f4a_7c15);
        let z = (self.0 ^ (self.0 >> 30)).wrapping_mul(0xbf58_476d_1ce4_e5b9);
        let z = (z ^ (z >> 27)).wrapping_mul(0x94d0_49bb_1331_11eb);
        z ^ (z >> 31)
    }

    pub fn below(&mut self, count: usize) -> usize {
        (self.word() % count as u64) as usize
    }

    pub fn one_in(&mut self, count: usize) -> bool {
        self.below(count) == 0
    }

    pub fn pick<T: Copy>(&mut self, from: &[T]) -> T {
        from[self.below(from.len())]
    }

    pub fn bytes(&mut self, count: usize) -> Vec<u8> {
        (0..count).map(|_| self.word() as u8).collect()
    }
}

/// Whether the counts of a file keep to their limits.
#[derive(Clone, Copy, PartialEq)]
pub enum Counts {
    Valid,
    OneTooMany,
}

/// What the entries are given; the last six are lengths of lent buffers.
pub struct Case {
    pub script: Vec<u8>,
    pub guideline: Vec<u8>,
    pub budget: u64,
    /// A budget with which the words of demand 3 can be tested, every choice of triggers to its
    /// end: the same or a smaller one.
    pub demand: u64,
    pub out: usize,
    pub expression: usize,
    pub scratch: usize,
    pub history: usize,
    pub log: usize,
    pub table: usize,
}

impl Case {
    /// A script as it is, rewritten under its guideline, an earlier or another one, with commands
    /// made by hand, bad or with a bad guideline.
    pub fn new(seed: u64) -> Case {
        let rng = &mut Rng(seed);
        let (mut script, mut guideline) = files(rng);
        let needed = rewritten(&script, &guideline).len();
        let form = rng.below(24);
        match form {
            0..=3 | 8 | 11 | 18 | 22 => script = rewritten(&script, &guideline),
            13 => script = rewritten(&script, &without_cancels(&guideline)),
            4 => {
                let other = self::guideline(rng, functions(&script), Counts::Valid);
                script = rewritten(&script, &other);
            }
            5 | 19 => script = self::script(rng, Counts::OneTooMany),
            _ => {}
        }
        match form {
            6 => damage(rng, &mut script, 8),
            // More than one fault tells in which order they are tested.
            7 | 8 => (0..rng.pick(&[1, 2, 3])).for_each(|_| damage(rng, &mut script, 8)),
            20 => (0..3).for_each(|_| renumber(rng, &mut script, 8)),
            9 => guideline = self::guideline(rng, functions(&script), Counts::OneTooMany),
            10 | 11 => damage(rng, &mut guideline, 16),
            21 => (0..rng.pick(&[2, 3])).for_each(|_| damage(rng, &mut guideline, 16)),
            22 | 23 => (0..rng.pick(&[1, 1, 2])).for_each(|_| damage_cancel(rng, &mut guideline)),
            16 | 17 | 19 => script = commands(rng, &script),
            _ => {}
        }
        match form {
            17 | 18 => damage_command(rng, &mut script),
            7 if rng.one_in(2) => damage(rng, &mut guideline, 16),
            12 if rng.one_in(8) => script = noise(rng, 8),
            12 if rng.one_in(8) => guideline = noise(rng, 16),
            _ => {}
        }
        let budget = budget(rng, &script, &guideline);
        Case::lent(rng, needed, script, guideline, budget, budget)
    }

    /// A show with a long history: as it is, rewritten, or with commands made by hand.
    pub fn long(seed: u64) -> Case {
        let rng = &mut Rng(seed);
        let (mut script, guideline, steps) = history(rng);
        let mut written = rewritten(&script, &guideline);
        let needed = written.len();
        let by_hand = commands(rng, &script);
        let form = rng.below(8);
        if form == 0 && by_hand != script {
            written = by_hand;
        }
        let within = |steps: u64, early: bool| {
            affordable([&script, &written], &guideline, [steps, 1_000_000], early)
        };
        let budget = within(steps, true);
        let demand = within(budget.min(20_000), false);
        if form < 2 {
            script = written;
        }
        Case::lent(rng, needed, script, guideline, budget, demand)
    }

    fn lent(
        rng: &mut Rng,
        needed: usize,
        script: Vec<u8>,
        guideline: Vec<u8>,
        budget: u64,
        demand: u64,
    ) -> Case {
        Case {
            script,
            guideline,
            budget,
            demand,
            out: length(rng, needed),
            expression: length(rng, EXPRESSION),
            scratch: length(rng, SCRATCH),
            history: length(rng, HISTORY),
            log: length(rng, LOG),
            table: length(rng, TABLE),
        }
    }
}

/// A valid script without commands and a valid guideline for it.
pub fn files(rng: &mut Rng) -> (Vec<u8>, Vec<u8>) {
    match rng.below(40) {
        0 | 1 => widest(rng),
        2..=12 => overrides(rng),
        _ => {
            let script = script(rng, Counts::Valid);
            let guideline = guideline(rng, functions(&script), Counts::Valid);
            (script, guideline)
        }
    }
}

/// The guideline without its conditions of kind 9: the commands that it asks for lack those of
/// functions that only these name.
fn without_cancels(guideline: &[u8]) -> Vec<u8> {
    guideline.chunks(16).filter(|record| record[0] != 9).flatten().copied().collect()
}

fn functions(script: &[u8]) -> usize {
    script.chunks(8).filter(|record| record[0] == 8).count()
}

fn rewritten(script: &[u8], guideline: &[u8]) -> Vec<u8> {
    let mut out = vec![0; REWRITTEN];
    let (_, count) = rewrite(script, guideline, &mut out);
    out.truncate(8 * count as usize);
    out
}

/// Small ones, some long enough for a full history, and those at the limit; none that would keep
/// the plain search for triggers or steps on long terms busy for long.
pub fn budget(rng: &mut Rng, script: &[u8], guideline: &[u8]) -> u64 {
    let kinds: Vec<u8> = guideline.chunks(16).map(|record| record[0]).collect();
    let most = |kind: u8| kinds.split(|other| *other != kind).map(<[u8]>::len).max().unwrap_or(0);
    // Each condition of kind 9 walks through the history for each choice.
    let searches = match most(9) {
        0 => [BUDGET, BUDGET, 300, 60, 30],
        1..=10 => [BUDGET, 4_000, 200, 50, 30],
        _ => [BUDGET, 100, 50, 30, 30],
    };
    let search = searches[most(5).min(4)];
    let steps = if script.len() > 8 * 64 { 4_000 } else { BUDGET };
    let most = search.min(steps);
    match rng.below(12) {
        0 => rng.below(4) as u64,
        1..=6 => most.min(rng.below(60) as u64),
        7..=10 => most.min(1_000 + rng.below(4_000) as u64),
        _ => rng.pick(&[most, BUDGET + 1, u32::MAX.into()]),
    }
}

/// The length of a lent buffer that needs `size` bytes: enough for the most part.
fn length(rng: &mut Rng, size: usize) -> usize {
    match rng.below(60) {
        0 => size.saturating_sub(1),
        1 => rng.below(size + 1),
        2..=30 => size,
        _ => size + rng.below(100),
    }
}

/// The offset of a record, all kinds in the file alike; it has one record at least.
fn place(rng: &mut Rng, file: &[u8], size: usize) -> usize {
    let kinds: BTreeSet<u8> = file.chunks_exact(size).map(|record| record[0]).collect();
    let kind = rng.pick(&Vec::from_iter(kinds));
    of_kind(rng, file, size, kind).unwrap()
}

fn of_kind(rng: &mut Rng, file: &[u8], size: usize, kind: u8) -> Option<usize> {
    let offsets = (0..file.len() / size).map(|record| record * size);
    let found: Vec<usize> = offsets.filter(|at| file[*at] == kind).collect();
    (!found.is_empty()).then(|| rng.pick(&found))
}

/// A file of noise, or a long one of records of any kinds and else zero.
fn noise(rng: &mut Rng, size: usize) -> Vec<u8> {
    if rng.one_in(2) {
        let length = rng.below(20 * size);
        return rng.bytes(length);
    }
    let mut file = vec![0; size * (1 + rng.below(20_000))];
    let all = [1, 2, 3, 4, 5, 6, 7, 8, 9, 10];
    let kinds = rng.pick(&[&[4, 5][..], &[9, 10], &[1, 4, 5, 6], &[3, 3, 9, 10], &all]);
    file.chunks_mut(size).for_each(|record| record[0] = rng.pick(kinds));
    file
}

/// Gives a record another number, one at the edges of ranges.
fn renumber(rng: &mut Rng, file: &mut [u8], size: usize) {
    let at = place(rng, file, size);
    let edges = [0, 1, 2, 3, 5, 127, 128, 1_023, 1_024, 65_535, 65_536, u32::MAX];
    file[at + 4..at + 8].copy_from_slice(&rng.pick(&edges).to_le_bytes());
}

/// Damages a file of records of `size` bytes in one of many ways; it may stay valid.
pub fn damage(rng: &mut Rng, file: &mut Vec<u8>, size: usize) {
    let count = file.len() / size;
    if count == 0 {
        return file.extend(rng.bytes(size));
    }
    let at = place(rng, file, size);
    let other = rng.below(count) * size;
    match rng.below(13) {
        0 => {
            let any = rng.below(file.len());
            file[any] = rng.word() as u8;
        }
        1 => file.truncate(rng.below(file.len())),
        2 => (0..size).for_each(|byte| file.swap(at + byte, other + byte)),
        3 => drop(file.drain(at..at + size)),
        4 => {
            let record = file[at..at + size].to_vec();
            file.splice(other..other, record);
        }
        5 => {
            // An abstraction may be repeated until the script is too long.
            let at = of_kind(rng, file, size, 4).unwrap_or(at);
            let edges: &[usize] =
                if size == 8 { &[1_024, 1_025, 1_296, 1_297] } else { &[256, 257] };
            let missing = rng.pick(edges).saturating_sub(count);
            let records = file[at..at + size].repeat(rng.pick(&[1, 4, missing, missing]));
            file.splice(at..at, records);
        }
        6 => file[at] = rng.below(12) as u8,
        7 | 8 => file[at + 1 + rng.below(3)] = rng.below(6) as u8,
        9 | 10 => renumber(rng, file, size),
        11 => file[at + size / 2 + rng.below(size / 2)] = rng.pick(&[1, 255]),
        _ => {
            let more = 1 + rng.below(2 * size);
            file.extend(rng.bytes(more));
        }
    }
}

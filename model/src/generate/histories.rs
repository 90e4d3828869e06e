//! Shows with long histories: scripts that call a few functions many times on few arguments, some
//! with sums and branches between the calls and around them, and guidelines whose clauses have
//! triggers.

use super::guidelines::{closure, record, Record};
use super::Rng;
use crate::demand::calls;
use crate::guideline::{Clause, Condition, Test};
use crate::predicates::Predicates;
use crate::read;
use crate::runs::{choose, Call};
use crate::script::{push, Commands};
use std::cell::Cell;

/// The kind and number of a closed value.
type Value = (u8, u32);

/// A valid script without commands, a valid guideline for it, and how many steps are worth making.
pub fn history(rng: &mut Rng) -> (Vec<u8>, Vec<u8>, u64) {
    let mut show = Show::new(rng);
    let (named, steps) = match show.rng.below(18) {
        0 => show.growth(),
        1..=6 => show.tree(),
        _ => show.turns(),
    };
    let Show { rng, values, out, .. } = show;
    (out, guideline(rng, named, &values, [&[1, 2, 3, 4], &[6, 7, 8, 8, 9]]), steps)
}

/// Which sums and branches a show has: of constants alone, which are never stuck, or of what calls
/// return too, where all values are constants.
#[derive(Clone, Copy, PartialEq, Eq, PartialOrd, Ord)]
enum Sums {
    None,
    OfConstants,
    OfCalls,
}

/// Writes a script over few values; the functions 0 and 1 are always defined.
pub(super) struct Show<'a> {
    pub(super) rng: &'a mut Rng,
    sums: Sums,
    /// Whether turns count in their parameter.
    counts: bool,
    pub(super) values: Vec<Value>,
    pub(super) out: Vec<u8>,
}

impl Show<'_> {
    pub(super) fn new(rng: &mut Rng) -> Show<'_> {
        let sums = rng.pick(&[Sums::None, Sums::None, Sums::OfConstants, Sums::OfCalls]);
        let kinds: &[u8] = if sums == Sums::OfCalls { &[3] } else { &[2, 3, 3, 4] };
        let mut values = Vec::new();
        for _ in 0..rng.pick(&[2, 3, 4]) {
            values.push((rng.pick(kinds), rng.below(2) as u32));
        }
        Show { rng, sums, counts: false, values, out: Vec::new() }
    }

    /// Each function calls those after it, so that the calls of the last are many and the run ends.
    /// Returns how many functions the guideline may name, and the steps: where there are many
    /// functions it names the first, whose calls are few and late.
    fn tree(&mut self) -> (usize, u64) {
        let high = self.rng.one_in(16);
        let functions = if high { 16 } else { 4 + self.rng.below(7) };
        for number in 0..functions {
            push(&mut self.out, 8, number as u32);
            if number + 1 == functions {
                self.leaf(1);
                continue;
            }
            let next = |more: usize| (number + more).min(functions - 1);
            let more = if high { 1 } else { self.rng.pick(&[1, 1, 1, 2]) };
            self.sequence(&[next(1), next(more)], 1);
        }
        let from = self.rng.below(2);
        self.sequence(&[0, 0][from..], 0);
        if high {
            return (4, 100_000);
        }
        (functions, 5_000)
    }

    /// Functions that main alone calls, functions that each turn calls; one to three more begin a
    /// turn, one after the other and without end. Returns the same as `tree`: where the guideline
    /// names only what main calls, short turns go on for long.
    pub(super) fn turns(&mut self) -> (usize, u64) {
        let called = 2 + self.rng.below(4);
        let once = self.rng.below(called);
        let loops = 1 + self.rng.below(3);
        self.counts = self.sums == Sums::OfCalls && self.rng.one_in(3);
        self.definitions(called);
        for turn in 0..loops {
            push(&mut self.out, 8, (called + turn) as u32);
            let length = self.rng.pick(&[1, 2, 4, 8, 24]);
            let each = |_| once + self.rng.below(called - once);
            let mut turns: Vec<usize> = (0..length).map(each).collect();
            turns.push(called + (turn + 1) % loops);
            self.sequence(&turns, 1);
        }
        let length = self.rng.pick(&[0, 2, 6, 12]);
        let mut before: Vec<usize> = (0..length).map(|_| self.rng.below(called)).collect();
        before.push(called);
        self.sequence(&before, 0);
        if once > 0 && self.rng.one_in(8) {
            return (once, if self.out.len() < 8 * 80 { 30_000 } else { 3_000 });
        }
        (called + loops, self.rng.pick(&[1_000, 3_000, 9_000]))
    }

    /// A function that calls itself on a value one record longer, after some calls of another: the
    /// history is full a few calls before the expression is large, a few after, or with it.
    fn growth(&mut self) -> (usize, u64) {
        push(&mut self.out, 8, 0);
        self.leaf(1);
        for (kind, number) in [(8, 1), (5, 0), (2, 1), (4, 0), (1, 1)] {
            push(&mut self.out, kind, number);
        }
        let mut calls = vec![0; self.rng.below(8)];
        calls.push(1);
        if self.sums != Sums::None {
            push(&mut self.out, 9, 0);
            push(&mut self.out, 3, 0);
        }
        self.sequence(&calls, 0);
        (2, 1_100)
    }

    /// Defines functions some of which call the next.
    pub(super) fn definitions(&mut self, functions: usize) {
        for number in 0..functions {
            push(&mut self.out, 8, number as u32);
            match self.rng.below(5) {
                0 if number + 1 < functions => self.sequence(&[number + 1], 1),
                _ => self.leaf(1),
            }
        }
    }

    /// Calls these functions in turn.
    pub(super) fn sequence(&mut self, functions: &[usize], around: usize) {
        match functions {
            [last] if self.counts => self.count(*last, around),
            [last] if self.rng.one_in(8) => self.part(*last, around, self.sums),
            // Sums around the last call of a turn would grow from turn to turn.
            [last] => self.part(*last, around, self.sums.min(Sums::OfConstants)),
            _ => {
                push(&mut self.out, 5, 0);
                push(&mut self.out, 4, self.rng.below(6) as u32);
                self.sequence(&functions[1..], around + 1);
                self.part(functions[0], around, self.sums);
            }
        }
    }

    /// A call of the function, at times as an arm or the first term of a branch, or in a sum.
    fn part(&mut self, function: usize, around: usize, sums: Sums) {
        let forms = [0, 2, 12][sums as usize];
        match self.rng.below(18) {
            form if form >= forms => self.call(function, around),
            0..=3 => {
                push(&mut self.out, 10, 0);
                match sums {
                    Sums::OfCalls => self.leaf(around),
                    _ => push(&mut self.out, 3, self.rng.below(2) as u32),
                }
                self.call(function, around);
                self.call(function, around);
            }
            4..=5 => {
                push(&mut self.out, 10, 0);
                self.call(function, around);
                self.argument(around);
                self.argument(around);
            }
            6..=7 => {
                push(&mut self.out, 9, 0);
                self.call(function, around);
                self.leaf(around);
            }
            8..=9 => {
                push(&mut self.out, 9, 0);
                self.leaf(around);
                self.call(function, around);
            }
            _ => {
                push(&mut self.out, 9, 0);
                self.call(function, around);
                self.call(function, around);
            }
        }
    }

    fn call(&mut self, function: usize, around: usize) {
        push(&mut self.out, 5, 0);
        push(&mut self.out, 2, function as u32);
        self.argument(around);
    }

    /// A call on one more than the definition's parameter; in main on 0, or on a number that runs
    /// past 4,294,967,295 in some hundred turns.
    fn count(&mut self, function: usize, around: usize) {
        push(&mut self.out, 5, 0);
        push(&mut self.out, 2, function as u32);
        if around == 0 {
            let some = self.rng.below(1_500) as u32;
            push(&mut self.out, 3, self.rng.pick(&[0, u32::MAX - some]));
        } else {
            push(&mut self.out, 9, 0);
            push(&mut self.out, 1, around as u32 - 1);
            push(&mut self.out, 3, 1);
        }
    }

    /// A leaf, at times worked out by a sum or a branch.
    fn argument(&mut self, around: usize) {
        let forms = [0, 2, 4][self.sums as usize];
        match self.rng.below(12) {
            form if form >= forms => self.leaf(around),
            0 => {
                push(&mut self.out, 9, 0);
                for number in self.rng.pick(&[[0, 0], [0, 1], [1, 0]]) {
                    push(&mut self.out, 3, number);
                }
            }
            1 => {
                push(&mut self.out, 10, 0);
                push(&mut self.out, 3, self.rng.below(2) as u32);
                self.leaf(around);
                self.leaf(around);
            }
            2 => {
                push(&mut self.out, 9, 0);
                self.leaf(around);
                push(&mut self.out, 3, 0);
            }
            _ => {
                push(&mut self.out, 10, 0);
                (0..3).for_each(|_| self.leaf(around));
            }
        }
    }

    /// A value, the definition's parameter, or what the call before returned.
    pub(super) fn leaf(&mut self, around: usize) {
        match self.rng.below(6) {
            0 if around > 0 => push(&mut self.out, 1, 0),
            1 if around > 0 => push(&mut self.out, 1, around as u32 - 1),
            _ => {
                let (kind, number) = self.rng.pick(&self.values);
                push(&mut self.out, kind, number);
                if kind == 4 {
                    push(&mut self.out, 1, 0);
                }
            }
        }
    }
}

/// Facts on the script's values and one more, at times a closure, and one to three clauses with so
/// many triggers and conditions of these kinds.
pub(super) fn guideline(
    rng: &mut Rng,
    functions: usize,
    values: &[Value],
    [triggers, kinds]: [&[u8]; 2],
) -> Vec<u8> {
    let mut out = Vec::new();
    let known = [values, &[(3, 9)]].concat();
    for _ in 0..rng.below(8) {
        let [(k, m), (l, n)] = [0; 2].map(|_| rng.pick(&known));
        out.push(record([1, rng.below(2) as u8, k, l], [m, n]));
    }
    if rng.one_in(2) {
        out.extend(closure());
    }
    for _ in 0..rng.pick(&[1, 1, 2, 3]) {
        let triggers = rng.pick(triggers);
        out.extend(clause(rng, functions, triggers.into(), kinds));
    }
    out.concat()
}

/// Conditions that each name two calls of the clause, or one and a function, and are true of some.
fn clause(rng: &mut Rng, functions: usize, triggers: usize, kinds: &[u8]) -> Vec<Record> {
    let name =
        |rng: &mut Rng, kind: u8, i: u8| record([kind, 0, i, 0], [rng.below(functions) as u32, 0]);
    let mut clause = vec![name(rng, 4, 0)];
    clause.extend((0..triggers).map(|_| name(rng, 5, 0)));
    for _ in 0..rng.pick(&[0, 1, 2, 2, 3, 4]) {
        let later = 1 + rng.below(triggers);
        let [i, j] = [rng.below(later) as u8, later as u8];
        let exchanged = rng.one_in(4);
        clause.push(match rng.pick(kinds) {
            6 if i == 0 || exchanged => record([6, 0, j, i], [0, 0]),
            6 => record([6, 0, i, j], [0, 0]),
            7 if exchanged => record([7, rng.below(2) as u8, j, i], [0, 0]),
            7 => record([7, rng.below(2) as u8, i, j], [0, 0]),
            8 => record([8, rng.below(2) as u8, i, j], [0, 0]),
            // On the logged call it is always true.
            _ => name(rng, 9, if exchanged { 0 } else { j }),
        });
    }
    clause
}

/// The most steps, `most` or fewer, in which the searches for triggers look at about `work` calls
/// in all; they test a condition as soon as they can (`early`), or only on a whole choice. A step
/// more than it takes to report a full history is enough. The run is that of `written`, which is
/// the script with commands.
pub fn affordable(
    [script, written]: [&[u8]; 2],
    guideline: &[u8],
    [most, work]: [u64; 2],
    early: bool,
) -> u64 {
    let Ok((script, guideline)) = read(script, Commands::Refused, guideline) else { return 0 };
    let predicates = Predicates::of(&guideline);
    let has = |kind: u8, function: u32| {
        let named = |record: &[u8]| record[0] == kind && record[4..] == function.to_le_bytes();
        written.chunks(8).any(named)
    };
    let mut calls = calls(&script, most);
    calls.retain(|call| has(6, call.function));
    let left = Cell::new(work);
    for (last, call) in calls.iter().enumerate() {
        if last == 1_024 {
            return u64::from(call.time) + 1;
        }
        let logged = |clause: &&Clause| clause.function == call.function && has(7, call.function);
        for clause in guideline.clauses.iter().filter(logged) {
            let fits = |chosen: &[Call]| {
                let whole = chosen.len() > clause.triggers.len();
                let look = |at: usize| left.set(left.get().saturating_sub(at as u64));
                look(if whole { 1 } else { last });
                let due = |condition: &&Condition| match early {
                    true => condition.i.max(condition.j) + 1 == chosen.len(),
                    false => whole,
                };
                let mut conditions = clause.conditions.iter().filter(due);
                left.get() > 0
                    && conditions.all(|condition| {
                        look(if let Test::NoCall(_) = condition.test { last } else { 0 });
                        condition.holds(chosen, &calls[..last], &predicates)
                    })
            };
            choose(&clause.triggers, &calls[..last], &fits, &mut vec![*call]);
        }
        if left.get() == 0 {
            return call.time.into();
        }
    }
    most
}

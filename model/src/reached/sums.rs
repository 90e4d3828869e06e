//! What scripts come to with their sums and branches, to tell whether generated cases reach all of
//! it: classes of files, and of steps of the plain run.

use crate::runs::{step, Step};
use crate::script::{pass_term, Commands, Script, Term};
use crate::Verdict;
use std::collections::BTreeSet;
use std::rc::Rc;
use Term::*;

/// What checking a script comes to.
pub const FILES: [&str; 13] = [
    "accepted, a sum in a definition",
    "accepted, a branch in a definition",
    "accepted, 1,024 records, main a sum",
    "accepted, 1,024 records, main a branch",
    "2 at a sum's number",
    "2 at a sum's spare byte",
    "2 at a branch's number",
    "2 at a branch's spare byte",
    "2 at kind 11",
    "3 at the end, in a branch",
    "3 at a definition, in a sum or branch",
    "5 in a sum or branch",
    "7 in a sum or branch",
];

/// What a plain run passes through.
pub const STEPS: [&str; 41] = [
    "a sum",
    "a sum of 4,294,967,295",
    "stuck on a sum of 4,294,967,296",
    "stuck on a larger sum",
    "stuck on a sum, left a name",
    "stuck on a sum, left an abstraction",
    "stuck on a sum, right a name",
    "stuck on a sum, right an abstraction",
    "stuck on a sum or branch, budget spent",
    "stuck on a sum called",
    "a second arm",
    "a third arm",
    "a third arm on 4,294,967,295",
    "stuck on a branch, first a name",
    "stuck on a branch, first an abstraction",
    "a branch on a sum",
    "a branch on a call",
    "a branch on a branch",
    "a sum of a sum",
    "a sum of a call",
    "a sum of a branch",
    "a call on a sum",
    "a call on a branch",
    "a branch called",
    "a call in a sum's left",
    "a call in a sum's right",
    "a call right of a name or abstraction",
    "a call in a branch's first",
    "a call in a second arm",
    "a call in a third arm",
    "a call in an arm in a sum",
    "a call in the arm not taken",
    "a call after ten sums and branches",
    "a step in over 100 sums",
    "a step in over 400 sums",
    "a step in over 100 branches",
    "a step in over 300 branches",
    "a value put in a sum under an abstraction",
    "a value put in a branch under an abstraction",
    "a value put under an abstraction in a sum",
    "a value put under an abstraction in an arm",
];

/// Whether a script has sums or branches.
pub fn has_sums(script: &[u8]) -> bool {
    script.chunks(8).any(|record| matches!(record[0], 9 | 10))
}

/// The classes of a script that checking answers so.
pub fn file(script: &[u8], verdict: Verdict) -> BTreeSet<&'static str> {
    let place = verdict.place as usize;
    let record = script.chunks_exact(8).nth(place);
    let kind = record.map_or(0, |record| record[0]);
    let spare = record.is_some_and(|record| record[1..4] != [0; 3]);
    let mut classes = BTreeSet::new();
    classes.extend(match (verdict.number, kind) {
        (2, 9) if spare => Some("2 at a sum's spare byte"),
        (2, 9) => Some("2 at a sum's number"),
        (2, 10) if spare => Some("2 at a branch's spare byte"),
        (2, 10) => Some("2 at a branch's number"),
        (2, 11) => Some("2 at kind 11"),
        (3, 8) if inside(script, place, &[9, 10]) => Some("3 at a definition, in a sum or branch"),
        (3, 0) if inside(script, place, &[10]) => Some("3 at the end, in a branch"),
        (5, _) if inside(script, place, &[9, 10]) => Some("5 in a sum or branch"),
        (7, _) if inside(script, place, &[9, 10]) => Some("7 in a sum or branch"),
        _ => None,
    });
    if let (0, Ok(read)) = (verdict.number, Script::read(script, Commands::Refused)) {
        let whole = script.len() == 8 * 1_024;
        let has = |find: fn(&Term) -> bool| read.definitions.iter().any(|body| some(body, &find));
        classes.extend(has(is_sum).then_some("accepted, a sum in a definition"));
        classes.extend(has(is_branch).then_some("accepted, a branch in a definition"));
        let main = &read.main;
        classes.extend((whole && is_sum(main)).then_some("accepted, 1,024 records, main a sum"));
        let branch = whole && is_branch(main);
        classes.extend(branch.then_some("accepted, 1,024 records, main a branch"));
    }
    classes
}

/// Whether a place is in a term that begins before it with one of these kinds, ended or not.
fn inside(script: &[u8], place: usize, kinds: &[u8]) -> bool {
    let mut before = (0..place).filter(|&at| kinds.contains(&script[8 * at]));
    before.any(|at| pass_term(script, at as u64).is_none_or(|end| end > place as u64))
}

fn is_sum(term: &Term) -> bool {
    matches!(term, Sum(..))
}

fn is_branch(term: &Term) -> bool {
    matches!(term, Branch(..))
}

fn is_call(term: &Term) -> bool {
    matches!(term, Application(function, _) if matches!(**function, Function(_)))
}

/// The terms that follow a term's first record.
fn parts(term: &Term) -> impl Iterator<Item = &Rc<Term>> {
    let parts = match term {
        Variable(_) | Function(_) | Constant(_) => [None; 3],
        Abstraction(_, body) => [Some(body), None, None],
        Application(one, two) | CallEvent(_, one, two) | Emit(_, one, two) | Sum(one, two) => {
            [Some(one), Some(two), None]
        }
        Branch(first, second, third) => [Some(first), Some(second), Some(third)],
    };
    parts.into_iter().flatten()
}

/// Whether a term is or has such a one.
fn some(term: &Term, find: &dyn Fn(&Term) -> bool) -> bool {
    find(term) || parts(term).any(|part| some(part, find))
}

/// What the plain run of a script passes through: its classes, the steps that add or branch, the
/// calls inside sums and those inside taken arms.
#[derive(Default)]
pub struct Reached {
    pub classes: BTreeSet<&'static str>,
    pub sums: BTreeSet<u32>,
    pub in_sums: BTreeSet<u32>,
    pub in_arms: BTreeSet<u32>,
}

/// The terms around the next step, each with the number of its part that leads there.
type Way<'a> = Vec<(&'a Term, usize)>;

/// What is remembered of the steps made: the place and the kind of the last, and the arms that are
/// not worked out yet, each with its place and whether it is the second.
#[derive(Default)]
struct Before {
    place: Vec<usize>,
    kind: u8,
    arms: Vec<(Vec<usize>, bool)>,
}

/// A call's kind, beside those of records.
const CALL: u8 = 0;

/// Follows the plain run of an accepted script, but for at most 20,000 steps.
pub fn steps(script: &[u8], budget: u64) -> Reached {
    let mut reached = Reached::default();
    if !has_sums(script) {
        return reached;
    }
    let Ok(script) = Script::read(script, Commands::Refused) else { return reached };
    let mut expression = script.main.clone();
    let mut before = Before::default();
    for time in (0..=20_000).take_while(|time| u64::from(*time) <= budget) {
        let mut way = Vec::new();
        let redex = redex(&expression, &mut way);
        let after = match step(&script, &expression) {
            Step::To(after, _) if after.size() <= 1_024 && u64::from(time) < budget => after,
            Step::Stuck => {
                reached.stuck(redex, &way, &before, u64::from(time) == budget);
                break;
            }
            _ => break,
        };
        reached.made(&script, time, redex, &way, &mut before);
        expression = after;
    }
    reached
}

/// The part of a term whose turn is next.
fn redex<'a>(term: &'a Term, way: &mut Way<'a>) -> &'a Term {
    let worked = match term {
        Application(..) | Sum(..) => 2,
        Branch(..) => 1,
        _ => 0,
    };
    let first = parts(term).take(worked).enumerate().find(|part| !part.1.is_value());
    match first {
        Some((number, part)) => {
            way.push((term, number));
            redex(part, way)
        }
        None => term,
    }
}

fn place(way: &Way) -> Vec<usize> {
    way.iter().map(|around| around.1).collect()
}

impl Reached {
    fn add_if(&mut self, class: &'static str, seen: bool) {
        if seen {
            self.classes.insert(class);
        }
    }

    fn stuck(&mut self, redex: &Term, way: &Way, before: &Before, spent: bool) {
        let here = is_sum(redex) || is_branch(redex);
        self.add_if("stuck on a sum or branch, budget spent", here && spent);
        let class = match redex {
            Sum(left, right) => match (&**left, &**right) {
                (Constant(a), Constant(b)) if a.wrapping_add(*b) == 0 => {
                    "stuck on a sum of 4,294,967,296"
                }
                (Constant(_), Constant(_)) => "stuck on a larger sum",
                (Function(_), _) => "stuck on a sum, left a name",
                (Abstraction(..), _) => "stuck on a sum, left an abstraction",
                (_, Function(_)) => "stuck on a sum, right a name",
                _ => "stuck on a sum, right an abstraction",
            },
            Branch(first, ..) if matches!(**first, Function(_)) => {
                "stuck on a branch, first a name"
            }
            Branch(..) => "stuck on a branch, first an abstraction",
            _ if before.kind == 9 && before.place == [place(way), vec![0]].concat() => {
                "stuck on a sum called"
            }
            _ => return,
        };
        self.classes.insert(class);
    }

    fn made(&mut self, script: &Script, time: u32, redex: &Term, way: &Way, before: &mut Before) {
        let place = place(way);
        before.arms.retain(|(arm, _)| place.starts_with(arm));
        self.on_result(redex, &place, before);
        self.deep(way);
        self.at(script, redex);
        before.kind = if is_call(redex) { CALL } else { redex.view().kind };
        match redex {
            Branch(first, ..) => {
                let zero = matches!(**first, Constant(0));
                // An arm that is itself a branch gives way to that one's.
                before.arms.retain(|(arm, _)| *arm != place);
                before.arms.push((place.clone(), zero));
                self.sums.insert(time);
            }
            Sum(..) => {
                self.sums.insert(time);
            }
            _ if before.kind == CALL => self.call(time, way, before),
            _ => {}
        }
        before.place = place;
    }

    /// What the redex itself tells.
    fn at(&mut self, script: &Script, redex: &Term) {
        match redex {
            Sum(left, right) => {
                self.add_if("a sum", true);
                let sum = match (&**left, &**right) {
                    (Constant(a), Constant(b)) => a.checked_add(*b),
                    _ => None,
                };
                self.add_if("a sum of 4,294,967,295", sum == Some(u32::MAX));
            }
            Branch(first, second, third) => {
                let zero = matches!(**first, Constant(0));
                self.add_if("a second arm", zero);
                self.add_if("a third arm", !zero);
                let most = matches!(**first, Constant(u32::MAX));
                self.add_if("a third arm on 4,294,967,295", most);
                let other = if zero { third } else { second };
                self.add_if("a call in the arm not taken", some(other, &is_call));
            }
            Application(function, _) => match &**function {
                Function(f) => self.put(&script.definitions[*f as usize], 0, &mut vec![]),
                Abstraction(_, body) => self.put(body, 0, &mut vec![]),
                _ => {}
            },
            _ => {}
        }
    }

    /// The step before worked out a part of this redex.
    fn on_result(&mut self, redex: &Term, place: &[usize], before: &Before) {
        let Some((part, around)) = before.place.split_last() else { return };
        if around != place {
            return;
        }
        let class = match (redex, before.kind, part) {
            (Branch(..), 9, _) => "a branch on a sum",
            (Branch(..), 10, _) => "a branch on a branch",
            (Branch(..), CALL, _) => "a branch on a call",
            (Sum(..), 9, _) => "a sum of a sum",
            (Sum(..), 10, _) => "a sum of a branch",
            (Sum(..), CALL, _) => "a sum of a call",
            (Application(..), 9, 1) if is_call(redex) => "a call on a sum",
            (Application(..), 10, 1) if is_call(redex) => "a call on a branch",
            (Application(..), 10, 0) => "a branch called",
            _ => return,
        };
        self.classes.insert(class);
    }

    fn deep(&mut self, way: &Way) {
        let sums = way.iter().filter(|around| is_sum(around.0)).count();
        let branches = way.iter().filter(|around| is_branch(around.0)).count();
        self.add_if("a step in over 100 sums", sums > 100);
        self.add_if("a step in over 400 sums", sums > 400);
        self.add_if("a step in over 100 branches", branches > 100);
        self.add_if("a step in over 300 branches", branches > 300);
    }

    fn call(&mut self, time: u32, way: &Way, before: &Before) {
        if way.iter().any(|around| is_sum(around.0)) {
            self.in_sums.insert(time);
        }
        if !before.arms.is_empty() {
            self.in_arms.insert(time);
        }
        for (around, part) in way {
            match around {
                Sum(left, _) => {
                    self.add_if("a call in a sum's left", *part == 0);
                    self.add_if("a call in a sum's right", *part == 1);
                    let number = matches!(**left, Constant(_));
                    self.add_if("a call right of a name or abstraction", *part == 1 && !number);
                }
                Branch(..) => self.add_if("a call in a branch's first", true),
                _ => {}
            }
        }
        for (_, second) in &before.arms {
            self.add_if("a call in a second arm", *second);
            self.add_if("a call in a third arm", !second);
            self.add_if("a call in an arm in a sum", self.in_sums.contains(&time));
        }
        self.add_if("a call after ten sums and branches", self.sums.len() >= 10);
    }

    /// A value is put in the term for the variable that counts all `passed` abstractions; the
    /// kinds of the terms around it, from outside, are `around`.
    fn put(&mut self, term: &Term, passed: u32, around: &mut Vec<u8>) {
        if matches!(term, Variable(number) if *number == passed) {
            let within = |outer: u8, inner: u8| {
                let outer = around.iter().position(|kind| *kind == outer);
                outer.is_some_and(|outer| around[outer..].contains(&inner))
            };
            let [one, two, three, four] =
                [within(4, 9), within(4, 10), within(9, 4), within(10, 4)];
            self.add_if("a value put in a sum under an abstraction", one);
            self.add_if("a value put in a branch under an abstraction", two);
            self.add_if("a value put under an abstraction in a sum", three);
            self.add_if("a value put under an abstraction in an arm", four);
        }
        let kind = term.view().kind;
        for (number, part) in parts(term).enumerate() {
            // The first term of a branch is no arm.
            around.push(if kind == 10 && number == 0 { 5 } else { kind });
            self.put(part, passed + u32::from(kind == 4), around);
            around.pop();
        }
    }
}

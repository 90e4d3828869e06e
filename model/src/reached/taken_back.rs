//! What kind 9 conditions come to: classes of guidelines, of scripts at the limit of rewriting, and
//! of calls of logged functions.

use crate::demand::calls;
use crate::guideline::{Clause, Condition, Guideline, Test};
use crate::predicates::Predicates;
use crate::rewriting::rewrite;
use crate::runs::{choose, Call};
use crate::script::{Commands, Script, Term};
use crate::{read, Verdict};
use std::cell::RefCell;
use std::collections::BTreeSet;
use std::rc::Rc;

/// What checking a guideline comes to.
pub const FILES: [&str; 19] = [
    "accepted, h logged by the clause",
    "accepted, h a trigger of the clause",
    "accepted, h noted for kind 9 alone",
    "accepted, kind 9 on the logged call",
    "accepted, kind 9 before another condition",
    "accepted, over 100 of kind 9 in a clause",
    "accepted, 256 records, the last of kind 9",
    "12 at kind 10",
    "12 at byte 1 of kind 9",
    "12 at i above 4 of kind 9",
    "12 at byte 3 of kind 9",
    "12 at bytes 8 to 15 of kind 9",
    "13 at kind 9",
    "13 at a trigger after kind 9",
    "16 at kind 9",
    "17 at kind 9",
    "17 at kind 9, then at others",
    "17 at others, then at kind 9",
    "derived, h unknown",
];

/// What scripts with as many records as rewriting can write come to.
pub const LENGTHS: [&str; 5] = [
    "1,296 records written",
    "1,296 records run",
    "over 1,120 records run",
    "1 for 1,297 records",
    "7 after 1,296 records",
];

/// What a call of a logged function comes to in a run, under a clause with a kind 9 condition. It
/// stands if a choice of triggers fits, and is taken back if kind 9 alone rules out those that would.
pub const CALLS: [&str; 25] = [
    "taken back by the logged function",
    "taken back by the trigger's function",
    "taken back by another function",
    "taken back at i = 1",
    "taken back at i = 2",
    "taken back at i = 3",
    "taken back at i = 4",
    "taken back right after t_i",
    "taken back right before t_0",
    "taken back by the first of two conditions",
    "taken back by the last of two conditions",
    "taken back by one of over 100 conditions",
    "taken back, every choice of several",
    "taken back, logged by another clause",
    "standing, h called before t_i",
    "standing, h called at t_i",
    "standing, h called at t_0",
    "standing on the logged call, h called",
    "standing without triggers",
    "standing, h called after another trigger",
    "standing, others ruled out",
    "standing, all others ruled out",
    "standing under two conditions",
    "standing under over 100 conditions",
    "standing, h called but not noted",
];

/// The classes of `CALLS` by the i of the condition.
const AT: [&str; 4] =
    ["taken back at i = 1", "taken back at i = 2", "taken back at i = 3", "taken back at i = 4"];

/// Whether a guideline has a kind 9 condition.
pub fn has_cancels(guideline: &[u8]) -> bool {
    guideline.chunks(16).any(|record| record[0] == 9)
}

/// The classes of a guideline that checking answers so.
pub fn file(script: &[u8], guideline: &[u8], verdict: Verdict) -> BTreeSet<&'static str> {
    let place = verdict.place as usize;
    match guideline.chunks_exact(16).nth(place) {
        _ if verdict.number == 0 => accepted(guideline),
        None => BTreeSet::new(),
        Some(record) => {
            let before = guideline[..16 * place].chunks(16).next_back().map_or(0, |other| other[0]);
            let after = &guideline[16 * place + 16..];
            let class = match (verdict.number, record[0]) {
                (12, 9) => faulty_byte(record),
                (12, 10) => Some("12 at kind 10"),
                (13, 9) => Some("13 at kind 9"),
                (13, 5) if before == 9 => Some("13 at a trigger after kind 9"),
                (16, 9) => Some("16 at kind 9"),
                (17, 9) if unknown(script, after, &[4, 5]) => Some("17 at kind 9, then at others"),
                (17, 9) => Some("17 at kind 9"),
                (17, _) if unknown(script, after, &[9]) => Some("17 at others, then at kind 9"),
                _ => None,
            };
            class.into_iter().collect()
        }
    }
}

/// What is wrong with a kind 9 record, if it is one thing.
fn faulty_byte(record: &[u8]) -> Option<&'static str> {
    let rest = record[8..].iter().any(|byte| *byte > 0);
    match (record[1] > 0, record[2] > 4, record[3] > 0, rest) {
        (true, false, false, false) => Some("12 at byte 1 of kind 9"),
        (false, true, false, false) => Some("12 at i above 4 of kind 9"),
        (false, false, true, false) => Some("12 at byte 3 of kind 9"),
        (false, false, false, true) => Some("12 at bytes 8 to 15 of kind 9"),
        _ => None,
    }
}

/// Whether a record of these kinds names a function that the script does not define.
fn unknown(script: &[u8], records: &[u8], kinds: &[u8]) -> bool {
    let functions = script.chunks(8).filter(|record| record[0] == 8).count() as u32;
    let mut named = records.chunks_exact(16).filter(|record| kinds.contains(&record[0]));
    named.any(|record| u32::from_le_bytes(record[4..8].try_into().unwrap()) >= functions)
}

/// The class of a guideline that deriving answers so.
pub fn derived(script: &[u8], guideline: &[u8], verdict: Verdict) -> Option<&'static str> {
    let unseen = verdict.number == 0 && unknown(script, guideline, &[9]);
    unseen.then_some("derived, h unknown")
}

fn accepted(guideline: &[u8]) -> BTreeSet<&'static str> {
    let mut classes = Classes::default();
    let last = guideline.chunks(16).next_back().is_some_and(|record| record[0] == 9);
    let whole = guideline.len() == 16 * 256;
    classes.add_if("accepted, 256 records, the last of kind 9", whole && last);
    let clauses = Guideline::read(guideline, None).map_or(vec![], |guideline| guideline.clauses);
    let named = |h: u32| clauses.iter().any(|c| c.function == h || c.triggers.contains(&h));
    for clause in &clauses {
        for (i, h) in clause.cancels() {
            classes.add_if("accepted, h logged by the clause", h == clause.function);
            classes.add_if("accepted, h a trigger of the clause", clause.triggers.contains(&h));
            classes.add_if("accepted, h noted for kind 9 alone", !named(h));
            classes.add_if("accepted, kind 9 on the logged call", i == 0);
        }
        let mut pairs = clause.conditions.windows(2);
        let before = pairs.any(|pair| is_cancel(&pair[0]) && !is_cancel(&pair[1]));
        classes.add_if("accepted, kind 9 before another condition", before);
        let many = clause.cancels().count() > 100;
        classes.add_if("accepted, over 100 of kind 9 in a clause", many);
    }
    classes.0
}

fn is_cancel(condition: &Condition) -> bool {
    matches!(condition.test, Test::NoCall(_))
}

/// The class of a script of which rewriting writes so many records.
pub fn written(records: u32) -> Option<&'static str> {
    (records == 1_296).then_some("1,296 records written")
}

/// The class of a script that the rewritten run answers so.
pub fn run(script: &[u8], verdict: Verdict) -> Option<&'static str> {
    let whole = script.len().is_multiple_of(8);
    match (verdict.number, script.len() / 8) {
        (0, 1_296) => Some("1,296 records run"),
        (0, 1_121..) => Some("over 1,120 records run"),
        (1, 1_297) if whole => Some("1 for 1,297 records"),
        (7, 1_296) if verdict.place == 1_296 => Some("7 after 1,296 records"),
        _ => None,
    }
}

/// The classes of the calls of logged functions: in the run of a script with commands, else in that
/// of the rewritten script. It is followed for at most 200 steps.
pub fn logged_calls(script: &[u8], guideline: &[u8], budget: u64) -> BTreeSet<&'static str> {
    let mut classes = Classes::default();
    let files = read(script, Commands::Allowed, guideline).ok();
    let Some((script, guideline)) = files.filter(|_| has_cancels(guideline)) else {
        return classes.0;
    };
    let commands = script.definitions.iter().any(|body| notes(body));
    let written = if commands { script } else { rewrite(&script, &guideline) };
    let predicates = Predicates::of(&guideline);
    let calls = calls(&without_commands(&written), budget.min(200));
    let body = |call: &Call| &*written.definitions[call.function as usize];
    for (last, call) in calls.iter().enumerate().filter(|(_, call)| emits(body(call))) {
        let all = &calls[..last];
        let noted: Vec<Call> = all.iter().filter(|call| notes(body(call))).copied().collect();
        let clauses = guideline.clauses.iter().filter(|clause| clause.function == call.function);
        let judge = |clause| Judged::new(clause, &predicates, call, &noted);
        let judged: Vec<Judged> = clauses.map(judge).collect();
        judged.iter().for_each(|judged| judged.add(all, &mut classes));
        let both = judged.iter().any(Judged::is_logged) && judged.iter().any(Judged::is_taken_back);
        classes.add_if("taken back, logged by another clause", both);
    }
    classes.0
}

fn notes(body: &Term) -> bool {
    matches!(body, Term::CallEvent(..))
}

fn emits(body: &Term) -> bool {
    matches!(body, Term::CallEvent(_, _, rest) if matches!(**rest, Term::Emit(..)))
}

fn without_commands(script: &Script) -> Script {
    fn rest(body: &Rc<Term>) -> Rc<Term> {
        match &**body {
            Term::CallEvent(_, _, after) | Term::Emit(_, _, after) => rest(after),
            _ => body.clone(),
        }
    }
    Script { definitions: script.definitions.iter().map(rest).collect(), main: script.main.clone() }
}

#[derive(Default)]
struct Classes(BTreeSet<&'static str>);

impl Classes {
    fn add_if(&mut self, class: &'static str, seen: bool) {
        if seen {
            self.0.insert(class);
        }
    }
}

/// A call of a logged function under one of its clauses: the choices of triggers, the call itself
/// first, that fit, and those that kind 9 alone rules out.
struct Judged<'a> {
    clause: &'a Clause,
    noted: &'a [Call],
    standing: Vec<Vec<Call>>,
    ruled_out: Vec<Vec<Call>>,
}

impl<'a> Judged<'a> {
    fn new(clause: &'a Clause, predicates: &Predicates, call: &Call, noted: &'a [Call]) -> Self {
        let choices = RefCell::new(Vec::new());
        let fits = |chosen: &[Call]| {
            let whole = chosen.len() > clause.triggers.len();
            if whole {
                choices.borrow_mut().push(chosen.to_vec());
            }
            // On to the next choice, for as long as there are few.
            !whole && choices.borrow().len() < 500
        };
        choose(&clause.triggers, noted, &fits, &mut vec![*call]);
        let mut choices = choices.into_inner();
        if choices.len() >= 500 {
            choices.clear();
        }
        choices.retain(|choice| {
            let mut others = clause.conditions.iter().filter(|condition| !is_cancel(condition));
            others.all(|condition| condition.holds(choice, noted, predicates))
        });
        let stands = |choice: &Vec<Call>| failing(clause, choice, noted).is_empty();
        let (standing, ruled_out) = choices.into_iter().partition(stands);
        Judged { clause, noted, standing, ruled_out }
    }

    fn is_logged(&self) -> bool {
        !self.standing.is_empty()
    }

    fn is_taken_back(&self) -> bool {
        !self.is_logged() && !self.ruled_out.is_empty()
    }

    /// Of all calls before, some may not be noted.
    fn add(&self, all: &[Call], classes: &mut Classes) {
        let cancels = self.clause.cancels().count();
        if self.is_taken_back() {
            classes.add_if("taken back, every choice of several", self.ruled_out.len() > 1);
            self.ruled_out.iter().for_each(|choice| self.add_taken_back(choice, classes));
        } else if self.is_logged() && cancels > 0 {
            let again = !self.ruled_out.is_empty();
            let triggers = self.clause.triggers.len();
            classes.add_if("standing without triggers", triggers == 0);
            classes.add_if("standing, others ruled out", again);
            classes.add_if("standing, all others ruled out", again && self.standing.len() == 1);
            classes.add_if("standing under two conditions", cancels == 2 && triggers > 0);
            classes.add_if("standing under over 100 conditions", cancels > 100 && triggers > 0);
            self.standing.iter().for_each(|choice| self.add_standing(choice, all, classes));
        }
    }

    /// A choice that one condition alone rules out.
    fn add_taken_back(&self, choice: &[Call], classes: &mut Classes) {
        let [number] = failing(self.clause, choice, self.noted)[..] else { return };
        let (i, h) = self.clause.cancels().nth(number).unwrap();
        let Clause { function, triggers, .. } = self.clause;
        let other = h != *function && !triggers.contains(&h);
        classes.add_if("taken back by the logged function", h == *function);
        classes.add_if("taken back by the trigger's function", h == triggers[i - 1]);
        classes.add_if("taken back by another function", other);
        classes.add_if(AT[i - 1], true);
        let (after, before) = (choice[i].time, choice[0].time);
        let times = between(self.noted, h, after, before);
        let long = after + 2 < before;
        classes.add_if("taken back right after t_i", long && times == [after + 1]);
        classes.add_if("taken back right before t_0", long && times == [before - 1]);
        let cancels = self.clause.cancels().count();
        classes.add_if("taken back by the first of two conditions", cancels == 2 && number == 0);
        classes.add_if("taken back by the last of two conditions", cancels == 2 && number == 1);
        classes.add_if("taken back by one of over 100 conditions", cancels > 100);
    }

    fn add_standing(&self, choice: &[Call], all: &[Call], classes: &mut Classes) {
        let unseen = !failing(self.clause, choice, all).is_empty();
        classes.add_if("standing, h called but not noted", unseen);
        let [logged, triggers @ ..] = choice else { return };
        for (i, h) in self.clause.cancels() {
            let called = |after: &Call| !between(self.noted, h, after.time, logged.time).is_empty();
            let mut times = self.noted.iter().filter(|call| call.function == h).map(|c| c.time);
            if i == 0 {
                classes.add_if("standing on the logged call, h called", times.next().is_some());
                continue;
            }
            classes.add_if("standing, h called at t_i", h == self.clause.triggers[i - 1]);
            classes.add_if("standing, h called at t_0", h == self.clause.function);
            classes
                .add_if("standing, h called before t_i", times.any(|time| time < choice[i].time));
            classes.add_if("standing, h called after another trigger", triggers.iter().any(called));
        }
    }
}

/// The kind 9 conditions that are false of a choice, by these calls: their numbers.
fn failing(clause: &Clause, choice: &[Call], calls: &[Call]) -> Vec<usize> {
    let holds = |i: usize, h: u32| between(calls, h, choice[i].time, choice[0].time).is_empty();
    let cancels = clause.cancels().enumerate();
    cancels.filter(|(_, (i, h))| !holds(*i, *h)).map(|(number, _)| number).collect()
}

/// The times of the calls of h strictly between two times.
fn between(calls: &[Call], h: u32, after: u32, before: u32) -> Vec<u32> {
    let times = calls.iter().filter(|call| call.function == h).map(|call| call.time);
    times.filter(|time| after < *time && *time < before).collect()
}

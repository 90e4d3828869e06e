//! The engine over its C interface against the plain model, on seeded cases: every entry, every word of an answer, every lent byte; and
//! demand 3 in its own words on what the engine answers.
//!
//! `cargo test --release` makes a short run. The environment asks for another:
//!
//! - LORGWIN_CASES: how many cases (20,000)
//! - LORGWIN_SEED: which stream of cases (0)
//! - LORGWIN_FIRST: the number of the first case (0)
//!
//! A failure prints the words that repeat its one case, and the case. What the cases reached is counted and printed (`-- --nocapture`); a run
//! of 20,000 cases or more fails if it did not reach every class in `wanted`, so that it cannot pass on refusals alone.

use lorgwin_tests as engine;
use model::demand::{demand_3, Ended};
use model::generate::{Case, Rng};
use model::reached::{sums, taken_back};
use model::script::push;
use model::{BUDGET, EXPRESSION, HISTORY, LOG, REWRITTEN, SCRATCH, TABLE};
use std::collections::{BTreeMap, BTreeSet};
use std::panic::{catch_unwind, AssertUnwindSafe};
use std::sync::atomic::{AtomicU64, Ordering};
use std::{env, thread};

const CASES: u64 = 20_000;
/// One case in so many is a show with a long history.
const LONG: u64 = 12;
const THREADS: usize = 2;

/// The buffers of a rewritten run; a plain run has the first two.
const SIZES: [usize; 5] = [EXPRESSION, SCRATCH, HISTORY, LOG, TABLE];
const OUTCOMES: [&str; 5] = ["value", "stuck", "spent", "large", "full"];
const SPENT: u32 = 2;
const FULL: u32 = 4;

/// Number and place, then what the entry has of these: outcome, steps, counts of history and log. Rewriting has its records in place of the
/// outcome.
type Words = [u32; 6];

/// A lent slice at an odd or even address, with bytes around it that are not lent. All hold noise.
#[derive(Clone, PartialEq)]
struct Buffer {
    bytes: Vec<u8>,
    from: usize,
    length: usize,
}

impl Buffer {
    fn noise(rng: &mut Rng, length: usize) -> Buffer {
        let from = 32 + rng.below(8);
        let words = (from + length + 32) / 8 + 1;
        Buffer { bytes: (0..words).flat_map(|_| rng.word().to_le_bytes()).collect(), from, length }
    }

    fn file(rng: &mut Rng, file: &[u8]) -> Buffer {
        let mut buffer = Buffer::noise(rng, file.len());
        buffer.lent().copy_from_slice(file);
        buffer
    }

    fn lent(&mut self) -> &mut [u8] {
        &mut self.bytes[self.from..][..self.length]
    }

    fn read(&self) -> &[u8] {
        &self.bytes[self.from..][..self.length]
    }
}

fn lend<const N: usize>(rng: &mut Rng, lengths: [usize; N]) -> [Buffer; N] {
    lengths.map(|length| Buffer::noise(rng, length))
}

/// How often each class of calls was seen.
#[derive(Default)]
struct Seen(BTreeMap<String, u64>);

impl Seen {
    fn add(&mut self, class: &str, count: u64) {
        *self.0.entry(class.into()).or_default() += count;
    }

    fn add_if(&mut self, class: &str, seen: bool) {
        self.add(class, seen.into());
    }

    /// Calls the engine and the model with the same noise in the lent buffers: they answer the same and leave the same bytes, in and around
    /// the buffers. `what` begins with the entry's name.
    fn both<const N: usize>(
        &mut self,
        what: &str,
        lent: &[Buffer; N],
        engine: impl FnOnce([&mut [u8]; N]) -> Words,
        model: impl FnOnce([&mut [u8]; N]) -> Words,
    ) -> (Words, [Buffer; N]) {
        let [mut found, mut wanted] = [lent.clone(), lent.clone()];
        let words = engine(found.each_mut().map(Buffer::lent));
        assert_eq!(words, model(wanted.each_mut().map(Buffer::lent)), "{what}: the engine's answer and the model's");
        for i in 0..N {
            let mut bytes = found[i].bytes.iter().zip(&wanted[i].bytes);
            let differs = bytes.position(|(one, two)| one != two).map(|at| at as isize - found[i].from as isize);
            assert_eq!(differs, None, "{what}: the first byte of lent buffer {i} that differs");
        }
        // Said of the engine alone, whatever the model does.
        assert!(words[0] == 0 || found == *lent, "{what}: a refusal alters a byte");
        let entry = what.split(' ').next().unwrap();
        self.add(&format!("{entry}: number {}", words[0]), 1);
        (words, found)
    }

    fn run(&mut self, entry: &str, budget: u32, words: Words, expression: &Buffer) {
        let [number, _, outcome, steps, ..] = words;
        let over = u64::from(budget) == BUDGET + 1;
        self.add_if(&format!("{entry}: budget 1,000,001"), over);
        if number != 0 {
            return;
        }
        self.add(&format!("{entry}: {}", OUTCOMES[outcome as usize]), 1);
        self.add_if(&format!("{entry}: budget 0"), budget == 0);
        self.add_if(&format!("{entry}: budget 1,000,000"), u64::from(budget) == BUDGET);
        self.add_if(&format!("{entry}: budget exact"), budget > 0 && budget == steps && outcome != SPENT);
        self.add_if(&format!("{entry}: over 10,000 steps"), steps > 10_000);
        let records = model::pass_term(expression.read(), 0).unwrap();
        self.add_if(&format!("{entry}: 1,024 records left"), records == 1_024);
    }

    /// What the steps of a show came to: its sums and branches, and the calls inside them.
    fn steps(&mut self, entry: &str, words: Words, history: &Buffer, log: &Buffer, reached: &sums::Reached) {
        let [number, _, outcome, steps, noted, logged] = words;
        if number != 0 || reached.sums.is_empty() {
            return;
        }
        let times = |buffer: &Buffer, count: u32| -> BTreeSet<u32> {
            let entries = buffer.read().chunks_exact(16).take(count as usize);
            entries.map(|entry| u32::from_le_bytes(entry[..4].try_into().unwrap())).collect()
        };
        let (history, log) = (times(history, noted), times(log, logged));
        self.add(&format!("{entry}: {}, sums and branches made", OUTCOMES[outcome as usize]), 1);
        self.add_if("logs with a call in a sum", !log.is_disjoint(&reached.in_sums));
        self.add_if("logs with a call in a taken arm", !log.is_disjoint(&reached.in_arms));
        self.add_if("logs over 100, sums and branches made", logged > 100);
        // They are made though no more calls can be noted.
        let last = history.last().map_or(0, |time| time + 1);
        let after = outcome == FULL && reached.sums.range(last..steps).next().is_some();
        self.add_if("full histories, sums and branches made after the last entry", after);
    }

    /// What commands a run of a script as it is had to do.
    fn commands(&mut self, case: &Case, words: Words) {
        if words[0] != 0 {
            return;
        }
        let [noting, emitting] = [6, 7].map(|kind| named(&case.script, 8, kind));
        let [logged, triggers, cancels] = [4, 5, 9].map(|kind| named(&case.guideline, 16, kind));
        let called_for = &(&logged | &triggers) | &cancels;
        self.add_if("commands run", !noting.is_empty());
        self.add_if("commands run, sums or branches in the script", !noting.is_empty() && sums::has_sums(&case.script));
        self.add_if("commands run that the guideline does not call for", !noting.is_subset(&called_for) || !emitting.is_subset(&logged));
        self.add_if("commands run, others missing", !noting.is_empty() && !noting.is_superset(&called_for));
    }

    /// What conditions of kind 9 came to, by the answers of check, derive, rewrite, run_rewritten and rehearse.
    fn taken_back(&mut self, case: &Case, [checked, derived, written, ran, rehearsed]: [Words; 5]) {
        let Case { script, guideline, budget, .. } = case;
        let mut classes = taken_back::file(script, guideline, verdict(checked));
        classes.extend(taken_back::derived(script, guideline, verdict(derived)));
        classes.extend(taken_back::written(written[2]));
        classes.extend(taken_back::run(script, verdict(ran)));
        let run = if named(script, 8, 6).is_empty() { rehearsed } else { ran };
        if run[0] == 0 {
            classes.extend(taken_back::logged_calls(script, guideline, *budget));
        }
        classes.iter().for_each(|class| self.add(class, 1));
    }

    /// What a run left in history and log under this guideline.
    fn entries(&mut self, guideline: &[u8], words: Words, history: &Buffer, log: &Buffer) {
        let [number, _, outcome, _, noted, logged] = words;
        if number != 0 {
            return;
        }
        let entries = |buffer: &Buffer, count: u32| -> Vec<[u32; 4]> {
            let word = |entry: &[u8], at: usize| u32::from_le_bytes(entry[4 * at..4 * at + 4].try_into().unwrap());
            let entries = buffer.read().chunks_exact(16).take(count as usize);
            entries.map(|entry| [0, 1, 2, 3].map(|at| word(entry, at))).collect()
        };
        let (history, log) = (entries(history, noted), entries(log, logged));
        self.add("entries of histories", noted.into());
        self.add("entries of logs", logged.into());
        for (class, more) in [("over 100", 100), ("over 500", 500)] {
            self.add_if(&format!("histories {class}"), noted > more);
            self.add_if(&format!("logs {class}"), logged > more);
        }
        self.add_if("histories not empty", noted > 0);
        self.add_if("logs not empty", logged > 0);
        self.add_if("full histories with a log", outcome == FULL && logged > 0);
        self.add_if("full histories with a log, conditions of kind 9", outcome == FULL && logged > 0 && taken_back::has_cancels(guideline));
        self.add_if("logs with a time over 65,535", log.iter().any(|entry| entry[0] > 65_535));
        for kind in 2..=4 {
            self.add_if(&format!("logs with a view of kind {kind}"), log.iter().any(|entry| entry[2] == kind));
        }

        // A guideline of one clause tells which triggers and conditions decided.
        let records = || guideline.chunks_exact(16);
        let count = |kind: u8| records().filter(|record| record[0] == kind).count();
        if count(4) != 1 || noted <= 100 {
            return;
        }
        let head = records().find(|record| record[0] == 4).unwrap();
        let calls = history.iter().filter(|entry| entry[1].to_le_bytes() == head[4..8]).count();
        let partly = !log.is_empty() && log.len() < calls;
        self.add_if(&format!("partly logged, history over 100, triggers {}", count(5)), partly);
        for kind in 6..=9 {
            self.add_if(&format!("partly logged, history over 100, condition {kind}"), partly && count(kind) > 0);
        }
        self.add_if("calls never logged, history over 100", calls > 0 && logged == 0);
    }
}

fn answer(verdict: model::Verdict, [outcome, steps, history, log]: [u32; 4]) -> Words {
    [verdict.number, verdict.place, outcome, steps, history, log]
}

fn verdict([number, place, ..]: Words) -> model::Verdict {
    model::Verdict { number, place }
}

fn words(found: engine::RewrittenRun) -> Words {
    [found.number, found.place, found.outcome, found.steps, found.history_count, found.log_count]
}

fn model_run(script: &[u8], guideline: &[u8], budget: u32, [e, s, h, l, t]: [&mut [u8]; 5]) -> Words {
    let (verdict, outcome, steps, history, log) = model::run_rewritten(script, guideline, budget.into(), e, s, h, l, t);
    answer(verdict, [outcome, steps, history, log])
}

/// 22 and 23 as of the run, then rewriting, then the run of what it wrote.
fn model_rehearsal(script: &[u8], guideline: &[u8], budget: u32, [out, e, s, h, l, t]: [&mut [u8]; 6]) -> Words {
    let lent = [e, s, h, l, t];
    if u64::from(budget) > BUDGET {
        return [22, 0, 0, 0, 0, 0];
    }
    if lent.iter().zip(SIZES).any(|(buffer, size)| buffer.len() < size) {
        return [23, 0, 0, 0, 0, 0];
    }
    let (verdict, records) = model::rewrite(script, guideline, out);
    if verdict.number != 0 {
        return answer(verdict, [0; 4]);
    }
    model_run(&out[..8 * records as usize], guideline, budget, lent)
}

/// What the entries are given to read.
#[derive(Clone, PartialEq)]
struct Files {
    script: Buffer,
    guideline: Buffer,
}

impl Files {
    fn read(&self) -> (&[u8], &[u8]) {
        (self.script.read(), self.guideline.read())
    }

    fn check(&self, seen: &mut Seen) -> Words {
        let (script, guideline) = self.read();
        let engine = |[]: [&mut [u8]; 0]| {
            let found = engine::check(script, guideline);
            [found.number, found.place, 0, 0, 0, 0]
        };
        seen.both("check", &[], engine, |[]| answer(model::check(script, guideline), [0; 4])).0
    }

    fn derive(&self, seen: &mut Seen, lent: [Buffer; 1]) -> Words {
        let guideline = self.guideline.read();
        let engine = |[table]: [&mut [u8]; 1]| {
            let found = engine::derive(guideline, table);
            [found.number, found.place, 0, 0, 0, 0]
        };
        let model = |[table]: [&mut [u8]; 1]| answer(model::derive(guideline, table), [0; 4]);
        let (words, [table]) = seen.both("derive", &lent, engine, model);
        let facts = guideline.chunks(16).filter(|record| record[0] == 1).count();
        let hold: u32 = table.read().iter().take(TABLE).map(|byte| byte.count_ones()).sum();
        seen.add_if("derive: more than the facts", words[0] == 0 && hold as usize > facts);
        seen.add_if("derive: over 1,000 more than the facts", words[0] == 0 && hold as usize > facts + 1_000);
        words
    }

    fn pass_term(&self, seen: &mut Seen, record: u64) {
        let script = self.script.read();
        let found = engine::pass_term(script, record);
        assert_eq!(found, model::pass_term(script, record), "pass_term at {record}: the engine's answer and the model's");
        let found = if found.is_some() { "a record" } else { "none" };
        seen.add(&format!("pass_term: {found}"), 1);
        let offset = usize::try_from(record).ok().and_then(|record| record.checked_mul(8));
        let kind = offset.and_then(|offset| script.get(offset));
        seen.add_if(&format!("pass_term: {found}, at a sum"), kind == Some(&9));
        seen.add_if(&format!("pass_term: {found}, at a branch"), kind == Some(&10));
    }

    fn rewrite(&self, seen: &mut Seen, lent: [Buffer; 1]) -> (Words, [Buffer; 1]) {
        let (script, guideline) = self.read();
        let engine = |[out]: [&mut [u8]; 1]| {
            let found = engine::rewrite(script, guideline, out);
            [found.number, found.place, found.records, 0, 0, 0]
        };
        let model = |[out]: [&mut [u8]; 1]| {
            let (verdict, records) = model::rewrite(script, guideline, out);
            answer(verdict, [records, 0, 0, 0])
        };
        seen.both("rewrite", &lent, engine, model)
    }

    fn run_plain(&self, seen: &mut Seen, budget: u32, lent: [Buffer; 2]) {
        let script = self.script.read();
        let engine = |[e, s]: [&mut [u8]; 2]| {
            let found = engine::run_plain(script, budget, e, s);
            [found.number, found.place, found.outcome, found.steps, 0, 0]
        };
        let model = |[e, s]: [&mut [u8]; 2]| {
            let (verdict, outcome, steps) = model::run_plain(script, budget.into(), e, s);
            answer(verdict, [outcome, steps, 0, 0])
        };
        let (words, lent) = seen.both(&format!("run_plain with budget {budget}"), &lent, engine, model);
        seen.run("run_plain", budget, words, &lent[0]);
    }

    fn run_rewritten(&self, seen: &mut Seen, budget: u32, lent: [Buffer; 5]) -> (Words, [Buffer; 5]) {
        let (script, guideline) = self.read();
        let engine = |lent: [&mut [u8]; 5]| words(engine::run_rewritten(script, guideline, budget, lent));
        let model = |lent: [&mut [u8]; 5]| model_run(script, guideline, budget, lent);
        let (words, lent) = seen.both(&format!("run_rewritten with budget {budget}"), &lent, engine, model);
        seen.run("run_rewritten", budget, words, &lent[0]);
        seen.entries(guideline, words, &lent[2], &lent[3]);
        (words, lent)
    }

    /// The output is the first of the buffers.
    fn rehearse(&self, seen: &mut Seen, budget: u32, lent: [Buffer; 6]) -> (Words, [Buffer; 6]) {
        let (script, guideline) = self.read();
        let engine = |[out, e, s, h, l, t]: [&mut [u8]; 6]| words(engine::rehearse(script, guideline, budget, out, [e, s, h, l, t]));
        let model = |lent: [&mut [u8]; 6]| model_rehearsal(script, guideline, budget, lent);
        let (words, lent) = seen.both(&format!("rehearse with budget {budget}"), &lent, engine, model);
        seen.run("rehearse", budget, words, &lent[1]);
        seen.entries(guideline, words, &lent[3], &lent[4]);
        (words, lent)
    }

    /// Demand 3 of the rewritten run of these files that the engine made, unless the run is too long to try every choice of triggers.
    fn demand_3(&self, seen: &mut Seen, case: &Case, budget: u32, words: Words, [expression, log]: [&Buffer; 2]) {
        let [number, _, outcome, steps, noted, logged] = words;
        if number != 0 || u64::from(steps) > case.demand {
            return;
        }
        let (script, guideline) = self.read();
        let ended = Ended { outcome, steps, expression: expression.read(), log: &log.read()[..16 * logged as usize] };
        let holds = demand_3(script, guideline, budget.into(), &ended);
        assert_eq!(holds, Ok(()), "demand 3 of the engine's run with budget {budget}");
        seen.add("demand 3 tested", 1);
        seen.add_if("demand 3 tested, sums or branches in the script", sums::has_sums(script));
        seen.add_if("demand 3 tested, conditions of kind 9", taken_back::has_cancels(guideline));
        seen.add_if("demand 3 tested, log not empty", logged > 0);
        seen.add_if("demand 3 tested, history over 100", noted > 100);
        seen.add_if("demand 3 tested, history full", outcome == FULL);
    }
}

/// Records to begin at: of the file, at its end, and some that a multiplication by eight or a word of 32 bits would take for one of the file.
fn records(rng: &mut Rng, count: usize) -> Vec<u64> {
    let inside = rng.below(count.max(1)) as u64;
    let mut records: Vec<u64> = if count <= 40 { (0..count as u64).collect() } else { (0..20).map(|_| rng.below(count) as u64).collect() };
    records.extend([0, 1].map(|more| count as u64 + more));
    records.extend([29, 32, 61, 63].map(|bits| (1 << bits) + inside));
    records.extend([u64::MAX - 1, u64::MAX]);
    records
}

/// A second budget for an accepted show, of which the first run answered `words`: at the edges of that run, or of budgets.
fn other_budget(rng: &mut Rng, case: &Case, words: Words) -> u32 {
    let [number, _, outcome, steps, ..] = words;
    let over = BUDGET as u32 + 1;
    if case.demand > BUDGET {
        return rng.below(30) as u32;
    }
    if number != 0 || u64::from(steps) > case.demand {
        return case.demand as u32;
    }
    let before = steps.saturating_sub(1);
    let some = rng.below(steps as usize + 1) as u32;
    // A run that ends by itself ends there with all larger budgets, but after a full history the plain run may go on for long.
    let most = if outcome == FULL && !rng.one_in(8) { steps + 2 } else { BUDGET as u32 };
    match outcome {
        SPENT => rng.pick(&[steps, before, some, 0, over]),
        _ => rng.pick(&[steps, steps, before, steps + 1, some, most, 0, over]),
    }
}

/// The function numbers in the records of a kind.
fn named(file: &[u8], size: usize, kind: u8) -> BTreeSet<&[u8]> {
    file.chunks_exact(size).filter(|record| record[0] == kind).map(|record| &record[4..8]).collect()
}

fn case(seed: u64, number: u64) -> (Case, Rng) {
    let mut rng = Rng(Rng(seed).word().wrapping_add(number));
    let seed = rng.word();
    (if number % LONG == LONG - 1 { Case::long(seed) } else { Case::new(seed) }, rng)
}

/// Calls every entry with a case, and accepted files a second time.
fn compare(case: &Case, rng: &mut Rng, seen: &mut Seen) {
    let files = Files { script: Buffer::file(rng, &case.script), guideline: Buffer::file(rng, &case.guideline) };
    let before = files.clone();
    let budget = case.budget as u32;
    let Case { out, expression: e, scratch: s, history: h, log: l, table: t, .. } = *case;

    let checked = files.check(seen);
    let reached = sums::steps(&case.script, case.budget);
    let classes = sums::file(&case.script, verdict(checked));
    classes.union(&reached.classes).for_each(|class| seen.add(class, 1));
    seen.add_if("scripts with sums or branches", sums::has_sums(&case.script));
    let derived = files.derive(seen, lend(rng, [t]));
    for record in records(rng, case.script.len() / 8) {
        files.pass_term(seen, record);
    }
    let (written, _) = files.rewrite(seen, lend(rng, [out]));
    files.run_plain(seen, budget, lend(rng, [e, s]));
    let (ran, _) = files.run_rewritten(seen, budget, lend(rng, [e, s, h, l, t]));
    seen.commands(case, ran);
    let (words, lent) = files.rehearse(seen, budget, lend(rng, [out, e, s, h, l, t]));
    seen.steps("rehearse", words, &lent[3], &lent[4], &reached);
    seen.taken_back(case, [checked, derived, written, ran, words]);
    files.demand_3(seen, case, budget, words, [&lent[1], &lent[4]]);

    if checked[0] == 0 {
        // Once more in two calls, with enough room and another budget.
        let budget = other_budget(rng, case, words);
        let (words, [out]) = files.rewrite(seen, lend(rng, [REWRITTEN]));
        let script = Buffer::file(rng, &out.read()[..8 * words[2] as usize]);
        let written = Files { script, ..files.clone() };
        let (words, lent) = written.run_rewritten(seen, budget, lend(rng, SIZES));
        seen.steps("run_rewritten", words, &lent[2], &lent[3], &reached);
        files.demand_3(seen, case, budget, words, [&lent[0], &lent[3]]);
        files.run_plain(seen, budget, lend(rng, [EXPRESSION, SCRATCH]));
        if rng.one_in(4) {
            files.rehearse(seen, budget, lend(rng, [REWRITTEN, EXPRESSION, SCRATCH, HISTORY, LOG, TABLE]));
        }
    }
    assert!(files == before, "a file is altered");
}

/// The classes that a run must reach.
fn wanted() -> Vec<String> {
    let script = 1..=7;
    let both = || script.clone().chain(11..=17);
    let numbers: [(&str, Vec<u32>); 6] = [
        ("check", both().collect()),
        ("derive", vec![11, 12, 13, 14, 15, 16, 23]),
        ("rewrite", both().chain([21]).collect()),
        ("run_plain", script.clone().chain([22, 23]).collect()),
        ("run_rewritten", both().chain([22, 23]).collect()),
        ("rehearse", both().chain([21, 22, 23]).collect()),
    ];
    let mut wanted = Vec::new();
    for (entry, numbers) in numbers {
        wanted.extend([0].into_iter().chain(numbers).map(|number| format!("{entry}: number {number}")));
    }
    for (entry, outcomes) in [("run_plain", 4), ("run_rewritten", 5), ("rehearse", 5)] {
        wanted.extend(OUTCOMES[..outcomes].iter().map(|outcome| format!("{entry}: {outcome}")));
        let budgets = ["budget 0", "budget exact", "budget 1,000,000", "budget 1,000,001", "over 10,000 steps", "1,024 records left"];
        wanted.extend(budgets.map(|class| format!("{entry}: {class}")));
    }
    let partly = ["triggers 1", "triggers 2", "triggers 3", "triggers 4", "condition 6", "condition 7", "condition 8", "condition 9"];
    wanted.extend(partly.map(|class| format!("partly logged, history over 100, {class}")));
    wanted.extend([2, 3, 4].map(|kind| format!("logs with a view of kind {kind}")));
    wanted.extend(sums::FILES.iter().chain(&sums::STEPS).map(|class| class.to_string()));
    wanted.extend(taken_back::FILES.iter().chain(&taken_back::LENGTHS).chain(&taken_back::CALLS).map(|class| class.to_string()));
    for entry in ["run_rewritten", "rehearse"] {
        wanted.extend(OUTCOMES.map(|outcome| format!("{entry}: {outcome}, sums and branches made")));
    }
    let others = [
        "calls never logged, history over 100",
        "commands run",
        "commands run that the guideline does not call for",
        "commands run, others missing",
        "commands run, sums or branches in the script",
        "demand 3 tested",
        "demand 3 tested, conditions of kind 9",
        "demand 3 tested, history full",
        "demand 3 tested, history over 100",
        "demand 3 tested, log not empty",
        "demand 3 tested, sums or branches in the script",
        "derive: more than the facts",
        "derive: over 1,000 more than the facts",
        "full histories with a log",
        "full histories with a log, conditions of kind 9",
        "full histories, sums and branches made after the last entry",
        "histories not empty",
        "histories over 100",
        "histories over 500",
        "logs not empty",
        "logs over 100",
        "logs over 500",
        "logs over 100, sums and branches made",
        "logs with a call in a sum",
        "logs with a call in a taken arm",
        "logs with a time over 65,535",
        "pass_term: a record",
        "pass_term: a record, at a branch",
        "pass_term: a record, at a sum",
        "pass_term: none",
        "pass_term: none, at a branch",
        "pass_term: none, at a sum",
    ];
    wanted.extend(others.map(String::from));
    wanted
}

/// Whether engine and model agree on a case; prints it if not, as the vectors have it.
fn agree(name: &str, case: &Case, rng: &mut Rng, seen: &mut Seen) -> bool {
    let agree = catch_unwind(AssertUnwindSafe(|| compare(case, rng, seen))).is_ok();
    if !agree {
        let hex = |file: &[u8]| file.iter().map(|byte| format!("{byte:02x}")).collect::<String>();
        let Case { script, guideline, budget, out, expression: e, scratch: s, history: h, log: l, table: t, .. } = case;
        let lengths = format!("out_len={out} expr_len={e} scratch_len={s} history_len={h} log_len={l} table_len={t}");
        eprintln!("{name}\nscript={} guideline={} budget={budget} {lengths}", hex(script), hex(guideline));
    }
    agree
}

#[test]
fn seeded_cases() {
    let asked = |name: &str, usual: u64| env::var(name).map_or(usual, |number| number.parse().expect(name));
    let (cases, seed, first) = (asked("LORGWIN_CASES", CASES), asked("LORGWIN_SEED", 0), asked("LORGWIN_FIRST", 0));
    let end = first + cases;
    let next = AtomicU64::new(first);
    let work = || {
        let mut seen = Seen::default();
        loop {
            let number = next.fetch_add(1, Ordering::Relaxed);
            if number >= end {
                return Ok(seen);
            }
            let (case, rng) = &mut case(seed, number);
            if !agree(&format!("case {number} of seed {seed}"), case, rng, &mut seen) {
                next.store(end, Ordering::Relaxed);
                return Err(number);
            }
        }
    };
    let found: Vec<Result<Seen, u64>> = thread::scope(|scope| {
        let workers: Vec<_> = (0..THREADS).map(|_| scope.spawn(work)).collect();
        workers.into_iter().map(|worker| worker.join().unwrap()).collect()
    });

    let mut seen = Seen::default();
    for found in found {
        match found {
            Ok(found) => found.0.iter().for_each(|(class, count)| seen.add(class, *count)),
            Err(number) => panic!("case {number} fails: LORGWIN_SEED={seed} LORGWIN_FIRST={number} LORGWIN_CASES=1 repeats it"),
        }
    }
    println!("{cases} cases of seed {seed} from {first}");
    seen.0.iter().for_each(|(class, count)| println!("{count:>9}  {class}"));
    if cases >= CASES {
        let missing: Vec<String> = wanted().into_iter().filter(|class| seen.0.get(class).is_none_or(|count| *count == 0)).collect();
        assert!(missing.is_empty(), "not reached: {missing:?}");
    }
}

/// Files of every count of records and past it, with and without a part of a record at the end; buffers at the edges of their sizes.
#[test]
fn every_length() {
    let usual = || Case {
        script: script(4),
        guideline: Vec::new(),
        budget: 3,
        demand: 3,
        out: REWRITTEN,
        expression: EXPRESSION,
        scratch: SCRATCH,
        history: HISTORY,
        log: LOG,
        table: TABLE,
    };
    let rng = &mut Rng(0);
    let mut cases = Vec::new();
    for records in 0..=1_297 {
        let part = rng.below(8);
        cases.extend([0, part].map(|more| Case { script: [script(records), vec![0; more]].concat(), ..usual() }));
        cases.push(Case { script: sums(records), ..usual() });
    }
    for records in 0..=257 {
        let fact = [1, 0, 3, 3, 7, 0, 0, 0, 8, 0, 0, 0, 0, 0, 0, 0];
        let part = rng.below(16);
        cases.extend([0, part].map(|more| Case { guideline: [fact.repeat(records), vec![0; more]].concat(), ..usual() }));
    }
    let edges = |size: usize| [0, 1, size - 1, size, size + 1];
    cases.extend(edges(script(4).len()).map(|out| Case { out, ..usual() }));
    cases.extend(edges(EXPRESSION).map(|expression| Case { expression, ..usual() }));
    cases.extend(edges(SCRATCH).map(|scratch| Case { scratch, ..usual() }));
    cases.extend(edges(HISTORY).map(|history| Case { history, ..usual() }));
    cases.extend(edges(LOG).map(|log| Case { log, ..usual() }));
    cases.extend(edges(TABLE).map(|table| Case { table, ..usual() }));

    let mut seen = Seen::default();
    for (number, case) in cases.iter().enumerate() {
        assert!(agree(&format!("length {number}"), case, rng, &mut seen), "case {number} of the lengths fails");
    }
    for (class, count) in
        [("run_plain: number 0", 1_024), ("run_plain: number 1", 1_000), ("derive: number 11", 200), ("rehearse: number 23", 10)]
    {
        assert!(seen.0[class] >= count, "{class}: only {}", seen.0[class]);
    }
}

/// A script of this many records: sums one in the other, in an arm where the count is even.
fn sums(records: usize) -> Vec<u8> {
    let record = |kind: u8, number: u8| vec![kind, 0, 0, 0, number, 0, 0, 0];
    let nest = |records: usize| [[record(9, 0), record(3, 1)].concat().repeat(records / 2), record(3, 7)].concat();
    match records {
        0 | 2 => script(records),
        _ if records.is_multiple_of(2) => [record(10, 0), record(3, 0), nest(records - 3), record(3, 8)].concat(),
        _ => nest(records),
    }
}

/// A script of this many records without definitions, an abstraction applied where there is room for it.
fn script(records: usize) -> Vec<u8> {
    let mut out = Vec::new();
    match records {
        0 => {}
        1 => push(&mut out, 3, 7),
        2 | 3 => (0..records).for_each(|at| push(&mut out, [4, 4, 1][at + 3 - records], 0)),
        _ => {
            push(&mut out, 5, 0);
            (0..records - 3).for_each(|label| push(&mut out, 4, label as u32));
            push(&mut out, 1, 0);
            push(&mut out, 3, 7);
        }
    }
    out
}

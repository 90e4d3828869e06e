//! The model on generated cases: what refusals and answers leave in lent bytes, that the cases
//! reach every number, every outcome and all that sums, branches and kind 9 can come to, and
//! demand 3.

use model::demand::{demand_3, Ended};
use model::generate::{budget, files, Case, Rng};
use model::reached::{sums, taken_back};
use model::*;
use std::collections::{BTreeMap, BTreeSet};

const CASES: u64 = 8_000;

/// Lent buffers, with the same noise for the same length.
fn lend<const N: usize>(lengths: [usize; N]) -> [Vec<u8>; N] {
    lengths.map(|length| Rng(length as u64).bytes(length))
}

/// A refusal alters no byte; an answer none past the sizes.
fn untouched<const N: usize>(seed: u64, verdict: Verdict, lent: &[Vec<u8>; N], sizes: [usize; N]) {
    let before = lend(lent.each_ref().map(Vec::len));
    for i in 0..N {
        let size = if verdict.number == 0 { sizes[i] } else { 0 };
        assert!(lent[i][size..] == before[i][size..], "seed {seed}: a byte is altered");
    }
}

/// "The output has 4 records more for each distinct logged function and 2 for each other trigger",
/// the h of a kind 9 condition among them.
fn more_records(guideline: &[u8]) -> u32 {
    let of_kinds = |kinds: &[u8]| -> BTreeSet<&[u8]> {
        let records = guideline.chunks(16).filter(|record| kinds.contains(&record[0]));
        records.map(|record| &record[4..8]).collect()
    };
    let (logged, triggers) = (of_kinds(&[4]), of_kinds(&[5, 9]));
    (4 * logged.len() + 2 * triggers.difference(&logged).count()) as u32
}

/// The term reader passes over all bodies and the main term of an accepted script.
fn passes(script: &[u8]) -> bool {
    let mut at = 0;
    while script[8 * at as usize] == 8 {
        at = pass_term(script, at + 1).unwrap();
    }
    pass_term(script, at) == Some(script.len() as u64 / 8)
}

/// How often each number and each outcome of each entry was seen, how many log entries, and what
/// sums, branches and kind 9 came to.
#[derive(Default)]
struct Seen {
    numbers: BTreeMap<(&'static str, u32), u32>,
    outcomes: BTreeMap<(&'static str, u32), u32>,
    logged: u32,
    reached: BTreeMap<&'static str, u32>,
}

impl Seen {
    fn number(&mut self, entry: &'static str, verdict: Verdict) -> bool {
        *self.numbers.entry((entry, verdict.number)).or_default() += 1;
        verdict.number == 0
    }

    fn outcome(&mut self, entry: &'static str, outcome: u32) {
        *self.outcomes.entry((entry, outcome)).or_default() += 1;
    }

    fn reached(&mut self, classes: impl IntoIterator<Item = &'static str>) {
        for class in classes {
            *self.reached.entry(class).or_default() += 1;
        }
    }
}

/// Checking, deriving and rewriting a case; gives the derived table.
fn records(seed: u64, case: &Case, seen: &mut Seen) -> Vec<u8> {
    let (script, guideline) = (&case.script, &case.guideline);
    let verdict = check(script, guideline);
    seen.reached(sums::file(script, verdict));
    seen.reached(taken_back::file(script, guideline, verdict));
    if seen.number("check", verdict) {
        assert!(passes(script), "seed {seed}: the term reader");
        seen.reached(sums::steps(script, case.budget).classes);
    }

    let mut lent = lend([case.out]);
    let (verdict, count) = rewrite(script, guideline, &mut lent[0]);
    untouched(seed, verdict, &lent, [count as usize * 8]);
    if seen.number("rewrite", verdict) {
        let wanted = script.len() as u32 / 8 + more_records(guideline);
        assert_eq!(count, wanted, "seed {seed}: the count of records");
        seen.reached(taken_back::written(count));
    }

    let mut lent = lend([case.table]);
    let verdict = derive(guideline, &mut lent[0]);
    untouched(seed, verdict, &lent, [TABLE]);
    seen.number("derive", verdict);
    seen.reached(taken_back::derived(script, guideline, verdict));
    let [derived] = lent;
    derived
}

/// Both runs of a case.
fn runs(seed: u64, case: &Case, derived: &[u8], seen: &mut Seen) {
    let (script, guideline, budget) = (&case.script, &case.guideline, case.budget);
    let mut lent = lend([case.expression, case.scratch]);
    let [expression, scratch] = &mut lent;
    let (verdict, outcome, _) = run_plain(script, budget, expression, scratch);
    untouched(seed, verdict, &lent, [EXPRESSION, SCRATCH]);
    if seen.number("plain", verdict) {
        seen.outcome("plain", outcome);
    }

    let mut lent = lend([case.expression, case.scratch, case.history, case.log, case.table]);
    let [expression, scratch, history, log, table] = &mut lent;
    let (verdict, outcome, _, _, count) =
        run_rewritten(script, guideline, budget, expression, scratch, history, log, table);
    untouched(seed, verdict, &lent, [EXPRESSION, SCRATCH, HISTORY, LOG, TABLE]);
    seen.reached(taken_back::run(script, verdict));
    if budget <= BUDGET {
        seen.reached(taken_back::logged_calls(script, guideline, budget));
    }
    if seen.number("rewritten", verdict) {
        assert!(lent[4][..TABLE] == derived[..TABLE], "seed {seed}: the tables differ");
        seen.outcome("rewritten", outcome);
        seen.logged += count;
    }
}

#[test]
fn entries() {
    let mut seen = Seen::default();
    for seed in 0..CASES {
        let case = Case::new(seed);
        let derived = records(seed, &case, &mut seen);
        runs(seed, &case, &derived, &mut seen);
    }
    let Seen { numbers, outcomes, logged, reached } = seen;
    println!("numbers {numbers:?}\noutcomes {outcomes:?}\nlog entries {logged}");
    println!("reached {reached:#?}");

    let script = 0..=7;
    let both = script.clone().chain(11..=17);
    let all = [
        ("check", both.clone().collect()),
        ("derive", vec![0, 11, 12, 13, 14, 15, 16, 23]),
        ("rewrite", both.clone().chain([21]).collect()),
        ("plain", script.chain([22, 23]).collect()),
        ("rewritten", both.chain([22, 23]).collect()),
    ];
    for (entry, all) in all {
        let seen: Vec<u32> = numbers.keys().filter(|key| key.0 == entry).map(|key| key.1).collect();
        assert_eq!(seen, all, "the numbers of {entry}");
    }
    for (entry, all) in [("plain", 0..4), ("rewritten", 0..5)] {
        let seen = outcomes.keys().filter(|key| key.0 == entry).map(|key| key.1);
        assert!(seen.eq(all), "the outcomes of {entry}");
    }
    let sums = sums::FILES.iter().chain(&sums::STEPS);
    let kind_9 = taken_back::FILES.iter().chain(&taken_back::LENGTHS).chain(&taken_back::CALLS);
    let missing: Vec<_> =
        sums.chain(kind_9).filter(|class| !reached.contains_key(*class)).collect();
    assert!(missing.is_empty(), "not reached: {missing:?}");
}

/// What the rewritten run of a script under a guideline returns: outcome, steps, expression, log.
fn rewritten_run(script: &[u8], guideline: &[u8], budget: u64) -> (u32, u32, Vec<u8>, Vec<u8>) {
    let [mut out, mut expression, mut scratch, mut history, mut log, mut table] =
        lend([REWRITTEN, EXPRESSION, SCRATCH, HISTORY, LOG, TABLE]);
    let (verdict, count) = rewrite(script, guideline, &mut out);
    assert_eq!(verdict, Verdict::default());
    let (verdict, outcome, steps, _, logged) = run_rewritten(
        &out[..8 * count as usize],
        guideline,
        budget,
        &mut expression,
        &mut scratch,
        &mut history,
        &mut log,
        &mut table,
    );
    assert_eq!(verdict, Verdict::default());
    log.truncate(16 * logged as usize);
    (outcome, steps, expression, log)
}

/// How many entries of a log are of these calls.
fn among(log: &[u8], calls: &BTreeSet<u32>) -> usize {
    let time = |entry: &[u8]| u32::from_le_bytes(entry[..4].try_into().unwrap());
    log.chunks(16).filter(|entry| calls.contains(&time(entry))).count()
}

/// Demand 3 of the rewritten runs of some shows; it tells other runs apart. Calls inside sums and
/// inside taken arms are logged too.
fn demand_3_of(shows: impl Iterator<Item = (Vec<u8>, Vec<u8>, u64)>) {
    let (mut full, mut logged, mut in_sums, mut in_arms) = (0, 0, 0, 0);
    for (script, guideline, budget) in shows {
        let (outcome, steps, expression, log) = rewritten_run(&script, &guideline, budget);
        let holds = |ended: &Ended| demand_3(&script, &guideline, budget, ended);
        let ended = Ended { outcome, steps, expression: &expression, log: &log };
        assert_eq!(holds(&ended), Ok(()));
        assert!(holds(&Ended { steps: steps + 1, ..ended }).is_err(), "steps");
        assert!(holds(&Ended { outcome: (outcome + 1) % 5, ..ended }).is_err(), "outcome");
        assert!(log.is_empty() || holds(&Ended { log: &log[16..], ..ended }).is_err(), "log");
        full += u32::from(outcome == 4);
        logged += log.len() / 16;
        let reached = sums::steps(&script, budget);
        in_sums += among(&log, &reached.in_sums);
        in_arms += among(&log, &reached.in_arms);
    }
    println!("full histories {full}, log entries {logged}, in sums {in_sums}, in arms {in_arms}");
    assert!(full > 10 && logged > 1_000 && in_sums > 100 && in_arms > 100);
}

#[test]
fn demand_3_holds() {
    let show = |seed| {
        let rng = &mut Rng(seed);
        let (script, guideline) = files(rng);
        let budget = budget(rng, &script, &guideline);
        (script, guideline, budget)
    };
    demand_3_of((0..CASES).map(show).filter(|show| show.2 <= BUDGET));
}

/// Shows with long histories, as far as every choice of triggers can be tried. Some have commands
/// already and are passed over.
#[test]
fn demand_3_holds_of_long_histories() {
    let show = |seed| {
        let case = Case::long(seed);
        (case.script, case.guideline, case.demand)
    };
    demand_3_of((0..300).map(show).filter(|show| check(&show.0, &show.1) == Verdict::default()));
}

//! Each entry by the engine over its C interface and by the plain Rust model: they answer the same and leave the same bytes. Scripts and
//! guidelines are written as text.

use model::{EXPRESSION, HISTORY, LOG, SCRATCH, TABLE};

/// Outcomes.
pub const VALUE: u32 = 0;
pub const STUCK: u32 = 1;
pub const SPENT: u32 = 2;
pub const LARGE: u32 = 3;
pub const FULL: u32 = 4;

/// What lent buffers hold before a call.
const BEFORE: u8 = 1;
/// Expression, scratch, history, log and table.
const SIZES: [usize; 5] = [EXPRESSION, SCRATCH, HISTORY, LOG, TABLE];

/// Script records as `kind:number`; `kind:number*count` is one that is repeated.
pub fn records(text: &str) -> Vec<u8> {
    let mut out = Vec::new();
    for record in text.split_whitespace() {
        let (record, count) = record.split_once('*').unwrap_or((record, "1"));
        let (kind, number) = record.split_once(':').unwrap();
        for _ in 0..count.parse().unwrap() {
            model::script::push(&mut out, kind.parse().unwrap(), number.parse().unwrap());
        }
    }
    out
}

/// An expression's buffer with these records at its front.
pub fn expression(text: &str) -> Vec<u8> {
    let mut buffer = records(text);
    buffer.resize(EXPRESSION, 0);
    buffer
}

/// Guideline records as `kind:function`, `kind:i:function` or `kind:first:i:j`, where `first` is byte 1.
pub fn guideline(text: &str) -> Vec<u8> {
    let record = |text: &str| {
        let fields: Vec<u32> = text.split(':').map(|field| field.parse().unwrap()).collect();
        let (small, function) = match fields[..] {
            [kind, function] => ([kind, 0, 0, 0], function),
            [kind, i, function] => ([kind, 0, i, 0], function),
            [kind, first, i, j] => ([kind, first, i, j], 0),
            _ => panic!("no record: {text}"),
        };
        let mut record = small.map(|byte| byte as u8).to_vec();
        record.extend(function.to_le_bytes());
        record.resize(16, 0);
        record
    };
    text.split_whitespace().flat_map(record).collect()
}

/// Calls both with buffers of these lengths. A refusal alters no byte.
#[track_caller]
fn both<const N: usize, const W: usize>(
    lengths: [usize; N],
    engine: impl FnOnce([&mut [u8]; N]) -> [u32; W],
    model: impl FnOnce([&mut [u8]; N]) -> [u32; W],
) -> ([u32; W], [Vec<u8>; N]) {
    let lent = lengths.map(|length| vec![BEFORE; length]);
    let [mut found, mut wanted] = [lent.clone(), lent.clone()];
    let words = engine(found.each_mut().map(Vec::as_mut_slice));
    assert_eq!(words, model(wanted.each_mut().map(Vec::as_mut_slice)), "the words of engine and model");
    assert!(found == wanted, "engine and model leave other bytes");
    assert!(words[0] == 0 || found == lent, "a refusal alters a byte");
    (words, found)
}

/// Number and place.
#[track_caller]
pub fn check(script: &[u8], guideline: &[u8]) -> [u32; 2] {
    let engine = |[]: [&mut [u8]; 0]| {
        let found = crate::check(script, guideline);
        [found.number, found.place]
    };
    let model = |[]: [&mut [u8]; 0]| {
        let found = model::check(script, guideline);
        [found.number, found.place]
    };
    both([], engine, model).0
}

/// Number and place.
#[track_caller]
pub fn derive(guideline: &[u8]) -> [u32; 2] {
    let engine = |[table]: [&mut [u8]; 1]| {
        let found = crate::derive(guideline, table);
        [found.number, found.place]
    };
    let model = |[table]: [&mut [u8]; 1]| {
        let found = model::derive(guideline, table);
        [found.number, found.place]
    };
    both([TABLE], engine, model).0
}

/// The record after the term.
#[track_caller]
pub fn pass_term(script: &[u8], record: u64) -> Option<u64> {
    let found = crate::pass_term(script, record);
    assert_eq!(found, model::pass_term(script, record), "the answers of engine and model");
    found
}

/// Number, place and count, and the bytes of an output of this length that are written.
#[track_caller]
pub fn rewrite(script: &[u8], guideline: &[u8], length: usize) -> ([u32; 3], Vec<u8>) {
    let engine = |[out]: [&mut [u8]; 1]| {
        let found = crate::rewrite(script, guideline, out);
        [found.number, found.place, found.records]
    };
    let model = |[out]: [&mut [u8]; 1]| {
        let (verdict, count) = model::rewrite(script, guideline, out);
        [verdict.number, verdict.place, count]
    };
    let (words, [mut out]) = both([length], engine, model);
    let rest = out.split_off(8 * words[2] as usize);
    assert!(rest.iter().all(|byte| *byte == BEFORE), "more than the needed bytes are written");
    (words, out)
}

/// Number, place, outcome and steps, and the expression's buffer.
#[track_caller]
pub fn run_plain(script: &[u8], budget: u32) -> ([u32; 4], Vec<u8>) {
    let engine = |[e, s]: [&mut [u8]; 2]| {
        let found = crate::run_plain(script, budget, e, s);
        [found.number, found.place, found.outcome, found.steps]
    };
    let model = |[e, s]: [&mut [u8]; 2]| {
        let (verdict, outcome, steps) = model::run_plain(script, budget.into(), e, s);
        [verdict.number, verdict.place, outcome, steps]
    };
    let (words, [expression, _]) = both([EXPRESSION, SCRATCH], engine, model);
    (words, expression)
}

/// What a rewritten run answers and leaves.
pub struct Ran {
    /// Number, place, outcome, steps, and the counts of history and log.
    pub words: [u32; 6],
    pub expression: Vec<u8>,
    pub history: Vec<[u32; 4]>,
    pub log: Vec<[u32; 4]>,
}

impl Ran {
    fn new(words: [u32; 6], [expression, _, history, log, _]: [Vec<u8>; 5]) -> Ran {
        let word = |entry: &[u8], at: usize| u32::from_le_bytes(entry[at..at + 4].try_into().unwrap());
        let entries = |buffer: Vec<u8>, count: u32| {
            let entries = buffer.chunks(16).take(count as usize);
            entries.map(|entry| [0, 4, 8, 12].map(|at| word(entry, at))).collect()
        };
        Ran { words, expression, history: entries(history, words[4]), log: entries(log, words[5]) }
    }
}

fn engine_words(found: crate::RewrittenRun) -> [u32; 6] {
    [found.number, found.place, found.outcome, found.steps, found.history_count, found.log_count]
}

fn model_run(script: &[u8], guideline: &[u8], budget: u32, [e, s, h, l, t]: [&mut [u8]; 5]) -> [u32; 6] {
    let (verdict, outcome, steps, noted, logged) = model::run_rewritten(script, guideline, budget.into(), e, s, h, l, t);
    [verdict.number, verdict.place, outcome, steps, noted, logged]
}

#[track_caller]
pub fn run_rewritten(script: &[u8], guideline: &[u8], budget: u32) -> Ran {
    let engine = |lent: [&mut [u8]; 5]| engine_words(crate::run_rewritten(script, guideline, budget, lent));
    let (words, lent) = both(SIZES, engine, |lent| model_run(script, guideline, budget, lent));
    Ran::new(words, lent)
}

/// A script is rewritten into an output of this length, and run; the engine does both in one call. The budget must be in order.
#[track_caller]
pub fn rehearse(script: &[u8], guideline: &[u8], budget: u32, length: usize) -> Ran {
    let engine = |[out, e, s, h, l, t]: [&mut [u8]; 6]| engine_words(crate::rehearse(script, guideline, budget, out, [e, s, h, l, t]));
    let model = |[out, e, s, h, l, t]: [&mut [u8]; 6]| match model::rewrite(script, guideline, out) {
        (model::Verdict { number: 0, .. }, count) => model_run(&out[..8 * count as usize], guideline, budget, [e, s, h, l, t]),
        (verdict, _) => [verdict.number, verdict.place, 0, 0, 0, 0],
    };
    let [e, s, h, l, t] = SIZES;
    let (words, [_, e, s, h, l, t]) = both([length, e, s, h, l, t], engine, model);
    Ran::new(words, [e, s, h, l, t])
}

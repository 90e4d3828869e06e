//! Times the engine and the plain Rust model on the workloads, side by side: `cargo run --release` prints a table, and below it what a sum or
//! a branch costs the engine beyond the loop around it, and how the runs with conditions of kind 9 compare with w5d.
//!
//! A figure is the best of several calls, in three rounds over all workloads, so that other work on the machine spoils few of them. Buffers
//! are not cleared between calls: no entry looks at what they held. Each figure is taken in a process of its own, which is stopped after ten
//! seconds. `cargo run --release -- w1 w4` does only these workloads; `engine w5b 40` prints one figure with another budget.

use std::hint::black_box;
use std::process::{Command, Stdio};
use std::time::{Duration, Instant};
use std::{env, fs, thread};

const LIMIT: Duration = Duration::from_secs(10);
/// Time given to the calls of one figure in a round.
const ENOUGH: Duration = Duration::from_millis(400);
const ROUNDS: usize = 3;
/// The model makes at most so many steps of a plain run: its time goes by the step.
const MODEL_STEPS: u32 = 20_000;
/// A run, and one with as many turns that lacks its sums or branches, or has half of them: the further steps are timed by the difference.
const BESIDE: [(&str, &str); 5] = [("s1", "s0"), ("s2", "s0"), ("s3", "s3n"), ("s4", "s0"), ("s5", "s5h")];
/// Runs with conditions of kind 9 and 1,024 noted calls, as many as w5d has.
const TAKEN_BACK: [&str; 7] = ["k0", "k1", "k2", "k3", "k4", "k5", "k6"];

/// A line of workloads/index.txt: name, script, guideline, budget, what it stresses.
struct Workload {
    name: String,
    script: Vec<u8>,
    guideline: Vec<u8>,
    budget: u32,
    what: String,
}

fn workloads() -> Vec<Workload> {
    let folder = concat!(env!("CARGO_MANIFEST_DIR"), "/workloads");
    let file = |name: &str| if name == "-" { Vec::new() } else { fs::read(format!("{folder}/{name}")).unwrap() };
    let index = fs::read_to_string(format!("{folder}/index.txt")).unwrap();
    let line = |line: &str| {
        let words: Vec<&str> = line.splitn(5, ' ').collect();
        let budget = words[3].parse().unwrap();
        Workload { name: words[0].into(), script: file(words[1]), guideline: file(words[2]), budget, what: words[4].into() }
    };
    index.lines().map(line).collect()
}

/// The best time of a call, and the steps that it made, 0 where it is no run.
#[derive(Clone, Copy)]
struct Figure {
    call: Duration,
    steps: u32,
}

impl Figure {
    fn step(&self) -> Duration {
        Duration::from_nanos((self.call.as_nanos() as f64 / f64::from(self.steps.max(1))).round() as u64)
    }
}

fn best(mut call: impl FnMut() -> u32) -> Figure {
    let start = Instant::now();
    let mut least = Figure { call: Duration::MAX, steps: 0 };
    while least.call == Duration::MAX || start.elapsed() < ENOUGH {
        let before = Instant::now();
        let steps = call();
        least = Figure { call: least.call.min(before.elapsed()), steps };
    }
    least
}

/// What is measured on a workload.
#[derive(PartialEq)]
enum Kind {
    /// Plain runs, w1 to w4 and s0 to s5: the time of a step.
    Plain,
    /// Rewritten runs of the rewritten script, w5 and k0 to k6.
    Rewritten,
    /// Deriving, w6.
    Derive,
    /// Checking and rewriting, w7.
    Rewrite,
}

fn kind(name: &str) -> Kind {
    match name.as_bytes() {
        [b's', ..] | [b'w', b'1'..=b'4', ..] => Kind::Plain,
        [b'k', ..] | [b'w', b'5', ..] => Kind::Rewritten,
        [b'w', b'6', ..] => Kind::Derive,
        _ => Kind::Rewrite,
    }
}

fn buffers() -> [Vec<u8>; 5] {
    [24576, 24576, 16384, 16384, 8192].map(|n| vec![0; n])
}

fn engine(w: &Workload, budget: u32) -> Figure {
    let mut lent = buffers();
    let mut out = vec![0; 10368];
    match kind(&w.name) {
        Kind::Plain => {
            let [e, s, ..] = &mut lent;
            best(|| {
                let run = lorgwin_tests::run_plain(black_box(&w.script), budget, e, s);
                assert_eq!(run.number, 0);
                run.steps
            })
        }
        Kind::Rewritten => {
            let written = lorgwin_tests::rewrite(&w.script, &w.guideline, &mut out);
            assert_eq!(written.number, 0);
            let file = &out[..8 * written.records as usize];
            best(|| {
                let lent = lent.each_mut().map(Vec::as_mut_slice);
                let run = lorgwin_tests::run_rewritten(black_box(file), black_box(&w.guideline), budget, lent);
                assert_eq!(run.number, 0);
                run.steps
            })
        }
        Kind::Derive => best(|| {
            assert_eq!(lorgwin_tests::derive(black_box(&w.guideline), &mut lent[4]).number, 0);
            0
        }),
        Kind::Rewrite => best(|| {
            assert_eq!(lorgwin_tests::check(black_box(&w.script), black_box(&w.guideline)).number, 0);
            assert_eq!(lorgwin_tests::rewrite(black_box(&w.script), black_box(&w.guideline), &mut out).number, 0);
            0
        }),
    }
}

fn plain(w: &Workload, budget: u32) -> Figure {
    let mut lent = buffers();
    let mut out = vec![0; 10368];
    match kind(&w.name) {
        Kind::Plain => {
            let [e, s, ..] = &mut lent;
            let budget = u64::from(budget.min(MODEL_STEPS));
            best(|| {
                let (verdict, _, steps) = model::run_plain(black_box(&w.script), budget, e, s);
                assert_eq!(verdict.number, 0);
                steps
            })
        }
        Kind::Rewritten => {
            let (_, records) = model::rewrite(&w.script, &w.guideline, &mut out);
            let file = &out[..8 * records as usize];
            let [e, s, h, l, t] = &mut lent;
            best(|| {
                let (verdict, _, steps, ..) = model::run_rewritten(black_box(file), black_box(&w.guideline), budget.into(), e, s, h, l, t);
                assert_eq!(verdict.number, 0);
                steps
            })
        }
        Kind::Derive => best(|| {
            assert_eq!(model::derive(black_box(&w.guideline), &mut lent[4]).number, 0);
            0
        }),
        Kind::Rewrite => best(|| {
            assert_eq!(model::check(black_box(&w.script), black_box(&w.guideline)).number, 0);
            assert_eq!(model::rewrite(black_box(&w.script), black_box(&w.guideline), &mut out).0.number, 0);
            0
        }),
    }
}

fn shown(time: Duration) -> String {
    match time.as_nanos() {
        n if n < 10_000 => format!("{n} ns"),
        n if n < 1_000_000 => format!("{:.1} µs", n as f64 / 1e3),
        n => format!("{:.2} ms", n as f64 / 1e6),
    }
}

/// A figure from a process of its own, or none if it takes too long.
fn apart(side: &str, name: &str) -> Option<Figure> {
    let mut child = Command::new(env::current_exe().unwrap()).args([side, name]).stdout(Stdio::piped()).spawn().unwrap();
    let start = Instant::now();
    while child.try_wait().unwrap().is_none() {
        if start.elapsed() > LIMIT {
            child.kill().unwrap();
            child.wait().unwrap();
            return None;
        }
        thread::sleep(Duration::from_millis(2));
    }
    let out = String::from_utf8(child.wait_with_output().unwrap().stdout).unwrap();
    let mut words = out.split_whitespace().map(|w| w.parse::<u64>().unwrap());
    let mut next = || words.next().unwrap();
    Some(Figure { call: Duration::from_nanos(next()), steps: next() as u32 })
}

/// The better of two figures of the same calls.
fn better(one: Option<Figure>, two: Option<Figure>) -> Option<Figure> {
    match (one, two) {
        (Some(a), Some(b)) => Some(if b.call < a.call { b } else { a }),
        (one, two) => one.or(two),
    }
}

/// What each further step of a run costs over the run beside it, where both were timed.
fn print_further(engine: impl Fn(&str) -> Option<Figure>) {
    for (name, less) in BESIDE {
        if let (Some(a), Some(b)) = (engine(name), engine(less)) {
            let further = Figure { call: a.call.saturating_sub(b.call), steps: a.steps - b.steps };
            println!("{name} has {} steps more than {less}, {} each.", further.steps, shown(further.step()));
        }
    }
}

/// How long the runs with conditions of kind 9 take beside the chain of four triggers without, where both were timed.
fn print_taken_back(engine: impl Fn(&str) -> Option<Figure>) {
    for name in TAKEN_BACK {
        if let (Some(a), Some(b)) = (engine(name), engine("w5d")) {
            println!("{name} takes {:.2} times as long as w5d.", a.call.as_secs_f64() / b.call.as_secs_f64());
        }
    }
}

fn main() {
    let all = workloads();
    let args: Vec<String> = env::args().skip(1).collect();
    if let [side, name, budget @ ..] = &args[..] {
        if side == "engine" || side == "plain" {
            let w = all.iter().find(|w| w.name == *name).unwrap();
            let budget = budget.first().map_or(w.budget, |b| b.parse().unwrap());
            let figure = if side == "engine" { engine(w, budget) } else { plain(w, budget) };
            println!("{} {}", figure.call.as_nanos(), figure.steps);
            return;
        }
    }
    let wanted: Vec<&Workload> = all.iter().filter(|w| args.is_empty() || args.contains(&w.name)).collect();
    let mut figures = vec![(None, None); wanted.len()];
    for round in 0..ROUNDS {
        for (w, (one, two)) in wanted.iter().zip(&mut figures) {
            // What took too long once is not tried again.
            if round == 0 || one.is_some() {
                *one = better(*one, apart("engine", &w.name));
            }
            if round == 0 || two.is_some() {
                *two = better(*two, apart("plain", &w.name));
            }
        }
    }
    println!("| workload | what it stresses | steps | engine, call | engine, step | plain Rust | ratio |\n|---|---|---|---|---|---|---|");
    let over = || format!("over {} s", LIMIT.as_secs());
    let none = || "-".to_string();
    for (w, (one, two)) in wanted.iter().zip(&figures) {
        let run = matches!(kind(&w.name), Kind::Plain | Kind::Rewritten);
        // Plain runs are compared by the step, all else by the call.
        let by_step = kind(&w.name) == Kind::Plain;
        let time = |f: &Figure| if by_step { f.step() } else { f.call };
        let steps = one.filter(|_| run).map_or_else(none, |f| f.steps.to_string());
        let call = one.map_or_else(over, |f| shown(f.call));
        let step = one.filter(|_| run).map_or_else(none, |f| shown(f.step()));
        let other = two.map_or_else(over, |f| shown(time(&f)) + if by_step { " a step" } else { "" });
        let ratio = match (one, two) {
            (Some(a), Some(b)) => match time(a).as_secs_f64() / time(b).as_secs_f64() {
                r if r < 0.001 => format!("{r:.5}"),
                r => format!("{r:.3}"),
            },
            _ => none(),
        };
        println!("| {} | {} | {steps} | {call} | {step} | {other} | {ratio} |", w.name, w.what);
    }
    println!();
    let engine = |name: &str| wanted.iter().zip(&figures).find(|(w, _)| w.name == name).and_then(|(_, (one, _))| *one);
    print_further(engine);
    print_taken_back(engine);
}

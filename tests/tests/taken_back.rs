//! Overrides taken back, worked out by hand from Item 2 of document 02: what guideline kind 9 is refused for, when it holds, and what
//! rewriting writes for it. By the engine over its C interface and by the plain Rust model.

use lorgwin_tests::both::{self, expression, guideline, records, VALUE};
use model::REWRITTEN;

const OVERRIDE: u32 = 0;
const FIRE: u32 = 1;
const CANCEL: u32 = 2;
const OTHER: u32 = 3;

/// The four functions, each with its parameter as its body.
const FUNCTIONS: &str = "8:0 1:0 8:1 1:0 8:2 1:0 8:3 1:0";

/// Calls one function after the other, each on what the one before returned and the first on 7: step n makes call n.
fn main_term(calls: &[u32]) -> String {
    let call = |function: &u32| format!("5:0 2:{function} ");
    calls.iter().rev().map(call).collect::<String>() + "3:7"
}

/// The times at which fire is logged.
#[track_caller]
fn logged(calls: &[u32], under: &str) -> Vec<u32> {
    let show = records(&format!("{FUNCTIONS} {}", main_term(calls)));
    let found = both::rehearse(&show, &guideline(under), 1_000, REWRITTEN);
    assert_eq!(found.words[..4], [0, 0, VALUE, calls.len() as u32]);
    assert!(found.expression == expression("3:7"));
    assert!(found.log.iter().all(|entry| entry[1..] == [FIRE, 3, 7]));
    found.log.iter().map(|entry| entry[0]).collect()
}

#[test]
fn taken_back() {
    let under = "4:1 5:0 9:1:2";
    assert_eq!(logged(&[OVERRIDE, FIRE], under), [1]);
    assert_eq!(logged(&[OVERRIDE, CANCEL, FIRE], under), []);
    assert_eq!(logged(&[CANCEL, OVERRIDE, FIRE], under), [2]);
    assert_eq!(logged(&[OVERRIDE, CANCEL, OVERRIDE, FIRE], under), [3]);
    assert_eq!(logged(&[OVERRIDE, OVERRIDE, CANCEL, FIRE], under), []);
    assert_eq!(logged(&[OVERRIDE, FIRE, CANCEL, FIRE, OVERRIDE, FIRE, FIRE], under), [1, 5, 6]);
    assert_eq!(logged(&[CANCEL, FIRE], under), []);
    // Right after the override, and right before the fire.
    assert_eq!(logged(&[OVERRIDE, CANCEL, OTHER, OTHER, FIRE], under), []);
    assert_eq!(logged(&[OVERRIDE, OTHER, OTHER, CANCEL, FIRE], under), []);
    assert_eq!(logged(&[OVERRIDE, OTHER, FIRE], under), [2]);
}

/// A call at t_i itself does not lie between, nor does one at t_0.
#[test]
fn by_trigger_and_logged_function() {
    let by_override = "4:1 5:0 9:1:0";
    assert_eq!(logged(&[OVERRIDE, FIRE], by_override), [1]);
    assert_eq!(logged(&[OVERRIDE, OVERRIDE, FIRE], by_override), [2]);
    assert_eq!(logged(&[OVERRIDE, FIRE, FIRE, OVERRIDE, FIRE], by_override), [1, 2, 4]);
    // The first of two overrides is taken back by the second.
    assert_eq!(logged(&[OVERRIDE, OVERRIDE, FIRE], "4:1 5:0 5:0 6:0:1:2 9:1:0"), []);
    assert_eq!(logged(&[OVERRIDE, OVERRIDE, FIRE], "4:1 5:0 5:0 6:0:1:2 9:2:0"), [2]);
    // The first fire takes the override back for the second.
    let by_fire = "4:1 5:0 9:1:1";
    assert_eq!(logged(&[OVERRIDE, FIRE, FIRE], by_fire), [1]);
    assert_eq!(logged(&[FIRE, OVERRIDE, FIRE, FIRE, OVERRIDE, FIRE], by_fire), [2, 5]);
    // Where fire is its own trigger, the last one before stands.
    assert_eq!(logged(&[FIRE, FIRE, FIRE], "4:1 5:1 9:1:1"), [1, 2]);
}

/// With i = 0 there is nothing between.
#[test]
fn on_the_logged_call() {
    assert_eq!(logged(&[CANCEL, FIRE], "4:1 9:0:2"), [1]);
    assert_eq!(logged(&[CANCEL, CANCEL, FIRE, CANCEL, FIRE], "4:1 9:0:2"), [2, 4]);
    assert_eq!(logged(&[FIRE, FIRE], "4:1 9:0:1"), [0, 1]);
    assert_eq!(logged(&[OVERRIDE, CANCEL, FIRE], "4:1 5:0 9:0:2"), [2]);
    assert_eq!(logged(&[CANCEL, FIRE], "4:1 5:0 9:0:2"), []);
}

#[test]
fn several_conditions() {
    for conditions in ["9:1:2 9:1:3", "9:1:3 9:1:2", "9:1:2 8:0:0:1 9:1:3 6:0:1:0", "9:0:2 9:1:2 9:0:3 9:1:3"] {
        let under = &format!("4:1 5:0 {conditions}");
        assert_eq!(logged(&[CANCEL, OTHER, OVERRIDE, FIRE], under), [3], "{under}");
        assert_eq!(logged(&[OVERRIDE, CANCEL, FIRE], under), [], "{under}");
        assert_eq!(logged(&[OVERRIDE, OTHER, FIRE], under), [], "{under}");
    }
    // Other conditions decide as ever.
    assert_eq!(logged(&[OVERRIDE, FIRE], "4:1 5:0 9:1:2 8:1:0:1"), []);
    // Each trigger has its own time.
    let calls = [OVERRIDE, CANCEL, OTHER, FIRE];
    assert_eq!(logged(&calls, "4:1 5:0 5:3 9:1:2"), []);
    assert_eq!(logged(&calls, "4:1 5:0 5:3 9:2:2"), [3]);
    assert_eq!(logged(&calls, "4:1 5:3 5:0 9:1:2"), [3]);
    assert_eq!(logged(&calls, "4:1 5:3 5:3 5:3 5:0 9:4:2"), []);
    assert_eq!(logged(&calls, "4:1 5:0 5:0 5:0 5:3 9:4:2"), [3]);
    // Two clauses: one override is taken back, the other stands.
    assert_eq!(logged(&calls, "4:1 5:0 9:1:2 4:1 5:3 9:1:2"), [3]);
    assert_eq!(logged(&calls, "4:1 5:3 9:1:2 4:1 5:0 9:1:2"), [3]);
}

/// Override on 3, cancel on 5 and fire on 7, with steps between that call nothing: the argument of cancel does not matter.
#[test]
fn arguments() {
    let show = records(&format!("{FUNCTIONS} 5:0 4:0 5:0 4:0 5:0 2:1 3:7 5:0 2:2 3:5 5:0 2:0 3:3"));
    let [overridden, cancelled, fired] = [[0, OVERRIDE, 3, 3], [2, CANCEL, 3, 5], [4, FIRE, 3, 7]];
    let noted = |under: &str, history: &[[u32; 4]], log: &[[u32; 4]]| {
        let found = both::rehearse(&show, &guideline(under), 5, REWRITTEN);
        assert_eq!(found.words[..4], [0, 0, VALUE, 5], "{under}");
        assert_eq!([found.history, found.log], [history, log], "{under}");
    };
    noted("4:1 5:0 9:1:2", &[overridden, cancelled, fired], &[]);
    noted("4:1 5:0 9:0:2", &[overridden, cancelled, fired], &[fired]);
    noted("4:1 5:0 9:1:3", &[overridden, fired], &[fired]);
}

/// The answer of every entry that tests 17, and of deriving, which does not.
#[track_caller]
fn answers(rows: &[u8], wanted: [u32; 2], derived: [u32; 2]) {
    let show = records(&format!("{FUNCTIONS} 3:7"));
    assert_eq!(both::check(&show, rows), wanted);
    assert_eq!(both::rewrite(&show, rows, REWRITTEN).0[..2], wanted);
    assert_eq!(both::run_rewritten(&show, rows, 0).words[..2], wanted);
    assert_eq!(both::rehearse(&show, rows, 0, REWRITTEN).words[..2], wanted);
    assert_eq!(both::derive(rows), derived);
}

#[track_caller]
fn refused(under: &str, number: u32, place: u32) {
    answers(&guideline(under), [number, place], [number, place]);
}

#[test]
fn bytes() {
    refused("4:1 9:0:2", 0, 0);
    refused("4:1 5:0 5:0 5:0 5:0 9:4:3 9:3:0 9:2:1 9:0:2", 0, 0);
    refused("4:1 5:0 8:0:0:1 9:1:2 6:0:1:0 4:1 9:0:0", 0, 0);
    for byte in [1, 3, 8, 9, 10, 11, 12, 13, 14, 15] {
        for value in [1, 128, 255] {
            let mut rows = guideline("4:1 5:0 9:1:2 9:1:2");
            rows[3 * 16 + byte] = value;
            answers(&rows, [12, 3], [12, 3]);
        }
    }
    for i in [5, 6, 128, 255] {
        refused(&format!("4:1 5:0 5:0 5:0 5:0 9:4:2 9:{i}:2"), 12, 6);
    }
    refused("4:1 10:0:2", 12, 1);
}

#[test]
fn places() {
    let fact = [1, 0, 3, 3, 0, 0, 0, 0, 0, 0, 0, 0, 0, 0, 0, 0];
    refused("9:0:2", 13, 0);
    answers(&[&fact[..], &guideline("9:0:2")].concat(), [13, 1], [13, 1]);
    refused("2:0:0:0 9:0:2", 13, 1);
    refused("2:0:0:0 3:0:0:0 9:0:2", 13, 2);
    refused("4:1 9:0:2 5:0", 13, 2);
    refused("4:1 5:0 9:1:2 5:0 9:2:2", 13, 3);
    answers(&[&guideline("4:1 9:0:2"), &fact[..]].concat(), [13, 2], [13, 2]);
    refused("4:1 9:0:2 2:0:0:0 3:0:0:0", 13, 2);
}

#[test]
fn triggers_and_functions() {
    refused("4:1 9:1:2", 16, 1);
    refused("4:1 5:0 9:1:2 9:2:2", 16, 3);
    refused("4:1 5:0 5:0 5:0 9:4:2", 16, 4);
    refused("4:1 5:0 9:1:2 4:1 9:1:2", 16, 4);
    // 17 goes by the order of records, whichever kind they have; deriving does not test it.
    let unknown = |under: &str, place: u32| answers(&guideline(under), [17, place], [0, 0]);
    unknown("4:1 9:0:4", 1);
    unknown("4:1 5:0 9:1:4294967295", 2);
    unknown("4:1 5:0 9:1:4 4:4", 2);
    unknown("4:1 5:0 9:1:4 4:1 5:4", 2);
    unknown("4:1 5:4 9:1:4", 1);
    unknown("4:4 5:0 9:1:4", 0);
    unknown("4:1 9:0:2 4:1 5:4 9:0:4", 3);
    unknown("4:1 9:0:2 4:4 9:0:4", 2);
    unknown("4:1 9:0:3 9:0:256", 2);
    // Each number over the whole file before the next.
    refused("4:1 9:0:4 9:1:2", 16, 2);
    refused("4:1 9:1:2 5:0", 13, 2);
    refused("4:1 9:0:2 5:0 9:5:2", 12, 3);
}

/// What rewriting writes of the four functions and a main term.
#[track_caller]
fn rewritten(under: &str, functions: [&str; 4]) {
    let [zero, one, two, three] = functions;
    let wanted = records(&format!("8:0 {zero} 8:1 {one} 8:2 {two} 8:3 {three} 3:7"));
    let (words, out) = both::rewrite(&records(&format!("{FUNCTIONS} 3:7")), &guideline(under), REWRITTEN);
    assert_eq!(words, [0, 0, wanted.len() as u32 / 8], "{under}");
    assert!(out == wanted, "{under}: the output");
}

#[test]
fn rewriting() {
    let fire = "6:1 1:0 7:1 1:0 1:0";
    rewritten("4:1 5:0 9:1:2", ["6:0 1:0 1:0", fire, "6:2 1:0 1:0", "1:0"]);
    // Also where the condition is always true.
    rewritten("4:1 9:0:2", ["1:0", fire, "6:2 1:0 1:0", "1:0"]);
    // Once, whatever else a function is named for.
    rewritten("4:1 5:0 9:1:0", ["6:0 1:0 1:0", fire, "1:0", "1:0"]);
    rewritten("4:1 5:0 9:1:1", ["6:0 1:0 1:0", fire, "1:0", "1:0"]);
    rewritten("4:1 9:0:2 9:0:3 9:0:2 4:1 9:0:2", ["1:0", fire, "6:2 1:0 1:0", "6:3 1:0 1:0"]);
    rewritten("4:1 9:0:2 4:2", ["1:0", fire, "6:2 1:0 7:2 1:0 1:0", "1:0"]);
    rewritten("4:1 9:0:0 4:1 5:0", ["6:0 1:0 1:0", fire, "1:0", "1:0"]);
}

/// A script made by hand: a call of cancel that is not noted does not count.
#[test]
fn cancel_not_noted() {
    let run = |cancel: &str| {
        let functions = format!("8:0 6:0 1:0 1:0 8:1 6:1 1:0 7:1 1:0 1:0 8:2 {cancel} 8:3 1:0");
        let script = records(&format!("{functions} {}", main_term(&[OVERRIDE, CANCEL, FIRE])));
        let found = both::run_rewritten(&script, &guideline("4:1 5:0 9:1:2"), 1_000);
        assert_eq!(found.words[..4], [0, 0, VALUE, 3]);
        (found.history, found.log)
    };
    let [first, second, third] = [[0, OVERRIDE, 3, 7], [1, CANCEL, 3, 7], [2, FIRE, 3, 7]];
    assert_eq!(run("6:2 1:0 1:0"), (vec![first, second, third], vec![]));
    assert_eq!(run("1:0"), (vec![first, third], vec![third]));
}

/// 128 functions, of which a main term calls 8, 7, 100, 7, 8 and 7 on a value that fills the file: 1,024 records.
fn widest(body: impl Fn(u32) -> String, value: &str) -> Vec<u8> {
    let functions: String = (0..128).map(|function| format!("8:{function} {} ", body(function))).collect();
    records(&format!("{functions} 5:0 2:7 5:0 2:8 5:0 2:7 5:0 2:100 5:0 2:7 5:0 2:8 {value}"))
}

/// Functions 0 to 7 are logged, 7 after 8 unless one of 8 to 127 was called between.
fn watch_all() -> Vec<u8> {
    let heads: String = (0..8).map(|function| format!("4:{function} ")).collect();
    let conditions: String = (8..128).map(|function| format!(" 9:1:{function}")).collect();
    guideline(&(heads + "5:8" + &conditions))
}

fn marked(function: u32) -> String {
    match function {
        0..8 => format!("6:{function} 1:0 7:{function} 1:0 1:0"),
        _ => format!("6:{function} 1:0 1:0"),
    }
}

#[test]
fn longest_rewriting() {
    let value = "4:9*755 3:7";
    let script = widest(|_| "1:0".into(), value);
    let written = widest(marked, value);
    assert_eq!([script.len(), written.len()], [8 * 1_024, 8 * 1_296]);
    assert_eq!(both::check(&script, &watch_all()), [0, 0]);
    assert_eq!(both::rewrite(&script, &watch_all(), 10_368), ([0, 0, 1_296], written.clone()));
    assert_eq!(both::rewrite(&script, &watch_all(), 10_367).0, [21, 0, 0]);
    assert_eq!(both::rehearse(&script, &watch_all(), 1_000, 10_367).words, [21, 0, 0, 0, 0, 0]);

    for found in [both::run_rewritten(&written, &watch_all(), 1_000), both::rehearse(&script, &watch_all(), 1_000, 10_368)] {
        assert_eq!(found.words, [0, 0, VALUE, 6, 6, 2]);
        assert_eq!(found.history.iter().map(|entry| entry[1]).collect::<Vec<u32>>(), [8, 7, 100, 7, 8, 7]);
        assert_eq!(found.log, [[1, 7, 4, 9], [5, 7, 4, 9]]);
        assert!(found.expression == expression(value));
    }
}

#[test]
fn too_many_records() {
    let run = |script: &[u8]| both::run_rewritten(script, &watch_all(), 0).words[..2].to_vec();
    let longer = "4:9*756 3:7";
    assert_eq!(run(&widest(marked, longer)), [1, 0]);
    assert_eq!(both::check(&widest(|_| "1:0".into(), longer), &watch_all()), [1, 0]);
    // 1,296 records of which 1,026 are neither commands nor their arguments.
    let one_less = |function: u32| if function == 127 { "1:0".into() } else { marked(function) };
    assert_eq!(run(&widest(one_less, "4:9*757 3:7")), [7, 1_296]);
}

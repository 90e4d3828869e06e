//! Sums and branches, worked out by hand from Item 1 of document 02: what they are refused for, what they become, when they are stuck, and when
//! calls around them are noted. By the engine over its C interface and by the plain Rust model.

use lorgwin_tests::both::{self, expression, guideline, records, FULL, LARGE, SPENT, STUCK, VALUE};
use model::{BUDGET, REWRITTEN};

/// A plain run with these words that leaves this expression.
fn ends(script: &str, budget: u32, outcome: u32, steps: u32, left: &str) {
    let (words, found) = both::run_plain(&records(script), budget);
    assert_eq!(words, [0, 0, outcome, steps], "{script}: the words with budget {budget}");
    assert!(found == expression(left), "{script}: the expression with budget {budget}");
}

/// A term that is stuck where it stands, with any budget.
fn stuck(script: &str, definitions: &str) {
    for budget in [0, 1, BUDGET as u32] {
        ends(&format!("{definitions} {script}"), budget, STUCK, 0, script);
    }
}

/// Number and place of checking a script, and of running it rewritten.
fn refused(script: &str, number: u32, place: u32) {
    let bytes = records(script);
    assert_eq!(both::check(&bytes, &[]), [number, place], "{script}");
    assert_eq!(both::run_rewritten(&bytes, &[], 0).words[..2], [number, place], "{script}, rewritten");
}

#[test]
fn checks() {
    for (kind, parts, end) in [(9, "3:1 3:2", 3), (10, "3:1 3:2 3:3", 4)] {
        refused(&format!("{kind}:0 {parts}"), 0, 0);
        refused(&format!("{kind}:1 {parts}"), 2, 0);
        refused(&format!("{kind}:4294967295 {parts}"), 2, 0);
        refused(&format!("{kind}:0 {parts} 3:4"), 3, end);
        for spare in 1..4 {
            let mut bytes = records(&format!("{kind}:0 {parts}"));
            bytes[spare] = 1;
            assert_eq!(both::check(&bytes, &[]), [2, 0], "spare byte {spare} of kind {kind}");
        }
    }
    refused("11:0 3:1 3:2", 2, 0);
    refused("9:0 3:1 11:0", 2, 2);
    refused("9:0 3:1", 3, 2);
    refused("10:0 3:1 3:2", 3, 3);
    refused("10:0 9:0 3:1 3:2 3:3", 3, 5);
    refused("9:0 8:0 1:0 3:1", 3, 1);
    refused("8:0 1:0 10:0 3:1 3:2 8:1 1:0", 3, 5);
    refused("9:0 3:1 1:0", 5, 2);
    refused("10:0 1:0 3:1 3:2", 5, 1);
    refused("10:0 3:0 1:0 3:2", 5, 2);
    refused("10:0 3:0 3:1 1:0", 5, 3);
    refused("4:0 10:0 1:0 1:0 1:1", 5, 4);
    refused("8:0 10:0 1:0 4:0 1:1 4:0 1:2 3:0", 5, 6);
    refused("10:0 3:1 2:0 3:1", 6, 2);
    refused("8:0 9:0 6:0 1:0 1:0 3:1 3:0", 7, 2);
    refused("8:0 9:0 3:1 6:0 1:0 1:0 3:0", 7, 3);
    refused("8:0 10:0 6:0 1:0 1:0 3:1 3:2 3:0", 7, 2);
    refused("8:0 10:0 1:0 3:1 7:0 1:0 3:1 3:0", 7, 4);
    refused("4:0 9:0 1:0 10:0 1:0 1:0 1:0", 0, 0);
    // Views have kinds 2 to 4 still.
    for kind in [9, 10] {
        let fact = [1, 0, kind, 3, 0, 0, 0, 0, 0, 0, 0, 0, 0, 0, 0, 0];
        assert_eq!(both::derive(&fact), [12, 0]);
    }
}

#[test]
fn term_reader() {
    let script = records("10:0 9:0 3:1 3:2 4:0 1:0 10:0 6:0 1:0 3:1 7:0 1:0 2:5 5:0 9:7 3:1 3:2 3:3 8:0 9:0 3:1");
    let wanted = [18, 4, 3, 4, 6, 6, 18, 10, 9, 10, 13, 12, 13, 18, 17, 16, 17, 18].map(Some);
    for (record, next) in (0..22).zip(wanted.into_iter().chain([None, None, Some(21), None])) {
        assert_eq!(both::pass_term(&script, record), next, "at {record}");
    }
}

#[test]
fn sums() {
    ends("9:0 3:1 3:2", 10, VALUE, 1, "3:3");
    ends("9:0 3:1 3:2", 1, VALUE, 1, "3:3");
    ends("9:0 3:1 3:2", 0, SPENT, 0, "9:0 3:1 3:2");
    ends("9:0 3:0 3:0", 10, VALUE, 1, "3:0");
    ends("9:0 3:4294967295 3:0", 10, VALUE, 1, "3:4294967295");
    ends("9:0 3:2147483647 3:2147483648", 10, VALUE, 1, "3:4294967295");
    for other in ["3:4294967295 3:1", "3:1 3:4294967295", "3:2147483648 3:2147483648", "3:4294967295 3:4294967295"] {
        stuck(&format!("9:0 {other}"), "");
    }
    for other in ["2:0 3:1", "3:1 2:0", "4:0 1:0 3:1", "3:1 4:0 1:0", "2:0 2:0", "4:0 1:0 4:0 1:0"] {
        stuck(&format!("9:0 {other}"), "8:0 1:0");
    }
    // Left before right, and the right whatever the left is.
    ends("9:0 9:0 3:1 3:2 9:0 3:3 3:4", 1, SPENT, 1, "9:0 3:3 9:0 3:3 3:4");
    ends("9:0 9:0 3:1 3:2 9:0 3:3 3:4", 10, VALUE, 3, "3:10");
    ends("9:0 4:0 1:0 9:0 3:1 3:1", 10, STUCK, 1, "9:0 4:0 1:0 3:2");
    ends("8:0 1:0 9:0 2:0 5:0 2:0 3:1", 10, STUCK, 1, "9:0 2:0 3:1");
    // A sum in function position: both sides are worked out before it is stuck.
    ends("5:0 9:0 3:1 3:2 3:4", 10, STUCK, 1, "5:0 3:3 3:4");
    ends("5:0 9:0 3:1 3:2 9:0 3:1 3:1", 10, STUCK, 2, "5:0 3:3 3:2");
    // Nothing under an abstraction.
    ends("4:7 9:0 3:1 3:2", 10, VALUE, 0, "4:7 9:0 3:1 3:2");
    ends("5:0 5:0 4:0 4:1 9:0 1:1 1:0 3:40 3:2", 10, VALUE, 3, "3:42");
}

#[test]
fn branches() {
    ends("10:0 3:0 3:7 3:8", 10, VALUE, 1, "3:7");
    ends("10:0 3:0 3:7 3:8", 0, SPENT, 0, "10:0 3:0 3:7 3:8");
    for number in ["1", "2", "255", "256", "65536", "16777216", "2147483648", "4294967295"] {
        ends(&format!("10:0 3:{number} 3:7 3:8"), 10, VALUE, 1, "3:8");
    }
    stuck("10:0 2:0 3:7 3:8", "8:0 1:0");
    stuck("10:0 4:0 1:0 3:7 3:8", "");
    // The first term only is worked out; an arm is worked out after it is taken.
    ends("10:0 9:0 3:0 3:0 9:0 3:1 3:2 9:0 3:3 3:4", 1, SPENT, 1, "10:0 3:0 9:0 3:1 3:2 9:0 3:3 3:4");
    ends("10:0 9:0 3:0 3:0 9:0 3:1 3:2 9:0 3:3 3:4", 2, SPENT, 2, "9:0 3:1 3:2");
    ends("10:0 9:0 3:0 3:1 9:0 3:1 3:2 9:0 3:3 3:4", 2, SPENT, 2, "9:0 3:3 3:4");
    ends("10:0 10:0 3:0 3:1 3:0 3:5 3:6", 10, VALUE, 2, "3:6");
    ends("9:0 10:0 3:0 3:1 3:2 10:0 3:9 3:1 3:2", 10, VALUE, 3, "3:3");
    // What would be stuck or run on in the other arm is no matter.
    ends("10:0 3:0 3:1 5:0 3:1 3:1", 10, VALUE, 1, "3:1");
    ends("10:0 3:1 5:0 4:0 5:0 1:0 1:0 4:0 5:0 1:0 1:0 3:1", 10, VALUE, 1, "3:1");
    // A function or an abstraction comes out of a branch, and is called.
    ends("8:0 9:0 1:0 1:0 5:0 10:0 3:0 2:0 4:0 1:0 3:21", 10, VALUE, 3, "3:42");
    ends("8:0 9:0 1:0 1:0 5:0 10:0 3:5 2:0 4:0 1:0 3:21", 10, VALUE, 2, "3:21");
    ends("5:0 10:0 3:0 3:1 3:2 3:3", 10, STUCK, 1, "5:0 3:1 3:3");
    // Variables in each term, and under an abstraction in each arm.
    ends("8:0 10:0 1:0 3:5 9:0 1:0 1:0 5:0 2:0 3:4", 10, VALUE, 3, "3:8");
    ends("5:0 4:0 10:0 1:0 4:1 1:1 4:2 1:1 3:0", 10, VALUE, 2, "4:1 3:0");
    ends("5:0 4:0 10:0 1:0 4:1 1:1 4:2 1:1 3:7", 10, VALUE, 2, "4:2 3:7");
}

#[test]
fn records_left() {
    // 1,024 records with a branch first, and nests as deep as they can be.
    ends("10:0 3:1 3:2 4:0*1020 1:1019", 10, VALUE, 1, "4:0*1020 1:1019");
    ends("10:0 3:0 4:0*1020 1:1019 3:2", 10, VALUE, 1, "4:0*1020 1:1019");
    let (left, right) = (format!("9:0*511 {}", "3:1 ".repeat(512)), "9:0 3:1 ".repeat(511) + "3:1");
    for nest in [left, right] {
        ends(&nest, 1_000, VALUE, 511, "3:512");
    }
    ends(&format!("10:0*341 3:0 {}", "3:0 3:1 ".repeat(341)), 1_000, VALUE, 341, "3:0");
    ends(&format!("10:0*341 3:1 {}", "3:0 3:1 ".repeat(341)), 1_000, VALUE, 341, "3:1");
    ends(&("10:0 3:1 3:0 ".repeat(341) + "3:9"), 1_000, VALUE, 341, "3:9");
    // A step to 1,024 records, and to 1,025.
    ends("5:0 4:0 10:0 3:0 1:0 1:0 4:0*510 3:5", 1, SPENT, 1, "10:0 3:0 4:0*510 3:5 4:0*510 3:5");
    for large in ["5:0 4:0 9:0 1:0 1:0 4:0*511 3:5", "5:0 4:0 10:0 1:0 1:0 4:0 3:0 4:0*510 3:5"] {
        ends(large, 10, LARGE, 0, large);
    }
}

/// The run of a script under a guideline that logs function 1 on any call, with this log. Every logged call is noted.
fn logs(script: &str, budget: u32, [outcome, steps]: [u32; 2], left: &str, log: &[[u32; 4]]) {
    let show = records(&format!("8:0 1:0 8:1 1:0 {script}"));
    let found = both::rehearse(&show, &guideline("4:1"), budget, REWRITTEN);
    let count = log.len() as u32;
    assert_eq!(found.words, [0, 0, outcome, steps, count, count], "{script}: the words with budget {budget}");
    assert!(found.expression == expression(left), "{script}: the expression with budget {budget}");
    assert_eq!(found.log, log, "{script}: the log with budget {budget}");
}

#[test]
fn logged_calls() {
    // Sums and branches cost a step each and move the time of later calls; the arm not taken calls nothing.
    let show = |number: u32| format!("9:0 5:0 2:1 9:0 3:1 3:2 10:0 3:{number} 5:0 2:1 3:7 5:0 2:1 3:8");
    logs(&show(0), 10, [VALUE, 5], "3:10", &[[1, 1, 3, 3], [3, 1, 3, 7]]);
    logs(&show(1), 10, [VALUE, 5], "3:11", &[[1, 1, 3, 3], [3, 1, 3, 8]]);
    logs(&show(0), 3, [SPENT, 3], "9:0 3:3 5:0 2:1 3:7", &[[1, 1, 3, 3]]);
    logs(&show(0), 4, [SPENT, 4], "9:0 3:3 3:7", &[[1, 1, 3, 3], [3, 1, 3, 7]]);
    // A call as the first term, and both terms of a sum.
    logs("10:0 5:0 2:1 3:0 5:0 2:1 3:5 5:0 2:1 3:6", 10, [VALUE, 3], "3:5", &[[0, 1, 3, 0], [2, 1, 3, 5]]);
    logs("10:0 5:0 2:1 3:9 5:0 2:1 3:5 5:0 2:1 3:6", 10, [VALUE, 3], "3:6", &[[0, 1, 3, 9], [2, 1, 3, 6]]);
    logs("9:0 5:0 2:1 3:4 5:0 2:1 3:5", 10, [VALUE, 3], "3:9", &[[0, 1, 3, 4], [1, 1, 3, 5]]);
    // Called and logged before it is stuck.
    logs("9:0 2:1 5:0 2:1 3:4", 10, [STUCK, 1], "9:0 2:1 3:4", &[[0, 1, 3, 4]]);
    logs("9:0 3:4294967295 5:0 2:1 3:1", 1, [STUCK, 1], "9:0 3:4294967295 3:1", &[[0, 1, 3, 1]]);
    logs("10:0 5:0 2:1 2:0 3:1 3:2", 1, [STUCK, 1], "10:0 2:0 3:1 3:2", &[[0, 1, 2, 0]]);
    // The view of an abstraction that has a sum in its body.
    logs("5:0 2:1 4:9 9:0 1:0 3:1", 10, [VALUE, 1], "4:9 9:0 1:0 3:1", &[[0, 1, 4, 9]]);
}

/// Function 0 is logged, function 1 begins a turn: no step but a call of function 0 ends a run for its full history.
#[test]
fn full_histories() {
    let rows = [
        // A sum, then the next turn, after function 0 is called.
        ("5:0 4:0 5:0 2:1 9:0 1:1 3:1 5:0 2:0 1:0", 4_097, "5:0 4:0 5:0 2:1 9:0 3:1024 3:1 5:0 2:0 3:1024"),
        // A branch on a constant, and one on what function 0 returned.
        ("5:0 4:0 10:0 3:0 5:0 2:1 1:1 3:9 5:0 2:0 1:0", 4_097, "5:0 4:0 10:0 3:0 5:0 2:1 3:0 3:9 5:0 2:0 3:0"),
        ("10:0 5:0 2:0 1:0 5:0 2:1 3:0 3:9", 3_073, "10:0 5:0 2:0 3:0 5:0 2:1 3:0 3:9"),
    ];
    for (turn, steps, left) in rows {
        let show = records(&format!("8:0 1:0 8:1 {turn} 5:0 2:1 3:0"));
        let found = both::rehearse(&show, &guideline("4:0"), 10_000, REWRITTEN);
        assert_eq!(found.words, [0, 0, FULL, steps, 1_024, 1_024], "{turn}");
        assert!(found.expression == expression(left), "{turn}: the expression");
    }
}

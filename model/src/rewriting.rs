//! "As in source document 002: a logged function's body gains 6 then 7, a trigger's body gains 6
//! only, a function that is both gains 6 and 7 once. All else is copied." And Item 2, on the h of a
//! kind 9 condition: "Rewriting treats h as a trigger for callEvent."

use crate::guideline::{Clause, Guideline};
use crate::script::{Script, Term};
use std::rc::Rc;

pub fn rewrite(script: &Script, guideline: &Guideline) -> Script {
    let definitions = script.definitions.iter().enumerate().map(|(number, body)| {
        let function = number as u32;
        let argument = Rc::new(Term::Variable(0));
        let mut body = body.clone();
        if logs(guideline, function) {
            body = Rc::new(Term::Emit(function, argument.clone(), body));
        }
        if notes(guideline, function) {
            body = Rc::new(Term::CallEvent(function, argument, body));
        }
        body
    });
    Script { definitions: definitions.collect(), main: script.main.clone() }
}

fn logs(guideline: &Guideline, function: u32) -> bool {
    guideline.clauses.iter().any(|clause| clause.function == function)
}

/// "A noted call is one of a function that gains 6": a logged function, a trigger or an h.
pub fn notes(guideline: &Guideline, function: u32) -> bool {
    let triggers = |clause: &Clause| clause.triggers.contains(&function);
    let cancels = |clause: &Clause| clause.cancels().any(|(_, h)| h == function);
    let mut clauses = guideline.clauses.iter();
    logs(guideline, function) || clauses.any(|clause| triggers(clause) || cancels(clause))
}

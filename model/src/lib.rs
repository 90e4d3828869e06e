//! A plain model of document 01 and of Items 1 and 2 of document 02, written from their sentences
//! alone.
//!
//! It is naive on purpose: terms are trees, predicates are worked out in rounds, triggers are
//! searched one by one. The functions below mirror the engine's entries on byte slices. Quoted
//! sentences are document 01's and, on sums and branches, Item 1's, on guideline kind 9 Item 2's;
//! "decision n" is an item of the first list in docs/DECISIONS.md.

pub mod demand;
pub mod generate;
pub mod guideline;
pub mod predicates;
pub mod reached;
pub mod rewriting;
pub mod runs;
pub mod script;

use guideline::Guideline;
use predicates::Predicates;
use runs::{Call, Run};
use script::{Commands, Script};

/// "Buffers: expression and scratch 24,576 bytes each, history and log 16,384 each, table 8,192."
pub const EXPRESSION: usize = 24_576;
pub const SCRATCH: usize = 24_576;
pub const HISTORY: usize = 16_384;
pub const LOG: usize = 16_384;
pub const TABLE: usize = 8_192;

/// The longest output of rewriting: "a rewritten script has up to 1,296 records".
pub const REWRITTEN: usize = 8 * 1_296;

/// "22 budget above 1,000,000."
pub const BUDGET: u64 = 1_000_000;

/// "Each returns its number and the first faulty record." Both are 0 where nothing is refused.
#[derive(Clone, Copy, Debug, Default, PartialEq, Eq)]
pub struct Verdict {
    pub number: u32,
    pub place: u32,
}

/// Refuses with this number if a faulty record is found.
fn refuse(number: u32, place: Option<usize>) -> Result<(), Verdict> {
    match place {
        Some(place) => Err(Verdict { number, place: place as u32 }),
        None => Ok(()),
    }
}

/// Refuses with this number, "0 for 1, 11, the caller's".
fn refuse_if(number: u32, due: bool) -> Result<(), Verdict> {
    refuse(number, due.then_some(0))
}

/// "23 a run or table buffer too short."
fn lent(buffers: &[(&[u8], usize)]) -> Result<(), Verdict> {
    refuse_if(23, buffers.iter().any(|(buffer, size)| buffer.len() < *size))
}

/// "Runs test 22, 23, the script, the guideline."
fn ready(budget: u64, buffers: &[(&[u8], usize)]) -> Result<(), Verdict> {
    refuse_if(22, budget > BUDGET)?;
    lent(buffers)
}

/// "Rewriting and checking test the script, then the guideline", and so do runs.
fn read(script: &[u8], commands: Commands, gl: &[u8]) -> Result<(Script, Guideline), Verdict> {
    let script = Script::read(script, commands)?;
    let guideline = Guideline::read(gl, Some(script.definitions.len()))?;
    Ok((script, guideline))
}

/// "After a run or deriving, unused bytes inside these sizes and all scratch are zero; bytes past
/// them are untouched."
fn write(buffer: &mut [u8], size: usize, bytes: &[u8]) {
    buffer[..bytes.len()].copy_from_slice(bytes);
    buffer[bytes.len()..size].fill(0);
}

pub fn check(script: &[u8], guideline: &[u8]) -> Verdict {
    read(script, Commands::Refused, guideline).err().unwrap_or_default()
}

/// "Deriving tests 23, then the guideline without 17."
pub fn derive(guideline: &[u8], table: &mut [u8]) -> Verdict {
    match lent(&[(table, TABLE)]).and_then(|()| Guideline::read(guideline, None)) {
        Ok(guideline) => {
            write(table, TABLE, &Predicates::of(&guideline).table());
            Verdict::default()
        }
        Err(verdict) => verdict,
    }
}

/// The term reader: the record after the whole term that begins at `record`.
pub fn pass_term(script: &[u8], record: u64) -> Option<u64> {
    script::pass_term(script, record)
}

/// The verdict and the count of records: "21 rewriting output too short (after 17; only the
/// needed bytes are written)".
pub fn rewrite(script: &[u8], guideline: &[u8], out: &mut [u8]) -> (Verdict, u32) {
    let rewritten = read(script, Commands::Refused, guideline).and_then(|(script, guideline)| {
        let bytes = rewriting::rewrite(&script, &guideline).bytes();
        refuse_if(21, out.len() < bytes.len())?;
        Ok(bytes)
    });
    match rewritten {
        Ok(bytes) => {
            write(out, bytes.len(), &bytes);
            (Verdict::default(), bytes.len() as u32 / 8)
        }
        Err(verdict) => (verdict, 0),
    }
}

/// The verdict, the outcome's number and the steps.
pub fn run_plain(
    script: &[u8],
    budget: u64,
    expression: &mut [u8],
    scratch: &mut [u8],
) -> (Verdict, u32, u32) {
    let ready = ready(budget, &[(expression, EXPRESSION), (scratch, SCRATCH)]);
    match ready.and_then(|()| Script::read(script, Commands::Refused)) {
        Ok(script) => {
            let run = Run::plain(&script, budget);
            write(expression, EXPRESSION, &run.expression.bytes());
            write(scratch, SCRATCH, &[]);
            (Verdict::default(), run.outcome as u32, run.steps)
        }
        Err(verdict) => (verdict, 0, 0),
    }
}

/// The verdict, the outcome's number, the steps and the counts of history and log.
#[allow(clippy::too_many_arguments)]
pub fn run_rewritten(
    script: &[u8],
    guideline: &[u8],
    budget: u64,
    expression: &mut [u8],
    scratch: &mut [u8],
    history: &mut [u8],
    log: &mut [u8],
    table: &mut [u8],
) -> (Verdict, u32, u32, u32, u32) {
    let ready = ready(
        budget,
        &[
            (expression, EXPRESSION),
            (scratch, SCRATCH),
            (history, HISTORY),
            (log, LOG),
            (table, TABLE),
        ],
    );
    match ready.and_then(|()| read(script, Commands::Allowed, guideline)) {
        Ok((script, guideline)) => {
            let predicates = Predicates::of(&guideline);
            let run = Run::rewritten(&script, &guideline, &predicates, budget);
            write(expression, EXPRESSION, &run.expression.bytes());
            write(scratch, SCRATCH, &[]);
            write(history, HISTORY, &Call::bytes(&run.history));
            write(log, LOG, &Call::bytes(&run.log));
            write(table, TABLE, &predicates.table());
            let [history, log] = [run.history, run.log].map(|entries| entries.len() as u32);
            (Verdict::default(), run.outcome as u32, run.steps, history, log)
        }
        Err(verdict) => (verdict, 0, 0, 0, 0),
    }
}

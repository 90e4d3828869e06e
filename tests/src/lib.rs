//! The engine's C interface (include/lorgwin.h), as safe functions on slices.

pub mod both;

#[repr(C)]
#[derive(Debug, Clone, Copy, PartialEq, Eq)]
pub struct Verdict {
    pub number: u32,
    pub place: u32,
}

#[repr(C)]
#[derive(Debug, Clone, Copy, PartialEq, Eq)]
pub struct Rewriting {
    pub number: u32,
    pub place: u32,
    pub records: u32,
}

#[repr(C)]
#[derive(Debug, Clone, Copy, PartialEq, Eq)]
pub struct PlainRun {
    pub number: u32,
    pub place: u32,
    pub outcome: u32,
    pub steps: u32,
}

#[repr(C)]
#[derive(Debug, Clone, Copy, PartialEq, Eq)]
pub struct RewrittenRun {
    pub number: u32,
    pub place: u32,
    pub outcome: u32,
    pub steps: u32,
    pub history_count: u32,
    pub log_count: u32,
}

extern "C" {
    fn lorgwin_check(script: *const u8, script_len: usize, guideline: *const u8, guideline_len: usize) -> Verdict;
    fn lorgwin_derive(guideline: *const u8, guideline_len: usize, table: *mut u8, table_len: usize) -> Verdict;
    fn lorgwin_pass_term(script: *const u8, script_len: usize, record: u64) -> u64;
    fn lorgwin_rewrite(
        script: *const u8,
        script_len: usize,
        guideline: *const u8,
        guideline_len: usize,
        out: *mut u8,
        out_len: usize,
    ) -> Rewriting;
    fn lorgwin_run_plain(
        script: *const u8,
        script_len: usize,
        budget: u32,
        expression: *mut u8,
        expression_len: usize,
        scratch: *mut u8,
        scratch_len: usize,
    ) -> PlainRun;
    fn lorgwin_run_rewritten(
        script: *const u8,
        script_len: usize,
        guideline: *const u8,
        guideline_len: usize,
        budget: u32,
        expression: *mut u8,
        expression_len: usize,
        scratch: *mut u8,
        scratch_len: usize,
        history: *mut u8,
        history_len: usize,
        log: *mut u8,
        log_len: usize,
        table: *mut u8,
        table_len: usize,
    ) -> RewrittenRun;
    fn lorgwin_rehearse(
        script: *const u8,
        script_len: usize,
        guideline: *const u8,
        guideline_len: usize,
        budget: u32,
        out: *mut u8,
        out_len: usize,
        expression: *mut u8,
        expression_len: usize,
        scratch: *mut u8,
        scratch_len: usize,
        history: *mut u8,
        history_len: usize,
        log: *mut u8,
        log_len: usize,
        table: *mut u8,
        table_len: usize,
    ) -> RewrittenRun;
}

/// Calls an entry: the scripts and guidelines as pointer and length, then plain arguments, then the lent buffers as pointer and length.
macro_rules! call {
    ($entry:ident, [$($read:expr),*], [$($plain:expr),*], [$($lent:expr),*]) => {
        unsafe { $entry($($read.as_ptr(), $read.len(),)* $($plain,)* $($lent.as_mut_ptr(), $lent.len()),*) }
    };
}

pub fn check(script: &[u8], guideline: &[u8]) -> Verdict {
    call!(lorgwin_check, [script, guideline], [], [])
}

pub fn derive(guideline: &[u8], table: &mut [u8]) -> Verdict {
    call!(lorgwin_derive, [guideline], [], [table])
}

/// The record after the term, or none.
pub fn pass_term(script: &[u8], record: u64) -> Option<u64> {
    let next = call!(lorgwin_pass_term, [script], [record], []);
    (next != u64::MAX).then_some(next)
}

pub fn rewrite(script: &[u8], guideline: &[u8], out: &mut [u8]) -> Rewriting {
    call!(lorgwin_rewrite, [script, guideline], [], [out])
}

pub fn run_plain(script: &[u8], budget: u32, expression: &mut [u8], scratch: &mut [u8]) -> PlainRun {
    call!(lorgwin_run_plain, [script], [budget], [expression, scratch])
}

/// The buffers are lent in the order expression, scratch, history, log, table.
pub fn run_rewritten(script: &[u8], guideline: &[u8], budget: u32, [e, s, h, l, t]: [&mut [u8]; 5]) -> RewrittenRun {
    call!(lorgwin_run_rewritten, [script, guideline], [budget], [e, s, h, l, t])
}

/// The output, and the buffers in the same order.
pub fn rehearse(script: &[u8], guideline: &[u8], budget: u32, out: &mut [u8], [e, s, h, l, t]: [&mut [u8]; 5]) -> RewrittenRun {
    call!(lorgwin_rehearse, [script, guideline], [budget], [out, e, s, h, l, t])
}

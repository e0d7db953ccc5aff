use std::fmt;

use crate::raw::{self, Common, Running};
use crate::{Code, End, Limits, Refusal, Stop, Tree};

/// The tables of CHECK and RUN at their greatest sizes, some 430 KB on the heap, used again by each call. A gate per thread: calls need it for themselves.
pub struct Gate {
    tree: Box<[u64]>,
    words: Box<[u64]>,
    stack: Box<[u64]>,
    scopes: Box<[u64]>,
    notes: Box<[u64]>,
    waiting: Box<[u64]>,
    bindings: Box<[u64]>,
    cells: Box<[u64]>,
    output: Box<[i64]>,
}

/// What a run did.
#[derive(Clone, Copy, Debug, PartialEq, Eq)]
#[non_exhaustive]
pub struct Report<'a> {
    /// How it ended.
    pub end: End,
    /// Units taken.
    pub units: u64,
    /// Bindings made.
    pub bindings: u64,
    /// Cells taken.
    pub cells: u64,
    /// The numbers put out, oldest first.
    pub numbers: &'a [i64],
    /// The text's tree.
    pub tree: Tree<'a>,
}

/// What an answer says: the text was accepted and, in a run, so ended; or it was refused.
pub(crate) fn end_of(number: u64, place: u64, made: u64) -> Result<End, Refusal> {
    let place = place as usize;
    if number == 0 {
        return Ok(End::Done);
    }
    if let Some(stop) = Stop::from_number(number) {
        let made = (stop == Stop::Unset).then_some(made as usize);
        return Ok(End::Stopped { stop, place, made });
    }
    match Code::from_number(number) {
        Some(code) => Err(Refusal { code, place }),
        None => panic!("libmahrullis.a answers {number}, which this crate does not know: they are of different versions"),
    }
}

fn zeros(entries: usize) -> Box<[u64]> {
    vec![0; entries].into_boxed_slice()
}

impl Gate {
    /// A gate with its tables.
    pub fn new() -> Gate {
        let most = Limits::GREATEST;
        Gate {
            tree: zeros(raw::TREE_ENTRIES),
            words: zeros(raw::WORDS_ENTRIES),
            stack: zeros(raw::STACK_ENTRIES),
            scopes: zeros(raw::SCOPES_ENTRIES),
            notes: zeros(raw::NOTES_ENTRIES),
            waiting: zeros(raw::WAITING_ENTRIES),
            bindings: zeros(raw::ENTRIES_A_BINDING * most.bindings as usize),
            cells: zeros(raw::ENTRIES_A_CELL * most.cells as usize),
            output: vec![0; most.output as usize].into_boxed_slice(),
        }
    }

    /// The tables, as the jobs are lent them.
    pub(crate) fn lend(&mut self) -> (Common<'_>, Running<'_>) {
        let common = Common { tree: &mut self.tree, words: &mut self.words, stack: &mut self.stack, scopes: &mut self.scopes, notes: &mut self.notes };
        let running = Running { waiting: &mut self.waiting, bindings: &mut self.bindings, cells: &mut self.cells, output: &mut self.output };
        (common, running)
    }

    /// The numbers that the last run put out, and what stands behind them.
    pub(crate) fn held(&self) -> &[i64] {
        &self.output
    }

    /// CHECK: the tree of a text that is a program and whose types hold, else the earliest refusal.
    pub fn check(&mut self, text: &[u8]) -> Result<Tree<'_>, Refusal> {
        let mut report = [0; raw::REPORT_ENTRIES];
        raw::check(text, self.lend().0, &mut report);
        let [number, place, .., made] = report;
        end_of(number, place, made)?;
        Ok(Tree::in_table(&self.tree))
    }

    /// RUN: checks a text and runs it within the limits. A run that is stopped has a report too: the numbers put out so far, and where it stopped.
    ///
    /// A run at depth 200 was seen to take up to 520 KB of the thread's stack (measured, not proved); Rust's own threads have 2 MB.
    pub fn run(&mut self, text: &[u8], limits: Limits) -> Result<Report<'_>, Refusal> {
        let mut report = [0; raw::REPORT_ENTRIES];
        let (common, running) = self.lend();
        raw::run(text, limits, common, running, &mut report);
        let [number, place, units, bindings, cells, numbers, made] = report;
        let end = end_of(number, place, made)?;
        Ok(Report { end, units, bindings, cells, numbers: &self.output[..numbers as usize], tree: Tree::in_table(&self.tree) })
    }
}

impl Default for Gate {
    fn default() -> Gate {
        Gate::new()
    }
}

impl fmt::Debug for Gate {
    fn fmt(&self, f: &mut fmt::Formatter<'_>) -> fmt::Result {
        f.debug_struct("Gate").finish_non_exhaustive()
    }
}

/// NAME: the name at a byte of a text, a part of that very text: the longest stretch of letters and digits from there if it starts with a letter, else, and past
/// the end, an empty part. Texts of any length; key words count as names.
///
/// ```
/// assert_eq!(mahrullis::name_at(b"[ECHO fare2]", 6), b"fare2");
/// assert_eq!(mahrullis::name_at(b"[ECHO fare2]", 0), b"");
/// ```
pub fn name_at(text: &[u8], at: usize) -> &[u8] {
    let mut part = [0; raw::PART_ENTRIES];
    raw::name(text, at, &mut part);
    let [offset, length] = part.map(|entry| entry as usize);
    &text[offset..offset + length]
}

use std::error::Error;
use std::fmt;

use crate::gate::end_of;
use crate::raw;
use crate::{ffi, End, Gate, Limits, Refusal};

/// How many purses there are: 0 to 63.
pub const PURSES: usize = 64;
/// The most that a purse holds.
pub const PURSE_MOST: u64 = 4_294_967_295;
/// The bytes of a journal's record.
pub const RECORD_BYTES: usize = 8;

/// Why a call on purses was refused. The numbers are the change requests'.
#[derive(Clone, Copy, Debug, PartialEq, Eq, Hash)]
pub enum PurseRefusal {
    /// 34: a purse above 63, or a credit past the most that a purse holds.
    Purse,
    /// 35: a record of the journal has its mark and is wrong; no call is taken on it.
    Journal,
    /// 36: no whole record is left in the journal.
    Full,
    /// The text's own refusal.
    Text(Refusal),
}

impl PurseRefusal {
    /// The answer's number.
    pub const fn number(self) -> u64 {
        match self {
            PurseRefusal::Purse => 34,
            PurseRefusal::Journal => 35,
            PurseRefusal::Full => 36,
            PurseRefusal::Text(refusal) => refusal.code.number(),
        }
    }
}

impl fmt::Display for PurseRefusal {
    fn fmt(&self, f: &mut fmt::Formatter<'_>) -> fmt::Result {
        match self {
            PurseRefusal::Purse => f.write_str("refused 34 at 0: there is no such purse, or it would hold too much"),
            PurseRefusal::Journal => f.write_str("refused 35 at 0: a record of the journal is wrong"),
            PurseRefusal::Full => f.write_str("refused 36 at 0: the journal has no record left"),
            PurseRefusal::Text(refusal) => refusal.fmt(f),
        }
    }
}

impl Error for PurseRefusal {}

fn refused(number: u64) -> Option<PurseRefusal> {
    match number {
        34 => Some(PurseRefusal::Purse),
        35 => Some(PurseRefusal::Journal),
        36 => Some(PurseRefusal::Full),
        _ => None,
    }
}

/// A step of a call, which [`Steps`] has just made.
#[derive(Clone, Copy, Debug, PartialEq, Eq, Hash)]
pub enum Step {
    /// The journal got this byte at this place: it is to be kept before the next step is asked for.
    Store {
        /// Which of the journal's bytes.
        at: usize,
        /// The byte.
        byte: u8,
    },
    /// This number is the bank's, for the charge's mark is stored.
    Hand(i64),
}

/// The steps of a call, made one by one as they are asked for: the record's eight bytes, the mark last, and then the numbers. To drop it early is to cut the call.
#[derive(Debug)]
pub struct Steps<'a> {
    pending: [u64; raw::PENDING_ENTRIES],
    next: usize,
    journal: &'a mut [u8],
    held: &'a [i64],
    bank: &'a mut [i64],
}

impl Iterator for Steps<'_> {
    type Item = Step;

    fn next(&mut self) -> Option<Step> {
        let k = self.next;
        if ffi::purse_step(&self.pending, k, self.journal, self.held, self.bank) == 0 {
            return None;
        }
        self.next += 1;
        if k < RECORD_BYTES {
            let at = RECORD_BYTES * self.pending[1] as usize + k;
            return Some(Step::Store { at, byte: self.journal[at] });
        }
        Some(Step::Hand(self.bank[k - RECORD_BYTES]))
    }
}

/// What a run from a purse did. Its numbers are among its steps, behind the charge's mark.
#[derive(Debug)]
#[non_exhaustive]
pub struct PurseRun<'a> {
    /// How it ended.
    pub end: End,
    /// Units taken, which the purse is charged.
    pub units: u64,
    /// Bindings made.
    pub bindings: u64,
    /// Cells taken.
    pub cells: u64,
    /// The steps that are still to be made.
    pub steps: Steps<'a>,
}

/// Purses 0 to 63 over a journal that the caller keeps, as in a file. This has the caller's copy of it; a call changes that copy step by step, and tells each step.
///
/// ```
/// use mahrullis::{Limits, Purses, Step};
///
/// let mut purses = Purses::new(vec![0; 64]); // as the journal is kept: all zero at first
/// for step in purses.credit(7, 100)? {
///     let Step::Store { at, byte } = step else { unreachable!() };
///     // write `byte` at `at` where the journal is kept, and sync it
///     let _ = (at, byte);
/// }
/// let run = purses.run(7, b"[ECHO (add 1 2)]", Limits::GREATEST)?;
/// assert_eq!(run.units, 4);
/// assert_eq!(run.steps.last(), Some(Step::Hand(3)));
/// assert_eq!(purses.show()?[7], 96);
/// # Ok::<(), mahrullis::PurseRefusal>(())
/// ```
#[derive(Debug)]
pub struct Purses {
    journal: Vec<u8>,
    gate: Gate,
    bank: Box<[i64]>,
}

impl Purses {
    /// Purses over a journal as it is kept: all zero at first, and later as the last call left it, whole or cut. A record takes 8 bytes.
    pub fn new(journal: Vec<u8>) -> Purses {
        Purses { journal, gate: Gate::new(), bank: vec![0; Limits::GREATEST.output as usize].into_boxed_slice() }
    }

    /// The journal.
    pub fn journal(&self) -> &[u8] {
        &self.journal
    }

    /// What each purse holds, or [`PurseRefusal::Journal`].
    pub fn show(&self) -> Result<[u64; PURSES], PurseRefusal> {
        let mut purses = [0; PURSES];
        match refused(ffi::purses(&self.journal, &mut purses)) {
            Some(refusal) => Err(refusal),
            None => Ok(purses),
        }
    }

    /// A credit: its steps, none of them made yet.
    pub fn credit(&mut self, purse: u64, amount: u64) -> Result<Steps<'_>, PurseRefusal> {
        let mut purses = [0; PURSES];
        let mut pending = [0; raw::PENDING_ENTRIES];
        if let Some(refusal) = refused(ffi::credit_begin(&self.journal, purse, amount, &mut purses, &mut pending)) {
            return Err(refusal);
        }
        Ok(Steps { pending, next: 0, journal: &mut self.journal, held: &[], bank: &mut self.bank })
    }

    /// A run from a purse: with the lesser of the fuel asked for and the purse. The text is run and its numbers are held back; no step is made yet.
    pub fn run(&mut self, purse: u64, text: &[u8], limits: Limits) -> Result<PurseRun<'_>, PurseRefusal> {
        let mut purses = [0; PURSES];
        let mut pending = [0; raw::PENDING_ENTRIES];
        let mut report = [0; raw::REPORT_ENTRIES];
        let Limits { fuel, depth, bindings, cells, output } = limits;
        let (common, running) = self.gate.lend();
        let limits = [fuel, depth, bindings, cells, output];
        let telling = ffi::Telling { purses: &mut purses, report: &mut report, pending: &mut pending };
        let number = ffi::purse_run_begin(&self.journal, purse, text, limits, common, running, telling);
        if let Some(refusal) = refused(number) {
            return Err(refusal);
        }
        let [number, place, units, bindings, cells, _, made] = report;
        let end = end_of(number, place, made).map_err(PurseRefusal::Text)?;
        let steps = Steps { pending, next: 0, journal: &mut self.journal, held: self.gate.held(), bank: &mut self.bank };
        Ok(PurseRun { end, units, bindings, cells, steps })
    }
}

//! The three jobs over tables that the caller owns, of any lengths: for who keeps the memory, or wants smaller tables for smaller limits. [`Gate`](crate::Gate) is
//! easier.
//!
//! Each function answers document 01's number: 0 accepted or done, 1 to 10 a refusal, 20 to 29 a stop. A table that is shorter than it must be is answered 3
//! (TABLE), never a fault. What is left in each table after each answer stands in the repository's `docs/TABLES.md` and in `include/mahrullis.h`.

use crate::{ffi, Limits};

/// The longest text that is read, in bytes; a longer one is answered 1 (LENGTH).
pub const TEXT_MOST: usize = 16_384;
/// Entries of the tree table.
pub const TREE_ENTRIES: usize = 4_096;
/// Entries of the table of words.
pub const WORDS_ENTRIES: usize = 4_096;
/// Entries of the reading's stack.
pub const STACK_ENTRIES: usize = 4_097;
/// Entries of the table of scopes.
pub const SCOPES_ENTRIES: usize = 4_096;
/// Entries of the table of notes.
pub const NOTES_ENTRIES: usize = 4_096;
/// Entries of the table of values that wait for their call.
pub const WAITING_ENTRIES: usize = 8_192;
/// Entries for each binding that the limit admits.
pub const ENTRIES_A_BINDING: usize = 2;
/// Entries for each cell that the limit admits.
pub const ENTRIES_A_CELL: usize = 2;
/// Entries of a report: the answer, its place, units, bindings and cells taken, numbers put out, and the place that made UNSET's cell, 0 for every other answer.
pub const REPORT_ENTRIES: usize = 7;
/// Entries of a part: a name's offset and its length.
pub const PART_ENTRIES: usize = 2;

/// Entries of what a call on purses has pending: the record's kind, place, purse and amount, and how many numbers are held.
pub(crate) const PENDING_ENTRIES: usize = 5;

/// The tables that CHECK and RUN are lent.
#[derive(Debug)]
pub struct Common<'a> {
    /// At least [`TREE_ENTRIES`]: the tree where the text is accepted.
    pub tree: &'a mut [u64],
    /// At least [`WORDS_ENTRIES`].
    pub words: &'a mut [u64],
    /// At least [`STACK_ENTRIES`].
    pub stack: &'a mut [u64],
    /// At least [`SCOPES_ENTRIES`].
    pub scopes: &'a mut [u64],
    /// At least [`NOTES_ENTRIES`].
    pub notes: &'a mut [u64],
}

/// The tables that only RUN is lent.
#[derive(Debug)]
pub struct Running<'a> {
    /// At least [`WAITING_ENTRIES`].
    pub waiting: &'a mut [u64],
    /// At least [`ENTRIES_A_BINDING`] times the limit of bindings.
    pub bindings: &'a mut [u64],
    /// At least [`ENTRIES_A_CELL`] times the limit of cells.
    pub cells: &'a mut [u64],
    /// At least the limit of output: the numbers put out, oldest first.
    pub output: &'a mut [i64],
}

/// CHECK: answers 0, 1 or 3 to 10 and writes the report's first [`REPORT_ENTRIES`]. A shorter report is answered 3 before anything else.
pub fn check(text: &[u8], tables: Common<'_>, report: &mut [u64]) -> u64 {
    ffi::check(text, tables, report)
}

/// RUN: answers 0, 1 to 10 or 20 to 29 and writes the report's first [`REPORT_ENTRIES`]. A shorter report is answered 3 before anything else.
pub fn run(text: &[u8], limits: Limits, tables: Common<'_>, running: Running<'_>, report: &mut [u64]) -> u64 {
    let Limits { fuel, depth, bindings, cells, output } = limits;
    ffi::run(text, [fuel, depth, bindings, cells, output], tables, running, report)
}

/// NAME: writes the offset and the length of the name at a byte to the part's first two entries and answers 0. A shorter part is answered 3.
pub fn name(text: &[u8], at: usize, part: &mut [u64]) -> u64 {
    ffi::name(text, at, part)
}

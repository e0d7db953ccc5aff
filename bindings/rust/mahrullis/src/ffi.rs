//! The functions of `libmahrullis.a` that this crate uses, as `include/mahrullis.h` declares them, behind safe functions over slices. All unsafe code of the crate is here.
#![allow(unsafe_code)]

use crate::raw::{Common, Running};

extern "C" {
    fn mahrullis_check(
        text: *const u8,
        text_length: usize,
        tree: *mut u64,
        tree_length: usize,
        words: *mut u64,
        words_length: usize,
        stack: *mut u64,
        stack_length: usize,
        scopes: *mut u64,
        scopes_length: usize,
        notes: *mut u64,
        notes_length: usize,
        report: *mut u64,
        report_length: usize,
    ) -> u64;

    fn mahrullis_run(
        text: *const u8,
        text_length: usize,
        fuel: u64,
        depth: u64,
        most_bindings: u64,
        most_cells: u64,
        most_numbers: u64,
        tree: *mut u64,
        tree_length: usize,
        words: *mut u64,
        words_length: usize,
        stack: *mut u64,
        stack_length: usize,
        scopes: *mut u64,
        scopes_length: usize,
        notes: *mut u64,
        notes_length: usize,
        waiting: *mut u64,
        waiting_length: usize,
        bindings: *mut u64,
        bindings_length: usize,
        cells: *mut u64,
        cells_length: usize,
        output: *mut i64,
        output_length: usize,
        report: *mut u64,
        report_length: usize,
    ) -> u64;

    fn mahrullis_name(text: *const u8, text_length: usize, at: usize, part: *mut u64, part_length: usize) -> u64;

    fn mahrullis_purses(journal: *const u8, journal_length: usize, purses: *mut u64, purses_length: usize) -> u64;

    fn mahrullis_credit_begin(
        journal: *const u8,
        journal_length: usize,
        purse: u64,
        amount: u64,
        purses: *mut u64,
        purses_length: usize,
        pending: *mut u64,
        pending_length: usize,
    ) -> u64;

    fn mahrullis_purse_run_begin(
        journal: *const u8,
        journal_length: usize,
        purse: u64,
        text: *const u8,
        text_length: usize,
        fuel: u64,
        depth: u64,
        most_bindings: u64,
        most_cells: u64,
        most_numbers: u64,
        tree: *mut u64,
        tree_length: usize,
        words: *mut u64,
        words_length: usize,
        stack: *mut u64,
        stack_length: usize,
        scopes: *mut u64,
        scopes_length: usize,
        notes: *mut u64,
        notes_length: usize,
        waiting: *mut u64,
        waiting_length: usize,
        bindings: *mut u64,
        bindings_length: usize,
        cells: *mut u64,
        cells_length: usize,
        held: *mut i64,
        held_length: usize,
        purses: *mut u64,
        purses_length: usize,
        report: *mut u64,
        report_length: usize,
        pending: *mut u64,
        pending_length: usize,
    ) -> u64;

    fn mahrullis_purse_step(
        pending: *const u64,
        pending_length: usize,
        k: usize,
        journal: *mut u8,
        journal_length: usize,
        held: *const i64,
        held_length: usize,
        bank: *mut i64,
        bank_length: usize,
    ) -> u64;
}

pub(crate) fn check(text: &[u8], common: Common<'_>, report: &mut [u64]) -> u64 {
    let Common { tree, words, stack, scopes, notes } = common;
    // SAFETY: the contract (include/mahrullis.h) asks that each pointer is not null, aligned and valid for the length beside it, which a slice's is, at length 0
    // too; that text and tables do not overlap and nobody else uses them meanwhile, which holds since each table is borrowed mutably and the text shared. It
    // has no other precondition: every text, length and content is answered. The function keeps no pointer and writes only within the tables.
    unsafe {
        mahrullis_check(
            text.as_ptr(),
            text.len(),
            tree.as_mut_ptr(),
            tree.len(),
            words.as_mut_ptr(),
            words.len(),
            stack.as_mut_ptr(),
            stack.len(),
            scopes.as_mut_ptr(),
            scopes.len(),
            notes.as_mut_ptr(),
            notes.len(),
            report.as_mut_ptr(),
            report.len(),
        )
    }
}

pub(crate) fn run(text: &[u8], limits: [u64; 5], common: Common<'_>, running: Running<'_>, report: &mut [u64]) -> u64 {
    let [fuel, depth, most_bindings, most_cells, most_numbers] = limits;
    let Common { tree, words, stack, scopes, notes } = common;
    let Running { waiting, bindings, cells, output } = running;
    // SAFETY: as for `check`; limits are answered too, whatever they are.
    unsafe {
        mahrullis_run(
            text.as_ptr(),
            text.len(),
            fuel,
            depth,
            most_bindings,
            most_cells,
            most_numbers,
            tree.as_mut_ptr(),
            tree.len(),
            words.as_mut_ptr(),
            words.len(),
            stack.as_mut_ptr(),
            stack.len(),
            scopes.as_mut_ptr(),
            scopes.len(),
            notes.as_mut_ptr(),
            notes.len(),
            waiting.as_mut_ptr(),
            waiting.len(),
            bindings.as_mut_ptr(),
            bindings.len(),
            cells.as_mut_ptr(),
            cells.len(),
            output.as_mut_ptr(),
            output.len(),
            report.as_mut_ptr(),
            report.len(),
        )
    }
}

pub(crate) fn name(text: &[u8], at: usize, part: &mut [u64]) -> u64 {
    // SAFETY: as for `check`; `at` may be any number.
    unsafe { mahrullis_name(text.as_ptr(), text.len(), at, part.as_mut_ptr(), part.len()) }
}

pub(crate) fn purses(journal: &[u8], purses: &mut [u64]) -> u64 {
    // SAFETY: as for `check`.
    unsafe { mahrullis_purses(journal.as_ptr(), journal.len(), purses.as_mut_ptr(), purses.len()) }
}

pub(crate) fn credit_begin(journal: &[u8], purse: u64, amount: u64, purses: &mut [u64], pending: &mut [u64]) -> u64 {
    // SAFETY: as for `check`; purse and amount may be any numbers.
    unsafe { mahrullis_credit_begin(journal.as_ptr(), journal.len(), purse, amount, purses.as_mut_ptr(), purses.len(), pending.as_mut_ptr(), pending.len()) }
}

/// The tables that a call tells of itself in.
pub(crate) struct Telling<'a> {
    pub(crate) purses: &'a mut [u64],
    pub(crate) report: &'a mut [u64],
    pub(crate) pending: &'a mut [u64],
}

pub(crate) fn purse_run_begin(
    journal: &[u8],
    purse: u64,
    text: &[u8],
    limits: [u64; 5],
    common: Common<'_>,
    running: Running<'_>,
    telling: Telling<'_>,
) -> u64 {
    let [fuel, depth, most_bindings, most_cells, most_numbers] = limits;
    let Common { tree, words, stack, scopes, notes } = common;
    let Running { waiting, bindings, cells, output } = running;
    let Telling { purses, report, pending } = telling;
    // SAFETY: as for `check`; purse and limits may be any numbers.
    unsafe {
        mahrullis_purse_run_begin(
            journal.as_ptr(),
            journal.len(),
            purse,
            text.as_ptr(),
            text.len(),
            fuel,
            depth,
            most_bindings,
            most_cells,
            most_numbers,
            tree.as_mut_ptr(),
            tree.len(),
            words.as_mut_ptr(),
            words.len(),
            stack.as_mut_ptr(),
            stack.len(),
            scopes.as_mut_ptr(),
            scopes.len(),
            notes.as_mut_ptr(),
            notes.len(),
            waiting.as_mut_ptr(),
            waiting.len(),
            bindings.as_mut_ptr(),
            bindings.len(),
            cells.as_mut_ptr(),
            cells.len(),
            output.as_mut_ptr(),
            output.len(),
            purses.as_mut_ptr(),
            purses.len(),
            report.as_mut_ptr(),
            report.len(),
            pending.as_mut_ptr(),
            pending.len(),
        )
    }
}

pub(crate) fn purse_step(pending: &[u64], k: usize, journal: &mut [u8], held: &[i64], bank: &mut [i64]) -> u64 {
    // SAFETY: as for `check`; a pending table may hold anything, for every place is held against the lengths.
    unsafe {
        mahrullis_purse_step(pending.as_ptr(), pending.len(), k, journal.as_mut_ptr(), journal.len(), held.as_ptr(), held.len(), bank.as_mut_ptr(), bank.len())
    }
}

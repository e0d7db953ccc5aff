/* Calls on purses through the archive: whole calls against calls made step by step, and each refusal in its order. */
#include <stdio.h>
#include <string.h>
#include "mahrullis.h"

#define RECORDS 4
#define BYTES (RECORDS * MAHRULLIS_RECORD_BYTES)

static struct mahrullis_tables tables;
static int64_t bank[MAHRULLIS_OUTPUT_MOST];
static uint64_t purses[MAHRULLIS_PURSES];
static uint64_t report[MAHRULLIS_REPORT_ENTRIES];
static uint64_t pending[MAHRULLIS_PENDING_ENTRIES];
static int failed = 0;

static void expect(int holds, const char *what) {
    if (holds) return;
    printf("purses: %s\n", what);
    failed = 1;
}

static uint64_t begin(const uint8_t *journal, size_t bytes, uint64_t purse, const char *text, uint64_t fuel) {
    return mahrullis_purse_run_begin(journal, bytes, purse, (const uint8_t *)text, strlen(text),
        fuel, MAHRULLIS_DEPTH_MOST, MAHRULLIS_BINDINGS_MOST, MAHRULLIS_CELLS_MOST, MAHRULLIS_OUTPUT_MOST,
        tables.tree, MAHRULLIS_TREE_ENTRIES, tables.words, MAHRULLIS_WORDS_ENTRIES, tables.stack, MAHRULLIS_STACK_ENTRIES,
        tables.scopes, MAHRULLIS_SCOPES_ENTRIES, tables.notes, MAHRULLIS_NOTES_ENTRIES, tables.waiting, MAHRULLIS_WAITING_ENTRIES,
        tables.bindings, MAHRULLIS_ENTRIES_A_BINDING * MAHRULLIS_BINDINGS_MOST, tables.cells, MAHRULLIS_ENTRIES_A_CELL * MAHRULLIS_CELLS_MOST,
        tables.output, MAHRULLIS_OUTPUT_MOST, purses, MAHRULLIS_PURSES, report, MAHRULLIS_REPORT_ENTRIES, pending, MAHRULLIS_PENDING_ENTRIES);
}

static uint64_t run(uint8_t *journal, size_t bytes, uint64_t purse, const char *text, uint64_t fuel, size_t n) {
    return mahrullis_purse_run(journal, bytes, purse, n, bank, MAHRULLIS_OUTPUT_MOST, (const uint8_t *)text, strlen(text),
        fuel, MAHRULLIS_DEPTH_MOST, MAHRULLIS_BINDINGS_MOST, MAHRULLIS_CELLS_MOST, MAHRULLIS_OUTPUT_MOST,
        tables.tree, MAHRULLIS_TREE_ENTRIES, tables.words, MAHRULLIS_WORDS_ENTRIES, tables.stack, MAHRULLIS_STACK_ENTRIES,
        tables.scopes, MAHRULLIS_SCOPES_ENTRIES, tables.notes, MAHRULLIS_NOTES_ENTRIES, tables.waiting, MAHRULLIS_WAITING_ENTRIES,
        tables.bindings, MAHRULLIS_ENTRIES_A_BINDING * MAHRULLIS_BINDINGS_MOST, tables.cells, MAHRULLIS_ENTRIES_A_CELL * MAHRULLIS_CELLS_MOST,
        tables.output, MAHRULLIS_OUTPUT_MOST, purses, MAHRULLIS_PURSES, report, MAHRULLIS_REPORT_ENTRIES);
}

/* the steps of the pending call, at most n; answers how many were made */
static size_t steps(uint8_t *journal, size_t bytes, size_t n) {
    size_t k = 0;
    while (k < n && mahrullis_purse_step(pending, MAHRULLIS_PENDING_ENTRIES, k, journal, bytes, tables.output, MAHRULLIS_OUTPUT_MOST, bank, MAHRULLIS_OUTPUT_MOST)) k++;
    return k;
}

int main(void) {
    static const char text[] = "[ECHO 1; ECHO (add 2 3)]"; /* 6 units */
    uint8_t whole[BYTES], stepped[BYTES], wrong[BYTES];
    size_t n;
    for (n = 0; n <= 12; n++) {
        memset(whole, 0, BYTES);
        memset(stepped, 0, BYTES);
        expect(mahrullis_credit(whole, BYTES, 63, 100, n, purses, MAHRULLIS_PURSES) == MAHRULLIS_DONE, "credit");
        expect(mahrullis_credit_begin(stepped, BYTES, 63, 100, purses, MAHRULLIS_PURSES, pending, MAHRULLIS_PENDING_ENTRIES) == MAHRULLIS_DONE, "credit begun");
        expect(steps(stepped, BYTES, n) == (n < 8 ? n : 8), "a credit has eight steps");
        expect(memcmp(whole, stepped, BYTES) == 0, "a credit's first steps");
        expect(mahrullis_purses(whole, BYTES, purses, MAHRULLIS_PURSES) == MAHRULLIS_DONE && purses[63] == (n < 8 ? 0u : 100u), "the purse after a cut credit");
    }
    for (n = 0; n <= 12; n++) {
        uint8_t before[BYTES];
        memcpy(before, whole, BYTES);
        memcpy(stepped, whole, BYTES);
        memset(bank, 0, sizeof bank);
        expect(run(before, BYTES, 63, text, 1000, n) == MAHRULLIS_DONE && report[2] == 6 && report[5] == 2, "a run");
        expect(bank[0] == (n > 8 ? 1 : 0) && bank[1] == (n > 9 ? 5 : 0), "numbers after the mark alone");
        memset(bank, 0, sizeof bank);
        expect(begin(stepped, BYTES, 63, text, 1000) == MAHRULLIS_DONE && bank[0] == 0, "a run begun");
        expect(steps(stepped, BYTES, n) == (n < 10 ? n : 10), "a run's steps");
        expect(memcmp(before, stepped, BYTES) == 0, "a run's first steps");
        expect(bank[0] == (n > 8 ? 1 : 0) && bank[1] == (n > 9 ? 5 : 0), "numbers handed on by steps");
        expect(mahrullis_purses(stepped, BYTES, purses, MAHRULLIS_PURSES) == MAHRULLIS_DONE && purses[63] == (n < 8 ? 100u : 94u), "the purse after a cut run");
    }
    memset(wrong, 0, BYTES);
    wrong[7] = 0xa5;
    expect(mahrullis_purses(wrong, BYTES, purses, MAHRULLIS_PURSES) == MAHRULLIS_JOURNAL, "a wrong record");
    expect(run(wrong, BYTES, 64, "[", 2000000, 99) == MAHRULLIS_JOURNAL && report[0] == MAHRULLIS_JOURNAL && report[1] == 0, "JOURNAL before PURSE");
    expect(run(whole, 8, 64, "[", 2000000, 99) == MAHRULLIS_PURSE, "PURSE before FULL");
    expect(run(whole, 8, 63, "[", 2000000, 99) == MAHRULLIS_FULL, "FULL before the text's own");
    expect(run(whole, BYTES, 63, text, 2000000, 99) == MAHRULLIS_LIMIT, "LIMIT on the fuel asked for");
    expect(run(whole, BYTES, 63, "[", 1000, 99) == MAHRULLIS_SYNTAX, "a text that is refused");
    expect(mahrullis_purses(whole, BYTES, purses, MAHRULLIS_PURSES) == MAHRULLIS_DONE && purses[63] == 100, "refused calls cost nothing");
    expect(mahrullis_purses(whole, BYTES, purses, 63) == MAHRULLIS_TABLE, "63 entries are too few");
    if (!failed) printf("purses: whole calls and calls by steps agree\n");
    return failed;
}

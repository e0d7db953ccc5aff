/* Mahrullis: CHECK, RUN and NAME of APS scripts, and runs that are paid from purses, over tables that the caller lends.
 *
 * Link target/staticlib/libmahrullis.a (`tools/archive`; x86-64 Linux). The archive's code is proved; this header and its inline functions are not.
 * The least that works: a `static struct mahrullis_tables`, and mahrullis_run_text or mahrullis_check_text over it.
 *
 * What is believed of the caller, and all of it:
 *   - each pointer is not null, is aligned for its type, and is valid for as many entries as the length after it says, also where that is 0;
 *   - the text and the tables do not overlap, and nothing else reads or writes the tables, or writes the text, during the call;
 *   - the thread has stack left: a run at depth 200 was seen to take up to 520 KB, 100 KB of it at any depth, CHECK 14 KB (measured, not proved).
 * Lengths are counted in entries, not in bytes. Any length, any limit, any text and any contents of the tables are safe: what does not fit is an answer.
 * Nothing is kept between calls, nothing is allocated and no system call is made, so calls over different tables may run at the same time. */
#ifndef MAHRULLIS_H
#define MAHRULLIS_H

#include <stddef.h>
#include <stdint.h>

#ifdef __cplusplus
extern "C" {
#endif

/* The archive is for 64-bit machines: this line fails to compile on others. */
typedef char mahrullis_needs_64_bits[sizeof(size_t) == 8 ? 1 : -1];

/* A longer text is answered LENGTH. */
#define MAHRULLIS_TEXT_MOST 16384

/* The greatest limits: one beyond is answered LIMIT. */
#define MAHRULLIS_FUEL_MOST 1000000
#define MAHRULLIS_DEPTH_MOST 200
#define MAHRULLIS_BINDINGS_MOST 4096
#define MAHRULLIS_CELLS_MOST 4096
#define MAHRULLIS_OUTPUT_MOST 4096

/* The entries that each table must have at least: a shorter one is answered TABLE. Entries past these are never touched. */
#define MAHRULLIS_TREE_ENTRIES 4096
#define MAHRULLIS_WORDS_ENTRIES 4096
#define MAHRULLIS_STACK_ENTRIES 4097
#define MAHRULLIS_SCOPES_ENTRIES 4096
#define MAHRULLIS_NOTES_ENTRIES 4096
#define MAHRULLIS_WAITING_ENTRIES 8192
#define MAHRULLIS_REPORT_ENTRIES 7
#define MAHRULLIS_PART_ENTRIES 2
/* bindings, cells and output: so many entries for each one that the limit admits. */
#define MAHRULLIS_ENTRIES_A_BINDING 2
#define MAHRULLIS_ENTRIES_A_CELL 2
#define MAHRULLIS_ENTRIES_A_NUMBER 1

/* Every answer. CHECK gives 0, 1 and 3 to 10, RUN 0, 1 to 10 and 20 to 29, NAME 0 and 3. 1 to 10 are refusals; 20 to 29 stop a run,
 * 20 to 24 at a limit. 34 to 36 refuse calls on purses. */
enum mahrullis_answer {
    MAHRULLIS_DONE = 0,      /* accepted, or run to its end; place 0 */
    MAHRULLIS_LENGTH = 1,    /* the text is over 16,384 bytes; place 0 */
    MAHRULLIS_LIMIT = 2,     /* a limit is over its greatest value; place 0 */
    MAHRULLIS_TABLE = 3,     /* a table is too short; place 0 */
    MAHRULLIS_BYTE = 4,      /* a byte that is in no word and separates none, at it */
    MAHRULLIS_NUMBER = 5,    /* a number outside the range of int64_t, at its start */
    MAHRULLIS_TOKENS = 6,    /* over 4,096 words, at the 4,097th */
    MAHRULLIS_SYNTAX = 7,    /* the words so far begin no program, at the first such word or at the text's end */
    MAHRULLIS_LEVEL = 8,     /* a 65th level opens, at that word */
    MAHRULLIS_TYPE = 9,      /* a rule of the types cannot be met, at the node */
    MAHRULLIS_DOUBLE = 10,   /* a parameter has the name of one before it in its list, at it */
    MAHRULLIS_FUEL = 20,     /* no unit is left, at the node entered */
    MAHRULLIS_DEPTH = 21,    /* too many are entered and unended, at the node entered */
    MAHRULLIS_CELLS = 22,    /* fewer cells are left than are made, at the VAR or alloc */
    MAHRULLIS_BINDINGS = 23, /* fewer bindings are left than are made, at the definition, CALL or application */
    MAHRULLIS_OUTPUT = 24,   /* as many numbers are out as may be, at the ECHO */
    MAHRULLIS_RANGE = 25,    /* a result is outside the range of int64_t, at the application */
    MAHRULLIS_ZERO = 26,     /* div by 0, at the application */
    MAHRULLIS_UNSET = 27,    /* a cell is read before it is set, at the name or nth */
    MAHRULLIS_SIZE = 28,     /* a block's size is below 0, at the alloc */
    MAHRULLIS_INDEX = 29,    /* an index is below 0 or not below the block's length, at the nth or vset */
    MAHRULLIS_PURSE = 34,    /* calls on purses: a purse above 63, or a credit past the most that a purse holds; place 0 */
    MAHRULLIS_JOURNAL = 35,  /* a record of the journal has its mark and is wrong; place 0 */
    MAHRULLIS_FULL = 36      /* no whole record is left in the journal; place 0 */
};

/* The kinds of a tree's nodes. */
enum mahrullis_kind {
    MAHRULLIS_KIND_BLOCK = 1,
    MAHRULLIS_KIND_CONST = 2,
    MAHRULLIS_KIND_FUN = 3,
    MAHRULLIS_KIND_FUN_REC = 4,
    MAHRULLIS_KIND_VAR = 5,
    MAHRULLIS_KIND_PROC = 6,
    MAHRULLIS_KIND_PROC_REC = 7,
    MAHRULLIS_KIND_ECHO = 8,
    MAHRULLIS_KIND_SET = 9,
    MAHRULLIS_KIND_IF_STATEMENT = 10, /* IF */
    MAHRULLIS_KIND_WHILE = 11,
    MAHRULLIS_KIND_CALL = 12,
    MAHRULLIS_KIND_PARAMETER = 13,
    MAHRULLIS_KIND_VAR_PARAMETER = 14,
    MAHRULLIS_KIND_BOOL = 15,
    MAHRULLIS_KIND_INT = 16,
    MAHRULLIS_KIND_FUNCTION_TYPE = 17,
    MAHRULLIS_KIND_NUMBER = 18,
    MAHRULLIS_KIND_NAME = 19,
    MAHRULLIS_KIND_IF_EXPRESSION = 20, /* if */
    MAHRULLIS_KIND_AND = 21,
    MAHRULLIS_KIND_OR = 22,
    MAHRULLIS_KIND_APPLICATION = 23,
    MAHRULLIS_KIND_ABSTRACTION = 24,
    MAHRULLIS_KIND_ADR = 25,
    MAHRULLIS_KIND_VEC = 26, /* the type of blocks of cells */
    MAHRULLIS_KIND_ALLOC = 27,
    MAHRULLIS_KIND_NTH = 28,
    MAHRULLIS_KIND_LEN = 29,
    MAHRULLIS_KIND_VSET = 30,
    MAHRULLIS_KIND_RETURN = 31,
    MAHRULLIS_KIND_FUN_BLOCK = 32,    /* FUN whose body is a block */
    MAHRULLIS_KIND_FUN_REC_BLOCK = 33 /* FUN REC whose body is a block */
};

/* CHECK: is the text a program whose types hold? Answers an enum mahrullis_answer and writes report[0] to report[6]: the answer, its place, and five zeros.
 * Left behind, entries past a table's size untouched and the text only read:
 *   after 1 and 3   every table as it was, but for those seven entries of the report
 *   after 4 to 10   tree, words, stack, scopes and notes zero up to their sizes
 *   accepted        the tree, then zeros up to word 4,096; words, stack, scopes and notes zero up to their sizes
 * A report of under seven entries is answered TABLE before anything else, and then it too is left as it was. */
uint64_t mahrullis_check(const uint8_t *text, size_t text_length,
    uint64_t *tree, size_t tree_length,
    uint64_t *words, size_t words_length,
    uint64_t *stack, size_t stack_length,
    uint64_t *scopes, size_t scopes_length,
    uint64_t *notes, size_t notes_length,
    uint64_t *report, size_t report_length);

/* RUN: checks the text and runs it within the limits. Answers an enum mahrullis_answer and writes report[0] to report[6]: the answer, its place, the units,
 * bindings and cells taken, how many numbers were put out, and after UNSET the place of the VAR or alloc that made the cell. The four counts are 0 after 1 to 10, and
 * the last entry is 0 after every answer but UNSET.
 * Left behind, entries past a table's size untouched and the text only read:
 *   after 1 to 3    every table as it was, but for those seven entries of the report
 *   after 4 to 10   tree, words, stack, scopes, notes and waiting zero up to their sizes; bindings, cells and output as they were
 *   after a run     the tree, then zeros up to word 4,096; words, stack, scopes, notes and waiting zero up to their sizes; bindings and cells zero as far as
 *                   their limits; the numbers put out, oldest first, and the rest of the output as it was
 * A report of under seven entries is answered TABLE before anything else, and then it too is left as it was. */
uint64_t mahrullis_run(const uint8_t *text, size_t text_length,
    uint64_t fuel, uint64_t depth, uint64_t most_bindings, uint64_t most_cells, uint64_t most_numbers,
    uint64_t *tree, size_t tree_length,
    uint64_t *words, size_t words_length,
    uint64_t *stack, size_t stack_length,
    uint64_t *scopes, size_t scopes_length,
    uint64_t *notes, size_t notes_length,
    uint64_t *waiting, size_t waiting_length,
    uint64_t *bindings, size_t bindings_length,
    uint64_t *cells, size_t cells_length,
    int64_t *output, size_t output_length,
    uint64_t *report, size_t report_length);

/* NAME: where the name at a byte of the text lies. Writes its offset to part[0] and its length to part[1], and answers 0: the longest stretch of letters and
 * digits from `at` if it starts with a letter, else, and past the end, an empty part. The offset is `at`, or the text's length where `at` is past it, so
 * offset + length is never more than the text's length. Texts of any length; key words count as names. A part of under two entries is answered 3, unchanged. */
uint64_t mahrullis_name(const uint8_t *text, size_t text_length, size_t at, uint64_t *part, size_t part_length);

/* ---- Purses: 64 of them, 0 to 63, each up to MAHRULLIS_PURSE_MOST, kept in a journal and nowhere else.
 *
 * The journal is lent with all bytes zero at first, and then as the last call left it. A record has 8 bytes, most significant first: kind 4 bits (1 credit, 2
 * charge), purse 12, amount 32, zeros 8, mark 8, which is A5 hex and is stored last. Reading back goes up to the first record without its mark.
 * A run gets the lesser of the fuel asked for and the purse, and is charged the units that it reports; a refused text costs nothing. Its numbers are held back
 * in `held`, and handed to `bank` by steps after the charge's mark alone.
 *
 * A call makes steps: 8 stores of a byte each into the journal, then one for each number that is handed on. After any of them it may be cut: before the mark is
 * stored the purses are as before the call, and from then on as after it. Refusals come in the order JOURNAL, PURSE, FULL, then those of the text, LIMIT judged on
 * the fuel asked for; a refused call makes no step.
 * For a journal that a cut can tear, as a file, begin a call and make its steps one by one: mahrullis_credit_begin or mahrullis_purse_run_begin, then
 * mahrullis_purse_step with k = 0, 1, 2 .. until it answers 0, each byte made durable before the next step. A compiler may join the stores of one call, so
 * mahrullis_credit and mahrullis_purse_run, which make the steps themselves, are for journals in memory. */
#define MAHRULLIS_PURSES 64
#define MAHRULLIS_PURSE_MOST 4294967295
#define MAHRULLIS_RECORD_BYTES 8
#define MAHRULLIS_PENDING_ENTRIES 5

/* The purses that the journal is read back to: purses[0] to purses[63], entries behind them untouched. Answers 0, 35 (the purses are those of the records before
 * the wrong one) or, for a table of under 64 entries, 3. */
uint64_t mahrullis_purses(const uint8_t *journal, size_t journal_length, uint64_t *purses, size_t purses_length);

/* A credit, of whose steps the first n are made: SIZE_MAX makes all. Answers 0, 34, 35 or 36, or 3 where purses has under 64 entries and nothing is changed.
 * The table of purses is left as the journal was read back before the call. */
uint64_t mahrullis_credit(uint8_t *journal, size_t journal_length, uint64_t purse, uint64_t amount, size_t n, uint64_t *purses, size_t purses_length);

/* A credit up to its first step: answers as above, and writes pending[0] to pending[4]: the record's kind (0 where there is none), place, purse and amount, and 0.
 * The byte that step k stores is journal[8 * pending[1] + k]. */
uint64_t mahrullis_credit_begin(const uint8_t *journal, size_t journal_length, uint64_t purse, uint64_t amount,
    uint64_t *purses, size_t purses_length,
    uint64_t *pending, size_t pending_length);

/* Step k of the call that is pending, from 0: answers 1, or 0 and does nothing where k is past its last step, where the journal has no record at the place, or where
 * held or bank have fewer entries than numbers are held. */
uint64_t mahrullis_purse_step(const uint64_t *pending, size_t pending_length, size_t k,
    uint8_t *journal, size_t journal_length,
    const int64_t *held, size_t held_length,
    int64_t *bank, size_t bank_length);

/* A run from a purse up to its first step: as mahrullis_run, with `held` for the output, and as mahrullis_credit_begin; pending[4] is how many numbers are held.
 * After 34 to 36 RUN's tables are as they were. A table of purses, a report or pending that is too short is answered 3 before anything else. */
uint64_t mahrullis_purse_run_begin(const uint8_t *journal, size_t journal_length, uint64_t purse,
    const uint8_t *text, size_t text_length,
    uint64_t fuel, uint64_t depth, uint64_t most_bindings, uint64_t most_cells, uint64_t most_numbers,
    uint64_t *tree, size_t tree_length,
    uint64_t *words, size_t words_length,
    uint64_t *stack, size_t stack_length,
    uint64_t *scopes, size_t scopes_length,
    uint64_t *notes, size_t notes_length,
    uint64_t *waiting, size_t waiting_length,
    uint64_t *bindings, size_t bindings_length,
    uint64_t *cells, size_t cells_length,
    int64_t *held, size_t held_length,
    uint64_t *purses, size_t purses_length,
    uint64_t *report, size_t report_length,
    uint64_t *pending, size_t pending_length);

/* A run from a purse, of whose steps the first n are made: SIZE_MAX makes all. `bank` gets the numbers handed on, and the rest of it is as it was; it must have as
 * many entries as `held`, else 3 is answered before anything else. */
uint64_t mahrullis_purse_run(uint8_t *journal, size_t journal_length, uint64_t purse, size_t n,
    int64_t *bank, size_t bank_length,
    const uint8_t *text, size_t text_length,
    uint64_t fuel, uint64_t depth, uint64_t most_bindings, uint64_t most_cells, uint64_t most_numbers,
    uint64_t *tree, size_t tree_length,
    uint64_t *words, size_t words_length,
    uint64_t *stack, size_t stack_length,
    uint64_t *scopes, size_t scopes_length,
    uint64_t *notes, size_t notes_length,
    uint64_t *waiting, size_t waiting_length,
    uint64_t *bindings, size_t bindings_length,
    uint64_t *cells, size_t cells_length,
    int64_t *held, size_t held_length,
    uint64_t *purses, size_t purses_length,
    uint64_t *report, size_t report_length);

/* All tables at their greatest sizes, 430 KB: declare it static or allocate it, and do not put it on a stack. Any contents will do, so it needs no
 * initialiser. One for each thread that calls at the same time. */
struct mahrullis_tables {
    uint64_t tree[MAHRULLIS_TREE_ENTRIES];
    uint64_t words[MAHRULLIS_WORDS_ENTRIES];
    uint64_t stack[MAHRULLIS_STACK_ENTRIES];
    uint64_t scopes[MAHRULLIS_SCOPES_ENTRIES];
    uint64_t notes[MAHRULLIS_NOTES_ENTRIES];
    uint64_t waiting[MAHRULLIS_WAITING_ENTRIES];
    uint64_t bindings[MAHRULLIS_ENTRIES_A_BINDING * MAHRULLIS_BINDINGS_MOST];
    uint64_t cells[MAHRULLIS_ENTRIES_A_CELL * MAHRULLIS_CELLS_MOST];
    int64_t output[MAHRULLIS_ENTRIES_A_NUMBER * MAHRULLIS_OUTPUT_MOST];
};

struct mahrullis_limits {
    uint64_t fuel;     /* units: definitions, statements, expressions and adr that may be entered */
    uint64_t depth;    /* of these, how many may be unended at a time */
    uint64_t bindings; /* how many may be made */
    uint64_t cells;    /* how many VAR and alloc may take */
    uint64_t output;   /* how many numbers may be put out */
};

/* An initialiser: struct mahrullis_limits limits = MAHRULLIS_GREATEST_LIMITS; */
#define MAHRULLIS_GREATEST_LIMITS \
    { MAHRULLIS_FUEL_MOST, MAHRULLIS_DEPTH_MOST, MAHRULLIS_BINDINGS_MOST, MAHRULLIS_CELLS_MOST, MAHRULLIS_OUTPUT_MOST }

/* A report's seven entries, in their order. */
struct mahrullis_report {
    uint64_t code;     /* an enum mahrullis_answer */
    uint64_t place;    /* a byte of the text, or its length; 0 where the answer has no place */
    uint64_t units;    /* taken */
    uint64_t bindings; /* made */
    uint64_t cells;    /* taken */
    uint64_t numbers;  /* put out: tables.output[0] to tables.output[numbers - 1] */
    uint64_t made;     /* after UNSET the byte of the VAR or alloc that made the cell, else 0 */
};

/* A part of a text: `length` bytes from `offset`, never past its end. */
struct mahrullis_part {
    size_t offset;
    size_t length;
};

/* In the three functions below a text may be null where its length is 0. */
static inline const uint8_t *mahrullis_bytes(const void *text) {
    static const uint8_t none[1] = {0};
    return text ? (const uint8_t *)text : none;
}

static inline struct mahrullis_report mahrullis_report_in(const uint64_t *table) {
    struct mahrullis_report report;
    report.code = table[0];
    report.place = table[1];
    report.units = table[2];
    report.bindings = table[3];
    report.cells = table[4];
    report.numbers = table[5];
    report.made = table[6];
    return report;
}

/* CHECK over such tables: never answers TABLE. Where the code is 0 the tree stands in tables->tree. */
static inline struct mahrullis_report mahrullis_check_text(const void *text, size_t length, struct mahrullis_tables *tables) {
    uint64_t report[MAHRULLIS_REPORT_ENTRIES];
    mahrullis_check(mahrullis_bytes(text), length,
        tables->tree, MAHRULLIS_TREE_ENTRIES,
        tables->words, MAHRULLIS_WORDS_ENTRIES,
        tables->stack, MAHRULLIS_STACK_ENTRIES,
        tables->scopes, MAHRULLIS_SCOPES_ENTRIES,
        tables->notes, MAHRULLIS_NOTES_ENTRIES,
        report, MAHRULLIS_REPORT_ENTRIES);
    return mahrullis_report_in(report);
}

/* RUN over such tables: never answers TABLE. After any code but 1 to 10 the tree stands in tables->tree and the numbers in tables->output. */
static inline struct mahrullis_report mahrullis_run_text(const void *text, size_t length, struct mahrullis_limits limits, struct mahrullis_tables *tables) {
    uint64_t report[MAHRULLIS_REPORT_ENTRIES];
    mahrullis_run(mahrullis_bytes(text), length,
        limits.fuel, limits.depth, limits.bindings, limits.cells, limits.output,
        tables->tree, MAHRULLIS_TREE_ENTRIES,
        tables->words, MAHRULLIS_WORDS_ENTRIES,
        tables->stack, MAHRULLIS_STACK_ENTRIES,
        tables->scopes, MAHRULLIS_SCOPES_ENTRIES,
        tables->notes, MAHRULLIS_NOTES_ENTRIES,
        tables->waiting, MAHRULLIS_WAITING_ENTRIES,
        tables->bindings, MAHRULLIS_ENTRIES_A_BINDING * MAHRULLIS_BINDINGS_MOST,
        tables->cells, MAHRULLIS_ENTRIES_A_CELL * MAHRULLIS_CELLS_MOST,
        tables->output, MAHRULLIS_ENTRIES_A_NUMBER * MAHRULLIS_OUTPUT_MOST,
        report, MAHRULLIS_REPORT_ENTRIES);
    return mahrullis_report_in(report);
}

/* NAME: the part of the text that is the name at that byte. */
static inline struct mahrullis_part mahrullis_name_at(const void *text, size_t length, size_t at) {
    uint64_t entries[MAHRULLIS_PART_ENTRIES];
    struct mahrullis_part part;
    mahrullis_name(mahrullis_bytes(text), length, at, entries, MAHRULLIS_PART_ENTRIES);
    part.offset = (size_t)entries[0];
    part.length = (size_t)entries[1];
    return part;
}

/* A node's four parts. Nodes are numbered in text order from the root, tables->tree[0]; 0 as child or sibling means none. The first word 0 ends the tree.
 * The name that a node of kind NAME, PARAMETER or VAR_PARAMETER stands for is mahrullis_name_at its place. */
static inline unsigned mahrullis_node_kind(uint64_t node) { return (unsigned)(node >> 48); }
static inline size_t mahrullis_node_place(uint64_t node) { return (size_t)(node >> 32 & 0xffff); }
static inline size_t mahrullis_node_child(uint64_t node) { return (size_t)(node >> 16 & 0xffff); }
static inline size_t mahrullis_node_sibling(uint64_t node) { return (size_t)(node & 0xffff); }

#ifdef __cplusplus
}
#endif

#endif

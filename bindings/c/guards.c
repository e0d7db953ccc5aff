/* The archive over random texts, limits, table lengths and contents: after each call every entry of every table, with those around it, is held against what
 * document 01 says is left behind. Each table lies at a random place of a larger area, and each area has an image that says what must stand in it.
 *
 *   guards [SEED [COUNT]] */
#include <stdio.h>
#include <stdlib.h>
#include <string.h>
#include "mahrullis.h"
#include "texts.h"

enum { TREE, WORDS, STACK, SCOPES, NOTES, WAITING, BINDINGS, CELLS, OUTPUT, REPORT, PART, TABLES };
enum job { CHECK, RUN, NAME, JOBS };

/* The answers of the jobs are below this. */
#define ANSWERS 30

/* Entries around a table at its longest: guards before and behind, and room for it to be longer than it must and to lie elsewhere. */
#define GUARD 64
#define SPARE 32
#define AROUND (2 * GUARD + 2 * SPARE)
#define AREA_ENTRIES (4096 * 5 + 4097 + 8192 + 8192 * 2 + 7 + 2 + TABLES * AROUND)

struct table {
    const char *name;
    size_t most;              /* the longest that any limits ask for */
    size_t needed;            /* what these limits ask for */
    size_t offset, length;    /* where it lies in its area, and how long it is */
    uint64_t *area, *image;
};

static struct table tables[TABLES] = {
    { "tree", 4096, 0, 0, 0, 0, 0 }, { "words", 4096, 0, 0, 0, 0, 0 }, { "stack", 4097, 0, 0, 0, 0, 0 }, { "scopes", 4096, 0, 0, 0, 0, 0 },
    { "notes", 4096, 0, 0, 0, 0, 0 }, { "waiting", 8192, 0, 0, 0, 0, 0 }, { "bindings", 8192, 0, 0, 0, 0, 0 }, { "cells", 8192, 0, 0, 0, 0, 0 },
    { "output", 4096, 0, 0, 0, 0, 0 }, { "report", 7, 0, 0, 0, 0, 0 }, { "part", 2, 0, 0, 0, 0, 0 },
};

static uint64_t areas[AREA_ENTRIES], images[AREA_ENTRIES];
static uint8_t text_area[TEXT_ROOM + 2 * GUARD], text_image[TEXT_ROOM + 2 * GUARD];
static struct mahrullis_tables again;

/* The input at hand. */
static unsigned long long seed, input;
static enum job job;
static uint8_t *text;
static size_t text_length, at;
static struct mahrullis_limits limits;
static uint64_t answer;

static unsigned long long seen[JOBS][ANSWERS];
static const char *const job_names[JOBS] = { "CHECK", "RUN", "NAME" };
static const char *const answer_names[ANSWERS] = {
    "DONE", "LENGTH", "LIMIT", "TABLE", "BYTE", "NUMBER", "TOKENS", "SYNTAX", "LEVEL", "TYPE", "DOUBLE", 0, 0, 0, 0, 0, 0, 0, 0, 0,
    "FUEL", "DEPTH", "CELLS", "BINDINGS", "OUTPUT", "RANGE", "ZERO", "UNSET", "SIZE", "INDEX",
};

static void fail(const char *what, const char *table) {
    printf("guards: seed %llu, input %llu, %s answers %llu: %s %s\n", seed, input, job_names[job], (unsigned long long)answer, what, table);
    exit(1);
}

static void hold(int holds, const char *what) {
    if (!holds) fail("does not hold:", what);
}

static size_t area_size(const struct table *t) { return t->most + AROUND; }
static uint64_t *entries(int i) { return tables[i].area + tables[i].offset; }
static uint64_t *image(int i) { return tables[i].image + tables[i].offset; }

static int lent(int i) {
    if (job == NAME) return i == PART;
    return i == REPORT || i <= NOTES || (job == RUN && i <= OUTPUT);
}

static void set_both(struct table *t, size_t i) { t->area[i] = t->image[i] = one_in(8) ? 0 : random_word(); }

/* New contents at random places, and about the ends of the table and of what is promised of it. */
static void stir(struct table *t) {
    size_t ends[3];
    ends[0] = t->offset;
    ends[1] = t->offset + t->length;
    ends[2] = t->offset + t->needed;
    for (int i = 0; i < 24; i++) set_both(t, below(area_size(t)));
    for (int e = 0; e < 3; e++)
        for (size_t i = ends[e] - 3; i < ends[e] + 3; i++) set_both(t, i);
}

static void refill(struct table *t) {
    for (size_t i = 0; i < area_size(t); i++) set_both(t, i);
}

/* Mostly in range and often small, at times the greatest and beyond. */
static uint64_t some_limit(uint64_t greatest, uint64_t small) {
    static const uint64_t far[5] = { UINT64_MAX, UINT64_MAX / 2 + 1, (uint64_t)1 << 32, 5000000, 1000000000000 };
    switch (below(160)) {
    case 0: return greatest + 1;
    case 1: return one_in(2) ? far[below(5)] : greatest + 1 + (random_word() >> 1);
    case 2: return greatest;
    default: return one_in(3) ? below(small) : one_in(2) ? below(greatest + 1) : greatest;
    }
}

static uint64_t some_fuel(void) {
    if (one_in(60)) return some_limit(MAHRULLIS_FUEL_MOST, 60);
    return one_in(4) ? below(80) : one_in(2) ? below(500) : 3000;
}

static void choose_limits(void) {
    limits.fuel = some_fuel();
    limits.depth = some_limit(MAHRULLIS_DEPTH_MOST, 12);
    limits.bindings = some_limit(MAHRULLIS_BINDINGS_MOST, 20);
    limits.cells = some_limit(MAHRULLIS_CELLS_MOST, 4);
    limits.output = some_limit(MAHRULLIS_OUTPUT_MOST, 4);
}

static size_t least(uint64_t limit, uint64_t entries_each, size_t most) { return limit <= most / entries_each ? (size_t)(limit * entries_each) : most; }

/* The length that a table needs, often some more, at times fewer. */
static void choose_tables(void) {
    for (int i = 0; i < TABLES; i++) {
        struct table *t = &tables[i];
        t->needed = t->most;
        if (i == BINDINGS) t->needed = least(limits.bindings, 2, t->most);
        if (i == CELLS) t->needed = least(limits.cells, 2, t->most);
        if (i == OUTPUT) t->needed = least(limits.output, 1, t->most);
        t->offset = GUARD + below(SPARE);
        t->length = t->needed + (one_in(2) ? below(SPARE) : 0);
        if (one_in(80) && t->needed > 0) t->length = one_in(2) ? t->needed - 1 : below(t->needed);
        if (!lent(i)) continue;
        if (one_in(i == WAITING ? 400 : 50)) refill(t);
        stir(t);
    }
}

static void choose_text(void) {
    text = text_area + GUARD + below(8);
    for (size_t i = 0; i < GUARD; i++) text_area[below(sizeof text_area)] = (uint8_t)random_word();
    text_length = random_text(text);
    at = one_in(20) ? (size_t)random_word() : below(text_length + 3);
    memcpy(text_image, text_area, sizeof text_area);
}

static uint64_t call(void) {
    if (job == NAME) return mahrullis_name(text, text_length, at, entries(PART), tables[PART].length);
    if (job == CHECK)
        return mahrullis_check(text, text_length, entries(TREE), tables[TREE].length, entries(WORDS), tables[WORDS].length, entries(STACK), tables[STACK].length,
            entries(SCOPES), tables[SCOPES].length, entries(NOTES), tables[NOTES].length, entries(REPORT), tables[REPORT].length);
    return mahrullis_run(text, text_length, limits.fuel, limits.depth, limits.bindings, limits.cells, limits.output, entries(TREE), tables[TREE].length,
        entries(WORDS), tables[WORDS].length, entries(STACK), tables[STACK].length, entries(SCOPES), tables[SCOPES].length, entries(NOTES), tables[NOTES].length,
        entries(WAITING), tables[WAITING].length, entries(BINDINGS), tables[BINDINGS].length, entries(CELLS), tables[CELLS].length,
        (int64_t *)entries(OUTPUT), tables[OUTPUT].length, entries(REPORT), tables[REPORT].length);
}

static int some_table_short(void) {
    for (int i = 0; i < REPORT; i++)
        if (lent(i) && tables[i].length < tables[i].needed) return 1;
    return 0;
}

/* 1 to 3 where one of these must be answered, else 0. */
static uint64_t early_answer(void) {
    if (tables[REPORT].length < MAHRULLIS_REPORT_ENTRIES) return MAHRULLIS_TABLE;
    if (text_length > MAHRULLIS_TEXT_MOST) return MAHRULLIS_LENGTH;
    if (job == RUN && (limits.fuel > MAHRULLIS_FUEL_MOST || limits.depth > MAHRULLIS_DEPTH_MOST || limits.bindings > MAHRULLIS_BINDINGS_MOST ||
        limits.cells > MAHRULLIS_CELLS_MOST || limits.output > MAHRULLIS_OUTPUT_MOST))
        return MAHRULLIS_LIMIT;
    return some_table_short() ? MAHRULLIS_TABLE : 0;
}

static int is_letter(uint8_t b) { return (b >= 'a' && b <= 'z') || (b >= 'A' && b <= 'Z'); }
static int is_digit(uint8_t b) { return b >= '0' && b <= '9'; }

static void expect_part(void) {
    size_t offset = at < text_length ? at : text_length, end = offset;
    if (tables[PART].length < MAHRULLIS_PART_ENTRIES) {
        hold(answer == MAHRULLIS_TABLE, "a part too short is TABLE");
        return;
    }
    hold(answer == 0, "NAME answers 0");
    if (end < text_length && is_letter(text[end]))
        while (end < text_length && (is_letter(text[end]) || is_digit(text[end]))) end++;
    image(PART)[0] = offset;
    image(PART)[1] = end - offset;
}

/* A report of no run: no counts. Of a run: within the limits, and a limit stop has reached its limit. UNSET's second place is a VAR's or an alloc's. */
static void expect_report(void) {
    const uint64_t *r = entries(REPORT);
    uint64_t place = r[1], units = r[2], bindings = r[3], cells = r[4], numbers = r[5], made = r[6];
    hold(r[0] == answer, "the report has the answer");
    hold(answer == 7 ? place <= text_length : answer == 0 || answer <= 3 ? place == 0 : place < text_length, "the place lies in the text");
    if (job == CHECK || (answer >= 1 && answer <= 10)) hold(units == 0 && bindings == 0 && cells == 0 && numbers == 0, "no run, no counts");
    else hold(units <= limits.fuel && bindings <= limits.bindings && cells <= limits.cells && numbers <= limits.output, "the counts keep the limits");
    if (answer == MAHRULLIS_FUEL) hold(units == limits.fuel, "FUEL: every unit is taken");
    if (answer == MAHRULLIS_CELLS && text[place] != '(') hold(cells == limits.cells, "CELLS at a VAR: every cell is taken");
    if (answer == MAHRULLIS_OUTPUT) hold(numbers == limits.output, "OUTPUT: every number is out");
    hold(answer == MAHRULLIS_UNSET ? made < text_length && (text[made] == 'V' || text[made] == '(') : made == 0, "where UNSET's cell was made");
    memcpy(image(REPORT), r, MAHRULLIS_REPORT_ENTRIES * sizeof r[0]);
}

/* Nodes, then zeros: the kinds known, the places in the text and rising, children and siblings further on in the tree. */
static void expect_tree(void) {
    const uint64_t *tree = entries(TREE);
    size_t count = 0;
    while (count < MAHRULLIS_TREE_ENTRIES && tree[count] != 0) count++;
    hold(count >= 3 && mahrullis_node_kind(tree[0]) == MAHRULLIS_KIND_BLOCK && mahrullis_node_sibling(tree[0]) == 0, "the root is a block");
    for (size_t i = 0; i < count; i++) {
        size_t child = mahrullis_node_child(tree[i]), sibling = mahrullis_node_sibling(tree[i]);
        hold(mahrullis_node_kind(tree[i]) >= 1 && mahrullis_node_kind(tree[i]) <= MAHRULLIS_KIND_FUN_REC_BLOCK, "a node's kind");
        hold(mahrullis_node_place(tree[i]) < text_length, "a node's place");
        hold(i == 0 || mahrullis_node_place(tree[i - 1]) < mahrullis_node_place(tree[i]), "nodes stand in text order");
        hold(child == 0 || child == i + 1, "a first child follows its parent");
        hold(sibling == 0 || (sibling > i && sibling < count), "a sibling stands further on");
        hold(child < count, "a child is a node");
    }
    memset(image(TREE), 0, MAHRULLIS_TREE_ENTRIES * sizeof tree[0]);
    memcpy(image(TREE), tree, count * sizeof tree[0]);
}

static void expect_zeros(int i) { memset(image(i), 0, tables[i].needed * sizeof(uint64_t)); }

static void expect_numbers(void) {
    const int64_t *output = (const int64_t *)entries(OUTPUT);
    uint64_t numbers = entries(REPORT)[5];
    memcpy(image(OUTPUT), output, (size_t)numbers * sizeof output[0]);
}

/* What CHECK and RUN owe after this answer, put into the images. */
static void expect_tables(void) {
    uint64_t early = early_answer();
    if (early != 0) hold(answer == early, "the early answer");
    else hold(answer == 0 || (answer >= 4 && answer <= 10) || (job == RUN && answer >= 20 && answer < ANSWERS), "an answer of this job");
    if (tables[REPORT].length < MAHRULLIS_REPORT_ENTRIES) return;
    expect_report();
    if (early != 0) return;
    for (int i = WORDS; i <= NOTES; i++) expect_zeros(i);
    if (job == RUN) expect_zeros(WAITING);
    if (answer >= 4 && answer <= 10) {
        expect_zeros(TREE);
        return;
    }
    expect_tree();
    if (job == CHECK) return;
    expect_zeros(BINDINGS);
    expect_zeros(CELLS);
    expect_numbers();
}

static void compare_all(void) {
    for (int i = 0; i < TABLES; i++)
        if (lent(i) && memcmp(tables[i].area, tables[i].image, area_size(&tables[i]) * sizeof(uint64_t)) != 0) fail("an entry changed that may not in", tables[i].name);
    if (memcmp(text_area, text_image, sizeof text_area) != 0) fail("changed:", "text");
}

/* CHECK, over other tables with other contents, agrees with RUN. */
static void check_too(void) {
    struct mahrullis_report report;
    if (answer >= 1 && answer <= 3) return;
    report = mahrullis_check_text(text, text_length, &again);
    if (answer >= 4 && answer <= 10) hold(report.code == answer && report.place == entries(REPORT)[1], "CHECK refuses what RUN refuses");
    else hold(report.code == 0 && memcmp(again.tree, entries(TREE), sizeof again.tree) == 0, "CHECK and RUN leave the same tree");
}

static void try_input(void) {
    size_t which = below(20);
    job = which < 9 ? CHECK : which < 17 ? RUN : NAME;
    choose_limits();
    choose_tables();
    choose_text();
    answer = call();
    if (job == NAME) expect_part();
    else expect_tables();
    compare_all();
    if (job == RUN && one_in(4)) check_too();
    seen[job][answer]++;
}

static int may_answer(int j, int code) {
    if (!answer_names[code]) return 0;
    if (j == NAME) return code == 0 || code == 3;
    return j == RUN || (code < 20 && code != MAHRULLIS_LIMIT);
}

/* Prints how often each answer was seen, and answers how many were not. */
static int tell(void) {
    int missing = 0;
    for (int j = 0; j < JOBS; j++) {
        unsigned long long sum = 0;
        for (int code = 0; code < ANSWERS; code++) sum += seen[j][code];
        printf("%s %llu:", job_names[j], sum);
        for (int code = 0; code < ANSWERS; code++) {
            if (!may_answer(j, code)) continue;
            printf(" %s %llu", answer_names[code], seen[j][code]);
            missing += seen[j][code] == 0;
        }
        printf("\n");
    }
    return missing;
}

int main(int argc, char **argv) {
    unsigned long long count = argc > 2 ? strtoull(argv[2], 0, 10) : 150000;
    size_t from = 0;
    int missing;
    seed = argc > 1 ? strtoull(argv[1], 0, 10) : 1;
    random_state = seed;
    for (int i = 0; i < TABLES; i++) {
        tables[i].area = areas + from;
        tables[i].image = images + from;
        from += area_size(&tables[i]);
        refill(&tables[i]);
    }
    for (input = 0; input < count; input++) try_input();
    missing = tell();
    if (missing) printf("guards: %d answers were never seen\n", missing);
    printf("guards: seed %llu, %llu inputs, no entry changed that may not\n", seed, count);
    return missing != 0;
}

/* Document 01's "Scripts the desk keeps", and tables that are too short, through the header. */
#include <stdio.h>
#include <string.h>
#include "mahrullis.h"

#define GREATEST MAHRULLIS_GREATEST_LIMITS
#define WITH_FUEL(n) { n, 200, 4096, 4096, 4096 }
#define WITH_DEPTH(n) { 1000000, n, 4096, 4096, 4096 }

struct script {
    const char *text;
    struct mahrullis_limits limits;
    struct mahrullis_report expected;
    int64_t numbers[4];
};

/* Expected: code, place, units, bindings, cells, how many numbers, and where UNSET's cell was made. */
static const struct script scripts[] = {
    { "[ECHO (add 1 2)]", GREATEST, { MAHRULLIS_DONE, 0, 4, 0, 0, 1, 0 }, { 3 } },
    { "[ECHO (add 1 2)]", WITH_FUEL(3), { MAHRULLIS_FUEL, 13, 3, 0, 0, 0, 0 }, { 0 } },
    { "[ECHO 1]", WITH_DEPTH(1), { MAHRULLIS_DEPTH, 6, 2, 0, 0, 0, 0 }, { 0 } },
    { "[CONST x int 0; SET x 42]", GREATEST, { MAHRULLIS_TYPE, 16, 0, 0, 0, 0, 0 }, { 0 } },
    { "[VAR x int; ECHO x]", GREATEST, { MAHRULLIS_UNSET, 17, 3, 1, 1, 0, 1 }, { 0 } },
    { "[ECHO (div 1 0)]", GREATEST, { MAHRULLIS_ZERO, 6, 4, 0, 0, 0, 0 }, { 0 } },
    { "[ECHO (div -7 2)]", GREATEST, { MAHRULLIS_DONE, 0, 4, 0, 0, 1, 0 }, { -4 } },
    { "[]", GREATEST, { MAHRULLIS_SYNTAX, 1, 0, 0, 0, 0, 0 }, { 0 } },
    { "[ECHO true]", GREATEST, { MAHRULLIS_TYPE, 1, 0, 0, 0, 0, 0 }, { 0 } },
    { "[ECHO y]", GREATEST, { MAHRULLIS_TYPE, 6, 0, 0, 0, 0, 0 }, { 0 } },
    { "[CONST f (int * int -> int) add; ECHO 1]", GREATEST, { MAHRULLIS_TYPE, 28, 0, 0, 0, 0, 0 }, { 0 } },
    { "[FUN f int [fare:int, fare:bool] 1; ECHO 1]", GREATEST, { MAHRULLIS_DOUBLE, 22, 0, 0, 0, 0, 0 }, { 0 } },
    { "[PROC p [var x:int] [SET x (add x 1)]; VAR v int; SET v 41; CALL p (adr v); ECHO v]", GREATEST, { MAHRULLIS_DONE, 0, 12, 3, 1, 1, 0 }, { 42 } },
    { "[PROC p [var x:int] [SET x (add x 1)]; VAR v int; SET v 41; CALL p v; ECHO v]", GREATEST, { MAHRULLIS_TYPE, 60, 0, 0, 0, 0, 0 }, { 0 } },
    { "[FUN REC f int [n:int] (if (lt n 1) 0 (add n (f (sub n 1)))); ECHO (f 3)]", GREATEST, { MAHRULLIS_DONE, 0, 43, 9, 0, 1, 0 }, { 6 } },
    { "[ECHO (mul 4294967295 2147483648)]", GREATEST, { MAHRULLIS_DONE, 0, 4, 0, 0, 1, 0 }, { 9223372034707292160 } },
    { "[ECHO (mul 4294967296 2147483648)]", GREATEST, { MAHRULLIS_RANGE, 6, 4, 0, 0, 0, 0 }, { 0 } },
    { "[ECHO (div -9223372036854775808 -1)]", GREATEST, { MAHRULLIS_RANGE, 6, 4, 0, 0, 0, 0 }, { 0 } },
    { "[ECHO 9223372036854775807; ECHO -9223372036854775808]", GREATEST, { MAHRULLIS_DONE, 0, 4, 0, 0, 2, 0 }, { 9223372036854775807, -9223372036854775807 - 1 } },
    { "[ECHO 9223372036854775808]", GREATEST, { MAHRULLIS_NUMBER, 6, 0, 0, 0, 0, 0 }, { 0 } },
    { "[VAR x int; SET x 0; WHILE (lt x 3) [ECHO x; SET x (add x 1)]]", WITH_FUEL(100000), { MAHRULLIS_DONE, 0, 37, 1, 1, 3, 0 }, { 0, 1, 2 } },
    { "", GREATEST, { MAHRULLIS_SYNTAX, 0, 0, 0, 0, 0, 0 }, { 0 } },
    { "[CONST b (vec int) (alloc int 3); ECHO (len b); ECHO (nth (vset b 2 7) 2); ECHO (nth b 2)]", GREATEST, { MAHRULLIS_DONE, 0, 17, 1, 3, 3, 0 }, { 3, 7, 7 } },
    { "[ECHO (len (alloc int 4097))]", GREATEST, { MAHRULLIS_CELLS, 11, 4, 0, 0, 0, 0 }, { 0 } },
    { "[ECHO (len (alloc int -1))]", GREATEST, { MAHRULLIS_SIZE, 11, 4, 0, 0, 0, 0 }, { 0 } },
    { "[ECHO (nth (alloc int 3) 3)]", GREATEST, { MAHRULLIS_INDEX, 6, 5, 0, 3, 0, 0 }, { 0 } },
    { "[ECHO (nth (alloc int 3) 0)]", GREATEST, { MAHRULLIS_UNSET, 6, 5, 0, 3, 0, 11 }, { 0 } },
    { "[CONST v (vec (int -> int)) y; ECHO 1]", GREATEST, { MAHRULLIS_TYPE, 9, 0, 0, 0, 0, 0 }, { 0 } },
    { "[FUN REC f int [n:int] [IF (lt n 1) [RETURN 0] [RETURN (add n (f (sub n 1)))]]; ECHO (f 3)]", GREATEST, { MAHRULLIS_DONE, 0, 47, 9, 0, 1, 0 }, { 6 } },
    { "[FUN f int [n:int] [RETURN 1; ECHO 2]; ECHO 1]", GREATEST, { MAHRULLIS_SYNTAX, 28, 0, 0, 0, 0, 0 }, { 0 } },
    { "[FUN f int [n:int] [ECHO 1]; ECHO 1]", GREATEST, { MAHRULLIS_TYPE, 1, 0, 0, 0, 0, 0 }, { 0 } },
    { "[RETURN 1]", GREATEST, { MAHRULLIS_TYPE, 0, 0, 0, 0, 0, 0 }, { 0 } },
};

static struct mahrullis_tables tables, before;
static char text[20000];
static unsigned tried, wrong;

static void hold(const char *what, int holds) {
    tried++;
    if (!holds) {
        wrong++;
        printf("desk: does not hold: %s\n", what);
    }
}

static int same_report(struct mahrullis_report a, struct mahrullis_report b) {
    return a.code == b.code && a.place == b.place && a.units == b.units && a.bindings == b.bindings && a.cells == b.cells && a.numbers == b.numbers &&
        a.made == b.made;
}

/* Runs a text and compares the report and the first numbers, at most four; then checks it, which refuses the same texts at the same places. */
static void try_text(const char *what, const char *bytes, size_t length, struct script script) {
    struct mahrullis_report report = mahrullis_run_text(bytes, length, script.limits, &tables);
    struct mahrullis_report checked = { 0, 0, 0, 0, 0, 0, 0 };
    hold(what, same_report(report, script.expected));
    for (uint64_t i = 0; i < script.expected.numbers && i < 4; i++) hold(what, tables.output[i] == script.numbers[i]);
    if (script.expected.code < MAHRULLIS_FUEL) checked.code = script.expected.code, checked.place = script.expected.place;
    hold(what, same_report(mahrullis_check_text(bytes, length, &tables), checked));
}

static void try_scripts(void) {
    for (size_t i = 0; i < sizeof scripts / sizeof scripts[0]; i++) try_text(scripts[i].text, scripts[i].text, strlen(scripts[i].text), scripts[i]);
    hold("a text that is null", mahrullis_run_text(NULL, 0, scripts[0].limits, &tables).code == MAHRULLIS_SYNTAX);
}

static void try_lengths(void) {
    struct script fits = { 0, GREATEST, { MAHRULLIS_DONE, 0, 2, 0, 0, 1, 0 }, { 1 } };
    struct script too_long = { 0, GREATEST, { MAHRULLIS_LENGTH, 0, 0, 0, 0, 0, 0 }, { 0 } };
    memset(text, ' ', sizeof text);
    memcpy(text, "[ECHO 1]", 8);
    try_text("16,384 bytes", text, 16384, fits);
    try_text("16,385 bytes", text, 16385, too_long);
}

static void try_tokens(void) {
    struct script fits = { 0, GREATEST, { MAHRULLIS_DONE, 0, 2730, 0, 0, 1365, 0 }, { 1, 1, 1, 1 } };
    struct script too_many = { 0, GREATEST, { MAHRULLIS_TOKENS, 9556, 0, 0, 0, 0, 0 }, { 0 } };
    size_t length = 1;
    text[0] = '[';
    for (int i = 0; i < 1365; i++, length += 7) memcpy(text + length, "ECHO 1;", 7);
    text[length - 1] = ']';
    try_text("4,096 tokens", text, length, fits);
    text[length] = ']';
    try_text("4,097 tokens", text, length + 1, too_many);
}

/* [ECHO (add 1 (add 1 ... 1))]: the block is one level, each parenthesis another. */
static size_t nested(int levels) {
    size_t length = 6;
    memcpy(text, "[ECHO ", 6);
    for (int i = 1; i < levels; i++, length += 7) memcpy(text + length, "(add 1 ", 7);
    text[length++] = '1';
    for (int i = 1; i < levels; i++) text[length++] = ')';
    text[length++] = ']';
    return length;
}

static void try_levels(void) {
    struct script fits = { 0, GREATEST, { MAHRULLIS_DONE, 0, 128, 0, 0, 1, 0 }, { 64 } };
    struct script too_deep = { 0, GREATEST, { MAHRULLIS_LEVEL, 447, 0, 0, 0, 0, 0 }, { 0 } };
    try_text("64 levels", text, nested(64), fits);
    try_text("65 levels", text, nested(65), too_deep);
}

static void try_limits(void) {
    struct mahrullis_report refused = { MAHRULLIS_LIMIT, 0, 0, 0, 0, 0, 0 };
    for (int i = 0; i < 10; i++) {
        struct mahrullis_limits limits = GREATEST;
        uint64_t *each[5];
        each[0] = &limits.fuel;
        each[1] = &limits.depth;
        each[2] = &limits.bindings;
        each[3] = &limits.cells;
        each[4] = &limits.output;
        *each[i % 5] = i < 5 ? *each[i % 5] + 1 : UINT64_MAX;
        memcpy(&before, &tables, sizeof tables);
        hold("a limit beyond its greatest", same_report(mahrullis_run_text("[ECHO 1]", 8, limits, &tables), refused));
        hold("nothing is changed after LIMIT", memcmp(&before, &tables, sizeof tables) == 0);
    }
}

static void try_tree(void) {
    static const char script[] = "[ECHO 1]";
    hold("tree: accepted", mahrullis_check_text(script, 8, &tables).code == MAHRULLIS_DONE);
    hold("tree: root", tables.tree[0] == 0x0001000000010000);
    hold("tree: ECHO", tables.tree[1] == 0x0008000100020000);
    hold("tree: number", tables.tree[2] == 0x0012000600000000);
    hold("tree: zeros follow", tables.tree[3] == 0 && tables.tree[4095] == 0);
    hold("node: kind", mahrullis_node_kind(tables.tree[1]) == MAHRULLIS_KIND_ECHO);
    hold("node: place", mahrullis_node_place(tables.tree[1]) == 1);
    hold("node: child", mahrullis_node_child(tables.tree[1]) == 2);
    hold("node: sibling", mahrullis_node_sibling(tables.tree[1]) == 0);
}

static void try_names(void) {
    static const struct { const char *text; size_t at, offset, length; } names[] = {
        { "[ECHO fare2]", 6, 6, 5 }, { "[ECHO fare2]", 7, 7, 4 }, { "[ECHO fare2]", 9, 9, 2 }, { "[ECHO fare2]", 10, 10, 0 }, { "[ECHO fare2]", 0, 0, 0 }, { "[ECHO fare2]", 1, 1, 4 },
        { "[ECHO fare2]", 12, 12, 0 }, { "[ECHO fare2]", 13, 12, 0 }, { "[ECHO fare2]", SIZE_MAX, 12, 0 }, { "", 0, 0, 0 }, { "2x", 0, 0, 0 }, { "2x", 1, 1, 1 },
    };
    for (size_t i = 0; i < sizeof names / sizeof names[0]; i++) {
        struct mahrullis_part part = mahrullis_name_at(names[i].text, strlen(names[i].text), names[i].at);
        hold("a name's part", part.offset == names[i].offset && part.length == names[i].length);
    }
    memset(text, 'x', sizeof text);
    hold("a name longer than any script", mahrullis_name_at(text, sizeof text, 1).length == sizeof text - 1);
    for (size_t length = 0; length < 2; length++) {
        uint64_t part[2] = { 7, 8 };
        hold("a part too short", mahrullis_name((const uint8_t *)"x", 1, 0, part, length) == MAHRULLIS_TABLE);
        hold("a part too short is unchanged", part[0] == 7 && part[1] == 8);
    }
}

/* Every table has its least length but for one, which has none or one entry too few: tables 0 to 8 in the struct's order, 9 the report. */
static void try_short_table(int table, int empty) {
    static const size_t least[10] = { 4096, 4096, 4097, 4096, 4096, 8192, 8192, 8192, 4096, 7 };
    static const uint64_t none[7] = { 1, 2, 3, 4, 5, 6, 7 }, refused[7] = { MAHRULLIS_TABLE, 0, 0, 0, 0, 0, 0 };
    const uint64_t *left = table == 9 ? none : refused;
    const uint8_t *script = (const uint8_t *)"[ECHO 1]";
    uint64_t report[7];
    size_t n[10];
    memcpy(n, least, sizeof n);
    n[table] = empty ? 0 : least[table] - 1;
    memset(&tables, 0xa5, sizeof tables);
    memcpy(&before, &tables, sizeof tables);
    if (table < 5 || table == 9) {
        memcpy(report, none, sizeof none);
        hold("CHECK: TABLE", mahrullis_check(script, 8, tables.tree, n[0], tables.words, n[1], tables.stack, n[2], tables.scopes, n[3], tables.notes, n[4],
            report, n[9]) == MAHRULLIS_TABLE);
        hold("CHECK: the report after TABLE", memcmp(report, left, sizeof report) == 0);
    }
    memcpy(report, none, sizeof none);
    hold("RUN: TABLE", mahrullis_run(script, 8, 1000000, 200, 4096, 4096, 4096, tables.tree, n[0], tables.words, n[1], tables.stack, n[2], tables.scopes, n[3],
        tables.notes, n[4], tables.waiting, n[5], tables.bindings, n[6], tables.cells, n[7], tables.output, n[8], report, n[9]) == MAHRULLIS_TABLE);
    hold("RUN: the report after TABLE", memcmp(report, left, sizeof report) == 0);
    hold("nothing is changed after TABLE", memcmp(&before, &tables, sizeof tables) == 0);
}

int main(void) {
    try_scripts();
    try_lengths();
    try_tokens();
    try_levels();
    try_limits();
    try_tree();
    try_names();
    for (int table = 0; table < 20; table++) try_short_table(table % 10, table / 10);
    printf("desk: %u of %u hold\n", tried - wrong, tried);
    return wrong != 0;
}

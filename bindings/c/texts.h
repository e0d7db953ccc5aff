/* Random texts for guards.c: noise, words, scripts, scripts that were changed, programs put together from commands, and texts at the edges of what is read. */
#ifndef TEXTS_H
#define TEXTS_H

#include <stddef.h>
#include <stdint.h>
#include <string.h>

#define TEXT_ROOM 17000
#define COUNT_OF(list) (sizeof(list) / sizeof((list)[0]))

/* The five tariffs of examples/, the scripts of document 01, and others that end in each way. */
static const char *const whole_scripts[] = {
    "[\n  FUN REC rate int [km:int]\n    (if (lt km 11) (mul 12 km)\n      (if (lt km 51) (add (rate 10) (mul 9 (sub km 10)))\n"
    "        (add (rate 50) (mul 6 (sub km 50)))));\n  FUN rounded int [cents:int] (mul 5 (div (add cents 4) 5));\n  PROC REC table [from:int, to:int] [\n"
    "    ECHO (rounded (rate from));\n    IF (lt from to) [CALL table (add from 15) to] [ECHO 0]\n  ];\n  CALL table 3 78\n]\n",
    "[\n  CONST cap int 900;\n  VAR paid int;\n  SET paid 0;\n  PROC charge [fare:int, var total:int] [\n    IF (lt cap (add total fare)) [\n"
    "      ECHO (sub cap total);\n      SET total cap\n    ] [\n      ECHO fare;\n      SET total (add total fare)\n    ]\n  ];\n  VAR trip int;\n  SET trip 0;\n"
    "  WHILE (lt trip 5) [\n    CALL charge (add 210 (mul trip 15)) (adr paid);\n    SET trip (add trip 1)\n  ];\n  ECHO paid\n]\n",
    "[\n  CONST base int 190;\n  CONST step int 65;\n  FUN single int [zones:int]\n    (if (lt zones 2) base (add base (mul step (sub zones 1))));\n"
    "  FUN child int [fare:int] (div fare 2);\n  FUN price int [zones:int, rebate:(int -> int)] (rebate (single zones));\n  VAR zones int;\n  SET zones 1;\n"
    "  WHILE (lt zones 6) [\n    ECHO (single zones);\n    ECHO (price zones child);\n    SET zones (add zones 1)\n  ]\n]\n",
    "[\n  FUN within bool [from:int, hour:int, to:int]\n    (and (not (lt hour from)) (lt hour to));\n  FUN peak bool [weekday:bool, hour:int]\n"
    "    (and weekday (or (within 6 hour 9) (within 16 hour 19)));\n  FUN fare int [weekday:bool, hour:int]\n    (if (peak weekday hour) 320\n"
    "      (if (or (lt hour 5) (not (lt hour 23))) 410 250));\n  ECHO (fare true 7);\n  ECHO (fare true 12);\n  ECHO (fare false 7);\n  ECHO (fare true 23);\n"
    "  ECHO (fare true 16)\n]\n",
    "[\n  VAR sold int;\n  VAR returned int;\n  SET sold 0;\n  SET returned 0;\n  PROC sell [price:int, var sum:int] [SET sum (add sum price)];\n"
    "  PROC refund [price:int, days:int, var sum:int] [\n    IF (lt days 2) [SET sum (sub sum price)] [SET sum (sub sum (div (mul price 75) 100))]\n  ];\n"
    "  CALL sell 1290 (adr sold);\n  CALL sell 875 (adr sold);\n  CALL refund 1290 5 (adr returned);\n  CALL refund 875 1 (adr returned);\n  ECHO sold;\n"
    "  ECHO returned;\n  ECHO (add sold returned);\n  ECHO (div returned 4)\n]\n",
    "[ECHO (add 1 2)]",
    "[ECHO 1]",
    "[CONST x int 0; SET x 42]",
    "[VAR x int; ECHO x]",
    "[ECHO (div 1 0)]",
    "[ECHO (div -7 2)]",
    "[]",
    "[ECHO true]",
    "[ECHO y]",
    "[CONST f (int * int -> int) add; ECHO 1]",
    "[PROC p [var x:int] [SET x (add x 1)]; VAR v int; SET v 41; CALL p (adr v); ECHO v]",
    "[PROC p [var x:int] [SET x (add x 1)]; VAR v int; SET v 41; CALL p v; ECHO v]",
    "[FUN REC f int [n:int] (if (lt n 1) 0 (add n (f (sub n 1)))); ECHO (f 3)]",
    "[ECHO (mul 4294967295 2147483648)]",
    "[ECHO (mul 4294967296 2147483648)]",
    "[ECHO (div -9223372036854775808 -1)]",
    "[ECHO 9223372036854775808]",
    "[VAR x int; SET x 0; WHILE (lt x 3) [ECHO x; SET x (add x 1)]]",
    "[VAR x int; SET x 0; WHILE true [SET x (sub 1 x)]]",
    "[VAR x int; SET x 0; WHILE true [ECHO x; SET x (add x 1)]]",
    "[PROC REC p [n:int] [VAR c int; SET c n; CALL p (add c 1)]; CALL p 0]",
    "[PROC REC p [n:int] [IF (lt n 1) [ECHO n] [CALL p (sub n 1)]]; CALL p 98]",
    "[FUN REC f int [n:int] (if (lt n 1) 0 (f (sub n 1))); ECHO (f 97)]",
    "[FUN REC f int [n:int] (f n); ECHO (f 0)]",
    "[CONST t bool (and false (eq 1 (div 1 0))); IF t [ECHO 1] [ECHO 0]]",
    "[CONST f (int -> int) [n:int] (add n 1); CONST g ((int -> int) -> int) [h:(int -> int)] (h (h 3)); ECHO (g f)]",
    "[CONST n int 2; FUN f int [m:int] (mul n m); FUN g int [n:int] (f n); ECHO (g 5); ECHO (g -5)]",
    "[VAR b bool; SET b (or true false); WHILE b [ECHO 7; SET b (not b)]]",
    "[FUN f (int -> int) [a:int] [b:int] (sub a b); ECHO ((f 9) 4)]",
    "[VAR a int; VAR b int; SET a 1; PROC swap [var x:int, var y:int] [VAR t int; SET t x; SET x y; SET y t]; SET b 2; CALL swap (adr a) (adr b); ECHO a; ECHO b]",
    "[FUN fare int [zones:int, peak:bool, zones:int] (mul zones 95); ECHO (fare 1 true 2)]",
    "[CONST b (vec int) (alloc int 3); ECHO (len b); ECHO (nth (vset b 2 7) 2); ECHO (nth b 0)]",
    "[CONST b (vec (vec bool)) (alloc (vec bool) 2); IF (nth (nth (vset b 1 (vset (alloc bool 1) 0 true)) 1) 0) [ECHO 1] [ECHO 0]]",
    "[FUN b (vec int) [n:int] (alloc int n); ECHO (len (b 4)); ECHO (len (b -1))]",
    "[VAR i int; SET i 0; CONST b (vec int) (alloc int 3); WHILE true [SET i (add 1 (nth (vset b i i) i))]]",
    "[PROC REC p [b:(vec int)] [CALL p (alloc int (len b))]; CALL p (alloc int 700)]",
    "[FUN f int [b:(vec (int -> int))] 1; ECHO 1]",
    "[FUN f int [n:int] [VAR i int; SET i 0; WHILE true [IF (lt n i) [RETURN i] [SET i (add i 1)]]; RETURN 0]; ECHO (f 3)]",
    "[FUN REC f int [n:int] [IF (lt n 1) [RETURN 0] [RETURN (add n (f (sub n 1)))]]; ECHO (f 30)]",
    "[FUN f (int -> int) [n:int] [ECHO n; CONST m int (mul n 2); RETURN [k:int] (sub m k)]; ECHO ((f 9) 4)]",
    "[FUN f int [n:int] [IF true [RETURN 1] [ECHO 2]; ECHO 3]; ECHO 1]",
    "[PROC p [n:int] [IF true [RETURN 1] [ECHO 1]]; CALL p 1]",
    "12ab 1-2 -> - > 007 VARx var adr\t(adr",
};

static const char *const words[] = {
    "[", "]", "(", ")", ";", ":", ",", "*", "->", "CONST", "FUN", "REC", "VAR", "PROC", "ECHO", "SET", "IF", "WHILE", "CALL", "if", "and", "or", "bool", "int",
    "var", "adr", "true", "false", "not", "eq", "lt", "add", "sub", "mul", "div", "x", "y", "f", "n", "p", "0", "1", "-1", "42", "9223372036854775807", "-9223372036854775808",
    "9223372036854775808", "fare2", "ECHO 1;", "[ECHO x]", "(add x 1)", "[n:int]", "(int -> int)", "vec", "alloc", "nth", "len", "vset", "(vec int)", "(alloc int 2)", "RETURN", "[RETURN n]",
};

/* In this order they hold; where one is left out, what needs it is a TYPE. */
static const char *const definitions[] = {
    "CONST k int 7", "VAR x int", "VAR b bool", "FUN f int [n:int] (add n (mul k 2))", "FUN REC g int [n:int] (if (lt n 1) 0 (add n (g (sub n 1))))",
    "PROC p [var v:int, n:int] [SET v (add v n)]", "PROC REC q [n:int] [VAR c int; SET c n; ECHO c; IF (lt 0 n) [CALL q (sub c 1)] [ECHO 0]]",
    "FUN h int [t:(int -> int), n:int] (t (t n))", "FUN w int [a:int, b:int, c:int, d:int] (sub (add a b) (add c d))", "CONST v (vec int) (alloc int k)",
    "FUN r int [n:int] [IF (lt n k) [RETURN n] [ECHO n]; RETURN (sub n k)]", "SET x 3", "SET b true",
};

static const char *const statements[] = {
    "SET x 3", "SET x (add x 1)", "ECHO x", "ECHO (f x)", "ECHO (g 5)", "CALL p (adr x) 4", "CALL q 3", "ECHO (h f 2)", "ECHO (h [n:int] (mul n n) 300)",
    "WHILE (lt x 20) [SET x (add x 5)]", "IF b [ECHO 1] [ECHO 2]", "SET b (eq x 3)", "ECHO (div k (sub x 3))", "ECHO (mul 281474976710656 (mul k 9999))", "ECHO (g 300)",
    "WHILE true [SET x 1]", "CALL q 30", "ECHO (w 1 x k (g 2))", "IF (or b (lt x 2)) [VAR y int; ECHO y] [ECHO (sub 0 x)]", "ECHO ([a:int, b:int] (mul a b) x k)",
    "ECHO (len (vset v x k))", "ECHO (nth v 3)", "ECHO (nth (vset v 0 x) 0)", "ECHO (len (alloc bool (sub k x)))", "WHILE (lt x 9) [SET x (add (nth (vset v x x) x) 1)]",
    "ECHO (r x)", "ECHO (h r 20)",
};

static uint64_t random_state;

/* splitmix64 */
static uint64_t random_word(void) {
    uint64_t z = random_state += 0x9e3779b97f4a7c15u;
    z = (z ^ z >> 30) * 0xbf58476d1ce4e5b9u;
    z = (z ^ z >> 27) * 0x94d049bb133111ebu;
    return z ^ z >> 31;
}

/* 0 to n - 1, and 0 where n is 0. */
static size_t below(size_t n) { return n ? (size_t)(random_word() % n) : 0; }

static int one_in(size_t n) { return below(n) == 0; }

/* Puts as much of a piece behind the text as has room, and answers the text's length. */
static size_t put(uint8_t *text, size_t length, const char *piece, size_t size) {
    if (TEXT_ROOM - length < size) size = TEXT_ROOM - length;
    memcpy(text + length, piece, size);
    return length + size;
}

static size_t put_word(uint8_t *text, size_t length, const char *word) { return put(text, length, word, strlen(word)); }

/* Mostly short, at times as long as may be. */
static size_t some_length(void) { return one_in(200) ? below(TEXT_ROOM) : one_in(4) ? below(600) : below(60); }

static size_t noise(uint8_t *text) {
    static const char known[] = "[]();:,*->09azAZ \t\n\r";
    size_t length = some_length();
    int any = one_in(2);
    for (size_t i = 0; i < length; i++) text[i] = any ? (uint8_t)random_word() : (uint8_t)known[below(sizeof known - 1)];
    return length;
}

static size_t loose_words(uint8_t *text) {
    size_t length = 0, count = one_in(300) ? 5000 : below(60);
    for (size_t i = 0; i < count; i++) {
        length = put_word(text, length, words[below(COUNT_OF(words))]);
        if (!one_in(8)) length = put_word(text, length, one_in(9) ? "\n" : " ");
    }
    return length;
}

static size_t whole_script(uint8_t *text) { return put_word(text, 0, whole_scripts[below(COUNT_OF(whole_scripts))]); }

static size_t program(uint8_t *text) {
    size_t length = put_word(text, 0, "["), count = below(12);
    for (size_t i = 0; i < COUNT_OF(definitions); i++) {
        if (one_in(60)) continue;
        length = put_word(text, length, definitions[i]);
        length = put_word(text, length, "; ");
    }
    for (size_t i = 0; i < count; i++) {
        length = put_word(text, length, statements[below(COUNT_OF(statements))]);
        length = put_word(text, length, ";");
    }
    length = put_word(text, length, statements[below(COUNT_OF(statements))]);
    return put_word(text, length, "]");
}

/* The beginning of one script and the end of another. */
static size_t spliced(uint8_t *text) {
    size_t length = below(whole_script(text) + 1);
    const char *other = whole_scripts[below(COUNT_OF(whole_scripts))];
    return put_word(text, length, other + below(strlen(other) + 1));
}

/* Some bytes replaced, taken out or put in. */
static size_t changed(uint8_t *text, size_t length) {
    for (size_t times = 1 + below(4); times > 0; times--) {
        size_t at = below(length), size = 1 + below(6);
        const char *word = words[below(COUNT_OF(words))];
        size_t more = strlen(word);
        if (length - at < size) size = length - at;
        switch (below(3)) {
        case 0:
            if (at < length) text[at] = one_in(2) ? (uint8_t)random_word() : (uint8_t)word[0];
            break;
        case 1:
            memmove(text + at, text + at + size, length - at - size);
            length -= size;
            break;
        default:
            if (TEXT_ROOM - length < more) break;
            memmove(text + at + more, text + at, length - at);
            memcpy(text + at, word, more);
            length += more;
        }
    }
    return length;
}

/* About 16,384 bytes, 4,096 tokens or 64 levels. */
static size_t edge(uint8_t *text) {
    size_t length = 0, count;
    switch (below(4)) {
    case 0:
        length = one_in(2) ? whole_script(text) : program(text);
        count = 16382 + below(6);
        memset(text + length, ' ', count - length);
        return count;
    case 1:
        count = 1363 + below(5);
        length = put_word(text, length, "[");
        for (size_t i = 0; i < count; i++) length = put_word(text, length, "ECHO 1;");
        if (one_in(2)) length--;
        return put_word(text, length, "]");
    case 2:
        count = 61 + below(6);
        length = put_word(text, length, "[ECHO ");
        for (size_t i = 0; i < count; i++) length = put_word(text, length, "(add 1 ");
        length = put_word(text, length, "1");
        for (size_t i = 0; i < count; i++) length = put_word(text, length, ")");
        return put_word(text, length, "]");
    default:
        count = 61 + below(6);
        for (size_t i = 0; i < count; i++) length = put_word(text, length, "[IF true ");
        length = put_word(text, length, "[ECHO 1]");
        for (size_t i = 0; i < count; i++) length = put_word(text, length, "[ECHO 2]]");
        return length;
    }
}

/* Writes a text of at most TEXT_ROOM bytes and answers its length. */
static size_t random_text(uint8_t *text) {
    switch (below(32)) {
    case 0: case 1: case 2: return noise(text);
    case 3: case 4: return loose_words(text);
    case 5: case 6: case 7: case 8: case 9: case 10: case 11: return whole_script(text);
    case 12: case 13: case 14: return spliced(text);
    case 15: case 16: case 17: case 18: case 19: case 20: return changed(text, whole_script(text));
    case 21: case 22: return changed(text, program(text));
    case 23: return edge(text);
    default: return program(text);
    }
}

#endif

//! Edges of the language: numbers at the ends of their range, division that rounds down, parameters of one name, blocks of cells, what UNSET names, functions whose body is a block.
#![forbid(unsafe_code)]

use yardstick::{Limits, Yardstick};

const NUMBER: u8 = 5;
const SYNTAX: u8 = 7;
const TYPE: u8 = 9;
const DOUBLE: u8 = 10;
const CELLS: u8 = 22;
const RANGE: u8 = 25;
const ZERO: u8 = 26;
const UNSET: u8 = 27;
const SIZE: u8 = 28;
const INDEX: u8 = 29;

/// A script whose run ends with this answer where `@` stands, which is no part of it.
fn ends(marked: &str, code: u8) {
    let place = marked.find('@').expect("a place");
    let text = marked.replace('@', "");
    let report = Yardstick::new().run(text.as_bytes(), Limits::GREATEST);
    assert_eq!((report.code, usize::from(report.place)), (code, place), "{text}");
}

/// An expression whose value is put out.
fn gives(expression: &str, number: i64) {
    let mut yardstick = Yardstick::new();
    let report = yardstick.run(format!("[ECHO {expression}]").as_bytes(), Limits::GREATEST);
    assert_eq!((report.code, yardstick.numbers()), (0, &[number][..]), "{expression}");
}

#[test]
fn the_range_is_that_of_64_bits() {
    gives("9223372036854775807", i64::MAX);
    gives("-9223372036854775808", i64::MIN);
    gives("-0009223372036854775808", i64::MIN);
    ends("[ECHO @9223372036854775808]", NUMBER);
    ends("[ECHO @-9223372036854775809]", NUMBER);
    ends("[ECHO @100000000000000000000]", NUMBER);
    gives("(add -9223372036854775808 9223372036854775807)", -1);
    ends("[ECHO @(add 9223372036854775807 1)]", RANGE);
    ends("[ECHO @(sub -9223372036854775808 1)]", RANGE);
    gives("(mul 3037000499 3037000499)", 9_223_372_030_926_249_001);
    ends("[ECHO @(mul 3037000500 3037000500)]", RANGE);
    gives("(mul 4294967296 -2147483648)", i64::MIN);
    ends("[ECHO @(mul -9223372036854775808 -1)]", RANGE);
    // every number may stand in a cell
    let text = "[VAR x int; SET x -9223372036854775808; ECHO x]";
    let mut yardstick = Yardstick::new();
    assert_eq!((yardstick.run(text.as_bytes(), Limits::GREATEST).code, yardstick.numbers()), (0, &[i64::MIN][..]));
}

#[test]
fn division_rounds_down() {
    gives("(div 7 2)", 3);
    gives("(div -7 2)", -4);
    gives("(div 7 -2)", -4);
    gives("(div -7 -2)", 3);
    gives("(div -8 2)", -4);
    gives("(div -9223372036854775808 1)", i64::MIN);
    ends("[ECHO @(div -9223372036854775808 -1)]", RANGE);
    ends("[ECHO @(div -9223372036854775808 0)]", ZERO);
}

#[test]
fn a_parameter_list_has_a_name_once() {
    ends("[FUN f int [x:int, @x:bool] 1; ECHO 1]", DOUBLE);
    ends("[FUN REC f int [x:int, y:int, @x:int] 1; ECHO 1]", DOUBLE);
    ends("[PROC p [x:int, var @x:int] [ECHO 1]; ECHO 1]", DOUBLE);
    ends("[PROC REC p [var x:int, @x:int, x:int] [ECHO 1]; ECHO 1]", DOUBLE);
    ends("[ECHO ([x:int, @x:int] x 1 2)]", DOUBLE);
    // judged as parameters end, before what follows them; at one node TYPE comes first
    ends("[FUN f int [x:int, @x:int, add:int] y; ECHO 1]", DOUBLE);
    ends("[FUN f int [@add:int, add:int] 1; ECHO 1]", TYPE);
    ends("[PROC p [x:int, var @x:(int -> int)] [ECHO 1]; ECHO 1]", TYPE);
    // lists within each other, and the definition's own name
    gives("(([a:int] [a:int] a 1) 2)", 2);
    let text = "[FUN REC f int [f:int] 3; ECHO (f 1)]";
    assert_eq!(Yardstick::new().run(text.as_bytes(), Limits::GREATEST).code, 0);
}

#[test]
fn unset_names_where_its_cell_was_made() {
    let made = |text: &str| {
        let report = Yardstick::new().run(text.as_bytes(), Limits::GREATEST);
        (report.code, report.place, report.made)
    };
    assert_eq!(made("[VAR x int; ECHO x]"), (UNSET, 17, 1));
    assert_eq!(made("[PROC p [var x:int] [ECHO x]; VAR v int; CALL p (adr v)]"), (UNSET, 26, 30));
    assert_eq!(made("[ECHO (nth (alloc int 3) 0)]"), (UNSET, 6, 11));
    assert_eq!(made("[ECHO (div 1 0)]"), (ZERO, 6, 0));
}

#[test]
fn blocks_of_cells() {
    gives("(nth (vset (alloc int 3) 2 7) 2)", 7);
    gives("(len (alloc bool 0))", 0);
    gives("(len (alloc (vec int) 4096))", 4096);
    gives("(nth (nth (vset (alloc (vec int) 1) 0 (vset (alloc int 2) 1 5)) 0) 1)", 5);
    ends("[ECHO (len @(alloc int -1))]", SIZE);
    ends("[ECHO (len @(alloc int 4097))]", CELLS);
    ends("[ECHO @(nth (alloc int 3) 3)]", INDEX);
    ends("[ECHO @(nth (alloc int 3) -1)]", INDEX);
    ends("[ECHO (len @(vset (alloc int 0) 0 1))]", INDEX);
    ends("[ECHO @(nth (alloc int 3) 2)]", UNSET);
    // all parts come before the stops of the whole
    ends("[ECHO (len (vset (alloc int 1) 9 @(div 1 0)))]", ZERO);
    // a block's elements are bools, ints or blocks: what is wrong is refused where it ends
    ends("[CONST v @(vec (int -> int)) y; ECHO 1]", TYPE);
    ends("[FUN f int [not:@(vec (int -> int))] 1; ECHO 1]", TYPE);
    ends("[ECHO (len @(alloc (int -> int) 1))]", TYPE);
    ends("[ECHO (len (alloc (int -> int) @y))]", TYPE);
    ends("[@VAR v (vec int); ECHO 1]", TYPE);
    ends("[PROC p [var @v:(vec int)] [ECHO 1]; ECHO 1]", TYPE);
    ends("[ECHO @(nth (alloc bool 1) true)]", TYPE);
    ends("[ECHO @(len 1)]", TYPE);
    ends("[ECHO (len @(vset (alloc int 1) 0 true))]", TYPE);
}

/// A program whose numbers are put out.
fn puts_out(text: &str, numbers: &[i64]) {
    let mut yardstick = Yardstick::new();
    let report = yardstick.run(text.as_bytes(), Limits::GREATEST);
    assert_eq!((report.code, yardstick.numbers()), (0, numbers), "{text}");
}

#[test]
fn functions_whose_body_is_a_block() {
    puts_out("[FUN f int [n:int] [RETURN (add n 1)]; ECHO (f 2)]", &[3]);
    puts_out("[FUN REC f int [n:int] [IF (lt n 1) [RETURN 0] [RETURN (add n (f (sub n 1)))]]; ECHO (f 3)]", &[6]);
    puts_out("[FUN f int [n:int] [VAR i int; SET i 0; WHILE true [IF (lt n i) [RETURN i] [SET i (add i 1)]]; RETURN 0]; ECHO (f 3)]", &[4]);
    puts_out("[FUN f (int -> int) [n:int] [ECHO n; RETURN [m:int] (sub n m)]; ECHO ((f 9) 4)]", &[9, 5]);
    puts_out("[FUN f (int -> int) [n:int] [m:int] m; ECHO ((f 9) 4)]", &[4]);
    // RETURN stands last
    ends("[FUN f int [n:int] [RETURN 1@; ECHO 2]; ECHO 1]", SYNTAX);
    ends("[FUN f int [n:int] [ECHO 1; CONST x int 1@]; ECHO 1]", SYNTAX);
    ends("[FUN f int [@var n:int] [RETURN 1]; ECHO 1]", SYNTAX);
    // one that always returns stands last, and what follows one that may returns the same
    ends("[FUN f int [n:int] [@IF true [RETURN 1] [RETURN 2]; RETURN 3]; ECHO 1]", TYPE);
    ends("[FUN f int [n:int] @[IF true [RETURN 1] [ECHO 2]; ECHO 3]; ECHO 1]", TYPE);
    ends("[FUN f int [n:int] @[IF true [RETURN true] [ECHO 2]; RETURN 3]; ECHO 1]", TYPE);
    ends("[FUN f int [n:int] [@IF true [RETURN true] [RETURN 1]]; ECHO 1]", TYPE);
    // a function's block always returns its type, a procedure's and the program's never
    ends("[@FUN f int [n:int] [ECHO 1]; ECHO 1]", TYPE);
    ends("[@FUN f int [n:int] [WHILE true [RETURN 1]]; ECHO 1]", TYPE);
    ends("[@FUN f int [n:int] [RETURN true]; ECHO 1]", TYPE);
    ends("[@PROC p [n:int] [IF true [RETURN 1] [ECHO 1]]; ECHO 1]", TYPE);
    ends("@[RETURN 1]", TYPE);
    ends("[FUN f int [n:int] [RETURN 1]; @CALL f 1]", TYPE);
}

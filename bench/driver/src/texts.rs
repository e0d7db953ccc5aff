//! The workloads: programs of the repository, and texts that are made to be dear.

use std::fs;
use std::path::Path;

use yardstick::{MOST_BYTES, MOST_WORDS};

pub struct Text {
    pub name: String,
    pub bytes: Vec<u8>,
}

fn made(name: impl Into<String>, text: String) -> Text {
    let name = name.into();
    assert!(text.len() <= MOST_BYTES, "{name}: {} bytes", text.len());
    Text { name, bytes: text.into_bytes() }
}

/// A script of one of the repository's folders.
fn script(folder: &str, name: &str) -> Text {
    let path = Path::new(env!("CARGO_MANIFEST_DIR")).join("../..").join(folder).join(name).with_extension("aps");
    let bytes = fs::read(&path).unwrap_or_else(|error| panic!("{}: {error}", path.display()));
    Text { name: name.to_string(), bytes }
}

/// Pieces, each with its number, and what stands between two of them.
fn row(count: usize, between: &str, piece: impl Fn(usize) -> String) -> String {
    (0..count).map(piece).collect::<Vec<_>>().join(between)
}

/// As many pieces as fit in a text of so many bytes beside what else it has.
fn filled(most: usize, rest: usize, piece: impl Fn(usize) -> String) -> String {
    let mut text = String::new();
    for k in 0.. {
        let next = piece(k);
        if text.len() + next.len() + rest > most {
            break;
        }
        text += &next;
    }
    text
}

// ---- what a run is timed by

pub fn workloads() -> Vec<Text> {
    ["loop", "sort", "deep", "calls", "blocksort"].map(|name| script("bench/programs", name)).into()
}

pub fn tariffs() -> Vec<Text> {
    ["fares", "bands", "daycap", "peak", "refund"].map(|name| script("examples", name)).into()
}

/// A tariff of many small functions, each called once, of about so many bytes.
fn long_tariff(most: usize) -> String {
    let (start, end) = ("[VAR total int;\nSET total 0;\n", "ECHO total]\n");
    let functions = filled(most, start.len() + end.len(), |k| {
        let (few, zones) = (2 + k % 5, 1 + k % 9);
        format!(
            "FUN fare{k} int [zones:int, peak:bool]\n  (if peak (add 190 (mul 65 (sub zones 1)))\n    (if (lt zones {few}) 250 (div (mul zones 75) 2)));\n\
             SET total (add total (fare{k} {zones} true));\n"
        )
    });
    format!("{start}{functions}{end}")
}

/// As many statements as a text may have words for.
fn sums() -> String {
    const STATEMENT: &str = ";ECHO (add (mul 3 4) (sub 9 (div 8 2)))";
    const ITS_WORDS: usize = 19;
    const OTHER_WORDS: usize = 4;
    format!("[ECHO 0{}]", STATEMENT.repeat((MOST_WORDS - OTHER_WORDS) / ITS_WORDS))
}

/// A tariff of this length has nearly as many words as a text may have.
const LONG_TARIFF: usize = 11_500;

pub fn usual_checks() -> Vec<Text> {
    let mut texts = tariffs();
    texts.push(made("a tariff of 11 KB", long_tariff(LONG_TARIFF)));
    texts.push(made("sums up to the limit of words", sums()));
    texts
}

// ---- texts that make CHECK dear

/// Constants, each the sum of the one before it and of the first.
fn chained(count: usize, prefix: &str) -> String {
    let constants = row(count - 1, "", |k| format!("CONST {prefix}{} int (add {prefix}{k} {prefix}0);\n", k + 1));
    format!("[CONST {prefix}0 int 1;\n{constants}ECHO {prefix}{}]\n", count - 1)
}

/// Constants, and then so many uses of the first.
fn far(count: usize, uses: usize, prefix: &str) -> String {
    format!("[{}{}]", row(count, "", |k| format!("CONST {prefix}{k} int 1;")), row(uses, ";", |_| format!("ECHO {prefix}0")))
}

/// Half a text of variables whose names share so many bytes, and half of uses of the first.
fn far_shared(bytes: usize) -> String {
    let name = "a".repeat(bytes);
    let variables = filled(MOST_BYTES / 2, 0, |k| format!("VAR {name}{k} int;"));
    let end = format!("SET {name}0 0]");
    let uses = filled(MOST_BYTES - variables.len(), end.len() + 1, |_| format!("ECHO {name}0;"));
    format!("[{variables}{uses}{end}")
}

/// A function type of so many parameters, compared with itself so many times.
fn wide(params: usize, uses: usize) -> String {
    let t = format!("({}->int)", row(params, "*", |_| "int".to_string()));
    format!("[FUN f int [g:{t}] 1;PROC p [h:{t}] [{}];ECHO 0]", row(uses, ";", |_| "ECHO (f h)".to_string()))
}

pub fn dear_checks() -> Vec<Text> {
    vec![
        made("400 chained constants", chained(400, "x")),
        made("110 chained, 40 bytes shared", chained(110, &"a".repeat(40))),
        made("500 uses of the first of 400", far(400, 500, "x")),
        made("uses of the first, 8 bytes shared", far_shared(8)),
        made("uses of the first, 32 bytes shared", far_shared(32)),
        made("330 times types of 480 parts", wide(480, 330)),
    ]
}

/// How CHECK grows: texts of so many definitions, each list with what it shows.
pub fn growths() -> Vec<(&'static str, Vec<Text>)> {
    const COUNTS: [usize; 5] = [25, 50, 100, 200, 400];
    vec![
        ("n chained constants", COUNTS.map(|n| made(n.to_string(), chained(n, "x"))).into()),
        ("500 uses of the first of n constants", COUNTS.map(|n| made(n.to_string(), far(n, 500, "x"))).into()),
    ]
}

// ---- texts that make RUN dear

/// A loop over two variables with so many constants defined behind them.
fn buried(count: usize) -> String {
    let constants = row(count, "", |k| format!("CONST c{k} int 1;"));
    format!("[VAR i int;VAR s int;SET s 0;SET i 0;{constants}WHILE (lt i 3000) [SET s (add s (mul i 2));SET i (add i 1)];ECHO s]")
}

/// A unit with so many constants in force.
pub fn units_in_force() -> Vec<Text> {
    [0, 25, 50, 100, 200, 400].map(|count| made(count.to_string(), buried(count))).into()
}

/// A loop without an end over two variables, behind as many constants as fit; all names share their first bytes.
fn shared(bytes: usize, sets: usize) -> String {
    let name = "a".repeat(bytes);
    let start = format!("[VAR {name}x int;VAR {name}y int;SET {name}x 0;SET {name}y 0;");
    let end = format!("WHILE true [{}]]", row(sets, ";", |_| format!("SET {name}y {name}x")));
    let constants = filled(MOST_BYTES, start.len() + end.len(), |k| format!("CONST {name}{k} int 1;"));
    format!("{start}{constants}{end}")
}

/// A loop without an end over a number that is as long as fits.
fn digits() -> String {
    let (start, end) = ("[VAR x int;WHILE true [SET x ", "1]]");
    format!("{start}{}{end}", "0".repeat(MOST_BYTES - start.len() - end.len()))
}

/// A loop without an end in the innermost of nested procedures, over the outermost's parameter; each has constants of its own.
fn outward(nested: usize, constants: usize) -> String {
    let constants = row(constants, "", |k| format!("CONST c{k} int 1;"));
    let mut body = "VAR x int;WHILE true [SET x a0]".to_string();
    for k in (0..nested).rev() {
        body = format!("PROC p{k} [a{k}:int] [{constants}{body}];CALL p{k} 1");
    }
    format!("[{body}]")
}

pub fn dear_runs() -> Vec<Text> {
    vec![
        made("names share 10 bytes", shared(10, 1)),
        made("names share 40 bytes", shared(40, 1)),
        made("names share 60 bytes, 6 statements", shared(60, 6)),
        made("names share 160 bytes", shared(160, 1)),
        made("a number of 16 KB", digits()),
        made("60 procedures out", outward(60, 0)),
        made("60 procedures out, 9 constants each", outward(60, 9)),
    ]
}

//! Random texts: noise, words, scripts, scripts that were changed, programs put together from commands, and texts at the edges of what is read.

/// Numbers from a seed (splitmix64).
pub struct Random(pub u64);

impl Random {
    pub fn word(&mut self) -> u64 {
        self.0 = self.0.wrapping_add(0x9e37_79b9_7f4a_7c15);
        let mut z = self.0;
        z = (z ^ (z >> 30)).wrapping_mul(0xbf58_476d_1ce4_e5b9);
        z = (z ^ (z >> 27)).wrapping_mul(0x94d0_49bb_1331_11eb);
        z ^ (z >> 31)
    }

    /// 0 to n - 1, and 0 where n is 0.
    pub fn below(&mut self, n: usize) -> usize {
        (self.word() % n.max(1) as u64) as usize
    }

    pub fn one_in(&mut self, n: usize) -> bool {
        self.below(n) == 0
    }

    pub fn one_of<'a, T: ?Sized>(&mut self, list: &[&'a T]) -> &'a T {
        list[self.below(list.len())]
    }
}

/// The five tariffs of examples/, the scripts of document 01, and others that end in each way.
const SCRIPTS: [&str; 47] = [
    include_str!("../../../../../examples/bands.aps"),
    include_str!("../../../../../examples/daycap.aps"),
    include_str!("../../../../../examples/fares.aps"),
    include_str!("../../../../../examples/peak.aps"),
    include_str!("../../../../../examples/refund.aps"),
    "[ECHO (add 1 2)]",
    "[ECHO 1]",
    "[CONST x int 0; SET x 42]",
    "[VAR x int; ECHO x]",
    "[ECHO (div 1 0)]",
    "[ECHO (div -7 2)]",
    "[]",
    "[ECHO true]",
    "[ECHO y]",
    "[CONST f (int * int -> int) add; ECHO 1]",
    "[PROC p [var x:int] [SET x (add x 1)]; VAR v int; SET v 41; CALL p (adr v); ECHO v]",
    "[PROC p [var x:int] [SET x (add x 1)]; VAR v int; SET v 41; CALL p v; ECHO v]",
    "[FUN REC f int [n:int] (if (lt n 1) 0 (add n (f (sub n 1)))); ECHO (f 3)]",
    "[ECHO (mul 4294967295 2147483648)]",
    "[ECHO (mul 4294967296 2147483648)]",
    "[ECHO (div -9223372036854775808 -1)]",
    "[ECHO 9223372036854775808]",
    "[VAR x int; SET x 0; WHILE (lt x 3) [ECHO x; SET x (add x 1)]]",
    "[VAR x int; SET x 0; WHILE true [SET x (sub 1 x)]]",
    "[VAR x int; SET x 0; WHILE true [ECHO x; SET x (add x 1)]]",
    "[PROC REC p [n:int] [VAR c int; SET c n; CALL p (add c 1)]; CALL p 0]",
    "[PROC REC p [n:int] [IF (lt n 1) [ECHO n] [CALL p (sub n 1)]]; CALL p 98]",
    "[FUN REC f int [n:int] (if (lt n 1) 0 (f (sub n 1))); ECHO (f 97)]",
    "[FUN REC f int [n:int] (f n); ECHO (f 0)]",
    "[CONST t bool (and false (eq 1 (div 1 0))); IF t [ECHO 1] [ECHO 0]]",
    "[CONST f (int -> int) [n:int] (add n 1); CONST g ((int -> int) -> int) [h:(int -> int)] (h (h 3)); ECHO (g f)]",
    "[CONST n int 2; FUN f int [m:int] (mul n m); FUN g int [n:int] (f n); ECHO (g 5); ECHO (g -5)]",
    "[VAR b bool; SET b (or true false); WHILE b [ECHO 7; SET b (not b)]]",
    "[FUN f (int -> int) [a:int] [b:int] (sub a b); ECHO ((f 9) 4)]",
    "[FUN fare int [zones:int, peak:bool, zones:int] (mul zones 95); ECHO (fare 1 true 2)]",
    "[CONST b (vec int) (alloc int 3); ECHO (len b); ECHO (nth (vset b 2 7) 2); ECHO (nth b 0)]",
    "[CONST b (vec (vec bool)) (alloc (vec bool) 2); IF (nth (nth (vset b 1 (vset (alloc bool 1) 0 true)) 1) 0) [ECHO 1] [ECHO 0]]",
    "[FUN b (vec int) [n:int] (alloc int n); ECHO (len (b 4)); ECHO (len (b -1))]",
    "[VAR i int; SET i 0; CONST b (vec int) (alloc int 3); WHILE true [SET i (add 1 (nth (vset b i i) i))]]",
    "[PROC REC p [b:(vec int)] [CALL p (alloc int (len b))]; CALL p (alloc int 700)]",
    "[FUN f int [b:(vec (int -> int))] 1; ECHO 1]",
    "[FUN f int [n:int] [VAR i int; SET i 0; WHILE true [IF (lt n i) [RETURN i] [SET i (add i 1)]]; RETURN 0]; ECHO (f 3)]",
    "[FUN REC f int [n:int] [IF (lt n 1) [RETURN 0] [RETURN (add n (f (sub n 1)))]]; ECHO (f 30)]",
    "[FUN f (int -> int) [n:int] [ECHO n; CONST m int (mul n 2); RETURN [k:int] (sub m k)]; ECHO ((f 9) 4)]",
    "[FUN f int [n:int] [IF true [RETURN 1] [ECHO 2]; ECHO 3]; ECHO 1]",
    "[PROC p [n:int] [IF true [RETURN 1] [ECHO 1]]; CALL p 1]",
    "12ab 1-2 -> - > 007 VARx var adr\t(adr",
];

#[rustfmt::skip]
const WORDS: [&str; 61] = [
    "[", "]", "(", ")", ";", ":", ",", "*", "->", "CONST", "FUN", "REC", "VAR", "PROC", "ECHO", "SET", "IF", "WHILE", "CALL", "if", "and", "or", "bool", "int", "var",
    "adr", "true", "false", "not", "eq", "lt", "add", "sub", "mul", "div", "x", "y", "f", "n", "p", "0", "1", "-1", "42", "9223372036854775807", "-9223372036854775808", "9223372036854775808",
    "ECHO 1;", "[ECHO x]", "(add x 1)", "[n:int]", "(int -> int)", "vec", "alloc", "nth", "len", "vset", "(vec int)", "(alloc int 2)", "RETURN", "[RETURN n]",
];

/// In this order they hold; where one is left out, what needs it is a TYPE.
const DEFINITIONS: [&str; 13] = [
    "CONST k int 7; ",
    "VAR x int; ",
    "VAR b bool; ",
    "FUN f int [n:int] (add n (mul k 2)); ",
    "FUN REC g int [n:int] (if (lt n 1) 0 (add n (g (sub n 1)))); ",
    "PROC p [var v:int, n:int] [SET v (add v n)]; ",
    "PROC REC q [n:int] [VAR c int; SET c n; ECHO c; IF (lt 0 n) [CALL q (sub c 1)] [ECHO 0]]; ",
    "FUN h int [t:(int -> int), n:int] (t (t n)); ",
    "FUN w int [a:int, b:int, c:int, d:int] (sub (add a b) (add c d)); ",
    "CONST v (vec int) (alloc int k); ",
    "FUN r int [n:int] [IF (lt n k) [RETURN n] [ECHO n]; RETURN (sub n k)]; ",
    "SET x 3; ",
    "SET b true; ",
];

const STATEMENTS: [&str; 27] = [
    "SET x 3",
    "SET x (add x 1)",
    "ECHO x",
    "ECHO (f x)",
    "ECHO (g 5)",
    "CALL p (adr x) 4",
    "CALL q 3",
    "ECHO (h f 2)",
    "ECHO (h [n:int] (mul n n) 300)",
    "WHILE (lt x 20) [SET x (add x 5)]",
    "IF b [ECHO 1] [ECHO 2]",
    "SET b (eq x 3)",
    "ECHO (div k (sub x 3))",
    "ECHO (mul 281474976710656 (mul k 9999))",
    "ECHO (g 300)",
    "WHILE true [SET x 1]",
    "CALL q 30",
    "ECHO (w 1 x k (g 2))",
    "IF (or b (lt x 2)) [VAR y int; ECHO y] [ECHO (sub 0 x)]",
    "ECHO ([a:int, b:int] (mul a b) x k)",
    "ECHO (len (vset v x k))",
    "ECHO (nth v 3)",
    "ECHO (nth (vset v 0 x) 0)",
    "ECHO (len (alloc bool (sub k x)))",
    "WHILE (lt x 9) [SET x (add (nth (vset v x x) x) 1)]",
    "ECHO (r x)",
    "ECHO (h r 20)",
];

fn noise(random: &mut Random) -> Vec<u8> {
    let most = if random.one_in(200) { 17_000 } else { 1 + random.below(300) };
    let length = random.below(most);
    if random.one_in(2) {
        (0..length).map(|_| random.word() as u8).collect()
    } else {
        let known = b"[]();:,*->09azAZ \t\n\r";
        (0..length).map(|_| known[random.below(known.len())]).collect()
    }
}

fn loose_words(random: &mut Random) -> Vec<u8> {
    let count = if random.one_in(300) { 5000 } else { random.below(60) };
    let mut text = String::new();
    for _ in 0..count {
        text += random.one_of(&WORDS);
        text += random.one_of(&[" ", " ", " ", " ", "\n", "\t", ""]);
    }
    text.into_bytes()
}

fn whole_script(random: &mut Random) -> Vec<u8> {
    random.one_of(&SCRIPTS).as_bytes().to_vec()
}

fn program(random: &mut Random) -> Vec<u8> {
    let mut text = String::from("[");
    for definition in DEFINITIONS {
        if !random.one_in(60) {
            text += definition;
        }
    }
    for _ in 0..random.below(12) {
        text += random.one_of(&STATEMENTS);
        text += ";";
    }
    text += random.one_of(&STATEMENTS);
    (text + "]").into_bytes()
}

/// The beginning of one script and the end of another.
fn spliced(random: &mut Random) -> Vec<u8> {
    let mut text = whole_script(random);
    let other = whole_script(random);
    text.truncate(random.below(text.len() + 1));
    text.extend_from_slice(&other[random.below(other.len() + 1)..]);
    text
}

/// Some bytes replaced, taken out or put in.
fn changed(random: &mut Random, mut text: Vec<u8>) -> Vec<u8> {
    for _ in 0..1 + random.below(4) {
        let at = random.below(text.len());
        let end = text.len().min(at + 1 + random.below(6));
        let word = random.one_of(&WORDS).as_bytes();
        match random.below(3) {
            0 if at < text.len() => text[at] = if random.one_in(2) { random.word() as u8 } else { word[0] },
            1 => drop(text.drain(at..end)),
            _ => drop(text.splice(at..at, word.iter().copied())),
        }
    }
    text
}

/// About 16,384 bytes, 4,096 tokens or 64 levels.
fn edge(random: &mut Random) -> Vec<u8> {
    let (few, more) = (61 + random.below(6), 1363 + random.below(5));
    let text = match random.below(4) {
        0 => {
            let mut text = if random.one_in(2) { whole_script(random) } else { program(random) };
            text.resize(16_382 + random.below(6), b' ');
            return text;
        }
        1 => format!("[{}ECHO 1{}", "ECHO 1;".repeat(more), random.one_of(&["]", ";]", ""])),
        2 => format!("[ECHO {}1{}]", "(add 1 ".repeat(few), ")".repeat(few)),
        _ => format!("{}[ECHO 1]{}", "[IF true ".repeat(few), "[ECHO 2]]".repeat(few)),
    };
    text.into_bytes()
}

pub fn random_text(random: &mut Random) -> Vec<u8> {
    match random.below(32) {
        0..=2 => noise(random),
        3..=4 => loose_words(random),
        5..=11 => whole_script(random),
        12..=14 => spliced(random),
        15..=20 => {
            let text = whole_script(random);
            changed(random, text)
        }
        21..=22 => {
            let text = program(random);
            changed(random, text)
        }
        23 => edge(random),
        _ => program(random),
    }
}

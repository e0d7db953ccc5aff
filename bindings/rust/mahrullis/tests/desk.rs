//! Document 01's "Scripts the desk keeps", and what the crate's own types promise.
#![forbid(unsafe_code)]

use std::error::Error;
use std::thread;

use mahrullis::{name_at, Code, End, Gate, Kind, Limits, Refusal, Stop};

const MOST: Limits = Limits::GREATEST;

/// What is expected: how it ends, units, bindings, cells, numbers; or the refusal.
type Expected<'a> = Result<(End, u64, u64, u64, &'a [i64]), (Code, usize)>;

fn done(units: u64, bindings: u64, cells: u64, numbers: &[i64]) -> Expected<'_> {
    Ok((End::Done, units, bindings, cells, numbers))
}

fn stopped(stop: Stop, place: usize, units: u64, bindings: u64, cells: u64) -> Expected<'static> {
    Ok((End::Stopped { stop, place, made: None }, units, bindings, cells, &[]))
}

fn unset(place: usize, made: usize, units: u64, bindings: u64, cells: u64) -> Expected<'static> {
    Ok((End::Stopped { stop: Stop::Unset, place, made: Some(made) }, units, bindings, cells, &[]))
}

fn refused(code: Code, place: usize) -> Expected<'static> {
    Err((code, place))
}

/// Runs a text and compares; then checks it, which refuses the same texts at the same places and leaves the same tree.
fn expect(gate: &mut Gate, text: &[u8], limits: Limits, expected: Expected<'_>) {
    let shown = String::from_utf8_lossy(&text[..text.len().min(90)]).into_owned();
    let ran = gate.run(text, limits);
    let got = ran.map(|r| (r.end, r.units, r.bindings, r.cells, r.numbers)).map_err(|r| (r.code, r.place));
    assert_eq!(got, expected, "{shown}");
    let tree = gate.run(text, limits).map(|r| r.tree.words().to_vec());
    let checked = gate.check(text).map(|tree| tree.words().to_vec());
    if limits.are_admitted() {
        assert_eq!(tree, checked, "{shown}");
    }
}

#[test]
fn scripts_of_the_desk() {
    let gate = &mut Gate::new();
    expect(gate, b"[ECHO (add 1 2)]", MOST, done(4, 0, 0, &[3]));
    expect(gate, b"[ECHO (add 1 2)]", MOST.with_fuel(3), stopped(Stop::Fuel, 13, 3, 0, 0));
    expect(gate, b"[ECHO 1]", MOST.with_depth(1), stopped(Stop::Depth, 6, 2, 0, 0));
    expect(gate, b"[CONST x int 0; SET x 42]", MOST, refused(Code::Type, 16));
    expect(gate, b"[VAR x int; ECHO x]", MOST, unset(17, 1, 3, 1, 1));
    expect(gate, b"[ECHO (div 1 0)]", MOST, stopped(Stop::Zero, 6, 4, 0, 0));
    expect(gate, b"[ECHO (div -7 2)]", MOST, done(4, 0, 0, &[-4]));
    expect(gate, b"[]", MOST, refused(Code::Syntax, 1));
    expect(gate, b"[ECHO true]", MOST, refused(Code::Type, 1));
    expect(gate, b"[ECHO y]", MOST, refused(Code::Type, 6));
    expect(gate, b"[CONST f (int * int -> int) add; ECHO 1]", MOST, refused(Code::Type, 28));
    expect(gate, b"[FUN f int [fare:int, fare:bool] 1; ECHO 1]", MOST, refused(Code::Double, 22));
    expect(gate, b"[PROC p [var x:int] [SET x (add x 1)]; VAR v int; SET v 41; CALL p (adr v); ECHO v]", MOST, done(12, 3, 1, &[42]));
    expect(gate, b"[PROC p [var x:int] [SET x (add x 1)]; VAR v int; SET v 41; CALL p v; ECHO v]", MOST, refused(Code::Type, 60));
    expect(gate, b"[FUN REC f int [n:int] (if (lt n 1) 0 (add n (f (sub n 1)))); ECHO (f 3)]", MOST, done(43, 9, 0, &[6]));
    expect(gate, b"[ECHO (mul 4294967295 2147483648)]", MOST, done(4, 0, 0, &[9223372034707292160]));
    expect(gate, b"[ECHO (mul 4294967296 2147483648)]", MOST, stopped(Stop::Range, 6, 4, 0, 0));
    expect(gate, b"[ECHO (div -9223372036854775808 -1)]", MOST, stopped(Stop::Range, 6, 4, 0, 0));
    expect(gate, b"[ECHO 9223372036854775807; ECHO -9223372036854775808]", MOST, done(4, 0, 0, &[i64::MAX, i64::MIN]));
    expect(gate, b"[ECHO 9223372036854775808]", MOST, refused(Code::Number, 6));
    let rounds = b"[VAR x int; SET x 0; WHILE (lt x 3) [ECHO x; SET x (add x 1)]]";
    expect(gate, rounds, MOST.with_fuel(100_000), done(37, 1, 1, &[0, 1, 2]));
}

#[test]
fn unset_names_its_cells_maker() {
    let gate = &mut Gate::new();
    let passed_on = b"[PROC p [var x:int] [ECHO x]; VAR u int; VAR v int; SET u 1; CALL p (adr u); CALL p (adr v)]";
    let ran = gate.run(passed_on, MOST).unwrap();
    assert_eq!((ran.end, ran.numbers), (End::Stopped { stop: Stop::Unset, place: 26, made: Some(41) }, &[1][..]));
    // a cell of a block is made by its alloc, wherever the block goes
    let block = b"[FUN f (vec int) [n:int] (alloc int n); CONST b (vec int) (f 2); ECHO (nth b 1)]";
    expect(gate, block, MOST, unset(70, 25, 11, 3, 2));
}

#[test]
fn blocks_of_cells() {
    let gate = &mut Gate::new();
    let block = b"[CONST b (vec int) (alloc int 3); ECHO (len b); ECHO (nth (vset b 2 7) 2); ECHO (nth b 2)]";
    expect(gate, block, MOST, done(17, 1, 3, &[3, 7, 7]));
    expect(gate, b"[ECHO (len (alloc bool 0))]", MOST.with_cells(0), done(4, 0, 0, &[0]));
    expect(gate, b"[ECHO (len (alloc int 3))]", MOST.with_cells(2), stopped(Stop::Cells, 11, 4, 0, 0));
    expect(gate, b"[ECHO (len (alloc int -1))]", MOST.with_cells(0), stopped(Stop::Size, 11, 4, 0, 0));
    expect(gate, b"[ECHO (nth (alloc int 3) 3)]", MOST, stopped(Stop::Index, 6, 5, 0, 3));
    expect(gate, b"[ECHO (len (vset (alloc int 3) -1 0))]", MOST, stopped(Stop::Index, 11, 7, 0, 3));
    expect(gate, b"[ECHO (nth (alloc int 3) 0)]", MOST, unset(6, 11, 5, 0, 3));
    expect(gate, b"[ECHO (len (vset (alloc int 1) 9 (div 1 0)))]", MOST, stopped(Stop::Zero, 33, 9, 0, 1));
    expect(gate, b"[CONST v (vec (int -> int)) y; ECHO 1]", MOST, refused(Code::Type, 9));
    expect(gate, b"[ECHO (len (alloc (int -> int) 1))]", MOST, refused(Code::Type, 11));
    expect(gate, b"[VAR v (vec int); ECHO 1]", MOST, refused(Code::Type, 1));
    expect(gate, b"[ECHO (len 1)]", MOST, refused(Code::Type, 6));
    expect(gate, b"[CONST len int 1; ECHO 1]", MOST, refused(Code::Syntax, 7));

    let text = b"[ECHO (len (nth (vset (alloc (vec int) 1) 0 (alloc int 2)) 0))]";
    let kinds: Vec<Kind> = gate.check(text).unwrap().nodes().map(|node| node.kind()).collect();
    let made = [Kind::Alloc, Kind::Vec, Kind::Int, Kind::Number, Kind::Number, Kind::Alloc, Kind::Int, Kind::Number, Kind::Number];
    assert_eq!(kinds, [&[Kind::Block, Kind::Echo, Kind::Len, Kind::Nth, Kind::Vset][..], &made].concat());
}

#[test]
fn functions_whose_body_is_a_block() {
    let gate = &mut Gate::new();
    let first = b"[FUN f int [n:int] [VAR i int; SET i 0; WHILE true [IF (lt n i) [RETURN i] [SET i (add i 1)]]; RETURN 0]; ECHO (f 1)]";
    expect(gate, first, MOST, done(36, 3, 1, &[2]));
    expect(gate, b"[FUN REC f int [n:int] [IF (lt n 1) [RETURN 0] [RETURN (add n (f (sub n 1)))]]; ECHO (f 3)]", MOST, done(47, 9, 0, &[6]));
    expect(gate, b"[FUN f int [n:int] [RETURN n]; ECHO (f 1)]", MOST.with_fuel(5), stopped(Stop::Fuel, 20, 5, 2, 0));
    expect(gate, b"[FUN f int [n:int] [RETURN 1; ECHO 2]; ECHO 1]", MOST, refused(Code::Syntax, 28));
    expect(gate, b"[FUN f int [n:int] [IF true [RETURN 1] [RETURN 2]; RETURN 3]; ECHO 1]", MOST, refused(Code::Type, 20));
    expect(gate, b"[FUN f int [n:int] [IF true [RETURN 1] [ECHO 2]; ECHO 3]; ECHO 1]", MOST, refused(Code::Type, 19));
    expect(gate, b"[FUN f int [n:int] [ECHO 1]; ECHO 1]", MOST, refused(Code::Type, 1));
    expect(gate, b"[PROC p [n:int] [RETURN 1]; ECHO 1]", MOST, refused(Code::Type, 1));
    expect(gate, b"[RETURN 1]", MOST, refused(Code::Type, 0));

    let text = b"[FUN REC f int [n:int] [RETURN 1]; FUN g int [n:int] [RETURN n]; ECHO (f 1)]";
    let kinds: Vec<Kind> = gate.check(text).unwrap().root().children().map(|node| node.kind()).collect();
    assert_eq!(kinds, [Kind::FunRecBlock, Kind::FunBlock, Kind::Echo]);
    let function = gate.check(text).unwrap().node(1).unwrap();
    let parts: Vec<Kind> = function.children().map(|node| node.kind()).collect();
    assert_eq!(parts, [Kind::Name, Kind::Int, Kind::Parameter, Kind::Block]);
}

#[test]
fn lengths_tokens_and_levels() {
    let gate = &mut Gate::new();
    let padded = |length: usize| {
        let mut text = b"[ECHO 1]".to_vec();
        text.resize(length, b' ');
        text
    };
    expect(gate, &padded(16_384), MOST, done(2, 0, 0, &[1]));
    expect(gate, &padded(16_385), MOST, refused(Code::Length, 0));
    let tokens = format!("[{}ECHO 1]", "ECHO 1;".repeat(1364));
    expect(gate, tokens.as_bytes(), MOST, done(2730, 0, 0, &[1; 1365]));
    expect(gate, format!("{tokens}]").as_bytes(), MOST, refused(Code::Tokens, 9556));
    let nested = |levels: usize| format!("[ECHO {}1{}]", "(add 1 ".repeat(levels - 1), ")".repeat(levels - 1));
    expect(gate, nested(64).as_bytes(), MOST, done(128, 0, 0, &[64]));
    expect(gate, nested(65).as_bytes(), MOST, refused(Code::Level, 447));
}

#[test]
fn limits_beyond_their_greatest() {
    let gate = &mut Gate::new();
    for beyond in [1, u64::MAX / 2, u64::MAX - 1_000_000] {
        for limits in [
            MOST.with_fuel(MOST.fuel + beyond),
            MOST.with_depth(MOST.depth + beyond),
            MOST.with_bindings(MOST.bindings + beyond),
            MOST.with_cells(MOST.cells + beyond),
            MOST.with_output(MOST.output + beyond),
        ] {
            assert!(!limits.are_admitted());
            expect(gate, b"[ECHO 1]", limits, refused(Code::Limit, 0));
        }
    }
    expect(gate, b"[ECHO 1]", Limits::new(0, 0, 0, 0, 0), stopped(Stop::Fuel, 1, 0, 0, 0));
}

#[test]
fn trees() {
    let mut gate = Gate::new();
    let tree = gate.check(b"[ECHO 1]").unwrap();
    assert_eq!(tree.words(), [0x0001000000010000, 0x0008000100020000, 0x0012000600000000]);

    let text = b"[CONST a int 1; ECHO (add a 2)]";
    let tree = gate.check(text).unwrap();
    let kinds: Vec<Kind> = tree.nodes().map(|node| node.kind()).collect();
    let echo = [Kind::Echo, Kind::Application, Kind::Name, Kind::Name, Kind::Number];
    assert_eq!(kinds, [&[Kind::Block, Kind::Const, Kind::Name, Kind::Int, Kind::Number][..], &echo[..]].concat());
    assert_eq!(tree.nodes().len(), 10);
    let commands: Vec<usize> = tree.root().children().map(|node| node.place()).collect();
    assert_eq!(commands, [1, 16]);
    let application = tree.node(6).unwrap();
    assert_eq!(application.first_child().unwrap().name(text), b"add");
    let arguments: Vec<&[u8]> = application.children().skip(1).map(|node| node.name(text)).collect();
    assert_eq!(arguments, [&b"a"[..], b""]);
    assert!(tree.node(10).is_none());
    assert!(tree.root().next_sibling().is_none());
    assert_eq!(format!("{:?}", tree.root()), "0 Block at 0");
    // every node but the root is some node's child, once
    let mut children: Vec<usize> = tree.into_iter().flat_map(|node| node.children()).map(|node| node.number()).collect();
    children.sort_unstable();
    assert_eq!(children, (1..10).collect::<Vec<_>>());
}

#[test]
fn names_are_parts_of_the_text() {
    let text = b"[ECHO fare2]";
    let name = name_at(text, 6);
    assert_eq!(name, b"fare2");
    assert_eq!(name.as_ptr(), text[6..].as_ptr());
    for (at, expected) in [(0, &b""[..]), (1, b"ECHO"), (5, b""), (7, b"are2"), (10, b""), (11, b""), (12, b""), (13, b""), (usize::MAX, b"")] {
        assert_eq!(name_at(text, at), expected, "at {at}");
    }
    assert_eq!(name_at(b"", 0), b"");
    assert_eq!(name_at(&[b'x'; 100_000], 1).len(), 99_999);
}

#[test]
fn numbers_and_words_of_the_answers() {
    for number in 0..100 {
        assert!(Code::from_number(number).map_or(!(1..=10).contains(&number), |code| code.number() == number));
        assert!(Stop::from_number(number).map_or(!(20..=29).contains(&number), |stop| stop.number() == number));
        assert!(Kind::from_number(number).map_or(!(1..=33).contains(&number), |kind| kind.number() == number));
    }
    assert!(Stop::Output.is_limit() && !Stop::Range.is_limit());
    let refusal = Refusal { code: Code::Syntax, place: 1 };
    let error: &dyn Error = &refusal;
    assert_eq!(error.to_string(), "refused 7 at 1: no program goes on like this");
    assert_eq!(End::Stopped { stop: Stop::Zero, place: 6, made: None }.to_string(), "stopped 26 at 6: this divides by 0");
    let unset = End::Stopped { stop: Stop::Unset, place: 17, made: Some(1) };
    assert_eq!(unset.to_string(), "stopped 27 at 17: this variable or element is read before it is set, made at 1");
    assert_eq!(End::Done.to_string(), "done");
}

#[test]
fn gates_in_threads() {
    let text = b"[FUN REC f int [n:int] (if (lt n 1) 0 (add n (f (sub n 1)))); ECHO (f 30)]";
    let run = move || {
        let mut gate = Gate::default();
        for _ in 0..200 {
            assert_eq!(gate.run(text, MOST).unwrap().numbers, [465]);
        }
    };
    let others: Vec<_> = (0..3).map(|_| thread::spawn(run)).collect();
    run();
    for other in others {
        other.join().unwrap();
    }
}

/// The deepest runs of each kind fit in three quarters of a megabyte of stack: an overflow would end the process.
#[test]
fn stack_of_the_deepest_runs() {
    let deepest = || {
        let mut gate = Gate::new();
        for text in [
            "[FUN REC f int [n:int] (f n); ECHO (f 0)]",
            "[FUN REC f int [n:int] (f (f n)); ECHO (f 0)]",
            "[FUN REC f int [n:int] (add 1 (f n)); ECHO (f 0)]",
            "[FUN REC f int [n:int] (if true (f n) 0); ECHO (f 0)]",
            "[FUN REC f int [n:int] ([x:int] (f x) n); ECHO (f 0)]",
            "[FUN REC f bool [n:int] (or (f n) true); IF (f 0) [ECHO 1] [ECHO 2]]",
            "[FUN REC f (int -> int) [n:int] [m:int] ((f n) m); ECHO ((f 0) 1)]",
            "[FUN REC f int [a:int, b:int, c:int, d:int, e:int] (f a b c d (f a b c d e)); ECHO (f 0 0 0 0 0)]",
            "[FUN REC f int [n:int] [RETURN (f n)]; ECHO (f 0)]",
            "[FUN REC f int [n:int] [WHILE true [IF true [RETURN (f n)] [ECHO 1]]; RETURN 0]; ECHO (f 0)]",
            "[FUN REC f (vec int) [b:(vec int)] [RETURN (vset (f b) (len (f b)) 0)]; ECHO (len (f (alloc int 1)))]",
            "[PROC REC p [n:int] [CALL p n]; CALL p 0]",
            "[PROC REC p [n:int] [WHILE true [IF true [CALL p n] [ECHO 1]]]; CALL p 0]",
        ] {
            let end = gate.run(text.as_bytes(), MOST).unwrap().end;
            assert!(matches!(end, End::Stopped { stop: Stop::Depth, .. }), "{text}: {end}");
        }
    };
    thread::Builder::new().stack_size(768 * 1024).spawn(deepest).unwrap().join().unwrap();
}

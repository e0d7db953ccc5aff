//! The repository's vectors, which an independent implementation made, through [`Gate`]: those that its own programs are held against.
#![forbid(unsafe_code)]

use std::fs;
use std::path::Path;

use mahrullis::{End, Gate, Limits, Refusal};

/// A file of one of the repository's programs.
fn file_of(program: &str, file: &str) -> Vec<u8> {
    let path = Path::new(env!("CARGO_MANIFEST_DIR")).join("../../../crates").join(program).join(file);
    fs::read(&path).unwrap_or_else(|error| panic!("{}: {error}", path.display()))
}

/// The program reads the cases on standard input, and its output says how many there are: `5 of 5 agree`.
fn cases_of(program: &str) -> (Vec<u8>, usize) {
    let output = String::from_utf8(file_of(program, "stdout")).unwrap();
    let tally = output.lines().find(|line| line.ends_with(" agree")).unwrap();
    (file_of(program, "stdin"), tally.split(' ').next().unwrap().parse().unwrap())
}

/// Bytes that are taken from the front.
struct Input<'a>(&'a [u8]);

impl<'a> Input<'a> {
    fn take(&mut self, count: usize) -> &'a [u8] {
        let (taken, rest) = self.0.split_at(count);
        self.0 = rest;
        taken
    }

    /// A line of `count` bytes with its line end.
    fn line(&mut self, count: usize) -> &'a [u8] {
        let line = self.take(count);
        assert_eq!(line.last(), Some(&b'\n'));
        &line[..count - 1]
    }
}

/// The decimal number at the start of a column.
fn decimal(column: &[u8]) -> i64 {
    std::str::from_utf8(column).unwrap().trim_end().parse().unwrap()
}

fn code_and_place(refusal: Refusal) -> (u64, u64) {
    (refusal.code.number(), refusal.place as u64)
}

/// The answer's number, its place, and where UNSET's cell was made.
fn end(end: End) -> (u64, u64, u64) {
    match end {
        End::Done => (0, 0, 0),
        End::Stopped { stop, place, made } => (stop.number(), place as u64, made.unwrap_or(0) as u64),
    }
}

/// A case: 14 columns of 8 bytes and a name in 136 bytes, then the script, if it is a new one, and a line of 24 bytes for each number.
fn run_cases(program: &str) {
    let (cases, count_of_cases) = cases_of(program);
    let mut input = Input(&cases);
    let mut text: &[u8] = &[];
    let mut gate = Gate::new();
    let mut tried = 0;
    while !input.0.is_empty() {
        let line = input.line(136);
        let columns: Vec<u64> = line[..112].chunks(8).map(|column| decimal(column) as u64).collect();
        let [follows, length, fuel, depth, bindings, cells, output, code, place, units, bound, celled, count, made] = columns[..] else { unreachable!() };
        if follows == 1 {
            let script = input.line(length as usize + 1);
            text = script;
        }
        let numbers: Vec<i64> = (0..count).map(|_| decimal(input.line(24))).collect();
        let named = format!("{program} {tried}: {}", String::from_utf8_lossy(&line[112..]).trim_end());
        let limits = Limits::new(fuel, depth, bindings, cells, output);
        let (ended, tree) = match gate.run(text, limits) {
            Ok(report) => {
                assert_eq!((report.units, report.bindings, report.cells), (units, bound, celled), "{named}");
                assert_eq!(report.numbers, numbers, "{named}");
                (end(report.end), Some(report.tree.words().to_vec()))
            }
            Err(refusal) => ((refusal.code.number(), refusal.place as u64, 0), None),
        };
        assert_eq!(ended, (code, place, made), "{named}");
        // CHECK knows no limits; else it accepts what RUN ran, with the same tree, and refuses what RUN refused
        if code != 2 {
            match gate.check(text) {
                Ok(checked) => assert_eq!(Some(checked.words()), tree.as_deref(), "{named}"),
                Err(refusal) => assert_eq!(code_and_place(refusal), (code, place), "{named}"),
            }
        }
        tried += 1;
    }
    assert_eq!(tried, count_of_cases, "{program}");
    println!("{program}: {tried} agree");
}

#[test]
fn run_vectors() {
    run_cases("run_vectors");
}

#[test]
fn desk() {
    run_cases("desk");
}

/// A line of 16 hex digits.
fn hex(input: &mut Input<'_>) -> u64 {
    u64::from_str_radix(std::str::from_utf8(input.line(17)).unwrap(), 16).unwrap()
}

/// A case: code, place, the script's length and the tree's in words, then the script, then the tree.
#[test]
fn check_vectors() {
    let (cases, count_of_cases) = cases_of("check_vectors");
    let mut input = Input(&cases);
    let mut gate = Gate::new();
    let mut tried = 0;
    while !input.0.is_empty() {
        let (code, place, length, count) = (hex(&mut input), hex(&mut input), hex(&mut input), hex(&mut input));
        let text = input.line(length as usize + 1);
        let words: Vec<u64> = (0..count).map(|_| hex(&mut input)).collect();
        match gate.check(text) {
            Ok(tree) => {
                assert_eq!((code, place), (0, 0), "case {tried}");
                assert_eq!(tree.words(), words, "case {tried}");
                assert!(tree.nodes().all(|node| node.children().all(|child| child.place() > node.place())), "case {tried}");
            }
            Err(refusal) => assert_eq!(code_and_place(refusal), (code, place), "case {tried}"),
        }
        tried += 1;
    }
    assert_eq!(tried, count_of_cases);
    println!("check_vectors: {tried} agree");
}

//! The repository's vectors, which an independent implementation made: the cases that its programs `run_vectors` and `check_vectors` read on standard input.

use std::fs;
use std::path::PathBuf;

use crate::{Limits, Report};

/// A case of RUN.
pub struct RunCase {
    /// The script.
    pub text: Vec<u8>,
    /// What the run is given.
    pub limits: Limits,
    /// What is expected.
    pub report: Report,
    /// The numbers that are expected.
    pub numbers: Vec<i64>,
}

/// A case of CHECK.
pub struct CheckCase {
    /// The script.
    pub text: Vec<u8>,
    /// The answer's number and place that are expected.
    pub answer: (u8, u16),
    /// The tree that is expected, none of a refused text.
    pub tree: Vec<u64>,
}

/// The start of a text, on one line: enough to tell it by.
pub fn shown(text: &[u8]) -> String {
    const BYTES: usize = 120;
    format!("{:?}", String::from_utf8_lossy(&text[..text.len().min(BYTES)]))
}

/// The first line of a case of RUN: so many columns of so many bytes, then its name.
const COLUMNS: usize = 14;
const COLUMN_BYTES: usize = 8;

/// A file's bytes, taken from the front.
struct Input<'a>(&'a [u8]);

impl<'a> Input<'a> {
    /// So many bytes.
    fn take(&mut self, count: usize) -> &'a [u8] {
        let (taken, rest) = self.0.split_at(count);
        self.0 = rest;
        taken
    }

    /// Up to the next line end, which is taken too.
    fn line(&mut self) -> &'a str {
        let end = self.0.iter().position(|byte| *byte == b'\n').expect("a line end");
        let line = self.take(end);
        self.take(1);
        std::str::from_utf8(line).expect("text")
    }

    /// A script of so many bytes, and the line end behind it.
    fn script(&mut self, length: usize) -> Vec<u8> {
        let text = self.take(length).to_vec();
        assert_eq!(self.take(1), b"\n", "a line end behind a script");
        text
    }

    /// A line of hex digits.
    fn hex(&mut self) -> u64 {
        u64::from_str_radix(self.line(), 16).expect("hex digits")
    }
}

fn decimal(digits: &str) -> i64 {
    digits.trim_end().parse().expect("a number")
}

/// The input of one of the repository's programs.
fn input_of(program: &str) -> Vec<u8> {
    let path = PathBuf::from(env!("CARGO_MANIFEST_DIR")).join("../../crates").join(program).join("stdin");
    fs::read(&path).unwrap_or_else(|error| panic!("{}: {error}", path.display()))
}

/// The cases of `crates/run_vectors`: a line of columns; the script where it is not that of the case before; then a line for each number.
pub fn run_cases() -> Vec<RunCase> {
    let bytes = input_of("run_vectors");
    let mut input = Input(&bytes);
    let mut last = Vec::new();
    let mut cases = Vec::new();
    while !input.0.is_empty() {
        let line = input.line();
        let columns: Vec<u64> = (0..COLUMNS).map(|k| decimal(&line[k * COLUMN_BYTES..(k + 1) * COLUMN_BYTES]) as u64).collect();
        let [follows, length, fuel, depth, bindings, cells, output, code, place, units, bound, taken, count, made] = columns[..] else { unreachable!() };
        if follows == 1 {
            last = input.script(length as usize);
        }
        cases.push(RunCase {
            text: last.clone(),
            limits: Limits { fuel, depth, bindings, cells, output },
            report: Report { code: code as u8, place: place as u16, units: units as u32, bindings: bound as u32, cells: taken as u32, made: made as u16 },
            numbers: (0..count).map(|_| decimal(input.line())).collect(),
        });
    }
    cases
}

/// The cases of `crates/check_vectors`: lines of hex digits with the answer, its place, the script's length and how many words its tree has; the script; the tree.
pub fn check_cases() -> Vec<CheckCase> {
    let bytes = input_of("check_vectors");
    let mut input = Input(&bytes);
    let mut cases = Vec::new();
    while !input.0.is_empty() {
        let (code, place, length, words) = (input.hex(), input.hex(), input.hex(), input.hex());
        cases.push(CheckCase { text: input.script(length as usize), answer: (code as u8, place as u16), tree: (0..words).map(|_| input.hex()).collect() });
    }
    cases
}

//! CHECK and RUN of APS scripts in ordinary safe Rust: what the proved core is timed against.
//!
//! It is written to be quick. The tree stands in one vector; names are resolved to frames and slots while types are checked; values have no tags; and a
//! [`Yardstick`] keeps its vectors from one call to the next. Nothing of it is proved: `tests/` hold it against the repository's vectors.
#![forbid(unsafe_code)]
#![deny(missing_docs)]

mod checker;
mod code;
mod hash;
mod machine;
mod nodes;
mod parser;
mod types;
pub mod vectors;
mod words;

use checker::Checker;
use code::{Block, Code};
use machine::{Machine, Room};
use nodes::Node;
use parser::Parser;
use types::Types;
use words::Words;

/// Document 01's numbers for the answers.
mod answers {
    pub const LENGTH: u8 = 1;
    pub const LIMIT: u8 = 2;
    pub const BYTE: u8 = 4;
    pub const NUMBER: u8 = 5;
    pub const TOKENS: u8 = 6;
    pub const SYNTAX: u8 = 7;
    pub const LEVEL: u8 = 8;
    pub const TYPE: u8 = 9;
    pub const DOUBLE: u8 = 10;
    pub const FUEL: u8 = 20;
    pub const DEPTH: u8 = 21;
    pub const CELLS: u8 = 22;
    pub const BINDINGS: u8 = 23;
    pub const OUTPUT: u8 = 24;
    pub const RANGE: u8 = 25;
    pub const ZERO: u8 = 26;
    pub const UNSET: u8 = 27;
    pub const SIZE: u8 = 28;
    pub const INDEX: u8 = 29;
}

/// The longest text that is read, in bytes.
pub const MOST_BYTES: usize = 16_384;
/// The most words that a text may have.
pub const MOST_WORDS: usize = 4_096;
/// The most levels that may be open.
const MOST_LEVELS: u32 = 64;

/// How far a run may go.
#[derive(Clone, Copy, Debug, PartialEq, Eq)]
pub struct Limits {
    /// Units: one for each definition, statement, expression and `adr` that is entered.
    pub fuel: u64,
    /// How many of these may be entered and unended at a time.
    pub depth: u64,
    /// Bindings that may be made.
    pub bindings: u64,
    /// Cells that may be taken.
    pub cells: u64,
    /// Numbers that may be put out.
    pub output: u64,
}

impl Limits {
    /// Each at its greatest value.
    pub const GREATEST: Limits = Limits { fuel: 1_000_000, depth: 200, bindings: 4_096, cells: 4_096, output: 4_096 };

    fn are_admitted(&self) -> bool {
        let most = Limits::GREATEST;
        self.fuel <= most.fuel && self.depth <= most.depth && self.bindings <= most.bindings && self.cells <= most.cells && self.output <= most.output
    }
}

/// A refusal of a text, or a stop of a run.
#[derive(Clone, Copy, Debug, PartialEq, Eq)]
pub struct Refusal {
    /// Document 01's number.
    pub code: u8,
    /// The byte at which it shows.
    pub place: u16,
}

/// What a run came to: its answer, 0 where it is done, and what it took.
#[derive(Clone, Copy, Debug, Default, PartialEq, Eq)]
pub struct Report {
    /// Document 01's number.
    pub code: u8,
    /// The byte at which it shows.
    pub place: u16,
    /// Units taken.
    pub units: u32,
    /// Bindings made.
    pub bindings: u32,
    /// Cells taken.
    pub cells: u32,
    /// Where UNSET's cell was made, 0 with every other answer.
    pub made: u16,
}

impl From<Refusal> for Report {
    /// Nothing was run.
    fn from(refusal: Refusal) -> Report {
        Report { code: refusal.code, place: refusal.place, ..Report::default() }
    }
}

/// Everything that is allocated, for one call after the other.
#[derive(Default)]
pub struct Yardstick {
    words: Words,
    nodes: Vec<Node>,
    types: Types,
    scratch: checker::Scratch,
    code: Code,
    room: Room,
    tree: Vec<u64>,
}

impl Yardstick {
    /// With nothing allocated yet.
    pub fn new() -> Yardstick {
        Yardstick::default()
    }

    /// The tree's words, after [`check`](Yardstick::check) has accepted; else none.
    pub fn tree(&self) -> &[u64] {
        &self.tree
    }

    /// The numbers that the last run put out, oldest first.
    pub fn numbers(&self) -> &[i64] {
        &self.room.output
    }

    /// The program's block, and how many slots its frame has.
    fn read(&mut self, text: &[u8]) -> Result<(Block, u16), Refusal> {
        if text.len() > MOST_BYTES {
            return Err(Refusal { code: answers::LENGTH, place: 0 });
        }
        self.words.read(text)?;
        Parser::new(&self.words.words, &mut self.nodes).program()?;
        Checker::new(&self.nodes, self.words.symbols, &mut self.types, &mut self.scratch, &mut self.code).program()
    }

    /// CHECK: the verdict; where the text is accepted, the tree is in [`tree`](Yardstick::tree).
    pub fn check(&mut self, text: &[u8]) -> Result<(), Refusal> {
        self.tree.clear();
        self.read(text)?;
        self.tree.extend(self.nodes.iter().map(Node::word));
        Ok(())
    }

    /// RUN: the report; the numbers are in [`numbers`](Yardstick::numbers).
    pub fn run(&mut self, text: &[u8], limits: Limits) -> Report {
        self.room.clear();
        if text.len() <= MOST_BYTES && !limits.are_admitted() {
            return Refusal { code: answers::LIMIT, place: 0 }.into();
        }
        match self.read(text) {
            Ok((block, slots)) => Machine::new(&self.code, &self.words.numbers, limits, &mut self.room).program(block, slots),
            Err(refusal) => refusal.into(),
        }
    }
}

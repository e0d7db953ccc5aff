//! From bytes to words.

use std::collections::HashMap;

use crate::answers::{BYTE, NUMBER, TOKENS};
use crate::hash::Quick;
use crate::{Refusal, MOST_WORDS};

#[derive(Clone, Copy, Debug, PartialEq, Eq)]
pub enum Kind {
    OpenSquare,
    CloseSquare,
    Open,
    Close,
    Semicolon,
    Colon,
    Comma,
    Star,
    Arrow,
    Const,
    Fun,
    Rec,
    Var,
    Proc,
    Echo,
    Set,
    IfStatement,
    While,
    Call,
    If,
    And,
    Or,
    Bool,
    Int,
    VarParam,
    Adr,
    Vec,
    Alloc,
    Nth,
    Len,
    Vset,
    Return,
    Number,
    Name,
    End,
}

/// The symbols of the nine names that mean themselves everywhere: those below all others.
pub mod nine {
    pub const TRUE: u16 = 0;
    pub const FALSE: u16 = 1;
    pub const NOT: u16 = 2;
    pub const EQ: u16 = 3;
    pub const LT: u16 = 4;
    pub const ADD: u16 = 5;
    pub const SUB: u16 = 6;
    pub const MUL: u16 = 7;
    pub const DIV: u16 = 8;
    pub const COUNT: u16 = 9;
}

#[derive(Clone, Copy, Debug)]
pub struct Word {
    pub kind: Kind,
    pub place: u16,
    /// A name's symbol, the same for equal names; of a number, where its value stands in [`Words::numbers`].
    pub info: u16,
}

/// So many names have room before the table of names grows.
const NAMES_AT_FIRST: usize = 64;

/// The words of a text, and an [`Kind::End`] behind them.
#[derive(Default)]
pub struct Words {
    pub words: Vec<Word>,
    pub numbers: Vec<i64>,
    /// How many symbols there are, the nine included.
    pub symbols: usize,
}

/// A key word, or one of the nine names; none where it is any other name.
fn known(word: &[u8]) -> Option<(Kind, u16)> {
    let kind = match word {
        b"CONST" => Kind::Const,
        b"FUN" => Kind::Fun,
        b"REC" => Kind::Rec,
        b"VAR" => Kind::Var,
        b"PROC" => Kind::Proc,
        b"ECHO" => Kind::Echo,
        b"SET" => Kind::Set,
        b"IF" => Kind::IfStatement,
        b"WHILE" => Kind::While,
        b"CALL" => Kind::Call,
        b"if" => Kind::If,
        b"and" => Kind::And,
        b"or" => Kind::Or,
        b"bool" => Kind::Bool,
        b"int" => Kind::Int,
        b"var" => Kind::VarParam,
        b"adr" => Kind::Adr,
        b"vec" => Kind::Vec,
        b"alloc" => Kind::Alloc,
        b"nth" => Kind::Nth,
        b"len" => Kind::Len,
        b"vset" => Kind::Vset,
        b"RETURN" => Kind::Return,
        b"true" => return Some((Kind::Name, nine::TRUE)),
        b"false" => return Some((Kind::Name, nine::FALSE)),
        b"not" => return Some((Kind::Name, nine::NOT)),
        b"eq" => return Some((Kind::Name, nine::EQ)),
        b"lt" => return Some((Kind::Name, nine::LT)),
        b"add" => return Some((Kind::Name, nine::ADD)),
        b"sub" => return Some((Kind::Name, nine::SUB)),
        b"mul" => return Some((Kind::Name, nine::MUL)),
        b"div" => return Some((Kind::Name, nine::DIV)),
        _ => return None,
    };
    Some((kind, 0))
}

/// The end of the longest stretch from `start` on of bytes that fit.
fn stretch(text: &[u8], start: usize, fits: impl Fn(&u8) -> bool) -> usize {
    text[start..].iter().position(|byte| !fits(byte)).map_or(text.len(), |count| start + count)
}

/// The value of digits, none outside the range. It is built up below 0, where the range is wider by one.
fn value(digits: &[u8], negative: bool) -> Option<i64> {
    let mut below = 0i64;
    for digit in digits {
        below = below.checked_mul(10)?.checked_sub(i64::from(digit - b'0'))?;
    }
    if negative {
        Some(below)
    } else {
        below.checked_neg()
    }
}

impl Words {
    pub fn read(&mut self, text: &[u8]) -> Result<(), Refusal> {
        self.words.clear();
        self.numbers.clear();
        let mut symbols: HashMap<&[u8], u16, Quick> = HashMap::with_capacity_and_hasher(NAMES_AT_FIRST, Quick::default());
        let mut start = 0;
        while start < text.len() {
            let refused = |code| Err(Refusal { code, place: start as u16 });
            let mut end = start + 1;
            let mut info = 0;
            let kind = match text[start] {
                b' ' | b'\t' | b'\n' | b'\r' => {
                    start = end;
                    continue;
                }
                b'[' => Kind::OpenSquare,
                b']' => Kind::CloseSquare,
                b'(' => Kind::Open,
                b')' => Kind::Close,
                b';' => Kind::Semicolon,
                b':' => Kind::Colon,
                b',' => Kind::Comma,
                b'*' => Kind::Star,
                b'-' if text.get(end) == Some(&b'>') => {
                    end += 1;
                    Kind::Arrow
                }
                first @ (b'-' | b'0'..=b'9') => {
                    let digits = start + usize::from(first == b'-');
                    end = stretch(text, digits, u8::is_ascii_digit);
                    if end == digits {
                        return refused(BYTE);
                    }
                    let Some(value) = value(&text[digits..end], first == b'-') else { return refused(NUMBER) };
                    info = self.numbers.len() as u16;
                    self.numbers.push(value);
                    Kind::Number
                }
                b'a'..=b'z' | b'A'..=b'Z' => {
                    end = stretch(text, end, u8::is_ascii_alphanumeric);
                    let name = &text[start..end];
                    let fresh = nine::COUNT + symbols.len() as u16;
                    let (kind, symbol) = known(name).unwrap_or_else(|| (Kind::Name, *symbols.entry(name).or_insert(fresh)));
                    info = symbol;
                    kind
                }
                _ => return refused(BYTE),
            };
            self.words.push(Word { kind, place: start as u16, info });
            start = end;
        }
        if let Some(word) = self.words.get(MOST_WORDS) {
            return Err(Refusal { code: TOKENS, place: word.place });
        }
        self.words.push(Word { kind: Kind::End, place: text.len() as u16, info: 0 });
        self.symbols = usize::from(nine::COUNT) + symbols.len();
        Ok(())
    }
}

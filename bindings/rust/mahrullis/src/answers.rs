use std::error::Error;
use std::fmt;

/// Why a text or a call was refused. The numbers are document 01's, and later ones may be added.
#[derive(Clone, Copy, Debug, PartialEq, Eq, Hash)]
#[non_exhaustive]
#[repr(u8)]
pub enum Code {
    /// The text is over 16,384 bytes.
    Length = 1,
    /// A limit is over its greatest value.
    Limit = 2,
    /// A lent table is too short. A [`Gate`](crate::Gate)'s never are.
    Table = 3,
    /// A byte that is in no word and separates none.
    Byte = 4,
    /// A written number is outside the range of `i64`.
    Number = 5,
    /// Over 4,096 words.
    Tokens = 6,
    /// The words so far begin no program.
    Syntax = 7,
    /// A 65th level opens.
    Level = 8,
    /// A rule of the types cannot be met.
    Type = 9,
    /// A parameter has the name of one before it in its list.
    Double = 10,
}

impl Code {
    /// Document 01's number.
    pub const fn number(self) -> u64 {
        self as u64
    }

    /// The code of a number, none where it is not 1 to 10.
    pub const fn from_number(number: u64) -> Option<Code> {
        Some(match number {
            1 => Code::Length,
            2 => Code::Limit,
            3 => Code::Table,
            4 => Code::Byte,
            5 => Code::Number,
            6 => Code::Tokens,
            7 => Code::Syntax,
            8 => Code::Level,
            9 => Code::Type,
            10 => Code::Double,
            _ => return None,
        })
    }
}

impl fmt::Display for Code {
    fn fmt(&self, f: &mut fmt::Formatter<'_>) -> fmt::Result {
        f.write_str(match self {
            Code::Length => "the text is longer than 16,384 bytes",
            Code::Limit => "a limit is beyond its greatest value",
            Code::Table => "a table is too short",
            Code::Byte => "this byte is part of no word",
            Code::Number => "this number is not between -9,223,372,036,854,775,808 and 9,223,372,036,854,775,807",
            Code::Tokens => "the text has more than 4,096 words, and this is the next",
            Code::Syntax => "no program goes on like this",
            Code::Level => "this opens a 65th level",
            Code::Type => "a rule of the types cannot be met here",
            Code::Double => "this parameter has the name of one before it in its list",
        })
    }
}

/// A refusal: nothing was run. Its words name the code's number and the place, as `refused 9 at 16: a rule of the types cannot be met here`.
#[derive(Clone, Copy, Debug, PartialEq, Eq, Hash)]
pub struct Refusal {
    /// Why.
    pub code: Code,
    /// The byte of the text at which it shows, its length where something is missing at the end, 0 for [`Code::Length`], [`Code::Limit`] and [`Code::Table`].
    pub place: usize,
}

impl fmt::Display for Refusal {
    fn fmt(&self, f: &mut fmt::Formatter<'_>) -> fmt::Result {
        write!(f, "refused {} at {}: {}", self.code.number(), self.place, self.code)
    }
}

impl Error for Refusal {}

/// Why a run ended before its end. The numbers are document 01's, and later ones may be added.
#[derive(Clone, Copy, Debug, PartialEq, Eq, Hash)]
#[non_exhaustive]
#[repr(u8)]
pub enum Stop {
    /// No unit was left for what was to be entered.
    Fuel = 20,
    /// Too many were entered and unended.
    Depth = 21,
    /// Fewer cells were left than a VAR or an alloc takes.
    Cells = 22,
    /// Fewer bindings were left than a definition or a call makes.
    Bindings = 23,
    /// As many numbers were out as may be.
    Output = 24,
    /// A result is outside the range of `i64`.
    Range = 25,
    /// A division by 0.
    Zero = 26,
    /// A variable or an element of a block was read before it was set.
    Unset = 27,
    /// A block's size is below 0.
    Size = 28,
    /// An index is below 0, or not below its block's length.
    Index = 29,
}

impl Stop {
    /// Document 01's number.
    pub const fn number(self) -> u64 {
        self as u64
    }

    /// The stop of a number, none where it is not 20 to 29.
    pub const fn from_number(number: u64) -> Option<Stop> {
        Some(match number {
            20 => Stop::Fuel,
            21 => Stop::Depth,
            22 => Stop::Cells,
            23 => Stop::Bindings,
            24 => Stop::Output,
            25 => Stop::Range,
            26 => Stop::Zero,
            27 => Stop::Unset,
            28 => Stop::Size,
            29 => Stop::Index,
            _ => return None,
        })
    }

    /// Whether a limit stopped the run, so that larger limits may end it otherwise. Any other end is the same under larger limits.
    pub const fn is_limit(self) -> bool {
        self.number() <= 24
    }
}

impl fmt::Display for Stop {
    fn fmt(&self, f: &mut fmt::Formatter<'_>) -> fmt::Result {
        f.write_str(match self {
            Stop::Fuel => "no unit of fuel is left",
            Stop::Depth => "this would go deeper than the limit",
            Stop::Cells => "too few cells are left for this variable or block",
            Stop::Bindings => "too few bindings are left for this definition or call",
            Stop::Output => "as many numbers are out as the limit lets",
            Stop::Range => "the result is not between -9,223,372,036,854,775,808 and 9,223,372,036,854,775,807",
            Stop::Zero => "this divides by 0",
            Stop::Unset => "this variable or element is read before it is set",
            Stop::Size => "this block's size is below 0",
            Stop::Index => "the block has no element with this index",
        })
    }
}

/// How a run ended.
#[derive(Clone, Copy, Debug, PartialEq, Eq, Hash)]
pub enum End {
    /// The program ran to its end.
    Done,
    /// The run was stopped; the numbers put out so far stand.
    Stopped {
        /// Why.
        stop: Stop,
        /// The byte of the text at which it shows.
        place: usize,
        /// With [`Stop::Unset`], the byte of the VAR or alloc that made the cell; else none.
        made: Option<usize>,
    },
}

impl fmt::Display for End {
    fn fmt(&self, f: &mut fmt::Formatter<'_>) -> fmt::Result {
        match self {
            End::Done => f.write_str("done"),
            End::Stopped { stop, place, made: None } => write!(f, "stopped {} at {place}: {stop}", stop.number()),
            End::Stopped { stop, place, made: Some(made) } => write!(f, "stopped {} at {place}: {stop}, made at {made}", stop.number()),
        }
    }
}

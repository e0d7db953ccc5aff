//! Evaluation: every entry takes a unit, and the levels left fall with each that has not ended.
//!
//! A value is one word without a tag, as its type is known: a number, 0 or 1 for a bool, a cell's index, a block of cells: its first and how many, or a closure: a
//! function and the frame around it. Cells hold no closures, so none outlives the statement that made it unless a definition binds it: a CALL gives its frames back
//! when it ends.

use crate::answers::{BINDINGS, CELLS, DEPTH, FUEL, INDEX, OUTPUT, RANGE, SIZE, UNSET, ZERO};
use crate::code::{Arguments, At, Block, Body, Code, Command, CommandKind, Expr, ExprId, ExprKind};
use crate::{Limits, Refusal, Report};

/// A run has stopped; where and why stands in the machine.
struct Stopped;

type Ran<T> = Result<T, Stopped>;

/// What commands returned, none where they ran to their end.
type Returned = Option<i64>;

/// The vectors that a run fills.
#[derive(Default)]
pub struct Room {
    /// All frames: of each the frame around it, then its slots.
    frames: Vec<i64>,
    /// Arguments that wait for their call.
    waiting: Vec<i64>,
    cells: Vec<Option<i64>>,
    /// The place of the VAR or alloc that made each cell.
    makers: Vec<u16>,
    pub output: Vec<i64>,
}

impl Room {
    pub fn clear(&mut self) {
        self.frames.clear();
        self.waiting.clear();
        self.cells.clear();
        self.makers.clear();
        self.output.clear();
    }
}

pub struct Machine<'a> {
    code: &'a Code,
    numbers: &'a [i64],
    limits: Limits,
    room: &'a mut Room,
    /// Units and bindings left.
    fuel: u32,
    bindings: u32,
    stop: Refusal,
    /// Where the cell was made that UNSET names.
    made: u16,
}

/// A closure's word has its frame in the lower half.
const FRAME_BITS: u32 = 32;
const FRAME_MASK: i64 = (1 << FRAME_BITS) - 1;

fn closure(function: u16, frame: usize) -> i64 {
    i64::from(function) << FRAME_BITS | frame as i64
}

/// A block's word has its length in the lower half.
const LENGTH_BITS: u32 = 32;
const LENGTH_MASK: i64 = (1 << LENGTH_BITS) - 1;

fn block_of_cells(first: usize, length: i64) -> i64 {
    (first as i64) << LENGTH_BITS | length
}

fn length_of(block: i64) -> i64 {
    block & LENGTH_MASK
}

/// The index of a slot: the word before the slots is the frame around.
fn slot_of(frame: usize, slot: u16) -> usize {
    frame + 1 + usize::from(slot)
}

/// The quotient rounded down, by a divisor that is not 0; none past the range.
fn quotient(a: i64, b: i64) -> Option<i64> {
    let toward_zero = a.checked_div(b)?;
    let above = a % b != 0 && (a < 0) != (b < 0);
    Some(toward_zero - i64::from(above))
}

impl<'a> Machine<'a> {
    /// Over a room that is clear, with limits that are admitted.
    pub fn new(code: &'a Code, numbers: &'a [i64], limits: Limits, room: &'a mut Room) -> Machine<'a> {
        let stop = Refusal { code: 0, place: 0 };
        Machine { code, numbers, limits, room, fuel: limits.fuel as u32, bindings: limits.bindings as u32, stop, made: 0 }
    }

    /// Runs the program's block, whose frame has so many slots.
    pub fn program(mut self, block: Block, slots: u16) -> Report {
        self.room.frames.resize(slot_of(0, slots), 0);
        // a stop is in the report
        let _ = self.block(block, 0, self.limits.depth as u32);
        Report {
            code: self.stop.code,
            place: self.stop.place,
            units: self.limits.fuel as u32 - self.fuel,
            bindings: self.limits.bindings as u32 - self.bindings,
            cells: self.room.cells.len() as u32,
            made: self.made,
        }
    }

    #[cold]
    fn stop<T>(&mut self, code: u8, place: u16) -> Ran<T> {
        self.stop = Refusal { code, place };
        Err(Stopped)
    }

    /// Takes a unit and a level, and answers the levels left below.
    #[inline(always)]
    fn enter(&mut self, depth: u32, place: u16) -> Ran<u32> {
        if self.fuel == 0 {
            return self.stop(FUEL, place);
        }
        self.fuel -= 1;
        if depth == 0 {
            return self.stop(DEPTH, place);
        }
        Ok(depth - 1)
    }

    fn take_bindings(&mut self, many: u32, place: u16) -> Ran<()> {
        if self.bindings < many {
            return self.stop(BINDINGS, place);
        }
        self.bindings -= many;
        Ok(())
    }

    // ---- names

    #[inline(always)]
    fn local(&self, frame: usize, slot: u16) -> i64 {
        self.room.frames[slot_of(frame, slot)]
    }

    fn outer(&self, mut frame: usize, at: At) -> i64 {
        for _ in 0..at.frames_out {
            frame = self.room.frames[frame] as usize;
        }
        self.local(frame, at.slot)
    }

    #[inline(always)]
    fn read(&mut self, cell: i64, place: u16) -> Ran<i64> {
        match self.room.cells[cell as usize] {
            Some(value) => Ok(value),
            None => {
                self.made = self.room.makers[cell as usize];
                self.stop(UNSET, place)
            }
        }
    }

    /// So many more cells, made at this place.
    fn take_cells(&mut self, many: usize, place: u16) {
        let all = self.room.cells.len() + many;
        self.room.cells.resize(all, None);
        self.room.makers.resize(all, place);
    }

    fn define(&mut self, frame: usize, slot: u16, value: i64, place: u16) -> Ran<()> {
        self.take_bindings(1, place)?;
        self.room.frames[slot_of(frame, slot)] = value;
        Ok(())
    }

    // ---- blocks of cells

    /// So many cells at once, or none.
    fn alloc(&mut self, size: i64, place: u16) -> Ran<i64> {
        if size < 0 {
            return self.stop(SIZE, place);
        }
        let first = self.room.cells.len();
        if size as u64 > self.limits.cells - first as u64 {
            return self.stop(CELLS, place);
        }
        self.take_cells(size as usize, place);
        Ok(block_of_cells(first, size))
    }

    /// The cell of an element.
    #[inline(always)]
    fn element(&mut self, block: i64, index: i64, place: u16) -> Ran<i64> {
        if !(0..length_of(block)).contains(&index) {
            return self.stop(INDEX, place);
        }
        Ok((block >> LENGTH_BITS) + index)
    }

    // ---- expressions

    #[inline(always)]
    fn two(&mut self, a: ExprId, b: ExprId, frame: usize, depth: u32) -> Ran<(i64, i64)> {
        let a = self.expr(a, frame, depth)?;
        Ok((a, self.expr(b, frame, depth)?))
    }

    #[inline(always)]
    fn in_range(&mut self, result: Option<i64>, place: u16) -> Ran<i64> {
        match result {
            Some(number) => Ok(number),
            None => self.stop(RANGE, place),
        }
    }

    fn expr(&mut self, e: ExprId, frame: usize, depth: u32) -> Ran<i64> {
        let Expr { place, kind } = self.code.exprs[usize::from(e)];
        let depth = self.enter(depth, place)?;
        match kind {
            ExprKind::Number(i) => Ok(self.numbers[usize::from(i)]),
            ExprKind::Truth(truth) => Ok(i64::from(truth)),
            ExprKind::Local(slot) => Ok(self.local(frame, slot)),
            ExprKind::Global(slot) => Ok(self.local(0, slot)),
            ExprKind::Outer(at) => Ok(self.outer(frame, at)),
            ExprKind::LocalCell(slot) => self.read(self.local(frame, slot), place),
            ExprKind::GlobalCell(slot) => self.read(self.local(0, slot), place),
            ExprKind::OuterCell(at) => self.read(self.outer(frame, at), place),
            ExprKind::If(a, b, c) => {
                let chosen = if self.expr(a, frame, depth)? != 0 { b } else { c };
                self.expr(chosen, frame, depth)
            }
            ExprKind::And(a, b) => match self.expr(a, frame, depth)? {
                0 => Ok(0),
                _ => self.expr(b, frame, depth),
            },
            ExprKind::Or(a, b) => match self.expr(a, frame, depth)? {
                0 => self.expr(b, frame, depth),
                _ => Ok(1),
            },
            ExprKind::Not(a) => Ok(1 - self.expr(a, frame, depth)?),
            ExprKind::Eq(a, b) => self.two(a, b, frame, depth).map(|(a, b)| i64::from(a == b)),
            ExprKind::Lt(a, b) => self.two(a, b, frame, depth).map(|(a, b)| i64::from(a < b)),
            ExprKind::Add(a, b) => {
                let (a, b) = self.two(a, b, frame, depth)?;
                self.in_range(a.checked_add(b), place)
            }
            ExprKind::Sub(a, b) => {
                let (a, b) = self.two(a, b, frame, depth)?;
                self.in_range(a.checked_sub(b), place)
            }
            ExprKind::Mul(a, b) => {
                let (a, b) = self.two(a, b, frame, depth)?;
                self.in_range(a.checked_mul(b), place)
            }
            ExprKind::Div(a, b) => match self.two(a, b, frame, depth)? {
                (_, 0) => self.stop(ZERO, place),
                (a, b) => self.in_range(quotient(a, b), place),
            },
            ExprKind::Apply(head, arguments) => {
                let head = self.expr(head, frame, depth)?;
                match self.call(head, arguments, place, frame, depth)? {
                    (inner, Body::Expr(body)) => self.expr(body, inner, depth),
                    (inner, Body::Block(body)) => Ok(self.block(body, inner, depth)?.expect("a function's block returns")),
                }
            }
            ExprKind::Closure(function) => Ok(closure(function, frame)),
            ExprKind::Alloc(a) => {
                let size = self.expr(a, frame, depth)?;
                self.alloc(size, place)
            }
            ExprKind::Nth(a, b) => {
                let (block, index) = self.two(a, b, frame, depth)?;
                let cell = self.element(block, index, place)?;
                self.read(cell, place)
            }
            ExprKind::Len(a) => self.expr(a, frame, depth).map(length_of),
            ExprKind::Vset(a, b, c) => {
                let (block, index) = self.two(a, b, frame, depth)?;
                let value = self.expr(c, frame, depth)?;
                let cell = self.element(block, index, place)?;
                self.room.cells[cell as usize] = Some(value);
                Ok(block)
            }
        }
    }

    /// The frame of a call, and the body that is to be run in it.
    fn call(&mut self, head: i64, arguments: Arguments, place: u16, frame: usize, depth: u32) -> Ran<(usize, Body)> {
        let mark = self.room.waiting.len();
        for i in arguments.from..arguments.to {
            let value = self.expr(self.code.arguments[usize::from(i)], frame, depth)?;
            self.room.waiting.push(value);
        }
        let function = self.code.functions[(head >> FRAME_BITS) as usize];
        self.take_bindings(u32::from(function.params) + u32::from(function.recursive), place)?;
        let Room { frames, waiting, .. } = &mut *self.room;
        let inner = frames.len();
        frames.push(head & FRAME_MASK);
        frames.extend_from_slice(&waiting[mark..]);
        waiting.truncate(mark);
        if function.recursive {
            frames.push(head);
        }
        frames.resize(slot_of(inner, function.slots), 0);
        Ok((inner, function.body))
    }

    // ---- commands

    fn block(&mut self, block: Block, frame: usize, depth: u32) -> Ran<Returned> {
        for i in block.from..block.to {
            let Command { place, kind } = self.code.commands[usize::from(i)];
            let returned = match kind {
                CommandKind::While(condition, body) => self.rounds(condition, body, place, frame, depth)?,
                _ => {
                    let depth = self.enter(depth, place)?;
                    self.command(kind, place, frame, depth)?
                }
            };
            if returned.is_some() {
                return Ok(returned);
            }
        }
        Ok(None)
    }

    /// A WHILE is entered anew for each round, and once to leave.
    fn rounds(&mut self, condition: ExprId, body: Block, place: u16, frame: usize, above: u32) -> Ran<Returned> {
        loop {
            let depth = self.enter(above, place)?;
            if self.expr(condition, frame, depth)? == 0 {
                return Ok(None);
            }
            let returned = self.block(body, frame, depth)?;
            if returned.is_some() {
                return Ok(returned);
            }
        }
    }

    /// Any command but a WHILE, once it is entered.
    #[inline(always)]
    fn command(&mut self, kind: CommandKind, place: u16, frame: usize, depth: u32) -> Ran<Returned> {
        match kind {
            CommandKind::If(e, yes, no) => {
                let chosen = if self.expr(e, frame, depth)? != 0 { yes } else { no };
                self.block(chosen, frame, depth)
            }
            CommandKind::Return(e) => self.expr(e, frame, depth).map(Some),
            _ => self.plain_command(kind, place, frame, depth).map(|()| None),
        }
    }

    /// One that returns nothing.
    #[inline(always)]
    fn plain_command(&mut self, kind: CommandKind, place: u16, frame: usize, depth: u32) -> Ran<()> {
        match kind {
            CommandKind::Const(slot, e) => {
                let value = self.expr(e, frame, depth)?;
                self.define(frame, slot, value, place)
            }
            CommandKind::Define(slot, function) => self.define(frame, slot, closure(function, frame), place),
            CommandKind::Var(slot) => {
                let cell = self.room.cells.len();
                if cell as u64 == self.limits.cells {
                    return self.stop(CELLS, place);
                }
                self.take_cells(1, place);
                self.define(frame, slot, cell as i64, place)
            }
            CommandKind::Echo(e) => {
                let value = self.expr(e, frame, depth)?;
                if self.room.output.len() as u64 == self.limits.output {
                    return self.stop(OUTPUT, place);
                }
                self.room.output.push(value);
                Ok(())
            }
            CommandKind::Set(at, e) => {
                let value = self.expr(e, frame, depth)?;
                let cell = self.outer(frame, at);
                self.room.cells[cell as usize] = Some(value);
                Ok(())
            }
            CommandKind::If(..) | CommandKind::While(..) | CommandKind::Return(..) => unreachable!("they may return"),
            CommandKind::Call(at, arguments) => {
                let frames = self.room.frames.len();
                let head = self.outer(frame, at);
                if let (inner, Body::Block(body)) = self.call(head, arguments, place, frame, depth)? {
                    self.block(body, inner, depth)?;
                }
                self.room.frames.truncate(frames);
                Ok(())
            }
        }
    }
}

//! What is run: the tree with every name replaced by where its value will stand.
//!
//! An activation of a function or procedure is a frame: the index of the frame around its definition, then a slot for each parameter, for its own name if it is
//! recursive, and for each definition of its blocks. The program's own block has the frame at index 0.

/// An index in [`Code::exprs`].
pub type ExprId = u16;

/// Where a value stands: so many frames out, and the slot there.
#[derive(Clone, Copy)]
pub struct At {
    pub frames_out: u16,
    pub slot: u16,
}

/// Arguments: a part of [`Code::arguments`].
#[derive(Clone, Copy)]
pub struct Arguments {
    pub from: u16,
    pub to: u16,
}

#[derive(Clone, Copy)]
pub enum ExprKind {
    /// Where the value stands among the text's numbers.
    Number(u16),
    Truth(bool),
    /// A value in the present frame, in the program's, or in one between.
    Local(u16),
    Global(u16),
    Outer(At),
    /// The same of a variable: the cell that stands there is read.
    LocalCell(u16),
    GlobalCell(u16),
    OuterCell(At),
    If(ExprId, ExprId, ExprId),
    And(ExprId, ExprId),
    Or(ExprId, ExprId),
    Not(ExprId),
    Eq(ExprId, ExprId),
    Lt(ExprId, ExprId),
    Add(ExprId, ExprId),
    Sub(ExprId, ExprId),
    Mul(ExprId, ExprId),
    Div(ExprId, ExprId),
    Apply(ExprId, Arguments),
    /// An abstraction: an index in [`Code::functions`].
    Closure(u16),
    Alloc(ExprId),
    Nth(ExprId, ExprId),
    Len(ExprId),
    Vset(ExprId, ExprId, ExprId),
}

#[derive(Clone, Copy)]
pub struct Expr {
    pub place: u16,
    pub kind: ExprKind,
}

/// A part of [`Code::commands`].
#[derive(Clone, Copy)]
pub struct Block {
    pub from: u16,
    pub to: u16,
}

#[derive(Clone, Copy)]
pub enum Body {
    Expr(ExprId),
    Block(Block),
}

#[derive(Clone, Copy)]
pub struct Function {
    pub params: u16,
    pub recursive: bool,
    /// Slots of its frame.
    pub slots: u16,
    pub body: Body,
}

/// A definition has the slot that it fills.
#[derive(Clone, Copy)]
pub enum CommandKind {
    Const(u16, ExprId),
    /// An index in [`Code::functions`].
    Define(u16, u16),
    Var(u16),
    Echo(ExprId),
    Set(At, ExprId),
    If(ExprId, Block, Block),
    While(ExprId, Block),
    Call(At, Arguments),
    Return(ExprId),
}

#[derive(Clone, Copy)]
pub struct Command {
    pub place: u16,
    pub kind: CommandKind,
}

#[derive(Default)]
pub struct Code {
    pub exprs: Vec<Expr>,
    pub arguments: Vec<ExprId>,
    pub functions: Vec<Function>,
    pub commands: Vec<Command>,
}

impl Code {
    pub fn clear(&mut self) {
        self.exprs.clear();
        self.arguments.clear();
        self.functions.clear();
        self.commands.clear();
    }
}

//! The tree, a node an entry, in text order.

/// Document 01's kinds of nodes, by its numbers.
#[derive(Clone, Copy, Debug, PartialEq, Eq)]
#[repr(u8)]
pub enum Kind {
    Block = 1,
    Const,
    Fun,
    FunRec,
    Var,
    Proc,
    ProcRec,
    Echo,
    Set,
    IfStatement,
    While,
    Call,
    Param,
    VarParam,
    Bool,
    Int,
    Function,
    Number,
    Name,
    If,
    And,
    Or,
    Application,
    Abstraction,
    Adr,
    Vec,
    Alloc,
    Nth,
    Len,
    Vset,
    Return,
    /// FUN and FUN REC whose body is a block.
    FunBlock,
    FunRecBlock,
}

/// A node; as child or sibling 0 means none, for node 0 is nobody's.
#[derive(Clone, Copy, Debug)]
pub struct Node {
    pub kind: Kind,
    pub place: u16,
    pub child: u16,
    pub next: u16,
    /// A name's or a parameter's symbol; of a number, where its value stands.
    pub info: u16,
}

impl Node {
    /// Document 01's word of it: kind, place, child and sibling, 16 bits each, most significant first.
    pub fn word(&self) -> u64 {
        (self.kind as u64) << 48 | u64::from(self.place) << 32 | u64::from(self.child) << 16 | u64::from(self.next)
    }
}

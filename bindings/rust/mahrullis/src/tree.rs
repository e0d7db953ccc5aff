use std::fmt;
use std::iter::FusedIterator;

/// What a node is. The numbers are document 01's, and later ones may be added.
#[derive(Clone, Copy, Debug, PartialEq, Eq, Hash)]
#[non_exhaustive]
#[repr(u8)]
pub enum Kind {
    /// `[` commands `]`
    Block = 1,
    /// `CONST`
    Const = 2,
    /// `FUN` whose body is an expression
    Fun = 3,
    /// `FUN REC` whose body is an expression
    FunRec = 4,
    /// `VAR`
    Var = 5,
    /// `PROC`
    Proc = 6,
    /// `PROC REC`
    ProcRec = 7,
    /// `ECHO`
    Echo = 8,
    /// `SET`
    Set = 9,
    /// `IF`, the statement
    IfStatement = 10,
    /// `WHILE`
    While = 11,
    /// `CALL`
    Call = 12,
    /// a parameter; its place is its name's, its only child its type
    Parameter = 13,
    /// a `var` parameter; its place is its name's, its only child its type
    VarParameter = 14,
    /// the type `bool`
    Bool = 15,
    /// the type `int`
    Int = 16,
    /// a function type
    FunctionType = 17,
    /// a number
    Number = 18,
    /// a name
    Name = 19,
    /// `if`, the expression
    IfExpression = 20,
    /// `and`
    And = 21,
    /// `or`
    Or = 22,
    /// a function or an operator applied to its arguments
    Application = 23,
    /// `[` parameters `]` body
    Abstraction = 24,
    /// `(adr x)`
    Adr = 25,
    /// `(vec T)`, the type of blocks of cells
    Vec = 26,
    /// `(alloc T n)`
    Alloc = 27,
    /// `(nth b i)`
    Nth = 28,
    /// `(len b)`
    Len = 29,
    /// `(vset b i e)`
    Vset = 30,
    /// `RETURN`
    Return = 31,
    /// `FUN` whose body is a block
    FunBlock = 32,
    /// `FUN REC` whose body is a block
    FunRecBlock = 33,
}

const KINDS: [Kind; 33] = [
    Kind::Block,
    Kind::Const,
    Kind::Fun,
    Kind::FunRec,
    Kind::Var,
    Kind::Proc,
    Kind::ProcRec,
    Kind::Echo,
    Kind::Set,
    Kind::IfStatement,
    Kind::While,
    Kind::Call,
    Kind::Parameter,
    Kind::VarParameter,
    Kind::Bool,
    Kind::Int,
    Kind::FunctionType,
    Kind::Number,
    Kind::Name,
    Kind::IfExpression,
    Kind::And,
    Kind::Or,
    Kind::Application,
    Kind::Abstraction,
    Kind::Adr,
    Kind::Vec,
    Kind::Alloc,
    Kind::Nth,
    Kind::Len,
    Kind::Vset,
    Kind::Return,
    Kind::FunBlock,
    Kind::FunRecBlock,
];

impl Kind {
    /// Document 01's number.
    pub const fn number(self) -> u64 {
        self as u64
    }

    /// The kind of a number, none where it is not 1 to 33.
    pub fn from_number(number: u64) -> Option<Kind> {
        let before = usize::try_from(number).ok()?.checked_sub(1)?;
        KINDS.get(before).copied()
    }
}

/// The tree of an accepted text: its nodes in text order, the root first. It borrows the gate that made it.
#[derive(Clone, Copy, PartialEq, Eq)]
pub struct Tree<'a> {
    words: &'a [u64],
}

impl<'a> Tree<'a> {
    /// The tree in a tree table: its words up to the first that is 0.
    pub(crate) fn in_table(table: &'a [u64]) -> Tree<'a> {
        let end = table.iter().position(|word| *word == 0).unwrap_or(table.len());
        Tree { words: &table[..end] }
    }

    /// The program's block, node 0.
    pub fn root(self) -> Node<'a> {
        Node { tree: self, number: 0 }
    }

    /// A node by its number, none past the last.
    pub fn node(self, number: usize) -> Option<Node<'a>> {
        (number < self.words.len()).then_some(Node { tree: self, number })
    }

    /// Every node, in text order.
    pub fn nodes(self) -> Nodes<'a> {
        Nodes { tree: self, next: 0 }
    }

    /// The nodes' words, as document 01 lays them out.
    pub fn words(self) -> &'a [u64] {
        self.words
    }
}

impl fmt::Debug for Tree<'_> {
    fn fmt(&self, f: &mut fmt::Formatter<'_>) -> fmt::Result {
        f.debug_list().entries(self.nodes()).finish()
    }
}

impl<'a> IntoIterator for Tree<'a> {
    type Item = Node<'a>;
    type IntoIter = Nodes<'a>;

    fn into_iter(self) -> Nodes<'a> {
        self.nodes()
    }
}

/// A node of a tree.
#[derive(Clone, Copy, PartialEq, Eq)]
pub struct Node<'a> {
    tree: Tree<'a>,
    number: usize,
}

impl<'a> Node<'a> {
    /// The node's word: kind, place, first child and next sibling, 16 bits each, the kind most significant.
    pub fn word(self) -> u64 {
        self.tree.words[self.number]
    }

    /// Where the node stands in text order, the root being 0.
    pub fn number(self) -> usize {
        self.number
    }

    /// What it is.
    pub fn kind(self) -> Kind {
        Kind::from_number(self.word() >> 48).expect("a tree's kinds are 1 to 33")
    }

    /// The byte of the text at which it starts; a parameter's is its name's.
    pub fn place(self) -> usize {
        (self.word() >> 32 & 0xffff) as usize
    }

    /// Its first child, if it has any.
    pub fn first_child(self) -> Option<Node<'a>> {
        self.follow(self.word() >> 16)
    }

    /// Its parent's next child, if there is one.
    pub fn next_sibling(self) -> Option<Node<'a>> {
        self.follow(self.word())
    }

    /// Its children, in the grammar's order.
    pub fn children(self) -> Children<'a> {
        Children { next: self.first_child() }
    }

    /// The name that it stands for in its text: empty but for names and parameters, and where the text is another than the tree's.
    pub fn name(self, text: &[u8]) -> &[u8] {
        match self.kind() {
            Kind::Name | Kind::Parameter | Kind::VarParameter => crate::name_at(text, self.place()),
            _ => &[],
        }
    }

    /// The node that a word's low 16 bits name: 0 is none.
    fn follow(self, word: u64) -> Option<Node<'a>> {
        match (word & 0xffff) as usize {
            0 => None,
            number => self.tree.node(number),
        }
    }
}

impl fmt::Debug for Node<'_> {
    fn fmt(&self, f: &mut fmt::Formatter<'_>) -> fmt::Result {
        write!(f, "{} {:?} at {}", self.number, self.kind(), self.place())
    }
}

/// The nodes of a tree, in text order.
#[derive(Clone, Debug)]
pub struct Nodes<'a> {
    tree: Tree<'a>,
    next: usize,
}

impl<'a> Iterator for Nodes<'a> {
    type Item = Node<'a>;

    fn next(&mut self) -> Option<Node<'a>> {
        let node = self.tree.node(self.next)?;
        self.next += 1;
        Some(node)
    }

    fn size_hint(&self) -> (usize, Option<usize>) {
        let left = self.tree.words.len() - self.next;
        (left, Some(left))
    }
}

impl ExactSizeIterator for Nodes<'_> {}
impl FusedIterator for Nodes<'_> {}

/// The children of a node, in the grammar's order.
#[derive(Clone, Debug)]
pub struct Children<'a> {
    next: Option<Node<'a>>,
}

impl<'a> Iterator for Children<'a> {
    type Item = Node<'a>;

    fn next(&mut self) -> Option<Node<'a>> {
        let node = self.next?;
        self.next = node.next_sibling();
        Some(node)
    }
}

impl FusedIterator for Children<'_> {}

//! From words to the tree: a function for each part of the grammar.

use crate::answers::{LEVEL, SYNTAX};
use crate::nodes::{self, Node};
use crate::words::{Kind, Word};
use crate::{Refusal, MOST_LEVELS};

type Read<T> = Result<T, Refusal>;

pub struct Parser<'a> {
    words: &'a [Word],
    nodes: &'a mut Vec<Node>,
    at: usize,
    level: u32,
}

/// Links nodes as siblings, the first as its parent's child.
struct Row {
    parent: usize,
    last: usize,
}

impl Row {
    fn of(parent: usize) -> Row {
        Row { parent, last: 0 }
    }
}

impl<'a> Parser<'a> {
    /// Words that end with [`Kind::End`], which no rule steps over.
    pub fn new(words: &'a [Word], nodes: &'a mut Vec<Node>) -> Parser<'a> {
        nodes.clear();
        Parser { words, nodes, at: 0, level: 0 }
    }

    pub fn program(&mut self) -> Read<()> {
        self.block()?;
        self.take(Kind::End)
    }

    fn peek(&self) -> Kind {
        self.words[self.at].kind
    }

    fn refuse<T>(&self, code: u8) -> Read<T> {
        Err(Refusal { code, place: self.words[self.at].place })
    }

    fn take(&mut self, kind: Kind) -> Read<()> {
        if self.peek() != kind {
            return self.refuse(SYNTAX);
        }
        self.at += 1;
        Ok(())
    }

    /// Steps over a word of this kind, where it is one.
    fn took(&mut self, kind: Kind) -> bool {
        if self.peek() != kind {
            return false;
        }
        self.at += 1;
        true
    }

    /// Steps over what opens a level.
    fn open(&mut self, kind: Kind) -> Read<()> {
        if self.peek() == kind && self.level == MOST_LEVELS {
            return self.refuse(LEVEL);
        }
        self.take(kind)?;
        self.level += 1;
        Ok(())
    }

    /// Steps over what closes a level.
    fn close(&mut self, kind: Kind) -> Read<()> {
        self.take(kind)?;
        self.level -= 1;
        Ok(())
    }

    /// A node whose first word is this one.
    fn node(&mut self, kind: nodes::Kind, word: usize) -> usize {
        let Word { place, info, .. } = self.words[word];
        self.nodes.push(Node { kind, place, child: 0, next: 0, info });
        self.nodes.len() - 1
    }

    fn link(&mut self, row: &mut Row, node: usize) {
        if row.last == 0 {
            self.nodes[row.parent].child = node as u16;
        } else {
            self.nodes[row.last].next = node as u16;
        }
        row.last = node;
    }

    fn name(&mut self) -> Read<usize> {
        self.take(Kind::Name)?;
        Ok(self.node(nodes::Kind::Name, self.at - 1))
    }

    fn block(&mut self) -> Read<usize> {
        let first = self.at;
        self.open(Kind::OpenSquare)?;
        let parent = self.node(nodes::Kind::Block, first);
        let mut row = Row::of(parent);
        loop {
            match self.peek() {
                Kind::Const | Kind::Fun | Kind::Var | Kind::Proc => {
                    let definition = self.definition()?;
                    self.link(&mut row, definition);
                    self.take(Kind::Semicolon)?;
                }
                Kind::Echo | Kind::Set | Kind::IfStatement | Kind::While | Kind::Call => {
                    let statement = self.statement()?;
                    self.link(&mut row, statement);
                    if !self.took(Kind::Semicolon) {
                        self.close(Kind::CloseSquare)?;
                        return Ok(parent);
                    }
                }
                Kind::Return => {
                    let last = self.returned()?;
                    self.link(&mut row, last);
                    self.close(Kind::CloseSquare)?;
                    return Ok(parent);
                }
                _ => return self.refuse(SYNTAX),
            }
        }
    }

    fn returned(&mut self) -> Read<usize> {
        let parent = self.node(nodes::Kind::Return, self.at);
        self.at += 1;
        let value = self.expr()?;
        self.nodes[parent].child = value as u16;
        Ok(parent)
    }

    /// Whether a function's body is a block: an abstraction has a name behind its `[`.
    fn starts_block(&self) -> bool {
        let commands = |kind| {
            use Kind::{Call, Const, Echo, Fun, IfStatement, Proc, Return, Set, Var, While};
            matches!(kind, Const | Fun | Var | Proc | Echo | Set | IfStatement | While | Call | Return)
        };
        self.peek() == Kind::OpenSquare && commands(self.words[self.at + 1].kind)
    }

    fn definition(&mut self) -> Read<usize> {
        let first = self.at;
        let word = self.peek();
        self.at += 1;
        let kind = match word {
            Kind::Const => nodes::Kind::Const,
            Kind::Var => nodes::Kind::Var,
            Kind::Fun if self.took(Kind::Rec) => nodes::Kind::FunRec,
            Kind::Fun => nodes::Kind::Fun,
            _ if self.took(Kind::Rec) => nodes::Kind::ProcRec,
            _ => nodes::Kind::Proc,
        };
        let parent = self.node(kind, first);
        let mut row = Row::of(parent);
        let name = self.name()?;
        self.link(&mut row, name);
        if word != Kind::Proc {
            let written = self.written_type()?;
            self.link(&mut row, written);
        }
        let body = match word {
            Kind::Var => return Ok(parent),
            Kind::Const => self.expr()?,
            _ => {
                self.take(Kind::OpenSquare)?;
                self.params(&mut row, word == Kind::Proc)?;
                if word == Kind::Fun && !self.starts_block() {
                    self.expr()?
                } else {
                    self.nodes[parent].kind = match kind {
                        nodes::Kind::Fun => nodes::Kind::FunBlock,
                        nodes::Kind::FunRec => nodes::Kind::FunRecBlock,
                        _ => kind,
                    };
                    self.block()?
                }
            }
        };
        self.link(&mut row, body);
        Ok(parent)
    }

    /// Parameters and the `]` behind them; only a procedure's may be passed by address.
    fn params(&mut self, row: &mut Row, of_procedure: bool) -> Read<()> {
        loop {
            let kind = if of_procedure && self.took(Kind::VarParam) { nodes::Kind::VarParam } else { nodes::Kind::Param };
            self.take(Kind::Name)?;
            let param = self.node(kind, self.at - 1);
            self.link(row, param);
            self.take(Kind::Colon)?;
            let written = self.written_type()?;
            self.nodes[param].child = written as u16;
            if !self.took(Kind::Comma) {
                return self.take(Kind::CloseSquare);
            }
        }
    }

    fn written_type(&mut self) -> Read<usize> {
        let first = self.at;
        if self.took(Kind::Bool) {
            return Ok(self.node(nodes::Kind::Bool, first));
        }
        if self.took(Kind::Int) {
            return Ok(self.node(nodes::Kind::Int, first));
        }
        self.open(Kind::Open)?;
        if self.took(Kind::Vec) {
            return self.block_type(first);
        }
        let parent = self.node(nodes::Kind::Function, first);
        let mut row = Row::of(parent);
        loop {
            let part = self.written_type()?;
            self.link(&mut row, part);
            if !self.took(Kind::Star) {
                break;
            }
        }
        self.take(Kind::Arrow)?;
        let result = self.written_type()?;
        self.link(&mut row, result);
        self.close(Kind::Close)?;
        Ok(parent)
    }

    /// The type of a block, behind its key word.
    fn block_type(&mut self, first: usize) -> Read<usize> {
        let parent = self.node(nodes::Kind::Vec, first);
        let element = self.written_type()?;
        self.nodes[parent].child = element as u16;
        self.close(Kind::Close)?;
        Ok(parent)
    }

    fn statement(&mut self) -> Read<usize> {
        let first = self.at;
        let word = self.peek();
        self.at += 1;
        let (kind, blocks) = match word {
            Kind::Echo => (nodes::Kind::Echo, 0),
            Kind::Set => (nodes::Kind::Set, 0),
            Kind::IfStatement => (nodes::Kind::IfStatement, 2),
            Kind::While => (nodes::Kind::While, 1),
            _ => return self.call(first),
        };
        let parent = self.node(kind, first);
        let mut row = Row::of(parent);
        if word == Kind::Set {
            let name = self.name()?;
            self.link(&mut row, name);
        }
        let expr = self.expr()?;
        self.link(&mut row, expr);
        for _ in 0..blocks {
            let block = self.block()?;
            self.link(&mut row, block);
        }
        Ok(parent)
    }

    /// A CALL, behind its key word.
    fn call(&mut self, first: usize) -> Read<usize> {
        let parent = self.node(nodes::Kind::Call, first);
        let mut row = Row::of(parent);
        let name = self.name()?;
        self.link(&mut row, name);
        loop {
            let argument = self.argument()?;
            self.link(&mut row, argument);
            if !self.starts_expr() {
                return Ok(parent);
            }
        }
    }

    fn starts_expr(&self) -> bool {
        matches!(self.peek(), Kind::Number | Kind::Name | Kind::Open | Kind::OpenSquare)
    }

    fn argument(&mut self) -> Read<usize> {
        let first = self.at;
        if self.peek() != Kind::Open || self.words[first + 1].kind != Kind::Adr {
            return self.expr();
        }
        self.open(Kind::Open)?;
        self.take(Kind::Adr)?;
        let parent = self.node(nodes::Kind::Adr, first);
        let name = self.name()?;
        self.nodes[parent].child = name as u16;
        self.close(Kind::Close)?;
        Ok(parent)
    }

    fn expr(&mut self) -> Read<usize> {
        let first = self.at;
        match self.peek() {
            Kind::Number => {
                self.at += 1;
                Ok(self.node(nodes::Kind::Number, first))
            }
            Kind::Name => self.name(),
            Kind::OpenSquare => self.abstraction(),
            Kind::Open => self.parenthesised(),
            _ => self.refuse(SYNTAX),
        }
    }

    /// An abstraction: its level closes where its body ends.
    fn abstraction(&mut self) -> Read<usize> {
        let first = self.at;
        self.open(Kind::OpenSquare)?;
        let parent = self.node(nodes::Kind::Abstraction, first);
        let mut row = Row::of(parent);
        self.params(&mut row, false)?;
        let body = self.expr()?;
        self.link(&mut row, body);
        self.level -= 1;
        Ok(parent)
    }

    fn parenthesised(&mut self) -> Read<usize> {
        let first = self.at;
        self.open(Kind::Open)?;
        let (kind, parts) = match self.peek() {
            Kind::If => (nodes::Kind::If, Some(3)),
            Kind::And => (nodes::Kind::And, Some(2)),
            Kind::Or => (nodes::Kind::Or, Some(2)),
            Kind::Alloc => (nodes::Kind::Alloc, Some(1)),
            Kind::Nth => (nodes::Kind::Nth, Some(2)),
            Kind::Len => (nodes::Kind::Len, Some(1)),
            Kind::Vset => (nodes::Kind::Vset, Some(3)),
            _ => (nodes::Kind::Application, None),
        };
        let parent = self.node(kind, first);
        let mut row = Row::of(parent);
        self.at += usize::from(parts.is_some());
        if kind == nodes::Kind::Alloc {
            let element = self.written_type()?;
            self.link(&mut row, element);
        }
        // a head and one argument at least
        for _ in 0..parts.unwrap_or(2) {
            let part = self.expr()?;
            self.link(&mut row, part);
        }
        while parts.is_none() && self.starts_expr() {
            let argument = self.expr()?;
            self.link(&mut row, argument);
        }
        self.close(Kind::Close)?;
        Ok(parent)
    }
}

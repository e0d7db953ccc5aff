//! Types judged and names resolved, in one pass over the tree: nodes are judged in the order in which they end.

use crate::answers::{DOUBLE, TYPE};
use crate::code::{Arguments, At, Block, Body, Code, Command, CommandKind, Expr, ExprId, ExprKind, Function};
use crate::nodes::{Kind, Node};
use crate::types::{block_of, element_of, is_element, is_plain, Type, Types, BOOL, BY_ADDRESS, INT};
use crate::words::nine;
use crate::Refusal;

type Judged<T> = Result<T, Refusal>;

#[derive(Clone, Copy)]
enum Binds {
    Value(Type),
    Cell(Type),
    /// A procedure: its parameters' types are this part of [`Scratch::procedures`].
    Procedure(u32, u32),
}

#[derive(Clone, Copy)]
struct Binder {
    symbol: u16,
    /// The binder of the same name that it hides.
    hidden: Option<u16>,
    /// How many functions and procedures it stands in.
    level: u16,
    slot: u16,
    binds: Binds,
}

/// What commands return: nothing, a value of this type or nothing, or always one.
#[derive(Clone, Copy, PartialEq, Eq)]
enum Flow {
    Never,
    May(Type),
    Always(Type),
}

impl Flow {
    /// The type of what is returned, if anything is.
    fn returns(self) -> Option<Type> {
        match self {
            Flow::Never => None,
            Flow::May(t) | Flow::Always(t) => Some(t),
        }
    }

    /// Where it may happen and may not.
    fn perhaps(self) -> Flow {
        self.returns().map_or(Flow::Never, Flow::May)
    }

    /// Of an IF's two blocks; none where they return two types.
    fn either(self, other: Flow) -> Option<Flow> {
        match (self.returns(), other.returns()) {
            _ if self == other => Some(self),
            (Some(a), Some(b)) if a != b => None,
            (Some(t), _) | (_, Some(t)) => Some(Flow::May(t)),
            _ => Some(Flow::Never),
        }
    }
}

/// What is kept while a text is judged.
#[derive(Default)]
pub struct Scratch {
    /// The innermost binder in force of each symbol, an index in `binders`.
    in_force: Vec<Option<u16>>,
    binders: Vec<Binder>,
    procedures: Vec<Type>,
    /// Commands of blocks that have not ended.
    commands: Vec<Command>,
    /// Parts of types, and arguments, of lists that have not ended.
    parts: Vec<Type>,
    arguments: Vec<ExprId>,
}

/// The function or procedure that is judged: how many stand around it, its next free slot, and how many slots its frame needs.
#[derive(Clone, Copy, Default)]
struct Place {
    level: u16,
    slot: u16,
    slots: u16,
}

pub struct Checker<'a> {
    nodes: &'a [Node],
    types: &'a mut Types,
    scratch: &'a mut Scratch,
    code: &'a mut Code,
    place: Place,
}

fn refuse<T>(code: u8, node: Node) -> Judged<T> {
    Err(Refusal { code, place: node.place })
}

/// The rule of a node: TYPE there where it is not met.
fn must(met: bool, node: Node) -> Judged<()> {
    if met {
        Ok(())
    } else {
        refuse(TYPE, node)
    }
}

/// Whether a symbol may be bound.
fn is_free(symbol: u16) -> bool {
    symbol >= nine::COUNT
}

impl<'a> Checker<'a> {
    pub fn new(nodes: &'a [Node], symbols: usize, types: &'a mut Types, scratch: &'a mut Scratch, code: &'a mut Code) -> Checker<'a> {
        types.clear();
        code.clear();
        scratch.in_force.clear();
        scratch.in_force.resize(symbols, None);
        scratch.binders.clear();
        scratch.procedures.clear();
        scratch.commands.clear();
        scratch.parts.clear();
        scratch.arguments.clear();
        Checker { nodes, types, scratch, code, place: Place::default() }
    }

    /// The program's block, and how many slots its frame has.
    pub fn program(&mut self) -> Judged<(Block, u16)> {
        let (block, flow) = self.block(0)?;
        must(flow == Flow::Never, self.node(0))?;
        Ok((block, self.place.slots))
    }

    fn node(&self, i: u16) -> Node {
        self.nodes[usize::from(i)]
    }

    // ---- names in force

    fn bind(&mut self, symbol: u16, binds: Binds) -> u16 {
        let Place { level, slot, slots } = self.place;
        self.place.slot += 1;
        self.place.slots = slots.max(self.place.slot);
        let fresh = self.scratch.binders.len() as u16;
        let hidden = self.scratch.in_force[usize::from(symbol)].replace(fresh);
        self.scratch.binders.push(Binder { symbol, hidden, level, slot, binds });
        slot
    }

    /// Ends every binder from this one on.
    fn unbind(&mut self, from: usize) {
        for binder in self.scratch.binders.drain(from..).rev() {
            self.scratch.in_force[usize::from(binder.symbol)] = binder.hidden;
        }
    }

    fn find(&self, symbol: u16) -> Option<Binder> {
        self.scratch.in_force[usize::from(symbol)].map(|binder| self.scratch.binders[usize::from(binder)])
    }

    /// The variable of that name, and its type.
    fn variable(&self, symbol: u16) -> Option<(Binder, Type)> {
        match self.find(symbol)? {
            binder @ Binder { binds: Binds::Cell(t), .. } => Some((binder, t)),
            _ => None,
        }
    }

    fn at(&self, binder: Binder) -> At {
        At { frames_out: self.place.level - binder.level, slot: binder.slot }
    }

    fn value_at(&self, binder: Binder) -> ExprKind {
        let at = self.at(binder);
        match (at.frames_out, binder.level) {
            (0, _) => ExprKind::Local(at.slot),
            (_, 0) => ExprKind::Global(at.slot),
            _ => ExprKind::Outer(at),
        }
    }

    fn cell_at(&self, binder: Binder) -> ExprKind {
        match self.value_at(binder) {
            ExprKind::Local(slot) => ExprKind::LocalCell(slot),
            ExprKind::Global(slot) => ExprKind::GlobalCell(slot),
            _ => ExprKind::OuterCell(self.at(binder)),
        }
    }

    // ---- types

    fn written_type(&mut self, i: u16) -> Judged<Type> {
        let node = self.node(i);
        match node.kind {
            Kind::Bool => Ok(BOOL),
            Kind::Int => Ok(INT),
            Kind::Vec => {
                let element = self.written_type(node.child)?;
                must(is_element(element), node)?;
                Ok(block_of(element))
            }
            _ => {
                let mark = self.scratch.parts.len();
                let mut part = node.child;
                while part != 0 {
                    let t = self.written_type(part)?;
                    self.scratch.parts.push(t);
                    part = self.node(part).next;
                }
                Ok(self.function_type(mark))
            }
        }
    }

    /// The function type whose parts are those from `mark` on, which are taken.
    fn function_type(&mut self, mark: usize) -> Type {
        let t = self.types.function(&self.scratch.parts[mark..]);
        self.scratch.parts.truncate(mark);
        t
    }

    // ---- commands

    fn block(&mut self, i: u16) -> Judged<(Block, Flow)> {
        let (binders, commands, slot) = (self.scratch.binders.len(), self.scratch.commands.len(), self.place.slot);
        let mut next = self.node(i).child;
        // of the command before, and whether all that may return go together so far
        let (mut flow, mut may, mut agree) = (Flow::Never, None, true);
        while next != 0 {
            let node = self.node(next);
            let (kind, own) = self.command(node)?;
            // one that always returns stands last
            must(node.next == 0 || !matches!(own, Flow::Always(_)), node)?;
            flow = own;
            if let Some(t) = own.returns() {
                agree &= !may.replace(t).is_some_and(|before| before != t);
            }
            self.scratch.commands.push(Command { place: node.place, kind });
            next = node.next;
        }
        // behind one that may return, the last returns too
        must(agree && may == flow.returns(), self.node(i))?;
        let from = self.code.commands.len() as u16;
        self.code.commands.extend(self.scratch.commands.drain(commands..));
        self.unbind(binders);
        self.place.slot = slot;
        Ok((Block { from, to: self.code.commands.len() as u16 }, flow))
    }

    fn command(&mut self, node: Node) -> Judged<(CommandKind, Flow)> {
        let first = self.node(node.child);
        match node.kind {
            Kind::IfStatement => {
                let (e, t) = self.expr(node.child)?;
                let (yes, left) = self.block(first.next)?;
                let (no, right) = self.block(self.node(first.next).next)?;
                match left.either(right) {
                    Some(flow) if t == BOOL => Ok((CommandKind::If(e, yes, no), flow)),
                    _ => refuse(TYPE, node),
                }
            }
            Kind::While => {
                let (e, t) = self.expr(node.child)?;
                let (body, flow) = self.block(first.next)?;
                must(t == BOOL, node)?;
                Ok((CommandKind::While(e, body), flow.perhaps()))
            }
            Kind::Return => {
                let (e, t) = self.expr(node.child)?;
                Ok((CommandKind::Return(e), Flow::Always(t)))
            }
            _ => Ok((self.plain_command(node, first)?, Flow::Never)),
        }
    }

    /// A command that returns nothing.
    fn plain_command(&mut self, node: Node, first: Node) -> Judged<CommandKind> {
        match node.kind {
            Kind::Const => {
                let written = self.written_type(first.next)?;
                let (e, t) = self.expr(self.node(first.next).next)?;
                must(is_free(first.info) && t == written, node)?;
                Ok(CommandKind::Const(self.bind(first.info, Binds::Value(t)), e))
            }
            Kind::Fun | Kind::FunRec | Kind::FunBlock | Kind::FunRecBlock => self.function(node, first),
            Kind::Var => {
                let t = self.written_type(first.next)?;
                must(is_free(first.info) && is_plain(t), node)?;
                Ok(CommandKind::Var(self.bind(first.info, Binds::Cell(t))))
            }
            Kind::Proc | Kind::ProcRec => self.procedure(node, first),
            Kind::Echo => {
                let (e, t) = self.expr(node.child)?;
                must(t == INT, node)?;
                Ok(CommandKind::Echo(e))
            }
            Kind::Set => {
                let (e, t) = self.expr(first.next)?;
                match self.variable(first.info) {
                    Some((binder, stored)) if stored == t => Ok(CommandKind::Set(self.at(binder), e)),
                    _ => refuse(TYPE, node),
                }
            }
            _ => self.call(node, first),
        }
    }

    fn call(&mut self, node: Node, name: Node) -> Judged<CommandKind> {
        let mark = self.scratch.parts.len();
        let arguments = self.arguments(name.next)?;
        match self.find(name.info) {
            Some(binder @ Binder { binds: Binds::Procedure(from, to), .. })
                if self.scratch.procedures[from as usize..to as usize] == self.scratch.parts[mark..] =>
            {
                self.scratch.parts.truncate(mark);
                Ok(CommandKind::Call(self.at(binder), arguments))
            }
            _ => refuse(TYPE, node),
        }
    }

    /// Goes into a function or procedure, and answers where it goes on behind it.
    fn enter(&mut self) -> Place {
        let outside = self.place;
        self.place = Place { level: outside.level + 1, ..Place::default() };
        outside
    }

    /// Goes out of it again; it becomes code.
    fn leave(&mut self, outside: Place, params: u16, recursive: bool, body: Body) -> u16 {
        let slots = self.place.slots;
        self.place = outside;
        self.code.functions.push(Function { params, recursive, slots, body });
        (self.code.functions.len() - 1) as u16
    }

    /// Binds the parameters from `i` on, adds their types to the parts, and answers how many they are and what stands behind them.
    fn params(&mut self, mut i: u16) -> Judged<(u16, u16)> {
        let first = self.scratch.binders.len() as u16;
        loop {
            let node = self.node(i);
            let by_address = match node.kind {
                Kind::Param => false,
                Kind::VarParam => true,
                _ => return Ok((self.scratch.binders.len() as u16 - first, i)),
            };
            let t = self.written_type(node.child)?;
            must(is_free(node.info) && (is_plain(t) || !by_address), node)?;
            if self.scratch.in_force[usize::from(node.info)].is_some_and(|binder| binder >= first) {
                return refuse(DOUBLE, node);
            }
            self.bind(node.info, if by_address { Binds::Cell(t) } else { Binds::Value(t) });
            self.scratch.parts.push(if by_address { t | BY_ADDRESS } else { t });
            i = node.next;
        }
    }

    fn function(&mut self, node: Node, name: Node) -> Judged<CommandKind> {
        let (binders, parts) = (self.scratch.binders.len(), self.scratch.parts.len());
        let recursive = matches!(node.kind, Kind::FunRec | Kind::FunRecBlock);
        let result = self.written_type(name.next)?;
        let outside = self.enter();
        let (params, body) = self.params(self.node(name.next).next)?;
        self.scratch.parts.push(result);
        let whole = self.function_type(parts);
        if recursive && is_free(name.info) {
            self.bind(name.info, Binds::Value(whole));
        }
        let (code, flow) = if matches!(node.kind, Kind::FunBlock | Kind::FunRecBlock) {
            let (block, flow) = self.block(body)?;
            (Body::Block(block), flow)
        } else {
            let (e, t) = self.expr(body)?;
            (Body::Expr(e), Flow::Always(t))
        };
        must(is_free(name.info) && flow == Flow::Always(result), node)?;
        self.unbind(binders);
        let function = self.leave(outside, params, recursive, code);
        Ok(CommandKind::Define(self.bind(name.info, Binds::Value(whole)), function))
    }

    fn procedure(&mut self, node: Node, name: Node) -> Judged<CommandKind> {
        let (binders, parts) = (self.scratch.binders.len(), self.scratch.parts.len());
        let recursive = node.kind == Kind::ProcRec;
        let outside = self.enter();
        let (params, body) = self.params(name.next)?;
        let from = self.scratch.procedures.len() as u32;
        self.scratch.procedures.extend(self.scratch.parts.drain(parts..));
        let whole = Binds::Procedure(from, self.scratch.procedures.len() as u32);
        if recursive && is_free(name.info) {
            self.bind(name.info, whole);
        }
        let (block, flow) = self.block(body)?;
        must(is_free(name.info) && flow == Flow::Never, node)?;
        self.unbind(binders);
        let function = self.leave(outside, params, recursive, Body::Block(block));
        Ok(CommandKind::Define(self.bind(name.info, whole), function))
    }

    // ---- expressions

    /// The arguments from `i` on; their types are added to the parts.
    fn arguments(&mut self, mut i: u16) -> Judged<Arguments> {
        let mark = self.scratch.arguments.len();
        while i != 0 {
            let node = self.node(i);
            let (e, t) = if node.kind == Kind::Adr { self.adr(node)? } else { self.expr(i)? };
            self.scratch.parts.push(t);
            self.scratch.arguments.push(e);
            i = node.next;
        }
        let from = self.code.arguments.len() as u16;
        self.code.arguments.extend(self.scratch.arguments.drain(mark..));
        Ok(Arguments { from, to: self.code.arguments.len() as u16 })
    }

    fn adr(&mut self, node: Node) -> Judged<(ExprId, Type)> {
        match self.variable(self.node(node.child).info) {
            Some((binder, t)) => Ok((self.put(node, self.value_at(binder)), t | BY_ADDRESS)),
            None => refuse(TYPE, node),
        }
    }

    fn put(&mut self, node: Node, kind: ExprKind) -> ExprId {
        self.code.exprs.push(Expr { place: node.place, kind });
        (self.code.exprs.len() - 1) as ExprId
    }

    fn expr(&mut self, i: u16) -> Judged<(ExprId, Type)> {
        let node = self.node(i);
        let (kind, t) = match node.kind {
            Kind::Number => (ExprKind::Number(node.info), INT),
            Kind::Name => self.name(node)?,
            Kind::If => {
                let second = self.node(node.child).next;
                let ((a, condition), (b, yes), (c, no)) = (self.expr(node.child)?, self.expr(second)?, self.expr(self.node(second).next)?);
                must(condition == BOOL && yes == no, node)?;
                (ExprKind::If(a, b, c), yes)
            }
            Kind::And | Kind::Or => {
                let ((a, left), (b, right)) = (self.expr(node.child)?, self.expr(self.node(node.child).next)?);
                must(left == BOOL && right == BOOL, node)?;
                (if node.kind == Kind::And { ExprKind::And(a, b) } else { ExprKind::Or(a, b) }, BOOL)
            }
            Kind::Application => self.application(node)?,
            Kind::Alloc => {
                let element = self.written_type(node.child)?;
                let (e, size) = self.expr(self.node(node.child).next)?;
                must(is_element(element) && size == INT, node)?;
                (ExprKind::Alloc(e), block_of(element))
            }
            Kind::Nth => {
                let ((a, block), (b, index)) = (self.expr(node.child)?, self.expr(self.node(node.child).next)?);
                match element_of(block) {
                    Some(element) if index == INT => (ExprKind::Nth(a, b), element),
                    _ => return refuse(TYPE, node),
                }
            }
            Kind::Len => {
                let (a, block) = self.expr(node.child)?;
                must(element_of(block).is_some(), node)?;
                (ExprKind::Len(a), INT)
            }
            Kind::Vset => {
                let second = self.node(node.child).next;
                let ((a, block), (b, index), (c, value)) = (self.expr(node.child)?, self.expr(second)?, self.expr(self.node(second).next)?);
                must(element_of(block) == Some(value) && index == INT, node)?;
                (ExprKind::Vset(a, b, c), block)
            }
            _ => self.abstraction(node)?,
        };
        Ok((self.put(node, kind), t))
    }

    fn name(&self, node: Node) -> Judged<(ExprKind, Type)> {
        match (node.info, self.find(node.info)) {
            (nine::TRUE, _) => Ok((ExprKind::Truth(true), BOOL)),
            (nine::FALSE, _) => Ok((ExprKind::Truth(false), BOOL)),
            (_, Some(binder @ Binder { binds: Binds::Value(t), .. })) => Ok((self.value_at(binder), t)),
            (_, Some(binder @ Binder { binds: Binds::Cell(t), .. })) => Ok((self.cell_at(binder), t)),
            _ => refuse(TYPE, node),
        }
    }

    fn application(&mut self, node: Node) -> Judged<(ExprKind, Type)> {
        let head = self.node(node.child);
        if head.kind == Kind::Name && (nine::NOT..=nine::DIV).contains(&head.info) {
            return self.operation(node, head);
        }
        let (e, function) = self.expr(node.child)?;
        let mark = self.scratch.parts.len();
        let arguments = self.arguments(head.next)?;
        match self.types.result_and_params(function) {
            Some((result, params)) if *params == self.scratch.parts[mark..] => {
                self.scratch.parts.truncate(mark);
                Ok((ExprKind::Apply(e, arguments), *result))
            }
            _ => refuse(TYPE, node),
        }
    }

    fn operation(&mut self, node: Node, head: Node) -> Judged<(ExprKind, Type)> {
        let mark = self.scratch.parts.len();
        let from = usize::from(self.arguments(head.next)?.from);
        let found = match (head.info, &self.scratch.parts[mark..], &self.code.arguments[from..]) {
            (nine::NOT, [BOOL], [a]) => (ExprKind::Not(*a), BOOL),
            (nine::EQ, [INT, INT], [a, b]) => (ExprKind::Eq(*a, *b), BOOL),
            (nine::LT, [INT, INT], [a, b]) => (ExprKind::Lt(*a, *b), BOOL),
            (nine::ADD, [INT, INT], [a, b]) => (ExprKind::Add(*a, *b), INT),
            (nine::SUB, [INT, INT], [a, b]) => (ExprKind::Sub(*a, *b), INT),
            (nine::MUL, [INT, INT], [a, b]) => (ExprKind::Mul(*a, *b), INT),
            (nine::DIV, [INT, INT], [a, b]) => (ExprKind::Div(*a, *b), INT),
            _ => return refuse(TYPE, node),
        };
        self.code.arguments.truncate(from);
        self.scratch.parts.truncate(mark);
        Ok(found)
    }

    fn abstraction(&mut self, node: Node) -> Judged<(ExprKind, Type)> {
        let (binders, parts) = (self.scratch.binders.len(), self.scratch.parts.len());
        let outside = self.enter();
        let (params, body) = self.params(node.child)?;
        let (e, t) = self.expr(body)?;
        self.scratch.parts.push(t);
        let whole = self.function_type(parts);
        self.unbind(binders);
        let function = self.leave(outside, params, false, Body::Expr(e));
        Ok((ExprKind::Closure(function), whole))
    }
}

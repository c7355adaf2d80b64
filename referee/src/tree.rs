//! The tree of a member that has been read.

use std::rc::Rc;

/// An identifier of a statement, at most 31 bytes, with its case folded.
pub type Name = Rc<[u8]>;

/// Where a labelled statement stands: an index for each block and alternative
/// on the way down to it, as the index lists of 000 (6.1.2.1).
pub type Path = Rc<[usize]>;

/// Index of the THEN alternative in a path.
pub const THEN: usize = 0;
/// Index of the ELSE alternative in a path.
pub const ELSE: usize = 1;

/// A declared type.
#[derive(Clone, Copy, Debug, PartialEq, Eq)]
pub enum Type {
    Fixed,
    Character,
}

/// A stretch of a body that is text.
#[derive(Clone, Copy, Debug, PartialEq, Eq)]
pub struct Text {
    pub start: usize,
    pub end: usize,
}

impl Text {
    pub fn is_empty(&self) -> bool {
        self.start >= self.end
    }
}

/// The text parts of a member or group, or the statements of a procedure.
#[derive(Debug, Default)]
pub struct Block {
    pub parts: Vec<Part>,
}

/// A sentence and its text; a leading text has no sentence, and what stands in
/// a procedure has no text.
#[derive(Debug)]
pub struct Part {
    pub sentence: Option<Sentence>,
    pub text: Option<Text>,
}

/// A sentence, an alternative or a procedure statement.
#[derive(Debug)]
pub struct Sentence {
    /// Its `%`, in a procedure its first token.
    pub at: usize,
    pub action: Action,
}

/// What a sentence does.
#[derive(Debug)]
pub enum Action {
    Null,
    /// A procedure that is reached does nothing.
    Procedure,
    /// The variables and entries that the declaration activates.
    Declare(Vec<Name>),
    Assign {
        target: Name,
        source: Expression,
    },
    If(Condition),
    Group {
        iteration: Option<Iteration>,
        body: Block,
    },
    Goto(Name),
    Include(Vec<Included>),
    Activate(Vec<(Name, Active)>),
    Return(Expression),
}

/// What one item of an INCLUDE names: `member` or `library(member)` (request C-14).
#[derive(Debug)]
pub struct Included {
    pub library: Option<Name>,
    pub member: Name,
}

/// An IF with its alternatives.
#[derive(Debug)]
pub struct Condition {
    pub test: Expression,
    pub then: Box<Sentence>,
    pub otherwise: Option<Box<Sentence>>,
}

impl Condition {
    /// The alternative with that index in a path.
    pub fn alternative(&self, index: usize) -> Option<&Sentence> {
        if index == THEN {
            Some(&self.then)
        } else {
            self.otherwise.as_deref()
        }
    }
}

/// The specification of an iterated group.
#[derive(Debug)]
pub struct Iteration {
    pub variable: Name,
    pub start: Expression,
    pub by: Option<Expression>,
    pub to: Option<Expression>,
    /// Whether BY is written before TO.
    pub by_first: bool,
}

/// Whether and how a name is replaced in text.
#[derive(Clone, Copy, Debug, PartialEq, Eq)]
pub enum Active {
    No,
    Rescan,
    Norescan,
}

/// An expression. Chains of operators are lists, so a long one is not a deep one.
#[derive(Debug)]
pub enum Expression {
    Constant(Constant),
    Reference {
        name: Name,
        arguments: Option<Vec<Expression>>,
    },
    /// Prefix operators as written; the last one is applied first.
    Prefixed {
        operators: Vec<Prefix>,
        operand: Box<Expression>,
    },
    /// Operators of one binding strength, applied from left to right.
    Chain {
        first: Box<Expression>,
        rest: Vec<(Infix, Expression)>,
    },
}

/// A constant; its limits are tested when it is evaluated.
#[derive(Debug)]
pub enum Constant {
    Number(i64),
    Characters(Rc<[u8]>),
    Bits(Rc<[u8]>),
}

#[derive(Clone, Copy, Debug, PartialEq, Eq)]
pub enum Prefix {
    Plus,
    Minus,
    Not,
}

#[derive(Clone, Copy, Debug, PartialEq, Eq)]
pub enum Infix {
    Or,
    And,
    Greater,
    GreaterOrEqual,
    Equal,
    Less,
    LessOrEqual,
    NotGreater,
    NotEqual,
    NotLess,
    Concatenate,
    Add,
    Subtract,
    Multiply,
    Divide,
}

/// The body of a procedure.
#[derive(Debug)]
pub struct Procedure {
    pub parameters: Vec<Name>,
    pub returns: Type,
    pub block: Block,
}

/// What a name is declared as.
#[derive(Clone, Debug)]
pub enum Declared {
    Variable(Type),
    /// By the attribute ENTRY.
    Entry,
    /// By a procedure of the member, given by its number there.
    Procedure(usize),
    Label(Path),
    Builtin,
    /// Not a declaration, but must not be listed twice either.
    Parameter,
}

/// One declaration of a member.
#[derive(Clone, Debug)]
pub struct Declaration {
    /// The name's token.
    pub at: usize,
    pub name: Name,
    /// The procedure of the member whose scope it is, or the global scope.
    pub procedure: Option<usize>,
    pub declared: Declared,
}

/// A member that has been read without error.
#[derive(Debug)]
pub struct Reading {
    pub block: Block,
    pub procedures: Vec<Rc<Procedure>>,
    /// All declarations in the order of their places.
    pub declarations: Vec<Declaration>,
    /// The places of all sentences and procedure statements, in order.
    pub sentences: Vec<usize>,
}

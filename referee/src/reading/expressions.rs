//! Expressions and their binding (000, 3.2.1).

use std::rc::Rc;

use super::{Limits, Reader};
use crate::bytes::slice;
use crate::refusal::{past_limit, Read};
use crate::tokens::{Kind, Mark, Token};
use crate::tree::{Constant, Expression, Infix, Prefix};
use crate::values::magnitude;

/// Strength of binding of an infix operator, loosest first.
fn strength(operator: Infix) -> usize {
    match operator {
        Infix::Or => 0,
        Infix::And => 1,
        Infix::Concatenate => 3,
        Infix::Add | Infix::Subtract => 4,
        Infix::Multiply | Infix::Divide => 5,
        _ => 2,
    }
}

/// One more than the strength of the tightest infix operators.
const OPERAND: usize = 6;

fn infix(kind: Kind) -> Option<Infix> {
    let Kind::Mark(mark) = kind else {
        return None;
    };
    Some(match mark {
        Mark::Or => Infix::Or,
        Mark::And => Infix::And,
        Mark::Greater => Infix::Greater,
        Mark::GreaterOrEqual => Infix::GreaterOrEqual,
        Mark::Equal => Infix::Equal,
        Mark::Less => Infix::Less,
        Mark::LessOrEqual => Infix::LessOrEqual,
        Mark::NotGreater => Infix::NotGreater,
        Mark::NotEqual => Infix::NotEqual,
        Mark::NotLess => Infix::NotLess,
        Mark::Concatenate => Infix::Concatenate,
        Mark::Plus => Infix::Add,
        Mark::Minus => Infix::Subtract,
        Mark::Star => Infix::Multiply,
        Mark::Slash => Infix::Divide,
        _ => return None,
    })
}

fn prefix(kind: Kind) -> Option<Prefix> {
    match kind {
        Kind::Mark(Mark::Plus) => Some(Prefix::Plus),
        Kind::Mark(Mark::Minus) => Some(Prefix::Minus),
        Kind::Mark(Mark::Not) => Some(Prefix::Not),
        _ => None,
    }
}

impl Reader<'_, '_> {
    /// A whole expression, in which no parenthesis is open yet.
    pub(super) fn expression(&mut self) -> Read<Expression> {
        self.chain(0, 0)
    }

    /// Operands joined by operators that bind with at least this strength;
    /// `open` parentheses are open around it.
    fn chain(&mut self, level: usize, open: usize) -> Read<Expression> {
        if level == OPERAND {
            return self.prefixed(open);
        }
        let first = self.chain(level + 1, open)?;
        let mut rest = Vec::new();
        while let Some(operator) = infix(self.peek().kind).filter(|o| strength(*o) == level) {
            self.take();
            rest.push((operator, self.chain(level + 1, open)?));
        }
        if rest.is_empty() {
            return Ok(first);
        }
        Ok(Expression::Chain {
            first: Box::new(first),
            rest,
        })
    }

    fn prefixed(&mut self, open: usize) -> Read<Expression> {
        let mut operators = Vec::new();
        while let Some(operator) = prefix(self.peek().kind) {
            self.take();
            operators.push(operator);
        }
        let operand = self.operand(open)?;
        if operators.is_empty() {
            return Ok(operand);
        }
        Ok(Expression::Prefixed {
            operators,
            operand: Box::new(operand),
        })
    }

    fn operand(&mut self, open: usize) -> Read<Expression> {
        let token = self.peek();
        match token.kind {
            Kind::Mark(Mark::Open) => {
                self.open_parenthesis(open)?;
                let inner = self.chain(0, open + 1)?;
                self.expect(Mark::Close)?;
                Ok(inner)
            }
            Kind::Word => self.reference(open),
            Kind::Number | Kind::Characters | Kind::Bits => {
                self.take();
                Ok(Expression::Constant(self.constant(token)))
            }
            _ => self.unexpected(),
        }
    }

    /// Takes a `(`; "a 17th `(` open in one expression" is 4.
    fn open_parenthesis(&mut self, open: usize) -> Read<()> {
        if open == Limits::OPEN_PARENTHESES {
            return past_limit(self.peek().start);
        }
        self.expect(Mark::Open)?;
        Ok(())
    }

    /// An identifier, perhaps with an argument list.
    fn reference(&mut self, open: usize) -> Read<Expression> {
        let name = self.name()?.name;
        if !self.peek().is(Mark::Open) {
            return Ok(Expression::Reference {
                name,
                arguments: None,
            });
        }
        self.open_parenthesis(open)?;
        let arguments = self.list(|reader| reader.chain(0, open + 1))?;
        self.expect(Mark::Close)?;
        Ok(Expression::Reference {
            name,
            arguments: Some(arguments),
        })
    }

    fn constant(&self, token: Token) -> Constant {
        let inside = |behind: usize| slice(self.body, token.start + 1, token.end - behind);
        match token.kind {
            Kind::Number => Constant::Number(magnitude(token.bytes(self.body), 10)),
            // Without the quotes, and the B behind them.
            Kind::Bits => Constant::Bits(Rc::from(inside(2))),
            _ => Constant::Characters(single_quotes(inside(1))),
        }
    }
}

/// The content of a string, its doubled quotes made one.
fn single_quotes(content: &[u8]) -> Rc<[u8]> {
    let mut places = Vec::with_capacity(content.len());
    let mut bytes = content.iter();
    while let Some(byte) = bytes.next() {
        places.push(*byte);
        if *byte == b'\'' {
            bytes.next();
        }
    }
    Rc::from(places)
}

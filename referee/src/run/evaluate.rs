//! Evaluation of expressions. A value that is given back has been put into the
//! room of unfinished values; whoever uses it up takes it out (reading 28).

use super::Run;
use crate::names::Denotation;
use crate::refusal::{Outcome, Refusal};
use crate::tree::{Constant, Expression, Infix, Name, Prefix, Type};
use crate::values::{
    arithmetic, compare, inverted, logic, order_of_places, signed, substr, Comparison, Fixed, Value,
};

impl Run<'_> {
    pub(super) fn evaluate(&mut self, expression: &Expression) -> Outcome<Value> {
        match expression {
            Expression::Constant(constant) => self.constant(constant),
            Expression::Reference { name, arguments } => self.reference(name, arguments.as_deref()),
            Expression::Prefixed { operators, operand } => self.prefixed(operators, operand),
            Expression::Chain { first, rest } => self.chain(first, rest),
        }
    }

    /// Evaluates and converts to FIXED.
    pub(super) fn evaluate_fixed(&mut self, expression: &Expression) -> Outcome<Fixed> {
        let value = self.evaluate(expression)?;
        self.fixed(value)
    }

    /// "A constant past these is refused when evaluated."
    fn constant(&mut self, constant: &Constant) -> Outcome<Value> {
        let value = match constant {
            Constant::Number(number) => Value::Fixed(Fixed::new(*number)?),
            Constant::Characters(places) => Value::character(places.to_vec())?,
            Constant::Bits(places) => Value::bit(places.to_vec())?,
        };
        self.put(value)
    }

    /// A name with or without an argument list.
    fn reference(&mut self, name: &Name, arguments: Option<&[Expression]>) -> Outcome<Value> {
        match self.find(name) {
            Some(Denotation::Variable(variable)) => {
                if arguments.is_some() {
                    return Err(Refusal::Name);
                }
                let value = variable.value.clone().ok_or(Refusal::NoValue)?;
                self.put(value)
            }
            Some(Denotation::Entry(entry)) => {
                let body = entry.body.ok_or(Refusal::Name)?;
                self.call(body, arguments.unwrap_or(&[]))
            }
            Some(Denotation::Builtin) | None if &**name == b"SUBSTR" => {
                self.substr(arguments.unwrap_or(&[]))
            }
            _ => Err(Refusal::Name),
        }
    }

    /// Arguments are evaluated and converted one after the other, then 19 is
    /// tested (reading 17).
    fn substr(&mut self, arguments: &[Expression]) -> Outcome<Value> {
        let (string, start, count) = match arguments {
            [string, start] => (string, start, None),
            [string, start, count] => (string, start, Some(count)),
            _ => return Err(Refusal::Arguments),
        };
        let mut string = self.evaluate(string)?;
        if let Value::Fixed(_) = string {
            string = self.convert(string, Type::Character)?;
        }
        let start = self.evaluate_fixed(start)?;
        let count = match count {
            Some(count) => Some(self.evaluate_fixed(count)?),
            None => None,
        };
        self.waiting.take(string.size());
        let result = substr(string, start, count)?;
        self.put(result)
    }

    fn prefixed(&mut self, operators: &[Prefix], operand: &Expression) -> Outcome<Value> {
        let mut value = self.evaluate(operand)?;
        for operator in operators.iter().rev() {
            value = if *operator == Prefix::Not {
                inverted(&self.bits(value)?)
            } else {
                signed(*operator, self.fixed(value)?)?
            };
        }
        Ok(value)
    }

    fn chain(&mut self, first: &Expression, rest: &[(Infix, Expression)]) -> Outcome<Value> {
        let mut left = self.evaluate(first)?;
        for (operator, operand) in rest {
            let right = self.evaluate(operand)?;
            left = self.infix(*operator, left, right)?;
        }
        Ok(left)
    }

    /// Operands are there; now they are converted, left and right, and joined.
    fn infix(&mut self, operator: Infix, left: Value, right: Value) -> Outcome<Value> {
        match operator {
            Infix::Add | Infix::Subtract | Infix::Multiply | Infix::Divide => {
                let left = self.fixed(left)?;
                let right = self.fixed(right)?;
                arithmetic(operator, left, right)
            }
            Infix::And | Infix::Or => {
                let left = self.bits(left)?;
                let right = self.bits(right)?;
                self.waiting.take(left.len() + right.len());
                self.put(logic(operator, &left, &right))
            }
            Infix::Concatenate => self.concatenate(left, right),
            _ => self.comparison(operator, left, right),
        }
    }

    /// "`||` of two BIT is BIT, else CHARACTER."
    fn concatenate(&mut self, left: Value, right: Value) -> Outcome<Value> {
        let bits = left.is_bit() && right.is_bit();
        let mut places = self.characters(left)?;
        places.append(&mut self.characters(right)?);
        self.waiting.take(places.len());
        let result = if bits {
            Value::bit(places)
        } else {
            Value::character(places)
        };
        self.put(result?)
    }

    fn comparison(&mut self, operator: Infix, left: Value, right: Value) -> Outcome<Value> {
        let order = match Value::comparison(&left, &right) {
            Comparison::Numeric => {
                let left = self.fixed(left)?;
                let right = self.fixed(right)?;
                left.cmp(&right)
            }
            kind => {
                let left = self.characters(left)?;
                let right = self.characters(right)?;
                self.waiting.take(left.len() + right.len());
                let filler = if kind == Comparison::Bits { b'0' } else { b' ' };
                order_of_places(&left, &right, filler)
            }
        };
        self.put(compare(operator, order))
    }

    /// Puts a value into the room of unfinished values.
    pub(super) fn put(&mut self, value: Value) -> Outcome<Value> {
        self.waiting.put(value.size())?;
        Ok(value)
    }

    /// Converts to FIXED; the value leaves the room.
    pub(super) fn fixed(&mut self, value: Value) -> Outcome<Fixed> {
        let number = value.to_fixed()?;
        self.waiting.take(value.size());
        Ok(number)
    }

    /// Converts to BIT in its place in the room.
    pub(super) fn bits(&mut self, value: Value) -> Outcome<Vec<u8>> {
        let before = value.size();
        let bits = value.into_bits()?;
        self.waiting.take(before);
        self.waiting.put(bits.len())?;
        Ok(bits)
    }

    /// Converts to CHARACTER in its place in the room.
    fn characters(&mut self, value: Value) -> Outcome<Vec<u8>> {
        let before = value.size();
        let places = value.into_characters();
        self.waiting.take(before);
        self.waiting.put(places.len())?;
        Ok(places)
    }

    /// Converts to a declared type in its place in the room.
    pub(super) fn convert(&mut self, value: Value, kind: Type) -> Outcome<Value> {
        let before = value.size();
        let value = value.into_type(kind)?;
        self.waiting.take(before);
        self.put(value)
    }
}

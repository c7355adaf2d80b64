//! Calls of procedures.

use std::rc::Rc;

use super::{Flow, Frame, Run};
use crate::names::Home;
use crate::refusal::{Outcome, Refusal};
use crate::tree::{Expression, Type};
use crate::values::Value;

impl Run<'_> {
    /// "17th procedure running at once" is 15.
    const MOST_RUNNING: usize = 16;

    /// A call in an expression: "A call tests 6, 11, takes its arguments, then
    /// tests 12, 15".
    pub(super) fn call(&mut self, body: usize, arguments: &[Expression]) -> Outcome<Value> {
        let types = self.parameter_types(body)?;
        if types.len() != arguments.len() {
            return Err(Refusal::Arguments);
        }
        let mut values = Vec::with_capacity(types.len());
        for (argument, kind) in arguments.iter().zip(types) {
            let value = self.evaluate(argument)?;
            values.push(self.convert(value, kind)?);
        }
        self.invoke(body, values)
    }

    /// "A parameter its procedure doesn't declare FIXED or CHARACTER is 6".
    pub(super) fn parameter_types(&self, body: usize) -> Outcome<Vec<Type>> {
        self.names.parameter_types(body).ok_or(Refusal::Name)
    }

    /// Runs a procedure whose arguments are converted and wait in the room.
    pub(super) fn invoke(&mut self, body: usize, arguments: Vec<Value>) -> Outcome<Value> {
        let running = self.frames.iter().filter(|frame| frame.is_procedure());
        let full = running.count() >= Self::MOST_RUNNING;
        let called = self.names.body_mut(body).ok_or(Refusal::Name)?;
        if called.running {
            return Err(Refusal::Procedure);
        }
        if full {
            return Err(Refusal::Level);
        }
        called.running = true;
        self.waiting.take(arguments.iter().map(Value::size).sum());
        called.set_parameters(arguments);
        let procedure = Rc::clone(&called.procedure);
        self.frames.push(Frame {
            home: Home::Procedure(body),
            path: Vec::new(),
        });
        let flow = self.block(&procedure.block, 0, None)?;
        self.frames.pop();
        if let Some(called) = self.names.body_mut(body) {
            called.running = false;
        }
        match flow {
            Flow::Return(value) => Ok(value),
            // "procedure ... left without RETURN".
            _ => Err(Refusal::Procedure),
        }
    }

    /// The value of a RETURN, converted to the type its procedure returns.
    pub(super) fn return_value(&mut self, source: &Expression) -> Outcome<Value> {
        let value = self.evaluate(source)?;
        let body = self.body().and_then(|body| self.names.body(body));
        let returns = body.ok_or(Refusal::Procedure)?.procedure.returns;
        self.convert(value, returns)
    }
}

impl Frame {
    fn is_procedure(&self) -> bool {
        matches!(self.home, Home::Procedure(_))
    }
}

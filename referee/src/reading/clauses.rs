//! Groups, procedures, declarations and the simple statements.

use std::mem;
use std::rc::Rc;

use super::sentences::Inside;
use super::{Label, Reader};
use crate::bytes::folded;
use crate::refusal::{syntax, Read};
use crate::tokens::{Kind, Mark};
use crate::tree::{
    Action, Active, Declared, Expression, Included, Iteration, Name, Procedure, Type,
};

const CHARACTER: &[&[u8]] = &[b"CHARACTER", b"CHAR"];
const FIXED: &[&[u8]] = &[b"FIXED"];

impl Reader<'_, '_> {
    pub(super) fn group(&mut self, word: &Label, labels: &[Label]) -> Read<Action> {
        self.open_another(word.at)?;
        let iteration = if self.peek().is(Mark::Semicolon) {
            None
        } else {
            Some(self.iteration()?)
        };
        self.expect(Mark::Semicolon)?;
        let body = self.block(Inside::Group)?;
        self.end_clause(labels)?;
        self.open -= 1;
        Ok(Action::Group { iteration, body })
    }

    fn iteration(&mut self) -> Read<Iteration> {
        let variable = self.name()?.name;
        self.expect(Mark::Equal)?;
        let start = self.expression()?;
        let by_first = self.at_word(&[b"BY"]);
        let (by, to);
        if by_first {
            by = self.bound(b"BY")?;
            to = self.bound(b"TO")?;
        } else {
            to = self.bound(b"TO")?;
            by = match to {
                Some(_) => self.bound(b"BY")?,
                None => None,
            };
        }
        Ok(Iteration {
            variable,
            start,
            by,
            to,
            by_first,
        })
    }

    fn bound(&mut self, word: &[u8]) -> Read<Option<Expression>> {
        if !self.accept_word(&[word]) {
            return Ok(None);
        }
        self.expression().map(Some)
    }

    /// Ends a block that [`Reader::block`] has read; `labels` are the labels of
    /// what it ends. The labels of the clause itself stand for the block's end.
    fn end_clause(&mut self, labels: &[Label]) -> Read<()> {
        self.accept(Mark::Percent);
        let own = self.labels()?;
        let word = self.name()?;
        if &*word.name != b"END" {
            return self.unexpected();
        }
        if self.peek().kind == Kind::Word {
            self.end_name(labels)?;
        }
        self.expect(Mark::Semicolon)?;
        self.declare_labels(&own);
        self.path.pop();
        Ok(())
    }

    /// "A name after END must be a label of what it ends, else 3."
    fn end_name(&mut self, labels: &[Label]) -> Read<()> {
        let token = self.take();
        let name = folded(token.bytes(self.body));
        if labels.iter().any(|label| *label.name == *name) {
            return Ok(());
        }
        syntax(token.start)
    }

    pub(super) fn goto(&mut self) -> Read<Action> {
        let label = self.name()?.name;
        self.expect(Mark::Semicolon)?;
        Ok(Action::Goto(label))
    }

    pub(super) fn go_to(&mut self) -> Read<Action> {
        self.expect_word(b"TO")?;
        self.goto()
    }

    pub(super) fn return_statement(&mut self) -> Read<Action> {
        self.expect(Mark::Open)?;
        let value = self.expression()?;
        self.expect(Mark::Close)?;
        self.expect(Mark::Semicolon)?;
        Ok(Action::Return(value))
    }

    pub(super) fn include(&mut self) -> Read<Action> {
        let items = self.list(Reader::included)?;
        self.expect(Mark::Semicolon)?;
        Ok(Action::Include(items))
    }

    /// `member` or `library(member)`; no other form of 000 is added (reading 3 of
    /// the requests). Its `(` is no expression's.
    fn included(&mut self) -> Read<Included> {
        let first = self.name()?.name;
        if !self.accept(Mark::Open) {
            return Ok(Included {
                library: None,
                member: first,
            });
        }
        let member = self.name()?.name;
        self.expect(Mark::Close)?;
        Ok(Included {
            library: Some(first),
            member,
        })
    }

    pub(super) fn deactivate(&mut self) -> Read<Action> {
        let off = |name| (name, Active::No);
        Ok(Action::Activate(
            self.names()?.into_iter().map(off).collect(),
        ))
    }

    /// `name {, name} ;`
    fn names(&mut self) -> Read<Vec<Name>> {
        let names = self.list(|reader| Ok(reader.name()?.name))?;
        self.expect(Mark::Semicolon)?;
        Ok(names)
    }

    /// "ACTIVATE alone means RESCAN."
    pub(super) fn activate(&mut self) -> Read<Action> {
        let activations = self.list(|reader| {
            let name = reader.name()?.name;
            if reader.accept_word(&[b"NORESCAN"]) {
                return Ok((name, Active::Norescan));
            }
            reader.accept_word(&[b"RESCAN"]);
            Ok((name, Active::Rescan))
        })?;
        self.expect(Mark::Semicolon)?;
        Ok(Action::Activate(activations))
    }

    /// DECLARE, inside and outside procedures.
    pub(super) fn declaration(&mut self) -> Read<Action> {
        let groups = self.list(|reader| {
            let labels = reader.declared_names()?;
            let declared = reader.attribute()?;
            for label in &labels {
                reader.declare(label, declared.clone());
            }
            Ok(labels)
        })?;
        self.expect(Mark::Semicolon)?;
        let names = groups.into_iter().flatten().map(|label| label.name);
        Ok(Action::Declare(names.collect()))
    }

    /// `name` or `( name {, name} )`.
    fn declared_names(&mut self) -> Read<Vec<Label>> {
        if !self.accept(Mark::Open) {
            return Ok(vec![self.declared_name()?]);
        }
        let labels = self.list(Reader::declared_name)?;
        self.expect(Mark::Close)?;
        Ok(labels)
    }

    fn declared_name(&mut self) -> Read<Label> {
        let label = self.name()?;
        self.count_name(&label)?;
        Ok(label)
    }

    /// ENTRY stands outside procedures only, BUILTIN inside only (reading 7).
    fn attribute(&mut self) -> Read<Declared> {
        if self.procedure.is_none() && self.accept_word(&[b"ENTRY"]) {
            return Ok(Declared::Entry);
        }
        if self.procedure.is_some() && self.accept_word(&[b"BUILTIN"]) {
            return Ok(Declared::Builtin);
        }
        self.data_type().map(Declared::Variable)
    }

    fn data_type(&mut self) -> Read<Type> {
        if self.accept_word(CHARACTER) {
            Ok(Type::Character)
        } else if self.accept_word(FIXED) {
            Ok(Type::Fixed)
        } else {
            self.unexpected()
        }
    }

    /// A procedure behind its entry names and PROCEDURE.
    pub(super) fn procedure(&mut self, entries: &[Label]) -> Read<Action> {
        let number = self.procedures.len();
        for entry in entries {
            self.declare(entry, Declared::Procedure(number));
        }
        self.procedure = Some(number);
        let parameters = self.parameters()?;
        let returns = self.returns()?;
        let outer_path = mem::take(&mut self.path);
        let block = self.block(Inside::Procedure)?;
        self.end_clause(entries)?;
        self.path = outer_path;
        self.procedure = None;
        self.local.clear();
        self.procedures.push(Rc::new(Procedure {
            parameters,
            returns,
            block,
        }));
        Ok(Action::Procedure)
    }

    /// A listed parameter is no declaration, and counts by its declaration only.
    fn parameters(&mut self) -> Read<Vec<Name>> {
        if !self.accept(Mark::Open) {
            return Ok(Vec::new());
        }
        let labels = self.list(Reader::name)?;
        self.expect(Mark::Close)?;
        for label in &labels {
            self.declare(label, Declared::Parameter);
        }
        Ok(labels.into_iter().map(|label| label.name).collect())
    }

    fn returns(&mut self) -> Read<Type> {
        self.expect_word(b"RETURNS")?;
        self.expect(Mark::Open)?;
        let kind = self.data_type()?;
        self.expect(Mark::Close)?;
        self.expect(Mark::Semicolon)?;
        Ok(kind)
    }
}

//! The scan of text, values and arguments, with replacement.

use std::ops::Range;

use super::Run;
use crate::bytes::{byte_at, skip, slice};
use crate::names::Denotation;
use crate::reading::Limits;
use crate::refusal::{Outcome, Place, Refusal};
use crate::tokens::{scan_token, ScanKind, ScanToken};
use crate::tree::{Active, Text, Type};
use crate::values::Value;

/// Where scanned bytes go.
enum Sink {
    /// To the text, as part of the replacement that is under way.
    Text,
    /// To the outcome of an argument.
    Argument(Vec<u8>),
}

impl Run<'_> {
    /// "33rd replacement level" is 15.
    const MOST_LEVEL: usize = 32;

    /// One blank, then the program text.
    pub(super) fn text(&mut self, text: Text) -> Outcome<()> {
        self.stand_at(text.start);
        self.output.blank(self.as_given(self.place))?;
        let member = self.place.member;
        let body = &self.sources.get(member).ok_or(Refusal::Member)?.member.body;
        let bytes = slice(&body.bytes, 0, text.end);
        let mut at = text.start;
        while at < bytes.len() {
            let token = scan_token(bytes, at);
            self.place = Place { member, offset: at };
            self.meter.charge()?;
            at = self.program_token(bytes, at, token)?;
        }
        Ok(())
    }

    /// Copies or replaces a token of the program text; gives where to go on.
    fn program_token(&mut self, bytes: &[u8], at: usize, token: ScanToken) -> Outcome<usize> {
        let written = slice(bytes, at, token.end);
        if !self.is_replaced(written, token) {
            self.copy(bytes, at, token.end)?;
            return Ok(token.end);
        }
        self.output.begin_replacement(self.as_given(self.place))?;
        let behind = slice(bytes, token.end, bytes.len());
        let list = self.replace(written, behind, 1, &mut Sink::Text)?;
        Ok(token.end + list)
    }

    /// Copies a token of the program text, "cut into a line of its own at each
    /// record edge".
    fn copy(&mut self, bytes: &[u8], start: usize, end: usize) -> Outcome<()> {
        let member = self.place.member;
        let body = &self.sources.get(member).ok_or(Refusal::Member)?.member.body;
        let mut at = start;
        while at < end {
            let edge = body.piece_end(at, end);
            let given = self.as_given(Place { member, offset: at });
            self.output.copy(given, slice(bytes, at, edge))?;
            at = edge;
        }
        Ok(())
    }

    /// Scans a value or an argument, in which a replacement has this level.
    fn nested(&mut self, bytes: &[u8], level: usize, sink: &mut Sink) -> Outcome<()> {
        let mut at = 0;
        while at < bytes.len() {
            let token = scan_token(bytes, at);
            self.meter.charge()?;
            let written = slice(bytes, at, token.end);
            at = token.end;
            if self.is_replaced(written, token) {
                let behind = slice(bytes, token.end, bytes.len());
                at += self.replace(written, behind, level, sink)?;
            } else {
                self.send(written, sink)?;
            }
        }
        Ok(())
    }

    /// "Only identifiers can be replaced; one over 31 bytes in text names nothing."
    fn is_replaced(&self, written: &[u8], token: ScanToken) -> bool {
        token.kind == ScanKind::Identifier
            && written.len() <= Limits::NAME_BYTES
            && self.activation_in_text(written) != Active::No
    }

    fn activation_in_text(&self, name: &[u8]) -> Active {
        match self.names.find_global(name) {
            Some(Denotation::Variable(variable)) => variable.active,
            Some(Denotation::Entry(entry)) => entry.active,
            _ => Active::No,
        }
    }

    /// Replaces a name; gives the length of the argument list behind it.
    fn replace(
        &mut self,
        name: &[u8],
        behind: &[u8],
        level: usize,
        sink: &mut Sink,
    ) -> Outcome<usize> {
        if level > Self::MOST_LEVEL {
            return Err(Refusal::Level);
        }
        let active = self.activation_in_text(name);
        let (value, list) = match self.names.find_global(name) {
            Some(Denotation::Variable(variable)) => {
                (variable.value.clone().ok_or(Refusal::NoValue)?, 0)
            }
            Some(Denotation::Entry(entry)) => {
                let body = entry.body.ok_or(Refusal::Name)?;
                self.call_in_text(body, behind, level)?
            }
            _ => return Err(Refusal::Name),
        };
        self.deliver(value, active, level, sink)?;
        Ok(list)
    }

    /// "With RESCAN the value is scanned by itself ... With NORESCAN it is copied."
    fn deliver(
        &mut self,
        value: Value,
        active: Active,
        level: usize,
        sink: &mut Sink,
    ) -> Outcome<()> {
        let places = value.into_characters();
        if active == Active::Norescan {
            return self.send(&places, sink);
        }
        self.waiting.put(places.len())?;
        self.nested(&places, level + 1, sink)?;
        self.waiting.take(places.len());
        Ok(())
    }

    /// A call in text: its value, and the length of its argument list.
    fn call_in_text(
        &mut self,
        body: usize,
        behind: &[u8],
        level: usize,
    ) -> Outcome<(Value, usize)> {
        let types = self.parameter_types(body)?;
        let mut values = Vec::new();
        let mut list = 0;
        if !types.is_empty() {
            let cut = cut_arguments(behind).ok_or(Refusal::Arguments)?;
            if cut.arguments.len() != types.len() {
                return Err(Refusal::Arguments);
            }
            list = cut.length;
            for (range, kind) in cut.arguments.into_iter().zip(types) {
                let written = slice(behind, range.start, range.end);
                values.push(self.argument(written, kind, level + 1)?);
            }
        }
        let value = self.invoke(body, values)?;
        self.waiting.take(value.size());
        Ok((value, list))
    }

    /// "each argument in turn is scanned, then converted."
    fn argument(&mut self, written: &[u8], kind: Type, level: usize) -> Outcome<Value> {
        let mut sink = Sink::Argument(Vec::new());
        self.nested(written, level, &mut sink)?;
        match sink {
            Sink::Argument(outcome) => self.convert(Value::Character(outcome), kind),
            Sink::Text => Ok(Value::Character(Vec::new())),
        }
    }

    /// Bytes go out at once; an argument passes 512 at the token that makes it
    /// too long (reading 24).
    fn send(&mut self, bytes: &[u8], sink: &mut Sink) -> Outcome<()> {
        let outcome = match sink {
            Sink::Text => return self.output.append(bytes),
            Sink::Argument(outcome) => outcome,
        };
        if outcome.len() + bytes.len() > Value::MOST_PLACES {
            return Err(Refusal::Length);
        }
        self.waiting.put(bytes.len())?;
        outcome.extend_from_slice(bytes);
        Ok(())
    }
}

/// An argument list in text: its arguments, and its length with what is before.
struct Cut {
    arguments: Vec<Range<usize>>,
    length: usize,
}

/// Cuts the argument list "after blanks only", "at outer commas"; none if there
/// is no list or it isn't closed.
fn cut_arguments(bytes: &[u8]) -> Option<Cut> {
    let open = skip(bytes, 0, |byte| byte == b' ');
    if byte_at(bytes, open) != Some(b'(') {
        return None;
    }
    let mut arguments = Vec::new();
    let mut start = open + 1;
    let mut at = start;
    let mut depth = 0_usize;
    loop {
        let byte = byte_at(bytes, at)?;
        if depth == 0 && (byte == b',' || byte == b')') {
            arguments.push(start..at);
            start = at + 1;
        }
        match byte {
            b')' if depth == 0 => {
                return Some(Cut {
                    arguments,
                    length: start,
                })
            }
            b')' => depth -= 1,
            b'(' => depth += 1,
            _ => {}
        }
        at = scan_token(bytes, at).end;
    }
}

//! Programs, sentences and alternatives.

use std::rc::Rc;

use super::{Label, Reader};
use crate::refusal::{syntax, Read};
use crate::tokens::{token_after, Kind, Mark, Token};
use crate::tree::{Action, Block, Condition, Declared, Part, Sentence, Text, ELSE, THEN};

/// What a block belongs to, and so what ends it.
#[derive(Clone, Copy, PartialEq, Eq)]
pub(super) enum Inside {
    Member,
    Group,
    Procedure,
}

/// Whether a statement is a sentence or an alternative of an IF.
#[derive(Clone, Copy, PartialEq, Eq)]
pub(super) enum Rank {
    Sentence,
    Alternative,
}

impl Reader<'_, '_> {
    pub(super) fn member(&mut self) -> Read<Block> {
        self.block(Inside::Member)
    }

    /// "A program is text, then sentences each followed by text."
    pub(super) fn block(&mut self, inside: Inside) -> Read<Block> {
        let mut block = Block::default();
        if let Some(text) = self.text_if_outside()?.filter(|text| !text.is_empty()) {
            block.parts.push(Part {
                sentence: None,
                text: Some(text),
            });
        }
        self.path.push(block.parts.len());
        while !self.block_ends(inside)? {
            let sentence = Some(self.sentence()?);
            let text = self.text_if_outside()?;
            block.parts.push(Part { sentence, text });
            if let Some(index) = self.path.last_mut() {
                *index = block.parts.len();
            }
        }
        Ok(block)
    }

    /// Procedures hold no text.
    fn text_if_outside(&mut self) -> Read<Option<Text>> {
        if self.procedure.is_some() {
            return Ok(None);
        }
        self.text().map(Some)
    }

    /// Whether the block ends here; an open group or procedure is 3 at the end.
    fn block_ends(&mut self, inside: Inside) -> Read<bool> {
        let next = self.peek();
        match inside {
            Inside::Member => Ok(next.kind == Kind::End),
            _ if next.kind == Kind::End => syntax(next.start),
            Inside::Procedure => Ok(next.is(Mark::Percent)),
            Inside::Group => Ok(self.at_end_clause()),
        }
    }

    /// Whether an end clause stands here: labels, then END, which is neither a
    /// label nor a target itself (reading 4).
    fn at_end_clause(&mut self) -> bool {
        let mut word = self.peek();
        if self.procedure.is_none() {
            word = token_after(self.body, &word);
        }
        while word.kind == Kind::Word {
            let behind = token_after(self.body, &word);
            if !behind.is(Mark::Colon) {
                return word.is_word(self.body, b"END") && decided(&behind);
            }
            word = token_after(self.body, &behind);
        }
        false
    }

    fn sentence(&mut self) -> Read<Sentence> {
        let at = self.begin()?;
        self.rest_of_sentence(at, Rank::Sentence)
    }

    /// Takes the `%`, or in a procedure looks at the first token, and counts.
    fn begin(&mut self) -> Read<usize> {
        let first = self.peek();
        if self.procedure.is_none() {
            self.expect(Mark::Percent)?;
        } else if first.kind != Kind::Word && !first.is(Mark::Semicolon) {
            return self.unexpected();
        }
        self.count_sentence(first.start)?;
        Ok(first.start)
    }

    fn rest_of_sentence(&mut self, at: usize, rank: Rank) -> Read<Sentence> {
        let labels = self.labels()?;
        let action = self.statement(rank, &labels)?;
        if !matches!(action, Action::Procedure) {
            self.declare_labels(&labels);
        }
        Ok(Sentence { at, action })
    }

    /// "An identifier followed by `:` is a label".
    pub(super) fn labels(&mut self) -> Read<Vec<Label>> {
        let mut labels = Vec::new();
        while self.peek().kind == Kind::Word && self.peek_second().is(Mark::Colon) {
            let label = self.name()?;
            self.take();
            self.count_name(&label)?;
            labels.push(label);
        }
        Ok(labels)
    }

    /// The labels stand for the statement being read.
    pub(super) fn declare_labels(&mut self, labels: &[Label]) {
        let path = Rc::from(self.path.as_slice());
        for label in labels {
            self.declare(label, Declared::Label(Rc::clone(&path)));
        }
    }

    /// What comes behind the labels. A word that begins no statement may still
    /// be a target, so the token behind it is the wrong one (reading 1).
    fn statement(&mut self, rank: Rank, labels: &[Label]) -> Read<Action> {
        if self.accept(Mark::Semicolon) {
            return Ok(Action::Null);
        }
        let word = self.name()?;
        if self.accept(Mark::Equal) {
            let source = self.expression()?;
            self.expect(Mark::Semicolon)?;
            return Ok(Action::Assign {
                target: word.name,
                source,
            });
        }
        match (&*word.name, self.procedure.is_some()) {
            (b"IF", _) => self.if_statement(),
            (b"DO", _) => self.group(&word, labels),
            (b"GO", _) => self.go_to(),
            (b"GOTO", _) => self.goto(),
            (b"DECLARE" | b"DCL", _) if rank == Rank::Sentence => self.declaration(),
            (b"RETURN", true) => self.return_statement(),
            (b"INCLUDE", false) => self.include(),
            (b"ACTIVATE" | b"ACT", false) => self.activate(),
            (b"DEACTIVATE" | b"DEACT", false) => self.deactivate(),
            (b"PROCEDURE" | b"PROC", false) if rank == Rank::Sentence && !labels.is_empty() => {
                self.procedure(labels)
            }
            _ => self.unexpected(),
        }
    }

    fn if_statement(&mut self) -> Read<Action> {
        let test = self.expression()?;
        if self.procedure.is_none() {
            self.expect(Mark::Percent)?;
        }
        self.expect_word(b"THEN")?;
        let then = self.alternative(THEN)?;
        let otherwise = if self.accept_else() {
            Some(self.alternative(ELSE)?)
        } else {
            None
        };
        Ok(Action::If(Condition {
            test,
            then,
            otherwise,
        }))
    }

    fn alternative(&mut self, index: usize) -> Read<Box<Sentence>> {
        self.path.push(index);
        let at = self.begin()?;
        self.open_another(at)?;
        let sentence = self.rest_of_sentence(at, Rank::Alternative)?;
        self.open -= 1;
        self.path.pop();
        Ok(Box::new(sentence))
    }

    /// Takes an ELSE that belongs to the IF just read. "Blanks and comments
    /// before `%ELSE` belong to the IF; with no `%ELSE` after them they are text."
    fn accept_else(&mut self) -> bool {
        let next = self.peek();
        let word = match self.procedure {
            Some(_) => next,
            None if next.is(Mark::Percent) => token_after(self.body, &next),
            None => return false,
        };
        let behind = token_after(self.body, &word);
        let found = word.is_word(self.body, b"ELSE") && !behind.is(Mark::Colon) && decided(&behind);
        if found {
            self.accept(Mark::Percent);
            self.take();
        }
        found
    }
}

/// Whether the token behind END or ELSE shows that the word is no target; the
/// end of a body shows it too, since what stands before it can still go on.
fn decided(behind: &Token) -> bool {
    !behind.is(Mark::Equal)
}

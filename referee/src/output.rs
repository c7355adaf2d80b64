//! The text and the origin list that an expansion makes.

use crate::refusal::{Outcome, Place, Refusal};

/// The kinds of lines of the origin list.
#[derive(Clone, Copy, Debug, PartialEq, Eq)]
pub enum LineKind {
    Blank = 1,
    Copied = 2,
    Replaced = 3,
}

impl LineKind {
    /// The letter that the program prints.
    pub fn letter(self) -> char {
        match self {
            LineKind::Blank => 'B',
            LineKind::Copied => 'C',
            LineKind::Replaced => 'V',
        }
    }
}

/// One line of the origin list.
#[derive(Clone, Copy, Debug, PartialEq, Eq)]
pub struct Line {
    pub kind: LineKind,
    pub place: Place,
    pub length: usize,
}

impl Line {
    /// What a line takes of the list room.
    pub const BYTES: usize = 12;

    /// Whether this is a stretch whose next byte stands there.
    fn goes_on_at(&self, place: Place) -> bool {
        let next = self.place.offset + self.length;
        self.kind == LineKind::Copied && self.place.member == place.member && next == place.offset
    }
}

/// Sizes of the rooms for text and list, in bytes.
#[derive(Clone, Copy, Debug, PartialEq, Eq)]
pub struct Rooms {
    pub text: u32,
    pub list: u32,
}

/// What has been made so far.
#[derive(Debug)]
pub struct Output {
    pub text: Vec<u8>,
    pub lines: Vec<Line>,
    most_text: usize,
    most_lines: usize,
}

impl Output {
    /// A list room that is no multiple of 12 holds the whole lines that fit.
    pub fn new(rooms: Rooms) -> Output {
        Output {
            text: Vec::new(),
            lines: Vec::new(),
            most_text: usize::try_from(rooms.text).unwrap_or(usize::MAX),
            most_lines: usize::try_from(rooms.list).unwrap_or(usize::MAX) / Line::BYTES,
        }
    }

    /// The blank behind a sentence or before a leading text.
    pub fn blank(&mut self, place: Place) -> Outcome<()> {
        self.new_line(LineKind::Blank, place)?;
        self.append(b" ")
    }

    /// Bytes copied from the program text at `place`; they go on the stretch before
    /// them if nothing stands between, neither in the text nor in the source.
    pub fn copy(&mut self, place: Place, bytes: &[u8]) -> Outcome<()> {
        if !self.lines.last().is_some_and(|line| line.goes_on_at(place)) {
            self.new_line(LineKind::Copied, place)?;
        }
        self.append(bytes)
    }

    /// A replacement takes its line at its name.
    pub fn begin_replacement(&mut self, place: Place) -> Outcome<()> {
        self.new_line(LineKind::Replaced, place)
    }

    /// Bytes that belong to the last line.
    pub fn append(&mut self, bytes: &[u8]) -> Outcome<()> {
        if bytes.len() > self.most_text.saturating_sub(self.text.len()) {
            return Err(Refusal::Room);
        }
        self.text.extend_from_slice(bytes);
        if let Some(line) = self.lines.last_mut() {
            line.length += bytes.len();
        }
        Ok(())
    }

    fn new_line(&mut self, kind: LineKind, place: Place) -> Outcome<()> {
        if self.lines.len() >= self.most_lines {
            return Err(Refusal::Room);
        }
        self.lines.push(Line {
            kind,
            place,
            length: 0,
        });
        Ok(())
    }
}

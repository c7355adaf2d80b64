//! Records of decks on their way in, and answers on their way out.

use std::io::{self, Read, Write};

use crate::cards::Layout;
use crate::{expand, Answer, Rooms};

/// A deck with its layout, the sizes of its rooms and its limit of steps.
#[derive(Clone, Debug, PartialEq, Eq)]
pub struct Record {
    pub layout: Layout,
    pub rooms: Rooms,
    pub steps: u32,
    pub deck: Vec<u8>,
}

/// The five numbers before the deck.
const HEADER_BYTES: usize = 20;

/// The flag of a deck whose bodies are card images.
const CARDS: u32 = 1;

impl Record {
    /// Reads the next record; none at the end of the input. A record that is
    /// cut short is an error.
    pub fn read(input: &mut impl Read) -> io::Result<Option<Record>> {
        let mut header = Vec::with_capacity(HEADER_BYTES);
        take_up_to(input, HEADER_BYTES, &mut header)?;
        if header.is_empty() {
            return Ok(None);
        }
        let mut numbers = header.chunks_exact(4).map(little_endian);
        let mut next = || numbers.next().ok_or_else(cut_short);
        let layout = layout_of(next()?)?;
        let rooms = Rooms {
            text: next()?,
            list: next()?,
        };
        let steps = next()?;
        let length = usize::try_from(next()?).map_err(|_| cut_short())?;
        let mut deck = Vec::new();
        take_up_to(input, length, &mut deck)?;
        if deck.len() < length {
            return Err(cut_short());
        }
        Ok(Some(Record {
            layout,
            rooms,
            steps,
            deck,
        }))
    }

    /// Writes the record as [`Record::read`] reads it.
    pub fn write(&self, output: &mut impl Write) -> io::Result<()> {
        let length = u32::try_from(self.deck.len()).map_err(io::Error::other)?;
        let (text, list) = (self.rooms.text, self.rooms.list);
        for number in [flags_of(self.layout), text, list, self.steps, length] {
            output.write_all(&number.to_le_bytes())?;
        }
        output.write_all(&self.deck)
    }

    pub fn expand(&self) -> Answer {
        expand(&self.deck, self.layout, self.rooms, self.steps)
    }
}

/// Reads so many bytes, or fewer at the end of the input. The room for them
/// grows with what is there, not with what a header claims.
fn take_up_to(input: &mut impl Read, most: usize, into: &mut Vec<u8>) -> io::Result<usize> {
    let most = u64::try_from(most).unwrap_or(u64::MAX);
    input.by_ref().take(most).read_to_end(into)
}

/// A flag that has no meaning is an error, so that none is passed over.
fn layout_of(flags: u32) -> io::Result<Layout> {
    match flags {
        0 => Ok(Layout::Plain),
        CARDS => Ok(Layout::Cards),
        _ => Err(io::Error::other("a record has flags that are not known")),
    }
}

fn flags_of(layout: Layout) -> u32 {
    match layout {
        Layout::Plain => 0,
        Layout::Cards => CARDS,
    }
}

fn little_endian(bytes: &[u8]) -> u32 {
    let shifted = bytes.iter().rev();
    shifted.fold(0, |so_far, byte| so_far << 8 | u32::from(*byte))
}

fn cut_short() -> io::Error {
    io::Error::new(io::ErrorKind::UnexpectedEof, "a record is cut short")
}

impl Answer {
    /// Prints the six numbers, the lines, the text and a line feed.
    pub fn print(&self, output: &mut impl Write) -> io::Result<()> {
        let (text, lines) = (self.text.len(), self.lines.len());
        writeln!(
            output,
            "{} {} {} {} {text} {lines}",
            self.number, self.member, self.offset, self.steps
        )?;
        for line in &self.lines {
            let (kind, place) = (line.kind.letter(), line.place);
            let (member, offset) = (place.member, place.offset);
            writeln!(output, "{kind} {member} {offset} {}", line.length)?;
        }
        output.write_all(&self.text)?;
        output.write_all(b"\n")
    }

    /// What [`Answer::print`] prints.
    pub fn printed(&self) -> Vec<u8> {
        let mut bytes = Vec::new();
        // Writing to a vector does not fail.
        let _ = self.print(&mut bytes);
        bytes
    }
}

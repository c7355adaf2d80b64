//! The deck: contents first, then bodies.

use std::collections::HashSet;

use crate::bytes::{folded, is_identifier, slice};

/// One member of the deck: its names without the padding, and its body. In a
/// deck of the first layout it stands in no library.
#[derive(Clone, Copy, Debug)]
pub struct Member<'d> {
    pub library: Option<&'d [u8]>,
    pub name: &'d [u8],
    pub body: &'d [u8],
}

/// How a line of contents is laid out (request C-14).
#[derive(Clone, Copy, Debug, PartialEq, Eq)]
enum Contents {
    /// "name (8, an identifier padded with blanks), offset (4), length (4)".
    Names,
    /// "A contents line grows to 24 bytes: library name (8), member name, offset, length."
    Pairs,
}

const MOST_BYTES: usize = 65_536;
const MOST_MEMBERS: usize = 32;
const COUNT_BYTES: usize = 2;
const NAME_BYTES: usize = 8;
/// "The first two bytes of such a deck hold the count plus 256".
const MORE_FOR_PAIRS: usize = 256;

impl Contents {
    fn line_bytes(self) -> usize {
        match self {
            Contents::Names => 16,
            Contents::Pairs => 24,
        }
    }
}

/// The layout and the count of lines that the first number tells.
fn announced(first: usize) -> Option<(Contents, usize)> {
    let (contents, count) = match first.checked_sub(MORE_FOR_PAIRS) {
        Some(count) => (Contents::Pairs, count),
        None => (Contents::Names, first),
    };
    (1..=MOST_MEMBERS)
        .contains(&count)
        .then_some((contents, count))
}

/// The members of a deck in the order of its contents; none if it is malformed.
pub fn open(deck: &[u8]) -> Option<Vec<Member<'_>>> {
    if deck.len() > MOST_BYTES {
        return None;
    }
    let first = u16::from_le_bytes([*deck.first()?, *deck.get(1)?]);
    let (layout, count) = announced(usize::from(first))?;
    let contents = deck.get(COUNT_BYTES..COUNT_BYTES + layout.line_bytes() * count)?;
    let mut bodies_end = COUNT_BYTES + contents.len();
    let mut members = Vec::with_capacity(count);
    for line in contents.chunks(layout.line_bytes()) {
        let member = open_line(deck, layout, line, bodies_end)?;
        bodies_end += member.body.len();
        members.push(member);
    }
    let whole = bodies_end == deck.len() && are_distinct(&members);
    whole.then_some(members)
}

/// "Names are distinct", those of the second layout "as pairs"; names equal but
/// for case are not (reading 9 of the requests).
fn are_distinct(members: &[Member]) -> bool {
    let pair = |one: &Member| (one.library.map(folded), folded(one.name));
    let pairs: HashSet<_> = members.iter().map(pair).collect();
    pairs.len() == members.len()
}

/// One line of contents, whose body must begin just at `expected`.
fn open_line<'d>(
    deck: &'d [u8],
    layout: Contents,
    line: &'d [u8],
    expected: usize,
) -> Option<Member<'d>> {
    let (library, rest) = match layout {
        Contents::Names => (None, line),
        Contents::Pairs => {
            let (library, rest) = line.split_at_checked(NAME_BYTES)?;
            (Some(name_of(library)?), rest)
        }
    };
    let name = name_of(slice(rest, 0, NAME_BYTES))?;
    let offset = number(rest, NAME_BYTES)?;
    let length = number(rest, NAME_BYTES + 4)?;
    if offset != expected {
        return None;
    }
    let body = deck.get(offset..offset.checked_add(length)?)?;
    Some(Member {
        library,
        name,
        body,
    })
}

/// A name of a member or a library: "(8, an identifier padded with blanks)".
fn name_of(padded: &[u8]) -> Option<&[u8]> {
    let length = padded.iter().position(|byte| *byte == b' ');
    let name = slice(padded, 0, length.unwrap_or(padded.len()));
    let padding = slice(padded, name.len(), padded.len());
    let good = is_identifier(name) && padding.iter().all(|byte| *byte == b' ');
    good.then_some(name)
}

/// Four bytes of a line as a little-endian number.
fn number(line: &[u8], at: usize) -> Option<usize> {
    let bytes: [u8; 4] = slice(line, at, at + 4).try_into().ok()?;
    usize::try_from(u32::from_le_bytes(bytes)).ok()
}

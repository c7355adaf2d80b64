//! Card images (request C-11): bodies of 80-column records, and the places of what stands in them.

use std::ops::RangeInclusive;

/// How the bodies of a deck are laid out; "The caller says whether a deck is plain or cards."
#[derive(Clone, Copy, Debug, PartialEq, Eq)]
pub enum Layout {
    Plain,
    Cards,
}

const RECORD_BYTES: usize = 80;
/// "source in 2 to 72, column 1 for the printer, a sequence field in 73 to 80".
const SOURCE_COLUMNS: RangeInclusive<usize> = 2..=72;

impl Layout {
    /// Whether a body as given consists of whole records; a plain one has none.
    pub fn takes(self, given: &[u8]) -> bool {
        self == Layout::Plain || given.len().is_multiple_of(RECORD_BYTES)
    }

    /// Whether the byte at this offset of a body as given is source.
    fn is_source(self, offset: usize) -> bool {
        let column = offset % RECORD_BYTES + 1;
        self == Layout::Plain || SOURCE_COLUMNS.contains(&column)
    }
}

/// "The columns 2 to 72 of all records, joined, are what 01 calls the body".
#[derive(Debug)]
pub struct Body {
    pub bytes: Vec<u8>,
    /// Where each byte stands in the body as given; then that body's length.
    offsets: Vec<usize>,
}

impl Body {
    pub fn new(layout: Layout, given: &[u8]) -> Body {
        let source = || (0..).zip(given).filter(|(at, _)| layout.is_source(*at));
        Body {
            bytes: source().map(|(_, byte)| *byte).collect(),
            offsets: source().map(|(at, _)| at).chain([given.len()]).collect(),
        }
    }

    /// "A place after column 72 is column 2 of the next record, or the body's
    /// length after the last."
    pub fn offset_as_given(&self, place: usize) -> usize {
        self.offsets.get(place).copied().unwrap_or(0)
    }

    /// How far the bytes from `from` on, up to `to` at most, stand side by side
    /// in the body as given.
    pub fn piece_end(&self, from: usize, to: usize) -> usize {
        let edge = |at: &usize| self.offset_as_given(*at) != self.offset_as_given(at - 1) + 1;
        (from + 1..to).find(edge).unwrap_or(to)
    }
}

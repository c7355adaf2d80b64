//! A safe call of the proved expander, `muharegoden_expand` (include/muharegoden.h), with decks and the words of numbers.
//!
//! The proof covers the call. This crate sees to what a caller in C answers for: each room has its length and overlaps no
//! other.

mod deck;
mod rooms;

pub use deck::{Member, NoDeck, pack};
pub use rooms::expand;

/// What the bodies of a deck are.
#[derive(Clone, Copy, Debug, PartialEq, Eq)]
pub enum Layout {
    /// Source as it stands.
    Plain,
    /// Records of 80 bytes without line ends, source in columns 2 to 72.
    Cards,
}

/// How much a call may use. `Limits::default()` is what the program has.
#[derive(Clone, Copy, Debug, PartialEq, Eq)]
pub struct Limits {
    pub steps: u32,
    pub text_bytes: usize,
    pub lines: usize,
}

impl Default for Limits {
    fn default() -> Self {
        Limits {
            steps: 1_000_000,
            text_bytes: 65_536,
            lines: 4_096,
        }
    }
}

/// What a line of the origin list says of a part of the text.
#[derive(Clone, Copy, Debug, PartialEq, Eq)]
pub enum Kind {
    Blank,
    Copied,
    Replaced,
}

/// A line of the origin list: a part of the text of this length came from this place.
#[derive(Clone, Copy, Debug, PartialEq, Eq)]
pub struct Line {
    pub kind: Kind,
    pub member: u8,
    pub offset: u32,
    pub length: u32,
}

/// What a call gives back.
#[derive(Clone, Debug, PartialEq, Eq)]
pub struct Answer {
    /// 0: finished; 1 to 20: refused, `meaning` has words for it.
    pub number: u32,
    pub member: u32,
    pub offset: u32,
    pub steps: u32,
    pub text: Vec<u8>,
    pub lines: Vec<Line>,
}

const MEANINGS: [&str; 21] = [
    "finished",
    "the deck is malformed",
    "a working room is too short",
    "wrong syntax, or a string or comment that is not closed",
    "a name is too long, or there are too many sentences, names, open parentheses or open groups",
    "a name is declared twice, or a parameter is listed twice",
    "a name is unknown or of the wrong kind",
    "a variable has no value yet",
    "a value cannot be converted",
    "a FIXED number is outside -99999 to 99999",
    "a division by zero",
    "a wrong count of arguments, or an argument list that is missing or not closed",
    "a procedure is called while it runs, or ends without RETURN",
    "a GOTO to a place where it may not go",
    "there is no member of that name",
    "too many levels of inclusion, replacement or procedure calls",
    "a value is longer than 512 places",
    "the text or its origin list is full",
    "the steps are used up",
    "SUBSTR reaches outside its string",
    "a body is no whole number of 80-byte records",
];

/// What a number means; none for one that no answer has.
#[must_use]
pub fn meaning(number: u32) -> Option<&'static str> {
    MEANINGS.get(usize::try_from(number).ok()?).copied()
}

//! The numbers of a refused expansion and the places they are told at.

/// Why an expansion is refused; the discriminants are the numbers of 01's table.
/// Number 2 (a working room too short) is missing: the referee is lent no rooms.
#[derive(Clone, Copy, Debug, PartialEq, Eq)]
pub enum Refusal {
    Deck = 1,
    Syntax = 3,
    Limit = 4,
    Twice = 5,
    Name = 6,
    NoValue = 7,
    Conversion = 8,
    Range = 9,
    ZeroDivisor = 10,
    Arguments = 11,
    Procedure = 12,
    Goto = 13,
    Member = 14,
    Level = 15,
    Length = 16,
    Room = 17,
    Steps = 18,
    Substr = 19,
    /// A body of cards that is no multiple of 80 (request C-11).
    Cards = 20,
}

impl Refusal {
    /// The number that the answer reports.
    pub fn number(self) -> u32 {
        self as u32
    }
}

/// Outcome of anything that the run may refuse; the run itself keeps the place.
pub type Outcome<T> = Result<T, Refusal>;

/// A member and an offset from the start of its body: while the deck runs, of
/// what 01 calls the body; in the answer, of the body as given.
#[derive(Clone, Copy, Debug, Default, PartialEq, Eq)]
pub struct Place {
    pub member: usize,
    pub offset: usize,
}

/// A refusal met while a member is read, with its own place in the body.
#[derive(Clone, Copy, Debug, PartialEq, Eq)]
pub struct ReadError {
    pub refusal: Refusal,
    pub at: usize,
}

/// Outcome of reading.
pub type Read<T> = Result<T, ReadError>;

/// "3: syntax, or a string or comment open in source".
pub fn syntax<T>(at: usize) -> Read<T> {
    Err(ReadError {
        refusal: Refusal::Syntax,
        at,
    })
}

/// "4: ... the token past a limit".
pub fn past_limit<T>(at: usize) -> Read<T> {
    Err(ReadError {
        refusal: Refusal::Limit,
        at,
    })
}

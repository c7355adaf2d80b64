//! Tokens: those of statements, and those of a scan.

use crate::bytes::{byte_at, find, folded, is_alphameric, is_letter, skip, slice};

/// The delimiters of a statement (000, 3.1.1), with `%`.
#[derive(Clone, Copy, Debug, PartialEq, Eq)]
pub enum Mark {
    Equal,
    Plus,
    Minus,
    Star,
    Slash,
    Open,
    Close,
    Comma,
    Semicolon,
    Colon,
    And,
    Or,
    Not,
    Greater,
    Less,
    Concatenate,
    GreaterOrEqual,
    LessOrEqual,
    NotGreater,
    NotEqual,
    NotLess,
    Percent,
}

/// What a token of a statement is.
#[derive(Clone, Copy, Debug, PartialEq, Eq)]
pub enum Kind {
    Word,
    Number,
    Characters,
    Bits,
    Mark(Mark),
    /// The end of the body.
    End,
    /// Nothing that can ever follow: a strange byte, an open string or comment,
    /// or a non-delimiter that touches another.
    Bad,
}

/// A token of a statement.
#[derive(Clone, Copy, Debug, PartialEq, Eq)]
pub struct Token {
    pub kind: Kind,
    pub start: usize,
    pub end: usize,
}

impl Token {
    pub fn is(&self, mark: Mark) -> bool {
        self.kind == Kind::Mark(mark)
    }

    pub fn bytes<'b>(&self, body: &'b [u8]) -> &'b [u8] {
        slice(body, self.start, self.end)
    }

    /// Whether it is just this word, in any case.
    pub fn is_word(&self, body: &[u8], word: &[u8]) -> bool {
        self.kind == Kind::Word && folded(self.bytes(body)) == word
    }

    fn is_delimiter(&self) -> bool {
        !matches!(
            self.kind,
            Kind::Word | Kind::Number | Kind::Characters | Kind::Bits
        )
    }
}

/// The first token of a statement at or behind `from`.
pub fn first_token(body: &[u8], from: usize) -> Token {
    match skip_spaces(body, from) {
        Ok(start) => token_at(body, start),
        Err(start) => bad(start, body.len()),
    }
}

/// The token behind another. "Two touching non-delimiters are always 3 at the
/// second" (reading 2).
pub fn token_after(body: &[u8], before: &Token) -> Token {
    let token = first_token(body, before.end);
    let touching = token.start == before.end && !before.is_delimiter() && !token.is_delimiter();
    if touching {
        return bad(token.start, token.end);
    }
    token
}

fn bad(start: usize, end: usize) -> Token {
    Token {
        kind: Kind::Bad,
        start,
        end,
    }
}

/// Skips blanks, line feeds and comments; an open comment is the error.
fn skip_spaces(body: &[u8], from: usize) -> Result<usize, usize> {
    let mut at = from;
    loop {
        at = skip(body, at, |byte| byte == b' ' || byte == b'\n');
        if slice(body, at, at + 2) != b"/*" {
            return Ok(at);
        }
        at = comment_end(body, at).ok_or(at)?;
    }
}

/// The end of the comment that begins at `start`, if it is closed.
fn comment_end(bytes: &[u8], start: usize) -> Option<usize> {
    find(bytes, start + 2, b"*/").map(|at| at + 2)
}

/// The token whose first byte stands at `start`; longest match (reading 2).
fn token_at(body: &[u8], start: usize) -> Token {
    let Some(first) = byte_at(body, start) else {
        return Token {
            kind: Kind::End,
            start: body.len(),
            end: body.len(),
        };
    };
    let (kind, end) = if is_letter(first) {
        (Kind::Word, skip(body, start, is_alphameric))
    } else if first.is_ascii_digit() {
        (
            Kind::Number,
            skip(body, start, |byte| byte.is_ascii_digit()),
        )
    } else if first == b'\'' {
        string_at(body, start)
    } else {
        mark_at(body, start)
    };
    Token { kind, start, end }
}

/// A string constant; in a statement a doubled quote is one quote.
fn string_at(body: &[u8], start: usize) -> (Kind, usize) {
    let mut at = start + 1;
    loop {
        at = skip(body, at, |byte| byte != b'\'');
        match (byte_at(body, at), byte_at(body, at + 1)) {
            (None, _) => return (Kind::Bad, body.len()),
            (_, Some(b'\'')) => at += 2,
            (_, next) => {
                let digits = slice(body, start + 1, at);
                let binary = digits.iter().all(|digit| matches!(digit, b'0' | b'1'));
                // Reading 3: bits whatever follows the B.
                return if binary && matches!(next, Some(b'B' | b'b')) {
                    (Kind::Bits, at + 2)
                } else {
                    (Kind::Characters, at + 1)
                };
            }
        }
    }
}

fn mark_at(body: &[u8], start: usize) -> (Kind, usize) {
    let double = match slice(body, start, start + 2) {
        b"||" => Some(Mark::Concatenate),
        b">=" => Some(Mark::GreaterOrEqual),
        b"<=" => Some(Mark::LessOrEqual),
        b"^>" => Some(Mark::NotGreater),
        b"^=" => Some(Mark::NotEqual),
        b"^<" => Some(Mark::NotLess),
        _ => None,
    };
    if let Some(mark) = double {
        return (Kind::Mark(mark), start + 2);
    }
    let single = byte_at(body, start).and_then(single_mark);
    (single.map_or(Kind::Bad, Kind::Mark), start + 1)
}

fn single_mark(byte: u8) -> Option<Mark> {
    Some(match byte {
        b'=' => Mark::Equal,
        b'+' => Mark::Plus,
        b'-' => Mark::Minus,
        b'*' => Mark::Star,
        b'/' => Mark::Slash,
        b'(' => Mark::Open,
        b')' => Mark::Close,
        b',' => Mark::Comma,
        b';' => Mark::Semicolon,
        b':' => Mark::Colon,
        b'&' => Mark::And,
        b'|' => Mark::Or,
        b'^' => Mark::Not,
        b'>' => Mark::Greater,
        b'<' => Mark::Less,
        b'%' => Mark::Percent,
        _ => return None,
    })
}

/// What a token of a scan is.
#[derive(Clone, Copy, Debug, PartialEq, Eq)]
pub enum ScanKind {
    Identifier,
    /// A digit run, a string, a comment or a single byte; `closed` is false for
    /// a string or comment that runs to the end.
    Other {
        closed: bool,
    },
}

/// A token of a scan, by its kind and its end.
#[derive(Clone, Copy, Debug, PartialEq, Eq)]
pub struct ScanToken {
    pub kind: ScanKind,
    pub end: usize,
}

/// The token of a scan that begins at `start`, which must lie within `bytes`.
pub fn scan_token(bytes: &[u8], start: usize) -> ScanToken {
    let first = byte_at(bytes, start).unwrap_or(0);
    if is_letter(first) {
        return ScanToken {
            kind: ScanKind::Identifier,
            end: skip(bytes, start, is_alphameric),
        };
    }
    let end = if first.is_ascii_digit() {
        Some(skip(bytes, start, is_alphameric))
    } else if first == b'\'' {
        // A doubled quote ends one string and begins another.
        find(bytes, start + 1, b"'").map(|at| at + 1)
    } else if slice(bytes, start, start + 2) == b"/*" {
        comment_end(bytes, start)
    } else {
        Some(start + 1)
    };
    ScanToken {
        kind: ScanKind::Other {
            closed: end.is_some(),
        },
        end: end.unwrap_or(bytes.len()),
    }
}

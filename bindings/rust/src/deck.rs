//! Decks.

use std::fmt;

const MEMBERS: usize = 32;
const BYTES: usize = 65_536;
const NAME: usize = 8;
const LIBRARIES: usize = 256;

/// A member: in one deck all have a library, or none has.
#[derive(Clone, Copy, Debug)]
pub struct Member<'a> {
    pub library: Option<&'a str>,
    pub name: &'a str,
    pub body: &'a [u8],
}

/// Why members make no deck.
#[derive(Clone, Copy, Debug, PartialEq, Eq)]
pub enum NoDeck {
    /// There are not 1 to 32 of them.
    Count,
    /// A name or library is longer than 8 bytes.
    LongName,
    /// Some have a library and some have none.
    Mixed,
    /// The deck would pass 65,536 bytes.
    Large,
}

impl fmt::Display for NoDeck {
    fn fmt(&self, f: &mut fmt::Formatter<'_>) -> fmt::Result {
        f.write_str(match self {
            NoDeck::Count => "a deck has 1 to 32 members",
            NoDeck::LongName => "a name has at most 8 bytes",
            NoDeck::Mixed => "all members have a library, or none has",
            NoDeck::Large => "a deck has at most 65,536 bytes",
        })
    }
}

impl std::error::Error for NoDeck {}

/// The deck of members, the first the main program. Whether names are identifiers, and distinct whatever their case, is
/// for the expander to say: it refuses the deck with 1 if not.
///
/// # Errors
/// Where the members have no place in a deck.
pub fn pack(members: &[Member<'_>]) -> Result<Vec<u8>, NoDeck> {
    if members.is_empty() || members.len() > MEMBERS {
        return Err(NoDeck::Count);
    }
    let has_libraries = members[0].library.is_some();
    if members
        .iter()
        .any(|one| one.library.is_some() != has_libraries)
    {
        return Err(NoDeck::Mixed);
    }
    let line = if has_libraries { 24 } else { 16 };
    let mut offset = 2 + line * members.len();
    if offset + members.iter().map(|one| one.body.len()).sum::<usize>() > BYTES {
        return Err(NoDeck::Large);
    }
    let first = members.len() + if has_libraries { LIBRARIES } else { 0 };
    let mut deck = number(first)[..2].to_vec();
    for one in members {
        for name in one.library.iter().chain([&one.name]) {
            deck.extend(padded(name)?);
        }
        deck.extend(number(offset));
        deck.extend(number(one.body.len()));
        offset += one.body.len();
    }
    for one in members {
        deck.extend(one.body);
    }
    Ok(deck)
}

fn padded(name: &str) -> Result<[u8; NAME], NoDeck> {
    let mut field = [b' '; NAME];
    let room = field.get_mut(..name.len()).ok_or(NoDeck::LongName)?;
    room.copy_from_slice(name.as_bytes());
    Ok(field)
}

/// A number that is at most the size of a deck, as four bytes.
fn number(value: usize) -> [u8; 4] {
    u32::try_from(value).unwrap_or(u32::MAX).to_le_bytes()
}

#[cfg(test)]
mod tests {
    use super::*;

    const MAIN: Member<'_> = Member {
        library: None,
        name: "MAIN",
        body: b"AB",
    };

    #[test]
    fn both_layouts() {
        assert_eq!(
            pack(&[MAIN]).unwrap(),
            b"\x01\0MAIN    \x12\0\0\0\x02\0\0\0AB"
        );
        let held = Member {
            library: Some("LIB"),
            ..MAIN
        };
        assert_eq!(
            pack(&[held]).unwrap(),
            b"\x01\x01LIB     MAIN    \x1a\0\0\0\x02\0\0\0AB"
        );
    }

    #[test]
    fn no_decks() {
        let held = Member {
            library: Some("LIB"),
            ..MAIN
        };
        assert_eq!(pack(&[]), Err(NoDeck::Count));
        assert_eq!(pack(&[MAIN; 33]), Err(NoDeck::Count));
        assert_eq!(pack(&[MAIN, held]), Err(NoDeck::Mixed));
        assert_eq!(
            pack(&[Member {
                name: "A23456789",
                ..MAIN
            }]),
            Err(NoDeck::LongName)
        );
        assert_eq!(
            pack(&[Member {
                body: &[0; 65_519],
                ..MAIN
            }]),
            Err(NoDeck::Large)
        );
        assert_eq!(
            pack(&[Member {
                body: &[0; 65_518],
                ..MAIN
            }])
            .unwrap()
            .len(),
            65_536
        );
    }
}

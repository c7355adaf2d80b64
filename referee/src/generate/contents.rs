//! Decks: put together, and damaged.

use super::programs::Bodies;
use super::random::Random;
use super::shake::recase;
use crate::cards::{Body, Layout};
use crate::deck::{self, Member};

/// The bytes of a line of contents without libraries and with them, and what the first number is more with them.
const NARROW: usize = 16;
const WIDE: usize = 24;
const MORE_FOR_WIDE: usize = 256;

/// Puts a deck together as 01 says, or request C-14 if it has libraries.
pub fn assemble(bodies: &Bodies) -> Vec<u8> {
    let count = bodies.bodies.len();
    let (first, width) = match bodies.libraries.is_empty() {
        true => (count, NARROW),
        false => (count + MORE_FOR_WIDE, WIDE),
    };
    let mut deck = u16::try_from(first).unwrap_or(0).to_le_bytes().to_vec();
    let mut offset = 2 + width * count;
    for (line, (name, body)) in bodies.names.iter().zip(&bodies.bodies).enumerate() {
        if let Some(library) = bodies.libraries.get(line) {
            deck.extend(padded(library));
        }
        deck.extend(padded(name));
        deck.extend_from_slice(&number(offset));
        deck.extend_from_slice(&number(body.len()));
        offset += body.len();
    }
    for body in &bodies.bodies {
        deck.extend_from_slice(body);
    }
    deck
}

fn padded(name: &[u8]) -> Vec<u8> {
    let mut padded = name.to_vec();
    padded.resize(8, b' ');
    padded
}

/// The names and bodies of a deck, of cards the joined columns; none if it is refused with 1 or 20.
pub fn take_apart(layout: Layout, deck: &[u8]) -> Option<Bodies> {
    let members = deck::open(deck)?;
    let whole = members.iter().all(|member| layout.takes(member.body));
    let body = |member: &Member| Body::new(layout, member.body).bytes;
    let libraries = members.iter().filter_map(|member| member.library);
    whole.then(|| Bodies {
        names: members.iter().map(|member| member.name.to_vec()).collect(),
        bodies: members.iter().map(body).collect(),
        libraries: libraries.map(<[u8]>::to_vec).collect(),
    })
}

fn number(value: usize) -> [u8; 4] {
    u32::try_from(value).unwrap_or(u32::MAX).to_le_bytes()
}

/// First numbers that a deck may have, and that none may have.
const FIRST: &[u16] = &[
    0, 1, 2, 31, 32, 33, 255, 256, 257, 258, 287, 288, 289, 512, 513, 65_535,
];

/// Damages the contents of a deck, or its length.
pub fn damage(random: &mut Random, deck: &mut Vec<u8>) {
    let count = usize::from(deck.first().copied().unwrap_or(0));
    let width = match deck.get(1) {
        Some(1) => WIDE,
        _ => NARROW,
    };
    let line = 2 + width * random.below(count);
    let names = width - 8;
    match random.below(14) {
        0 => set(deck, random.below(2), random.byte()),
        1 => {
            let first = FIRST[random.below(FIRST.len())];
            put(deck, 0, &first.to_le_bytes());
        }
        2 => {
            let bytes = b" A9_az`{%$\n\x00\xE1";
            let byte = bytes[random.below(bytes.len())];
            set(deck, line + random.below(names), byte);
        }
        3 => nudge(random, deck, line + names),
        4 => nudge(random, deck, line + names + 4),
        5 => deck.truncate(random.below(deck.len() + 1)),
        6 => {
            for _ in 0..random.between(1, 20) {
                deck.push(random.byte());
            }
        }
        7 => copy(deck, 2, line, names),
        8 => copy(deck, 2, line, 8),
        9 => put(deck, line + 8 * random.below(names / 8), b"        "),
        10 => deck.truncate(random.below(2 + width * count + 1)),
        11 => mistake_width(deck, width, count),
        12 => copy_in_another_case(random, deck, line, names),
        _ => set(deck, line + random.below(width), random.byte()),
    }
}

/// The deck says that its lines have the other width; the lines are as they were.
fn mistake_width(deck: &mut [u8], width: usize, count: usize) {
    let first = match width {
        WIDE => count,
        _ => count + MORE_FOR_WIDE,
    };
    put(deck, 0, &u16::try_from(first).unwrap_or(0).to_le_bytes());
}

/// Bytes of a deck are written over others of it.
fn copy(deck: &mut [u8], from: usize, to: usize, count: usize) {
    let bytes = deck.get(from..from + count).unwrap_or(&[]).to_vec();
    put(deck, to, &bytes);
}

/// The names of the first line stand in another too, in some case.
fn copy_in_another_case(random: &mut Random, deck: &mut [u8], line: usize, names: usize) {
    copy(deck, 2, line, names);
    if let Some(copied) = deck.get_mut(line..line + names) {
        recase(random, copied);
    }
}

fn put(deck: &mut [u8], at: usize, bytes: &[u8]) {
    for (place, byte) in (at..).zip(bytes) {
        set(deck, place, *byte);
    }
}

fn set(deck: &mut [u8], at: usize, byte: u8) {
    if let Some(place) = deck.get_mut(at) {
        *place = byte;
    }
}

/// Moves a number of a line by a little, or by a high byte.
fn nudge(random: &mut Random, deck: &mut [u8], at: usize) {
    let at = at + usize::from(random.one_in(4)) * 3;
    if let Some(place) = deck.get_mut(at) {
        *place = if random.percent(50) {
            place.wrapping_add(1)
        } else {
            place.wrapping_sub(1)
        };
    }
}

//! Damage to programs, by tokens and by bytes, and programs out of nothing.

use super::random::Random;
use super::world::{any_name, KEYWORDS};
use crate::tokens::scan_token;

const MARKS: &[&[u8]] = &[
    b"%", b";", b":", b"=", b"(", b")", b",", b"+", b"-", b"*", b"/", b"|", b"||", b"&", b"^",
    b"<", b">", b"<=", b"^=", b"'", b"''", b"'1'B", b"'A'", b"/*", b"*/", b"/**/", b" ", b"\n",
    b"1", b"99999", b"100000", b"%END;", b"%DO;", b"%ELSE ", b"%THEN ", b"%;", b"\x00", b"_",
];

/// The tokens of a body, as a scan sees them.
pub fn split(body: &[u8]) -> Vec<Vec<u8>> {
    let mut tokens = Vec::new();
    let mut at = 0;
    while at < body.len() {
        let end = scan_token(body, at).end;
        tokens.push(body.get(at..end).unwrap_or(&[]).to_vec());
        at = end;
    }
    tokens
}

/// A token from anywhere.
fn any_token(random: &mut Random) -> Vec<u8> {
    match random.below(4) {
        0 => random.word(KEYWORDS).to_vec(),
        1 => any_name(random),
        _ => random.word(MARKS).to_vec(),
    }
}

/// Drops, doubles, swaps, replaces or adds tokens.
pub fn damage_tokens(random: &mut Random, body: &[u8]) -> Vec<u8> {
    let mut tokens = split(body);
    for _ in 0..random.weighted(&[0, 60, 25, 15]) {
        let at = random.below(tokens.len());
        let other = random.below(tokens.len());
        match random.below(9) {
            _ if tokens.is_empty() => tokens.push(any_token(random)),
            0 => {
                tokens.remove(at);
            }
            1 => tokens.insert(at, tokens[other].clone()),
            2 => tokens.swap(at, other),
            3 => tokens[at] = any_token(random),
            4 => tokens.insert(at, any_token(random)),
            5 if random.one_in(3) => tokens.truncate(at),
            6 | 7 => drop_space(&mut tokens, at),
            _ => tokens[at] = tokens[other].clone(),
        }
    }
    tokens.concat()
}

/// Drops the first blank at or behind a place, so that tokens touch.
fn drop_space(tokens: &mut Vec<Vec<u8>>, from: usize) {
    let found = tokens.iter().skip(from).position(|token| token == b" ");
    if let Some(behind) = found {
        tokens.remove(from + behind);
    }
}

/// The front of one body and the back of another.
pub fn splice(random: &mut Random, one: &[u8], other: &[u8]) -> Vec<u8> {
    let mut front = split(one);
    let mut back = split(other);
    front.truncate(random.below(front.len() + 1));
    let from = random.below(back.len() + 1);
    front.extend(back.drain(from..));
    front.concat()
}

/// Changes, adds or drops single bytes.
pub fn damage_bytes(random: &mut Random, body: &mut Vec<u8>) {
    const TELLING: &[u8] = b"%;:=()'/*,+-|&^<> \nABEX019_$abz`{\x00\xE1\xFF";
    for _ in 0..random.between(1, 4) {
        let at = random.below(body.len());
        let byte = if random.percent(80) {
            TELLING[random.below(TELLING.len())]
        } else {
            random.byte()
        };
        match random.below(4) {
            _ if body.is_empty() => body.push(byte),
            0 => body[at] = byte,
            1 => body.insert(at, byte),
            2 => {
                body.remove(at);
            }
            _ => body[at] ^= 1 << random.below(8),
        }
    }
}

/// Tokens in no order.
pub fn token_soup(random: &mut Random) -> Vec<u8> {
    let count = random.between(1, 40);
    let mut soup = Vec::new();
    for _ in 0..count {
        soup.extend(any_token(random));
        if random.percent(40) {
            soup.push(b' ');
        }
    }
    soup
}

/// Bytes in no order.
pub fn byte_soup(random: &mut Random) -> Vec<u8> {
    let count = random.between(0, 60);
    (0..count).map(|_| random.byte()).collect()
}

//! Decks as card images: the joined columns are the bodies of a plain deck, filled up with blanks.

use std::array;

use super::contents;
use super::programs::Bodies;
use super::random::Random;
use crate::cards::Layout;
use crate::record::Record;

const RECORD_BYTES: usize = 80;
const SOURCE_BYTES: usize = 71;
const SEQUENCE_BYTES: usize = 8;

/// What is never looked at in a record: column 1, and columns 73 to 80.
type Margins = (u8, [u8; SEQUENCE_BYTES]);

/// What would change an expansion if it were looked at.
const TELLING: &[u8] = b"%%%''//**;:=()ABXabx019_ \n\x00\xFF";

/// A plain deck becomes one of cards, and one in twelve is damaged then. A malformed one stays as it is, and now and then
/// another: its bodies are no records.
pub fn punch(random: &mut Random, record: &mut Record) {
    let bodies = contents::take_apart(record.layout, &record.deck);
    record.layout = Layout::Cards;
    let Some(mut bodies) = bodies.filter(|_| !random.one_in(60)) else {
        return;
    };
    for body in &mut bodies.bodies {
        shift(random, body);
    }
    lay_out(random, &mut bodies);
    record.deck = contents::assemble(&bodies);
    if random.one_in(12) {
        damage(random, record, bodies);
    }
}

/// Bodies become records, with anything in the columns that are never looked at.
pub fn lay_out(random: &mut Random, bodies: &mut Bodies) {
    for body in &mut bodies.bodies {
        *body = records(body, || margins(random));
    }
}

/// The records of a body, the last one filled up with blanks.
pub fn records(source: &[u8], mut margins: impl FnMut() -> Margins) -> Vec<u8> {
    let mut records = Vec::new();
    for columns in source.chunks(SOURCE_BYTES) {
        let (printer, sequence) = margins();
        records.push(printer);
        records.extend_from_slice(columns);
        records.resize(records.len() + SOURCE_BYTES - columns.len(), b' ');
        records.extend_from_slice(&sequence);
    }
    records
}

fn margins(random: &mut Random) -> Margins {
    match random.below(4) {
        0 => (b' ', *b"00000010"),
        1 => (random.byte(), array::from_fn(|_| random.byte())),
        _ => (telling(random), array::from_fn(|_| telling(random))),
    }
}

fn telling(random: &mut Random) -> u8 {
    TELLING[random.below(TELLING.len())]
}

/// Moves a body, so that the edges fall elsewhere: blanks or a comment before it.
fn shift(random: &mut Random, body: &mut Vec<u8>) {
    let places = random.below(SOURCE_BYTES);
    if body.is_empty() || random.one_in(3) {
        return;
    }
    let mut front = vec![b' '; places];
    if places >= 4 && random.percent(60) {
        front.splice(..2, *b"/*");
        front.splice(places - 2.., *b"*/");
    }
    body.splice(..0, front);
}

/// Records broken off, damaged in any column, or in another order; damaged contents; or cards that are said to be plain.
fn damage(random: &mut Random, record: &mut Record, mut bodies: Bodies) {
    match random.below(8) {
        0..3 => super::change(random, &mut bodies, break_off),
        3 => super::change(random, &mut bodies, |random, body| {
            damage_columns(random, body)
        }),
        4 | 5 => super::change(random, &mut bodies, mix_records),
        6 => return contents::damage(random, &mut record.deck),
        _ => record.layout = Layout::Plain,
    }
    record.deck = contents::assemble(&bodies);
}

/// A body that is no multiple of 80: bytes are missing at its end, or too many.
fn break_off(random: &mut Random, body: &mut Vec<u8>) {
    let some = [1, 8, 9, 40, 79, random.between(1, RECORD_BYTES - 1)][random.below(6)];
    if body.is_empty() || random.percent(50) {
        body.extend((0..some).map(|_| telling(random)));
    } else {
        body.truncate(body.len() - some);
    }
}

/// Bytes in any column become others.
fn damage_columns(random: &mut Random, body: &mut [u8]) {
    for _ in 0..random.between(1, 12) {
        let at = random.below(body.len());
        if let Some(byte) = body.get_mut(at) {
            *byte = telling(random);
        }
    }
}

/// A record is dropped, doubled, or put behind the others.
fn mix_records(random: &mut Random, body: &mut Vec<u8>) {
    let mut records: Vec<Vec<u8>> = body.chunks(RECORD_BYTES).map(<[u8]>::to_vec).collect();
    if records.is_empty() {
        return;
    }
    let at = random.below(records.len());
    match random.below(3) {
        0 => drop(records.remove(at)),
        1 => records.insert(at, records[at].clone()),
        _ => {
            let record = records.remove(at);
            records.push(record);
        }
    }
    *body = records.concat();
}

//! A plain deck and the deck of cards with the same joined columns have the same answer but for places, and the same
//! list once places are mapped and pieces joined. The map is the formula, which the referee does not use.
//!
//! A deck of the first layout keeps its answer, text and list when its lines get a library that nothing names.

use referee::cards::Layout;
use referee::deck::{self, Member};
use referee::generate::record;
use referee::record::Record;
use referee::stack::with_large_stack;
use referee::{expand, Answer, Line, LineKind, Rooms};

const SEED: u64 = 1972;
const DECKS: u64 = 30_000;
const SHELVED: u64 = 8_000;

/// The columns 2 to 72 of all records, joined.
fn joined(body: &[u8]) -> Vec<u8> {
    let records = body.chunks(80);
    let source = records.flat_map(|record| record.get(1..72).unwrap_or(&[]));
    source.copied().collect()
}

/// A deck of these lines with these bodies, in the layout that the lines have.
fn assembled(members: &[Member], bodies: &[Vec<u8>]) -> Vec<u8> {
    let libraries = members.iter().any(|member| member.library.is_some());
    let mut deck = vec![members.len() as u8, u8::from(libraries)];
    let mut offset = 2 + if libraries { 24 } else { 16 } * members.len();
    for (member, body) in members.iter().zip(bodies) {
        for name in member.library.into_iter().chain([member.name]) {
            deck.extend(format!("{:8}", String::from_utf8_lossy(name)).bytes());
        }
        deck.extend((offset as u32).to_le_bytes());
        deck.extend((body.len() as u32).to_le_bytes());
        offset += body.len();
    }
    deck.extend(bodies.concat());
    deck
}

/// The plain deck with the joined columns of cards; none if a body is no multiple of 80.
fn plain_twin(members: &[Member]) -> Option<Vec<u8>> {
    let whole = members.iter().all(|member| member.body.len() % 80 == 0);
    let bodies: Vec<Vec<u8>> = members.iter().map(|member| joined(member.body)).collect();
    whole.then(|| assembled(members, &bodies))
}

/// The deck with lines of 24 bytes, all in one library; none if it has libraries or would be too long.
fn shelved(deck: &[u8]) -> Option<Vec<u8>> {
    let mut members = deck::open(deck)?;
    let first_layout = members.iter().all(|member| member.library.is_none());
    let fits = deck.len() + 8 * members.len() <= 65_536;
    let bodies: Vec<Vec<u8>> = members.iter().map(|one| one.body.to_vec()).collect();
    for member in &mut members {
        member.library = Some(b"NO_PAIR_");
    }
    (first_layout && fits).then(|| assembled(&members, &bodies))
}

/// The place in a body of so many bytes for a place of its joined columns.
fn mapped(place: usize, length: usize) -> usize {
    if place == length / 80 * 71 {
        return length;
    }
    80 * (place / 71) + 1 + place % 71
}

/// The lines with the pieces of one stretch joined: a piece up to column 72 and one from column 2 of the next record.
fn with_pieces_joined(lines: &[Line]) -> Vec<Line> {
    let mut whole: Vec<Line> = Vec::new();
    let mut end = 0;
    for line in lines {
        let copied = line.kind == LineKind::Copied;
        match whole.last_mut() {
            Some(last) if copied && last.kind == LineKind::Copied => {
                assert_eq!(end % 80, 72, "the column behind a piece");
                assert_eq!(line.place.offset, end + 9, "the place of the next piece");
                assert_eq!(line.place.member, last.place.member);
                last.length += line.length;
            }
            _ => whole.push(*line),
        }
        end = line.place.offset + line.length;
    }
    whole
}

/// What a plain answer is on cards, but for the pieces.
fn on_cards(plain: Answer, members: &[Member]) -> Answer {
    let length = |member: usize| members[member].body.len();
    let mut answer = plain;
    if answer.number != 0 {
        answer.offset = mapped(answer.offset, length(answer.member));
    }
    for line in &mut answer.lines {
        line.place.offset = mapped(line.place.offset, length(line.place.member));
    }
    answer
}

/// Each piece takes a line of the list room: so many are enough, and one byte less is not.
fn has_just_these_lines(record: &Record, cards: &Answer) {
    let enough = (cards.lines.len() * Line::BYTES) as u32;
    let with = |list: u32| {
        let rooms = Rooms {
            list,
            ..record.rooms
        };
        expand(&record.deck, Layout::Cards, rooms, record.steps)
    };
    assert_eq!(&with(enough), cards);
    if enough > 0 {
        assert_eq!(with(enough - 1).number, 17);
    }
}

/// Compares a deck of cards with its plain twin; says how it ends, or nothing if it has no twin.
fn compare(record: &Record, number: u64) -> Option<u32> {
    let members = deck::open(&record.deck)?;
    let twin = plain_twin(&members)?;
    // Cards take more lines, so only the text room is that of the record.
    let rooms = Rooms {
        list: u32::MAX,
        ..record.rooms
    };
    let mut cards = expand(&record.deck, Layout::Cards, rooms, record.steps);
    let plain = expand(&twin, Layout::Plain, rooms, record.steps);
    if cards.number == 0 {
        has_just_these_lines(record, &cards);
    }
    cards.lines = with_pieces_joined(&cards.lines);
    let expected = on_cards(plain, &members);
    assert_eq!(cards, expected, "deck {number} of seed {SEED}");
    Some(cards.number)
}

/// How many decks were compared, and how many of them finished.
fn compare_all() -> (usize, usize) {
    let (mut compared, mut finished) = (0, 0);
    for number in 0..DECKS {
        let record = record(SEED, number);
        if record.layout == Layout::Plain {
            continue;
        }
        if let Some(end) = compare(&record, number) {
            compared += 1;
            finished += usize::from(end == 0);
        }
    }
    (compared, finished)
}

#[test]
fn cards_and_plain_twins_have_the_same_answer() {
    let (compared, finished) = with_large_stack(compare_all).expect("every deck is answered");
    println!("{compared} decks of cards compared, {finished} of them finished");
    assert!(compared >= 8_000, "only {compared} decks of cards");
    assert!(finished >= 2_000, "only {finished} of them finish");
}

/// How many decks were compared, and how many of them finished.
fn shelve_all() -> (usize, usize) {
    let (mut compared, mut finished) = (0, 0);
    for number in 0..SHELVED {
        let record = record(SEED + 1, number);
        let Some(deck) = shelved(&record.deck) else {
            continue;
        };
        let answer = record.expand();
        let wide = expand(&deck, record.layout, record.rooms, record.steps);
        assert_eq!(answer, wide, "deck {number} of seed {}", SEED + 1);
        compared += 1;
        finished += usize::from(answer.number == 0);
    }
    (compared, finished)
}

#[test]
fn a_library_that_nothing_names_changes_nothing() {
    let (compared, finished) = with_large_stack(shelve_all).expect("every deck is answered");
    println!("{compared} decks compared, {finished} of them finished");
    assert!(compared >= 4_000, "only {compared} decks");
    assert!(finished >= 1_000, "only {finished} of them finish");
}

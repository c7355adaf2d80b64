//! What holds of every answer, whatever the deck, on decks from a fixed seed.

use referee::cards::Layout;
use referee::deck::{self, Member};
use referee::generate::record;
use referee::record::Record;
use referee::stack::with_large_stack;
use referee::{Answer, Line, LineKind};

const SEED: u64 = 1969;
const DECKS: u64 = 100_000;
const NUMBERS: usize = 21;

/// What is wrong with an answer.
type Fault = Option<&'static str>;

fn fault_unless(holds: bool, fault: &'static str) -> Fault {
    (!holds).then_some(fault)
}

fn fault(record: &Record, answer: &Answer) -> Fault {
    fault_unless(answer.number <= 20 && answer.number != 2, "number")
        .or_else(|| fault_unless(answer.steps <= record.steps, "steps"))
        .or_else(|| match answer.number {
            0 => finished_fault(record, answer),
            _ => refused_fault(record, answer),
        })
}

fn refused_fault(record: &Record, answer: &Answer) -> Fault {
    let empty = answer.text.is_empty() && answer.lines.is_empty();
    let members = deck::open(&record.deck).unwrap_or_default();
    let inside = match members.get(answer.member) {
        Some(member) if answer.number != 20 => is_place(record.layout, member, answer.offset),
        Some(_) => answer.offset == 0,
        None => answer.member == 0 && answer.offset == 0,
    };
    let broken = |member: &Member| !record.layout.takes(member.body);
    let first = members.iter().position(broken);
    let named = (answer.number == 20).then_some(answer.member);
    fault_unless(empty, "a refusal with text or lines")
        .or_else(|| fault_unless(inside, "a place outside the deck"))
        .or_else(|| fault_unless((answer.number == 1) == members.is_empty(), "malformed"))
        .or_else(|| fault_unless(named == first, "a body that is no multiple of 80"))
}

/// Whether something can be told to stand there: on cards in the columns 2 to 72, or behind the last record.
fn is_place(layout: Layout, member: &Member, offset: usize) -> bool {
    let length = member.body.len();
    let source = layout == Layout::Plain || (1..72).contains(&(offset % 80));
    offset == length || offset < length && source
}

fn finished_fault(record: &Record, answer: &Answer) -> Fault {
    let room = |bytes: u32| usize::try_from(bytes).unwrap_or(usize::MAX);
    let list = answer.lines.len() * Line::BYTES;
    let members = deck::open(&record.deck).unwrap_or_default();
    let whole = members
        .iter()
        .all(|member| record.layout.takes(member.body));
    fault_unless(answer.text.len() <= room(record.rooms.text), "text room")
        .or_else(|| fault_unless(whole, "a body that is no multiple of 80"))
        .or_else(|| fault_unless(list <= room(record.rooms.list), "list room"))
        .or_else(|| fault_unless(answer.member == 0 && answer.offset == 0, "place"))
        .or_else(|| lines_fault(record.layout, &members, answer))
        .or_else(|| stretch_fault(record.layout, &answer.lines))
}

/// The lines cover the text, and blanks and stretches say what stands there.
fn lines_fault(layout: Layout, members: &[Member], answer: &Answer) -> Fault {
    let mut text = answer.text.as_slice();
    for line in &answer.lines {
        let Some((covered, rest)) = text.split_at_checked(line.length) else {
            return Some("lines longer than the text");
        };
        text = rest;
        let member = members.get(line.place.member);
        let Some(member) = member.filter(|one| is_place(layout, one, line.place.offset)) else {
            return Some("a line outside the deck");
        };
        let source = &member.body[line.place.offset..];
        let fits = match line.kind {
            LineKind::Blank => covered == b" ",
            LineKind::Copied => !covered.is_empty() && source.starts_with(covered),
            LineKind::Replaced => !source.is_empty(),
        };
        if !fits {
            return Some("a line that doesn't fit the text");
        }
    }
    fault_unless(text.is_empty(), "text behind the last line")
}

/// A stretch is as long as can be: on cards one record may end it and the next go on with it, and no stretch has more
/// than the columns 2 to 72 of one record.
fn stretch_fault(layout: Layout, lines: &[Line]) -> Fault {
    let edge = |one: &Line, two: &Line| {
        let end = one.place.offset + one.length;
        let next = one.place.member == two.place.member && end + 9 == two.place.offset;
        layout == Layout::Cards && next && end % 80 == 72
    };
    let apart = |pair: &[Line]| match pair {
        [one, two] if one.kind == LineKind::Copied && two.kind == LineKind::Copied => {
            edge(one, two)
        }
        _ => true,
    };
    let long = |line: &Line| {
        layout == Layout::Cards
            && line.kind == LineKind::Copied
            && line.place.offset % 80 + line.length > 72
    };
    fault_unless(lines.windows(2).all(apart), "two stretches that are one")
        .or_else(|| fault_unless(!lines.iter().any(long), "a stretch across an edge"))
}

/// Answers all decks; gives how often each number came.
fn answer_all() -> [usize; NUMBERS] {
    let mut counts = [0; NUMBERS];
    for number in 0..DECKS {
        let record = record(SEED, number);
        let answer = record.expand();
        let fault = fault(&record, &answer);
        assert_eq!(fault, None, "deck {number} of seed {SEED}");
        let index = usize::try_from(answer.number).unwrap_or(0);
        if let Some(count) = counts.get_mut(index) {
            *count += 1;
        }
    }
    counts
}

#[test]
fn every_deck_is_answered_and_every_answer_holds() {
    let counts = with_large_stack(answer_all).expect("every deck is answered");
    println!("answers by number: {counts:?}");
    for (number, count) in counts.iter().enumerate() {
        let comes = *count > 0;
        assert_eq!(comes, number != 2, "number {number} came {count} times");
    }
    assert!(counts[0] >= 30_000, "only {} decks finish", counts[0]);
}

#[test]
fn about_one_deck_of_three_is_cards() {
    let cards = (0..3_000).filter(|number| record(SEED, *number).layout == Layout::Cards);
    let count = cards.count();
    assert!((900..1_100).contains(&count), "{count} of 3000");
}

#[test]
fn about_one_deck_of_three_has_libraries() {
    let wide = |number: &u64| matches!(record(SEED, *number).deck[..], [1..=32, 1, ..]);
    let count = (0..3_000).filter(wide).count();
    assert!((900..1_300).contains(&count), "{count} of 3000");
}

/// Whether a name of the contents has a letter in lower case.
fn has_lower_case(record: &Record) -> bool {
    let width = match record.deck[..] {
        [1..=32, 0, ..] => 16,
        [1..=32, 1, ..] => 24,
        _ => return false,
    };
    let count = usize::from(record.deck[0]);
    let mut lines = record.deck[2..].chunks(width).take(count);
    lines.any(|line| {
        let names = line.iter().take(width - 8);
        names.copied().any(|byte| byte.is_ascii_lowercase())
    })
}

#[test]
fn many_decks_are_in_mixed_case_and_as_many_of_them_finish() {
    let (mut mixed, mut finished) = (0, 0);
    for number in 0..3_000 {
        let record = record(SEED, number);
        if has_lower_case(&record) {
            mixed += 1;
            finished += usize::from(record.expand().number == 0);
        }
    }
    assert!((1_200..1_600).contains(&mixed), "{mixed} of 3000");
    assert!(finished * 4 > mixed, "{finished} of {mixed} finish");
}

#[test]
fn decks_keep_within_their_bounds() {
    for number in 0..5_000 {
        let record = record(SEED + 1, number);
        assert!(record.deck.len() <= 131_072);
        assert!(record.rooms.text <= 65_536 && record.rooms.list <= 49_152);
        assert!(record.steps <= 1_000_000);
        assert_eq!(record, referee::generate::record(SEED + 1, number));
    }
}

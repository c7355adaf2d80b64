//! Random and damaged decks, the same for the same seed and number.

mod author;
mod cards;
mod contents;
mod damage;
mod edges;
mod expressions;
mod jumps;
mod libraries;
mod limits;
mod mutated;
mod numbers;
mod operations;
mod pages;
mod pairs;
mod programs;
mod random;
mod shake;
mod statements;
mod texts;
mod world;

use std::array;

use crate::cards::Layout;
use crate::output::Line;
use crate::record::Record;
use crate::{used, Rooms};
use programs::{programs, Bodies};
use random::Random;

/// The rooms and steps of the program.
pub const AMPLE: Rooms = Rooms {
    text: 65_536,
    list: 49_152,
};
pub const MOST_STEPS: u32 = 1_000_000;
/// What a record may hold, twice what a deck may have.
const MOST_DECK: usize = 131_072;

/// The deck with this number of this seed.
pub fn record(seed: u64, number: u64) -> Record {
    let mut record = made(&mut Random::for_deck(seed, number));
    record.deck.truncate(MOST_DECK);
    record
}

fn made(random: &mut Random) -> Record {
    let kind = random.weighted(&[
        50, 6, 3, 3, 2, 10, 11, 4, 3, 5, 10, 2, 1, 5, 4, 20, 8, 7, 12,
    ]);
    let mut record = of_kind(random, kind);
    if record.layout == Layout::Plain && random.percent(28) {
        cards::punch(random, &mut record);
    }
    if kind == TIGHT {
        tighten(random, &mut record);
    }
    record
}

/// The kind whose rooms and steps are set last, since they hang on the layout too.
const TIGHT: usize = 6;

/// A deck of one of the kinds.
fn of_kind(random: &mut Random, kind: usize) -> Record {
    match kind {
        0 => with_rooms(random, programs),
        1 => with_rooms(random, damaged_by_tokens),
        2 => with_rooms(random, damaged_by_bytes),
        3 => {
            let mut record = with_rooms(random, programs);
            contents::damage(random, &mut record.deck);
            record
        }
        4 => with_rooms(random, soup),
        5 => ample(random, edges::edge),
        TIGHT => to_be_tight(random),
        7 => ample(random, pairs::misplaced),
        8 => ample(random, pairs::declared_twice),
        9 => ample_or_cramped(random),
        10 => mutated::mutated(random),
        11 => with_rooms(random, damaged_edge),
        12 => nonsense(random),
        13 => with_rooms(random, jumps::maze),
        14 => ample(random, operations::operations),
        15 => ample(random, limits::limit),
        16 => pages_on_cards(random),
        17 => with_rooms(random, numbers::numbers),
        _ => with_rooms(random, libraries::forms),
    }
}

/// Pages of text as card images.
fn pages_on_cards(random: &mut Random) -> Record {
    let mut record = with_rooms(random, pages::pages);
    cards::punch(random, &mut record);
    record
}

/// A deck of bytes in no order, perhaps with a count that may be.
fn nonsense(random: &mut Random) -> Record {
    let mut deck: Vec<u8> = (0..random.below(200)).map(|_| random.byte()).collect();
    if random.percent(50) {
        deck.splice(..deck.len().min(2), [1, u8::from(random.percent(50))]);
    }
    Record {
        layout: Layout::Plain,
        rooms: AMPLE,
        steps: MOST_STEPS,
        deck,
    }
}

/// A deck at some limit, with tokens or bytes of it damaged.
fn damaged_edge(random: &mut Random) -> Bodies {
    let mut bodies = edges::edge(random);
    let tokens = random.percent(50);
    change(random, &mut bodies, |random, body| match tokens {
        true => *body = damage::damage_tokens(random, body),
        false => damage::damage_bytes(random, body),
    });
    bodies
}

/// A deck of the main program MAIN and the members M1, M2 and so on.
pub fn deck_of(bodies: &[String]) -> Vec<u8> {
    contents::assemble(&named(bodies))
}

fn named(bodies: &[String]) -> Bodies {
    let name = |number: usize| match number {
        0 => b"MAIN".to_vec(),
        _ => format!("M{number}").into_bytes(),
    };
    Bodies {
        names: (0..bodies.len()).map(name).collect(),
        bodies: bodies
            .iter()
            .map(|body| body.clone().into_bytes())
            .collect(),
        ..Bodies::default()
    }
}

/// The same as card images, with a sequence number in each record.
pub fn cards_of(bodies: &[String]) -> Vec<u8> {
    on_cards(named(bodies))
}

/// A deck of the second layout out of libraries, names and bodies. Without a line it says that it has none.
pub fn library_deck_of(layout: Layout, lines: &[(String, String, String)]) -> Vec<u8> {
    let column = |of: fn(&(String, String, String)) -> &String| {
        let column = lines.iter().map(of);
        column.map(|text| text.clone().into_bytes()).collect()
    };
    let bodies = Bodies {
        libraries: column(|line| &line.0),
        names: column(|line| &line.1),
        bodies: column(|line| &line.2),
    };
    match layout {
        _ if lines.is_empty() => vec![0, 1],
        Layout::Plain => contents::assemble(&bodies),
        Layout::Cards => on_cards(bodies),
    }
}

fn on_cards(mut deck: Bodies) -> Vec<u8> {
    let mut numbers = (10..).step_by(10);
    let mut sequence = || {
        let number = format!("{:08}", numbers.next().unwrap_or(0));
        (b' ', array::from_fn(|at| number.as_bytes()[at]))
    };
    for body in &mut deck.bodies {
        *body = cards::records(body, &mut sequence);
    }
    contents::assemble(&deck)
}

/// Bodies put together, with libraries or without, in upper case or in any.
fn assembled(random: &mut Random, mut bodies: Bodies) -> Vec<u8> {
    libraries::perhaps(random, &mut bodies);
    shake::perhaps(random, &mut bodies);
    contents::assemble(&bodies)
}

/// Some bodies, put together, with rooms that hold what they make.
fn ample(random: &mut Random, write: fn(&mut Random) -> Bodies) -> Record {
    let bodies = write(random);
    Record {
        layout: Layout::Plain,
        rooms: AMPLE,
        steps: 150_000,
        deck: assembled(random, bodies),
    }
}

/// Several errors, to which steps or a room that ends may come.
fn ample_or_cramped(random: &mut Random) -> Record {
    let mut record = ample(random, pairs::several_errors);
    match random.below(8) {
        0 => record.steps = 14 + small(random, 12),
        1 => record.rooms.list = 12 * (8 + small(random, 8)),
        2 => record.rooms.text = 8 + small(random, 8),
        _ => {}
    }
    record
}

/// Some bodies, put together, with rooms of some size.
fn with_rooms(random: &mut Random, write: fn(&mut Random) -> Bodies) -> Record {
    let bodies = write(random);
    let deck = assembled(random, bodies);
    let mut rooms = AMPLE;
    let mut steps = 3_000;
    match random.weighted(&[80, 5, 5, 5, 5]) {
        0 => {}
        1 => rooms.text = small(random, 150),
        2 => rooms.list = small(random, 500),
        3 => steps = small(random, 100),
        _ => steps = MOST_STEPS,
    }
    Record {
        layout: Layout::Plain,
        rooms,
        steps,
        deck,
    }
}

fn small(random: &mut Random, bound: usize) -> u32 {
    u32::try_from(random.below(bound)).unwrap_or(0)
}

/// A deck that [`tighten`] gives its steps and rooms.
fn to_be_tight(random: &mut Random) -> Record {
    let bodies = match random.weighted(&[60, 15, 10, 10, 25, 30, 10]) {
        0 => programs(random),
        1 => pairs::several_errors(random),
        2 => damaged_by_tokens(random),
        3 => edges::edge(random),
        4 => return pages_on_cards(random),
        5 => numbers::numbers(random),
        _ => libraries::forms(random),
    };
    Record {
        layout: Layout::Plain,
        rooms: AMPLE,
        steps: 3_000,
        deck: assembled(random, bodies),
    }
}

/// Steps or rooms become just enough for what a deck does, up to its end or up
/// to its refusal, or one short of it.
fn tighten(random: &mut Random, record: &mut Record) {
    let used = used(&record.deck, record.layout, record.rooms, record.steps);
    match random.below(4) {
        0 => record.steps = one_off(random, usize::try_from(used.steps).unwrap_or(0)),
        1 => record.rooms.text = one_off(random, used.text),
        2 => record.rooms.list = one_off(random, used.lines * Line::BYTES),
        _ => {
            record.steps = small(random, usize::try_from(used.steps).unwrap_or(0) + 2);
            record.rooms.text = small(random, used.text + 2);
        }
    }
}

/// A number, one less or one more.
fn one_off(random: &mut Random, number: usize) -> u32 {
    let number = (number + random.below(3)).saturating_sub(1);
    u32::try_from(number).unwrap_or(0)
}

/// One of the bodies, changed.
fn change(random: &mut Random, bodies: &mut Bodies, how: impl Fn(&mut Random, &mut Vec<u8>)) {
    let index = if random.percent(75) {
        0
    } else {
        random.below(bodies.bodies.len())
    };
    if let Some(body) = bodies.bodies.get_mut(index) {
        how(random, body);
    }
}

fn damaged_by_tokens(random: &mut Random) -> Bodies {
    let mut bodies = programs(random);
    if random.one_in(6) {
        let others = programs(random);
        change(random, &mut bodies, |random, body| {
            let other = random.pick(&others.bodies).cloned().unwrap_or_default();
            *body = damage::splice(random, body, &other);
        });
    } else {
        change(random, &mut bodies, |random, body| {
            *body = damage::damage_tokens(random, body);
        });
    }
    bodies
}

fn damaged_by_bytes(random: &mut Random) -> Bodies {
    let mut bodies = programs(random);
    change(random, &mut bodies, damage::damage_bytes);
    bodies
}

fn soup(random: &mut Random) -> Bodies {
    let mut bodies = programs(random);
    let tokens = random.percent(70);
    change(random, &mut bodies, |random, body| {
        *body = if tokens {
            damage::token_soup(random)
        } else {
            damage::byte_soup(random)
        };
    });
    bodies
}

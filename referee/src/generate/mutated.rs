//! Cases of `tests/cases`, changed a little: what each of them exercises, next to something else.

use std::iter;
use std::sync::OnceLock;

use super::cards;
use super::contents;
use super::damage;
use super::libraries;
use super::programs::Bodies;
use super::random::Random;
use super::shake;
use super::{small, AMPLE, MOST_STEPS};
use crate::bytes::is_identifier;
use crate::cards::Layout;
use crate::record::Record;

const RECORDS: &[u8] = include_bytes!("../../../tests/cases/records.bin");

fn cases() -> &'static [Record] {
    static CASES: OnceLock<Vec<Record>> = OnceLock::new();
    CASES.get_or_init(|| {
        let mut input = RECORDS;
        iter::from_fn(|| Record::read(&mut input).ok().flatten()).collect()
    })
}

/// One case, changed.
pub fn mutated(random: &mut Random) -> Record {
    let Some(mut record) = random.pick(cases()).cloned() else {
        return super::nonsense(random);
    };
    record.rooms.text = record.rooms.text.min(AMPLE.text);
    record.rooms.list = record.rooms.list.min(AMPLE.list);
    record.steps = record.steps.min(MOST_STEPS);
    match contents::take_apart(record.layout, &record.deck) {
        Some(mut bodies) => {
            for _ in 0..random.weighted(&[5, 60, 25, 10]) {
                mutate(random, &mut bodies);
            }
            libraries::perhaps(random, &mut bodies);
            shake::perhaps(random, &mut bodies);
            if record.layout == Layout::Cards {
                cards::lay_out(random, &mut bodies);
            }
            record.deck = contents::assemble(&bodies);
        }
        None => damage::damage_bytes(random, &mut record.deck),
    }
    cramp(random, &mut record);
    record
}

/// Now and then little room or few steps.
fn cramp(random: &mut Random, record: &mut Record) {
    match random.below(20) {
        0 => record.rooms.text = small(random, 40),
        1 => record.rooms.list = small(random, 120),
        2 => record.steps = small(random, 20),
        3 => contents::damage(random, &mut record.deck),
        _ => {}
    }
}

/// The main program of some case.
fn other_main(random: &mut Random) -> Vec<u8> {
    let other = random.pick(cases());
    let bodies = other.and_then(|case| contents::take_apart(case.layout, &case.deck));
    let main = bodies.and_then(|bodies| bodies.bodies.into_iter().next());
    main.unwrap_or_default()
}

fn mutate(random: &mut Random, bodies: &mut Bodies) {
    let how = random.weighted(&[30, 15, 10, 15, 10, 12, 8, 5]);
    match how {
        6 => return include_main(bodies),
        7 => return libraries::write_pairs(random, bodies),
        _ => {}
    }
    super::change(random, bodies, |random, body| match how {
        0 => *body = damage::damage_tokens(random, body),
        1 => damage::damage_bytes(random, body),
        2 => {
            let other = other_main(random);
            *body = damage::splice(random, body, &other);
        }
        3 => *body = rename(random, body),
        4 => body.extend(other_main(random)),
        _ => *body = wrap(random, body),
    });
}

/// One name of a body takes the place of another wherever that stands.
fn rename(random: &mut Random, body: &[u8]) -> Vec<u8> {
    let mut tokens = damage::split(body);
    let names: Vec<Vec<u8>> = tokens
        .iter()
        .filter(|t| is_identifier(t))
        .cloned()
        .collect();
    if let (Some(from), Some(to)) = (random.pick(&names), random.pick(&names)) {
        for token in tokens.iter_mut().filter(|token| *token == from) {
            token.clone_from(to);
        }
    }
    tokens.concat()
}

/// What stands around a whole body.
const WRAPS: &[(&[u8], &[u8])] = &[
    (b"%DO;", b"%END;"),
    (b"%IF 1 %THEN %DO;", b"%END;"),
    (b"%IF 0 %THEN %;%ELSE %DO;", b"%END;"),
    (b"%DCL I_ FIXED;%DO I_=1 TO 2;", b"%END;"),
    (b"%GOTO L_;%DO;", b"%END;%L_:;"),
    (
        b"%DO;%DO;%DO;%DO;%DO;%DO;%DO;",
        b"%END;%END;%END;%END;%END;%END;%END;",
    ),
    (b"%L_:;", b"%IF 0 %THEN %GOTO L_;"),
    (b"/*", b"*/"),
    (b"\n", b"\n"),
];

fn wrap(random: &mut Random, body: &[u8]) -> Vec<u8> {
    match random.pick(WRAPS) {
        Some((before, behind)) => [before, body, behind].concat(),
        None => body.to_vec(),
    }
}

/// The main program becomes a member that a new main program includes.
fn include_main(bodies: &mut Bodies) {
    let Some(name) = bodies.names.first().cloned() else {
        return;
    };
    let include = [b"a%INCLUDE ", &name[..], b";b"].concat();
    bodies.names.insert(0, b"OUTER_".to_vec());
    bodies.bodies.insert(0, include);
    if !bodies.libraries.is_empty() {
        bodies.libraries.insert(0, b"OUTER_".to_vec());
    }
}

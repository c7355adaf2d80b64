//! A second expander for PL/I compile-time statements.
//!
//! It says for a deck what the expander must say, and is written apart from it.

mod bytes;
pub mod cards;
pub mod cases;
pub mod deck;
pub mod generate;
mod meter;
mod names;
mod output;
mod reading;
pub mod record;
mod refusal;
mod run;
pub mod stack;
mod tokens;
mod tree;
mod values;

use crate::cards::{Body, Layout};
use crate::refusal::{Place, Refusal};
use crate::run::Run;

pub use crate::output::{Line, LineKind, Rooms};

/// What an expansion gives back.
#[derive(Clone, Debug, Default, PartialEq, Eq)]
pub struct Answer {
    pub number: u32,
    pub member: usize,
    pub offset: usize,
    pub steps: u32,
    pub text: Vec<u8>,
    pub lines: Vec<Line>,
}

/// A member of a deck with its body as 01 reads it.
struct Joined<'d> {
    library: Option<&'d [u8]>,
    name: &'d [u8],
    body: Body,
}

/// The members of a deck, or its refusal: 1, then 20 for the first body that is
/// not laid out so, included or not.
fn members_of<'d>(deck: &'d [u8], layout: Layout) -> Result<Vec<Joined<'d>>, Answer> {
    let malformed = || refused(Refusal::Deck, Place::default(), 0);
    let members = deck::open(deck).ok_or_else(malformed)?;
    let broken = members.iter().position(|one| !layout.takes(one.body));
    if let Some(member) = broken {
        return Err(refused(Refusal::Cards, Place { member, offset: 0 }, 0));
    }
    let joined = |member: &deck::Member<'d>| Joined {
        library: member.library,
        name: member.name,
        body: Body::new(layout, member.body),
    };
    Ok(members.iter().map(joined).collect())
}

/// Expands a deck with rooms of these sizes and at most so many steps.
pub fn expand(deck: &[u8], layout: Layout, rooms: Rooms, steps: u32) -> Answer {
    let members = match members_of(deck, layout) {
        Ok(members) => members,
        Err(refusal) => return refusal,
    };
    let mut run = Run::new(&members, rooms, steps);
    match run.main() {
        Ok(()) => Answer {
            steps: run.meter.used(),
            text: run.output.text,
            lines: run.output.lines,
            ..Answer::default()
        },
        Err(refusal) => refused(refusal, run.as_given(run.place), run.meter.used()),
    }
}

/// What a run has used when it ends, be it finished or refused.
pub(crate) struct Used {
    pub steps: u32,
    pub text: usize,
    pub lines: usize,
}

/// Expands a deck only to see what that takes.
pub(crate) fn used(deck: &[u8], layout: Layout, rooms: Rooms, steps: u32) -> Used {
    let members = members_of(deck, layout).unwrap_or_default();
    let mut run = Run::new(&members, rooms, steps);
    // How it ends does not matter here.
    let _ = run.main();
    Used {
        steps: run.meter.used(),
        text: run.output.text.len(),
        lines: run.output.lines.len(),
    }
}

/// "A refusal reports text length and lines 0".
fn refused(refusal: Refusal, place: Place, steps: u32) -> Answer {
    Answer {
        number: refusal.number(),
        member: place.member,
        offset: place.offset,
        steps,
        ..Answer::default()
    }
}

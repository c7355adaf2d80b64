//! The run: its state, the members it enters, and its start.

mod calls;
mod control;
mod evaluate;
mod scan;

use std::rc::Rc;

use crate::bytes::folded;
use crate::meter::{Meter, Waiting};
use crate::names::{Denotation, Home, Names};
use crate::output::{Output, Rooms};
use crate::reading::{count_again, read, Entered};
use crate::refusal::{Outcome, Place, Refusal};
use crate::tree::{Included, Name, Path, Reading};
use crate::values::Value;
use crate::Joined;

/// A member of the deck, and its tree once it has been entered.
struct Source<'d> {
    member: &'d Joined<'d>,
    reading: Option<Rc<Reading>>,
}

/// A member or procedure that is running, and the statement it has reached.
struct Frame {
    home: Home,
    path: Vec<usize>,
}

/// How a statement ends.
enum Flow {
    /// What follows is next.
    On,
    Jump(Jump),
    Return(Value),
}

/// A GOTO on its way: the frame and the depth of the block or alternative that
/// holds the target, and the target's path.
struct Jump {
    frame: usize,
    depth: usize,
    path: Path,
}

/// A run over the members of a deck.
pub struct Run<'d> {
    sources: Vec<Source<'d>>,
    entered: Entered,
    names: Names,
    frames: Vec<Frame>,
    waiting: Waiting,
    pub meter: Meter,
    pub output: Output,
    /// Where an error would be told now, in what 01 calls the body.
    pub place: Place,
}

impl<'d> Run<'d> {
    /// "ninth include level (main is level 0)".
    const MOST_INCLUDE_LEVEL: usize = 8;

    pub fn new(members: &'d [Joined<'d>], rooms: Rooms, steps: u32) -> Run<'d> {
        let unread = |member| Source {
            member,
            reading: None,
        };
        Run {
            sources: members.iter().map(unread).collect(),
            entered: Entered::default(),
            names: Names::default(),
            frames: Vec::new(),
            waiting: Waiting::default(),
            meter: Meter::new(steps),
            output: Output::new(rooms),
            place: Place::default(),
        }
    }

    /// "Line 0 is the main program."
    pub fn main(&mut self) -> Outcome<()> {
        self.enter(0).map(|_| ())
    }

    /// Reads a member as often as it is entered, declares its names and runs it.
    fn enter(&mut self, member: usize) -> Outcome<Flow> {
        let reading = self.read(member)?;
        if let Err(offset) = self.names.declare(member, &reading) {
            self.place = Place { member, offset };
            return Err(Refusal::Twice);
        }
        self.frames.push(Frame {
            home: Home::Member(member),
            path: Vec::new(),
        });
        let flow = self.block(&reading.block, 0, None)?;
        self.frames.pop();
        Ok(flow)
    }

    fn read(&mut self, member: usize) -> Outcome<Rc<Reading>> {
        let source = self.sources.get_mut(member).ok_or(Refusal::Member)?;
        let known = source.reading.clone();
        let outcome = match &known {
            Some(reading) => count_again(reading, &mut self.entered).map(|()| Rc::clone(reading)),
            None => read(&source.member.body.bytes, &mut self.entered).map(Rc::new),
        };
        match outcome {
            Ok(reading) => {
                source.reading = Some(Rc::clone(&reading));
                Ok(reading)
            }
            Err(error) => {
                self.place = Place {
                    member,
                    offset: error.at,
                };
                Err(error.refusal)
            }
        }
    }

    /// "INCLUDE tests 14, 15, then the member."
    fn include(&mut self, items: &[Included]) -> Outcome<Flow> {
        let statement = self.place;
        for item in items {
            self.place = statement;
            let member = self.line_of(item).ok_or(Refusal::Member)?;
            if self.frames.len() > Self::MOST_INCLUDE_LEVEL {
                return Err(Refusal::Level);
            }
            let flow = self.enter(member)?;
            if !matches!(flow, Flow::On) {
                return Ok(flow);
            }
        }
        Ok(Flow::On)
    }

    /// "A bare member name means the first line with that member name, library
    /// ignored." A pair meets the line that has both, in a deck without libraries none.
    fn line_of(&self, item: &Included) -> Option<usize> {
        let in_library = |source: &Source, wanted: &Name| {
            let library = source.member.library;
            library.is_some_and(|library| *folded(library) == **wanted)
        };
        let found = |source: &Source| {
            let wanted = item.library.as_ref();
            *folded(source.member.name) == *item.member
                && wanted.is_none_or(|wanted| in_library(source, wanted))
        };
        self.sources.iter().position(found)
    }

    /// The procedure body that is running, if the run is inside one.
    fn body(&self) -> Option<usize> {
        match self.frames.last()?.home {
            Home::Procedure(body) => Some(body),
            Home::Member(_) => None,
        }
    }

    /// The member whose text is running; inside a procedure there is none.
    fn member(&self) -> Option<usize> {
        match self.frames.last()?.home {
            Home::Member(member) => Some(member),
            Home::Procedure(_) => None,
        }
    }

    /// "A run error's place is the `%` of the innermost statement outside
    /// procedures": inside one the place stays.
    fn stand_at(&mut self, offset: usize) {
        if let Some(member) = self.member() {
            self.place = Place { member, offset };
        }
    }

    /// "Offsets in answers and in the origin list stay offsets into the deck body
    /// as given".
    pub fn as_given(&self, place: Place) -> Place {
        let source = self.sources.get(place.member);
        let offset = source.map_or(0, |source| source.member.body.offset_as_given(place.offset));
        Place { offset, ..place }
    }

    /// What a name stands for here.
    fn find(&self, name: &[u8]) -> Option<&Denotation> {
        self.names.find(self.body(), name)
    }

    fn find_mut(&mut self, name: &[u8]) -> Option<&mut Denotation> {
        self.names.find_mut(self.body(), name)
    }
}

//! Searches for the fragment of an address, by 52h, READ and WRITE: at which edge of which fragment the
//! address lies, and in a list of which length. Each is to come everywhere, found and refused.

use crate::cdb;
use crate::coverage::command_name;
use crate::event::{Event, Position, BLANK_CHECK, NOT_WRITABLE, NO_ROOM, OUT_OF_RANGE};
use crate::seat::{Seat, SPOTS};
use plain::Search;
use std::collections::BTreeMap;
use std::fmt;

/// The commands that search.
const COMMANDS: [(&str, Search); 5] = [
    ("52h address", Search::Report),
    ("28h READ", Search::Read),
    ("A8h READ (12)", Search::Read),
    ("2Ah WRITE", Search::Write),
    ("AAh WRITE (12)", Search::Write),
];

/// Lengths of lists: the shortest, those at which halving comes out even or just does not, and the
/// longest.
pub const LENGTHS: [usize; 22] =
    [1, 2, 3, 4, 5, 7, 8, 9, 15, 16, 17, 31, 32, 33, 63, 64, 65, 127, 128, 129, 159, 160];

/// Where in a list of that length a fragment can stand.
fn positions(length: usize) -> &'static [Position] {
    match length {
        1 => &[Position::Only],
        2 => &[Position::First, Position::Last],
        _ => &[Position::First, Position::Middle, Position::Last],
    }
}

/// What is to come: a command that finds its fragment or is refused, at a spot by its index or in a
/// list of some length.
#[derive(Clone, Copy, Debug, PartialEq, Eq, PartialOrd, Ord)]
struct Cell {
    place: Place,
    position: Position,
    found: bool,
    command: &'static str,
}

#[derive(Clone, Copy, Debug, PartialEq, Eq, PartialOrd, Ord)]
enum Place {
    Spot(usize),
    Length(usize),
}

impl fmt::Display for Cell {
    fn fmt(&self, out: &mut fmt::Formatter) -> fmt::Result {
        let fragment = match self.position {
            Position::Only => "the only fragment",
            Position::First => "the first fragment",
            Position::Middle => "a middle fragment",
            Position::Last => "the last fragment",
        };
        let outcome = if self.found { "found" } else { "refused" };
        write!(out, "{} {outcome}, ", self.command)?;
        match self.place {
            Place::Spot(index) => write!(out, "{} {fragment}", SPOTS[index].name),
            Place::Length(length) if self.found => write!(out, "{fragment} of {length}"),
            Place::Length(length) => write!(out, "after {fragment} of {length}"),
        }
    }
}

/// Every cell.
fn wanted() -> Vec<Cell> {
    let mut cells = Vec::new();
    for (command, search) in COMMANDS {
        let mut add = |found, place, positions: &[Position]| {
            cells.extend(positions.iter().map(|&position| Cell {
                command,
                found,
                place,
                position,
            }));
        };
        for (index, spot) in SPOTS.iter().enumerate() {
            for (found, searches) in [(true, spot.found), (false, spot.refused)] {
                if searches.contains(&search) {
                    add(found, Place::Spot(index), spot.positions);
                }
            }
        }
        for length in LENGTHS {
            add(true, Place::Length(length), positions(length));
            add(false, Place::Length(length), positions(length));
        }
    }
    cells
}

/// How often each cell came.
#[derive(Clone, Debug, Default)]
pub struct Searches(BTreeMap<Cell, u64>);

impl Searches {
    /// Counts a command, if it is one that searches.
    pub fn note(&mut self, event: &Event) {
        let Some(found) = outcome(event) else { return };
        let Some(seat) = Seat::of(event.before, event.address()) else { return };
        let spots = SPOTS.iter().enumerate().filter(|(_, spot)| (spot.is_at)(&seat));
        let spots = spots.map(|(index, _)| Place::Spot(index));
        let length = (seat.is_inside() == found).then_some(Place::Length(seat.count));
        for place in spots.chain(length) {
            let command = command_name(event.cdb);
            let cell = Cell { command, found, place, position: seat.position };
            *self.0.entry(cell).or_default() += 1;
        }
    }

    pub fn add(&mut self, other: &Searches) {
        for (&cell, &count) in &other.0 {
            *self.0.entry(cell).or_default() += count;
        }
    }

    /// What never came.
    pub fn missed(&self) -> Vec<String> {
        let missing = wanted().into_iter().filter(|cell| !self.0.contains_key(cell));
        missing.map(|cell| cell.to_string()).collect()
    }
}

impl fmt::Display for Searches {
    fn fmt(&self, out: &mut fmt::Formatter) -> fmt::Result {
        let counts =
            wanted().into_iter().map(|cell| (self.0.get(&cell).copied().unwrap_or(0), cell));
        let Some((count, cell)) = counts.min() else { return Ok(()) };
        let kinds = wanted().len();
        write!(out, "kinds of searches: {kinds}, the rarest came {count} times: {cell}")
    }
}

/// Whether a command that looks for the fragment of an address found it; none for any other command. A
/// length of 0 is accepted and a finalized disc refuses a WRITE before any search.
fn outcome(event: &Event) -> Option<bool> {
    let by_address = event.cdb[0] == cdb::READ_FRAGMENT_INFORMATION && event.cdb[1] & 0b11 == 0;
    let is_read = cdb::is_read(event.cdb) && event.length() > 0;
    let is_write = cdb::is_write(event.cdb) && event.length() > 0;
    match event.answer.number {
        0 if by_address || is_read || is_write => Some(true),
        NO_ROOM if is_write => Some(true),
        OUT_OF_RANGE if by_address || is_read => Some(false),
        BLANK_CHECK if is_read => Some(false),
        NOT_WRITABLE if is_write => Some(false),
        _ => None,
    }
}

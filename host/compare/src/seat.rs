//! Where an address lies in a list: at an edge of a fragment, between two, or after the last.

use crate::event::Position;
use crate::readable::{end, first, recorded_end};
use gladhamre::{Record, State};
use plain::Search::{self, Read, Report, Write};

/// Sectors of a Closure.
pub const CLOSURE: u64 = 16 * 64;

const ALL: &[Search] = &[Report, Read, Write];

/// Where an address lies in a list.
pub struct Seat {
    address: u64,
    disc_end: u64,
    /// How many records the list has.
    pub count: usize,
    /// The last fragment that starts at the address or before it, and where it stands.
    fragment: Record,
    pub position: Position,
    /// The sectors pending there.
    pending: u64,
    /// The fragment after it.
    next: Option<Record>,
}

impl Seat {
    /// None where the list has no record.
    pub fn of(state: &State, address: u64) -> Option<Seat> {
        let (mut number, mut count) = (0, 0);
        let (mut fragment, mut next) = (None, None);
        for record in state.records() {
            count += 1;
            if first(&record) <= address {
                number = count;
                fragment = Some(record);
            } else {
                next = next.or(Some(record));
            }
        }
        let own = state.pending_fragment() as usize == number;
        Some(Seat {
            address,
            disc_end: 16 * u64::from(state.capacity()),
            count,
            fragment: fragment?,
            position: Position::in_list(number, count),
            pending: if own { state.pending_count().into() } else { 0 },
            next,
        })
    }

    pub fn is_inside(&self) -> bool {
        self.address < end(&self.fragment)
    }

    fn is_incomplete(&self) -> bool {
        self.fragment.recorded < self.fragment.length
    }

    /// The address is the sector after those recorded, and so many more, of an incomplete fragment.
    fn is_past_recorded(&self, sectors: u64) -> bool {
        self.is_incomplete() && self.address == recorded_end(&self.fragment) + sectors
    }

    /// So many sectors lie between the fragment and the address, which is in front of the next one of
    /// the same session, or of the next session.
    fn is_between(&self, same_session: bool, sectors: u64) -> bool {
        let is_such = |next: Record| (next.session == self.fragment.session) == same_session;
        self.next.is_some_and(is_such) && self.address == end(&self.fragment) + sectors
    }

    /// The address is the last one in front of the next fragment.
    fn is_last_between(&self, same_session: bool) -> bool {
        let sectors = self.next.map_or(0, |next| first(&next) - end(&self.fragment));
        sectors > 0 && self.is_between(same_session, sectors - 1)
    }

    /// The address is on the disc after the last fragment.
    fn is_after_last(&self) -> bool {
        self.next.is_none() && !self.is_inside() && self.address < self.disc_end
    }
}

/// A place for an address: which searches can find a fragment there and which can be refused.
pub struct Spot {
    pub name: &'static str,
    pub is_at: fn(&Seat) -> bool,
    pub found: &'static [Search],
    pub refused: &'static [Search],
    /// Where the fragment can stand.
    pub positions: &'static [Position],
}

const INSIDE: &[Position] = &[Position::Only, Position::First, Position::Middle, Position::Last];
const BETWEEN: &[Position] = &[Position::First, Position::Middle];
const AFTER: &[Position] = &[Position::Only, Position::Last];

const fn inside(
    name: &'static str,
    is_at: fn(&Seat) -> bool,
    found: &'static [Search],
    refused: &'static [Search],
) -> Spot {
    Spot { name, is_at, found, refused, positions: INSIDE }
}

const fn outside(
    name: &'static str,
    positions: &'static [Position],
    is_at: fn(&Seat) -> bool,
) -> Spot {
    Spot { name, is_at, found: &[], refused: ALL, positions }
}

pub const SPOTS: [Spot; 15] = [
    inside("first sector of", |seat| seat.address == first(&seat.fragment), ALL, &[Read, Write]),
    inside("last sector of", |seat| seat.address + 1 == end(&seat.fragment), ALL, &[Read, Write]),
    inside(
        "last recorded sector, not the last, of",
        |seat| seat.is_incomplete() && seat.address + 1 == recorded_end(&seat.fragment),
        &[Report, Read],
        &[Write],
    ),
    inside("first unrecorded sector of", |seat| seat.is_past_recorded(0), ALL, &[Read, Write]),
    inside(
        "next writable address of",
        |seat| seat.is_past_recorded(seat.pending),
        &[Report, Write],
        &[Read],
    ),
    inside(
        "address after the next writable one of",
        |seat| seat.is_past_recorded(seat.pending + 1) && seat.is_inside(),
        &[Report],
        &[Read, Write],
    ),
    outside("first sector of the dividing block after", BETWEEN, |seat| seat.is_between(true, 0)),
    outside("last sector of the dividing block after", BETWEEN, |seat| seat.is_last_between(true)),
    outside("first sector of the Closure after", BETWEEN, |seat| seat.is_between(false, 0)),
    outside("first sector of the Intro after", BETWEEN, |seat| seat.is_between(false, CLOSURE)),
    outside("last sector of the Intro after", BETWEEN, |seat| seat.is_last_between(false)),
    outside("first sector of the disc after", AFTER, |seat| {
        seat.is_after_last() && seat.address == end(&seat.fragment)
    }),
    outside("last sector of the disc, after", AFTER, |seat| {
        seat.is_after_last() && seat.address + 1 == seat.disc_end
    }),
    outside("first address past the disc, after", AFTER, |seat| seat.address == seat.disc_end),
    outside("last address of 32 bits, after", AFTER, |seat| seat.address == u32::MAX.into()),
];

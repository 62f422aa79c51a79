//! What the generator wants to know of a state. It must not trip over junk.

use crate::mood::{Kind, Mood};
use gladhamre::{Record, State, RECORD_LIMIT};

/// Sectors between two sessions.
const SESSION_GAP: u64 = 16 * 128;

/// Sectors of the shortest tail from which a block can be reserved: it, the dividing one and one for
/// the new tail.
const ROOM_FOR_ONE: u64 = 16 * 3;

/// A fragment's boundaries.
#[derive(Clone, Copy, Debug)]
pub struct Place {
    pub reserved: bool,
    /// First sector, the one after the last, and the one after the last recorded.
    pub first: u64,
    pub end: u64,
    pub recorded_end: u64,
    /// The next writable address, if the fragment were incomplete.
    pub next: u64,
    /// Sectors from there to the end.
    pub room: u64,
    /// Sectors pending here.
    pub pending: u64,
}

impl Place {
    fn new(record: &Record, number: u64, state: &State) -> Place {
        let sectors = |blocks: u32| 16 * u64::from(blocks);
        let own = number == u64::from(state.pending_fragment());
        let pending = if own { state.pending_count().into() } else { 0 };
        let first = sectors(record.start);
        let recorded_end = first + sectors(record.recorded);
        let end = first + sectors(record.length);
        let next = recorded_end + pending;
        Place {
            reserved: record.kind == 0,
            first,
            end,
            recorded_end,
            next,
            room: end.saturating_sub(next),
            pending,
        }
    }

    pub fn is_incomplete(&self) -> bool {
        self.recorded_end < self.end
    }

    pub fn is_tail(&self) -> bool {
        self.is_incomplete() && !self.reserved
    }

    fn is_blank(&self) -> bool {
        self.next == self.first
    }

    /// The sector after the last recorded one, once pending sectors are flushed.
    fn end_after_flush(&self) -> u64 {
        self.recorded_end + if self.pending > 0 { 16 } else { 0 }
    }
}

/// The fragment that has the pending sectors, and its neighbours.
pub struct Holder {
    pub place: Place,
    pub before: Option<Place>,
    pub after: Option<Place>,
}

/// A disc's boundaries.
pub struct Outline {
    /// The sectors of the disc.
    pub sectors: u64,
    pub places: Vec<Place>,
}

impl Outline {
    pub fn new(state: &State) -> Outline {
        let place = |(index, record): (usize, Record)| Place::new(&record, index as u64 + 1, state);
        Outline {
            sectors: 16 * u64::from(state.capacity()),
            places: state.records().enumerate().map(place).collect(),
        }
    }

    /// Whether the list is a blank disc's.
    pub fn is_blank(&self) -> bool {
        self.places.len() == 1 && self.tail_is_blank()
    }

    /// Whether the last fragment is a tail, and blank.
    fn tail_is_blank(&self) -> bool {
        self.places.last().is_some_and(|last| last.is_tail() && last.is_blank())
    }

    /// The fragment that has the pending sectors, with the ones before and after it.
    pub fn pending(&self) -> Option<Holder> {
        let index = self.places.iter().position(|place| place.pending > 0)?;
        let before = index.checked_sub(1).map(|index| self.places[index]);
        let after = self.places.get(index + 1).copied();
        Some(Holder { place: self.places[index], before, after })
    }

    /// The commands that try the limit of records, where at most one is free.
    pub fn limit_tries(&self) -> &'static [Kind] {
        let tail_is_blank = self.tail_is_blank();
        match RECORD_LIMIT - self.places.len() {
            0 => &[
                Kind::Reserve,
                Kind::Write,
                Kind::CloseFragment,
                Kind::CloseSession,
                Kind::CloseSession,
                Kind::Finalize,
                Kind::Read,
                Kind::DiscInformation,
                Kind::FragmentInformation,
            ],
            1 if tail_is_blank => &[Kind::Reserve, Kind::Reserve, Kind::Write, Kind::CloseSession],
            1 => &[
                Kind::Reserve,
                Kind::Write,
                Kind::CloseFragment,
                Kind::CloseSession,
                Kind::CloseSession,
            ],
            _ => &[],
        }
    }

    /// The command that brings a crowd one fragment nearer to the limit, while there is room.
    pub fn next_of_crowd(&self, mood: Mood) -> Option<Kind> {
        let last = self.places.last().filter(|place| place.is_tail() && place.room > 32)?;
        if self.places.len() + 1 >= RECORD_LIMIT {
            return None;
        }
        match (mood, last.is_blank()) {
            (Mood::Fragmenting, true) => Some(Kind::Write),
            (Mood::Reserving, true) => Some(Kind::Reserve),
            (Mood::Fragmenting | Mood::Reserving, false) => Some(Kind::CloseFragment),
            _ => None,
        }
    }

    /// The command that tries a rule at whose edge the disc stands.
    pub fn edge(&self) -> Option<Kind> {
        let (last, others) = self.places.split_last()?;
        let list_full = self.places.len() == RECORD_LIMIT;
        let disc_nearly_full = last.end_after_flush() + 16 >= last.end;
        if last.is_tail() && !last.is_blank() && (list_full || disc_nearly_full) {
            return Some(Kind::CloseFragment);
        }
        if last.is_tail() && last.is_blank() && last.room == ROOM_FOR_ONE {
            return Some(Kind::Reserve);
        }
        if others.iter().any(|place| place.end_after_flush() < place.end) {
            return None;
        }
        let before = others.last().map_or(0, |place| place.end);
        if last.is_tail() && last.is_blank() && before + SESSION_GAP == last.first {
            return Some(Kind::Finalize);
        }
        let end = if last.is_blank() { before } else { last.end_after_flush() };
        let session_just_fits = (end + SESSION_GAP).abs_diff(self.sectors) <= 16;
        let completes = others.iter().any(|place| place.pending > 0);
        (list_full || session_just_fits || completes).then_some(Kind::CloseSession)
    }
}

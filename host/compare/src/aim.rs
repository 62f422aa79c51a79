//! Commands that look for the fragment of an address, aimed at the edges of the first, the last or
//! another fragment.

use crate::cdb::{self, Cdb};
use crate::mood::Mood;
use crate::outline::{Outline, Place};
use crate::searches::LENGTHS;
use crate::seat::CLOSURE;
use crate::{Generator, Request};
use gladhamre::{State, RECORD_LIMIT};

/// Both forms of READ and of WRITE.
pub const READS: [u8; 2] = [cdb::READ, cdb::READ_12];
pub const WRITES: [u8; 2] = [cdb::WRITE, cdb::WRITE_12];

impl Generator {
    /// How many searches come before the next command: most where the list has a length worth trying
    /// that sequences soon leave behind, none among junk.
    pub fn searches(&mut self, state: &State) -> u64 {
        let once_in = match state.records().count() {
            _ if self.mood == Mood::Hostile => return 0,
            count if !LENGTHS.contains(&count) => 40,
            127..RECORD_LIMIT => return 4,
            31..127 => 1,
            7..31 => 2,
            _ => 12,
        };
        u64::from(self.random.once_in(once_in))
    }

    /// A WRITE at the next writable address of the first, the last or another fragment, or 52h by
    /// address, READ or WRITE at one of its edges.
    pub fn search(&mut self, state: &State, allocated: usize) -> Request {
        let outline = Outline::new(state);
        let mut cdb = [0; 12];
        self.random.fill(&mut cdb);
        let index = self.index_worth_trying(outline.places.len());
        let target = outline.places.get(index).filter(|place| place.is_incomplete());
        match target.filter(|_| self.random.once_in(2)) {
            Some(place) => {
                let sectors = self.length_of_search(place.room);
                self.set_run(&mut cdb, WRITES, place.next, sectors);
            }
            None => {
                let address = self.edge(&outline, index);
                self.set_search(address, &mut cdb);
            }
        }
        self.lend(cdb, state, allocated)
    }

    /// Any search at this address.
    fn set_search(&mut self, address: u64, cdb: &mut Cdb) {
        let sectors = self.random.between(1, 2);
        match self.random.below(6) {
            0..=1 => self.set_run(cdb, READS, address, sectors),
            2..=3 => self.set_run(cdb, WRITES, address, sectors),
            _ => self.set_located(cdb, address),
        }
    }

    /// A sector or two, or so many that one is left for the fragment's last.
    fn length_of_search(&mut self, room: u64) -> u64 {
        match room {
            2..=16 if self.random.once_in(3) => room - 1,
            _ => self.random.between(1, 2),
        }
    }

    fn set_located(&mut self, cdb: &mut Cdb, address: u64) {
        cdb[0] = cdb::READ_FRAGMENT_INFORMATION;
        cdb[1] &= 0b1111_1100;
        cdb::set_value(cdb, address as u32);
        let allocation = self.allocation(36);
        cdb::set_allocation(cdb, allocation);
    }

    /// The first, the last or another fragment.
    fn index_worth_trying(&mut self, count: usize) -> usize {
        match self.random.below(3) {
            0 => 0,
            1 => count.saturating_sub(1),
            _ => self.random.below(count as u64) as usize,
        }
    }

    /// An edge in the fragment or between it and the next, or one of the disc.
    fn edge(&mut self, outline: &Outline, index: usize) -> u64 {
        let Some(&Place { first, end, recorded_end, next, .. }) = outline.places.get(index) else {
            return self.random.draw() >> 32;
        };
        let after = outline.places.get(index + 1).map_or(outline.sectors, |place| place.first);
        let last_of = |end: u64| end.saturating_sub(1);
        match self.random.below(17) {
            0..=1 => first,
            2 => last_of(end),
            3..=4 => last_of(recorded_end),
            5..=6 => recorded_end,
            7..=8 => next + 1,
            9..=10 => last_of(after),
            11..=13 if end + CLOSURE < after => end + CLOSURE,
            14 => outline.sectors,
            15 => u32::MAX.into(),
            _ => end,
        }
    }
}

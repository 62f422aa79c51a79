//! What 52h tells of a fragment.

use crate::words::number_at;
use std::fmt;

pub struct Track {
    pub number: u16,
    pub session: u16,
    is_blank: bool,
    /// The first sector.
    pub first: u32,
    next: u32,
    free: u32,
    /// The length in sectors.
    length: u32,
}

impl Track {
    /// What a whole reply says.
    pub fn of(reply: &[u8]) -> Track {
        let two = |low: usize, high: usize| u16::from_be_bytes([reply[high], reply[low]]);
        let four = |at: usize| number_at(reply, at);
        Track {
            number: two(2, 32),
            session: two(3, 33),
            is_blank: reply[6] & 0x40 != 0,
            first: four(8),
            next: four(12),
            free: four(16),
            length: four(24),
        }
    }

    /// The last sector.
    pub fn last(&self) -> u32 {
        self.first + self.length - 1
    }
}

impl fmt::Display for Track {
    fn fmt(&self, out: &mut fmt::Formatter) -> fmt::Result {
        let Track { number, session, is_blank, first, next, free, length } = self;
        let blank = if *is_blank { "blank, " } else { "" };
        write!(
            out,
            "fragment {number}, session {session}, {blank}first sector {first}, next {next}, \
             free {free}, length {length}"
        )
    }
}

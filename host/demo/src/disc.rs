//! A disc in memory, with the linked drive over it.

use crate::fragments::{recorded_end, BLOCK_SECTORS};
use gladhamre::cdb::{self, Cdb};
use gladhamre::{Accepted, Lent, Record, Refusal, State, BLOCK_BYTES};
use mapped::Mapped;
use std::io;

/// What the buffers hold before anything is written.
const STALE: u8 = 0xA5;

/// A disc: the state image and the two buffers that belong to it.
pub struct Disc {
    pub state: State,
    medium: Vec<u8>,
    pending: Vec<u8>,
    /// For each sector whether the drive filled it with zeros by itself.
    zero_filled: Vec<bool>,
}

/// A command's answer and the reply buffer that it was lent.
pub struct Outcome {
    pub answer: Result<Accepted, Refusal>,
    buffer: Mapped,
}

impl Outcome {
    pub fn reply(&self) -> &[u8] {
        &self.buffer[..self.answer.map_or(0, |accepted| accepted.reply_count as usize)]
    }
}

/// A buffer to lend, of any length that a command asks for.
pub fn zeros(length: usize) -> io::Result<Mapped> {
    let named = |error| io::Error::other(format!("no buffer of {length} bytes: {error}"));
    Mapped::zeros(length).map_err(named)
}

impl Disc {
    /// A blank disc over stale bytes.
    pub fn blank(capacity: u32) -> Result<Disc, Refusal> {
        let state = State::blank(capacity)?;
        Ok(Disc {
            state,
            medium: vec![STALE; capacity as usize * BLOCK_BYTES],
            pending: vec![STALE; BLOCK_BYTES],
            zero_filled: vec![false; (capacity * BLOCK_SECTORS) as usize],
        })
    }

    /// Sends a command with a reply buffer of the length that it asks for.
    pub fn send(&mut self, cdb: &Cdb, data: &[u8]) -> io::Result<Outcome> {
        let mut buffer = zeros(cdb::reply_room(cdb))?;
        let answer = self.send_with(cdb, data, &mut buffer);
        Ok(Outcome { answer, buffer })
    }

    /// Sends a command with this reply buffer.
    pub fn send_with(
        &mut self,
        cdb: &Cdb,
        data: &[u8],
        reply: &mut [u8],
    ) -> Result<Accepted, Refusal> {
        let before: Vec<Record> = self.state.records().collect();
        let answer = self.state.command(Lent {
            cdb,
            data,
            medium: &mut self.medium,
            pending: &mut self.pending,
            reply,
        });
        self.note_zero_filled(&before);
        answer
    }

    /// The zeros that a command adds to a fragment are the last of its recorded sectors: after the
    /// pending ones of a flushed block, or to the end of a reserved fragment that is closed.
    fn note_zero_filled(&mut self, before: &[Record]) {
        for (old, new) in before.iter().zip(self.state.records()) {
            let added = new.zero_filled.saturating_sub(old.zero_filled);
            let end = BLOCK_SECTORS * recorded_end(&new);
            self.zero_filled[(end - added) as usize..end as usize].fill(true);
        }
    }

    /// For each sector whether the drive filled it with zeros by itself.
    pub fn zero_filled(&self) -> &[bool] {
        &self.zero_filled
    }
}

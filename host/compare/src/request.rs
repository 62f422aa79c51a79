//! What is sent to a drive in one command.

use crate::cdb::{self, Cdb};
use crate::pool;
use gladhamre::{BLOCK_BYTES, STATE_WORDS};

/// A command with the lengths of everything that is lent for it.
#[derive(Clone, Debug, PartialEq, Eq)]
pub struct Request {
    pub cdb: Vec<u8>,
    /// Where in the pool the data begin, if it has so many.
    pub data_offset: usize,
    pub data_length: usize,
    pub reply_length: usize,
    pub state_words: usize,
    pub medium_length: usize,
    pub pending_length: usize,
}

impl Request {
    /// The request of a command block with exactly the lengths that it asks for, on a disc of so
    /// many blocks.
    pub fn fitting(cdb: Cdb, capacity: u32) -> Request {
        Request {
            data_offset: 0,
            data_length: cdb::data_length(&cdb),
            reply_length: cdb::reply_room(&cdb),
            state_words: STATE_WORDS,
            medium_length: capacity as usize * BLOCK_BYTES,
            pending_length: BLOCK_BYTES,
            cdb: cdb.to_vec(),
        }
    }

    /// Whether data or reply buffer have more bytes than 32 bits can say.
    pub fn wants_long_buffer(&self) -> bool {
        self.data_length.max(self.reply_length) > u32::MAX as usize
    }

    pub fn data(&self) -> &'static [u8] {
        pool::data(self.data_offset, self.data_length)
    }

    /// The twelve bytes, if there are twelve.
    pub fn twelve(&self) -> Option<Cdb> {
        self.cdb.as_slice().try_into().ok()
    }
}

//! The buffers that both drives share.

use gladhamre::cdb::{self, Cdb};
use gladhamre::{Lent, BLOCK_BYTES, SECTOR_BYTES};
use std::ops::{Deref, DerefMut};

const PAGE: usize = 4_096;

/// Bytes that begin at a given place of a page. Where source and target of a copy begin at the same
/// place, some processors slow down; so each buffer has a place of its own, in every run.
pub struct Buffer {
    bytes: Vec<u8>,
    start: usize,
    length: usize,
}

impl Buffer {
    fn new(value: u8, length: usize, place: usize) -> Buffer {
        let bytes = vec![value; length + 2 * PAGE];
        let start = (PAGE + place - bytes.as_ptr() as usize % PAGE) % PAGE;
        Buffer { bytes, start, length }
    }
}

impl Deref for Buffer {
    type Target = [u8];

    fn deref(&self) -> &[u8] {
        &self.bytes[self.start..self.start + self.length]
    }
}

impl DerefMut for Buffer {
    fn deref_mut(&mut self) -> &mut [u8] {
        &mut self.bytes[self.start..self.start + self.length]
    }
}

pub struct Buffers {
    pub data: Buffer,
    pub medium: Buffer,
    pub pending: Buffer,
    pub reply: Buffer,
}

impl Buffers {
    /// For a disc of so many blocks.
    pub fn new(capacity: u32) -> Buffers {
        Buffers {
            medium: Buffer::new(0, capacity as usize * BLOCK_BYTES, 0),
            data: Buffer::new(0x5A, 64 * SECTOR_BYTES, 1_024),
            pending: Buffer::new(0, BLOCK_BYTES, 2_048),
            reply: Buffer::new(0, 64 * SECTOR_BYTES, 3_072),
        }
    }

    /// What is lent for a command.
    pub fn lend<'a>(&'a mut self, cdb: &'a Cdb) -> Lent<'a> {
        Lent {
            cdb,
            data: &self.data[..cdb::data_length(cdb)],
            medium: &mut self.medium,
            pending: &mut self.pending,
            reply: &mut self.reply,
        }
    }
}

//! Lengths that are wrong: of command block, data, reply buffer, medium, pending buffer or state image.

use crate::pair::IMAGE_ROOM;
use crate::{Generator, Request};
use gladhamre::{BLOCK_BYTES, HEADER_WORDS, RECORD_WORDS, SECTOR_BYTES, STATE_WORDS};

impl Generator {
    /// Makes one length wrong, or several; more often than others that of a long buffer.
    pub(crate) fn spoil(&mut self, request: &mut Request, allocated: usize) {
        loop {
            let long = request.wants_long_buffer() && self.random.once_in(2);
            match self.random.below(if self.buffers_right { 3 } else { 6 }) {
                _ if long && request.data_length > request.reply_length => {
                    request.data_length = self.wrong_data_length(request.data_length)
                }
                _ if long => request.reply_length = self.shorter(request.reply_length),
                0 => self.spoil_cdb(&mut request.cdb),
                1 => request.data_length = self.wrong_data_length(request.data_length),
                2 => request.reply_length = self.shorter(request.reply_length),
                3 => {
                    request.medium_length =
                        self.wrong_medium_length(request.medium_length, allocated)
                }
                4 => request.pending_length = self.wrong_pending_length(),
                _ => request.state_words = self.wrong_state_words(),
            }
            if !self.random.once_in(4) {
                return;
            }
        }
    }

    fn spoil_cdb(&mut self, cdb: &mut Vec<u8>) {
        let length = self.random.below(21) as usize;
        cdb.resize(length, self.random.draw() as u8);
    }

    fn wrong_data_length(&mut self, right: usize) -> usize {
        match self.random.below(6) {
            _ if self.is_cut(right) => right as u32 as usize,
            0 => right + 1,
            1 => right.saturating_sub(1),
            2 => right + SECTOR_BYTES,
            3 => right.saturating_sub(SECTOR_BYTES),
            4 => 0,
            _ => self.random.below(70_000) as usize,
        }
    }

    pub(crate) fn shorter(&mut self, length: usize) -> usize {
        match self.random.below(3) {
            _ if self.is_cut(length) => length as u32 as usize,
            0 => length.saturating_sub(1),
            1 => 0,
            _ => self.random.below(length as u64) as usize,
        }
    }

    /// Whether a length of more than 32 bits is cut to them.
    fn is_cut(&mut self, length: usize) -> bool {
        u32::try_from(length).is_err() && self.random.once_in(2)
    }

    fn wrong_medium_length(&mut self, right: usize, allocated: usize) -> usize {
        let length = match self.random.below(6) {
            0 => right + 1,
            1 => right.saturating_sub(1),
            2 => right + BLOCK_BYTES,
            3 => right.saturating_sub(BLOCK_BYTES),
            4 => 0,
            _ => self.random.below(right as u64) as usize,
        };
        length.min(allocated)
    }

    /// A word or a record too few or too many, or hardly any.
    fn wrong_state_words(&mut self) -> usize {
        self.random.pick(&[
            0,
            1,
            HEADER_WORDS - 1,
            HEADER_WORDS,
            STATE_WORDS - RECORD_WORDS,
            STATE_WORDS - 2,
            STATE_WORDS - 1,
            STATE_WORDS + 1,
            STATE_WORDS + RECORD_WORDS,
            IMAGE_ROOM,
        ])
    }

    fn wrong_pending_length(&mut self) -> usize {
        match self.random.below(5) {
            0 => BLOCK_BYTES + 1,
            1 => BLOCK_BYTES - 1,
            2 => BLOCK_BYTES + SECTOR_BYTES,
            3 => 0,
            _ => self.random.below(BLOCK_BYTES as u64) as usize,
        }
    }
}

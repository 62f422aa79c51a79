//! The buffers lent for one command, and the refusals L1 and L2 that look at their lengths alone.

use crate::{Refusal, BLOCK_BYTES, CAPACITIES};

/// What the caller lends for one command.
pub struct Lent<'a> {
    /// The command block.
    pub cdb: &'a [u8],
    pub data: &'a [u8],
    pub medium: &'a mut [u8],
    pub pending: &'a mut [u8],
    pub reply: &'a mut [u8],
}

impl Lent<'_> {
    /// The twelve bytes of the command block, or L1.
    pub(crate) fn twelve_bytes(&self) -> Result<[u8; 12], Refusal> {
        self.cdb.try_into().map_err(|_| Refusal::CdbLength)
    }

    /// L2. The capacity is missing where an empty state image is lent.
    pub(crate) fn check_lengths(&self, capacity: Option<u64>) -> Result<(), Refusal> {
        let medium_fits = capacity.is_none_or(|blocks| {
            CAPACITIES.contains(&blocks) && self.medium.len() == blocks as usize * BLOCK_BYTES
        });
        if medium_fits && self.pending.len() == BLOCK_BYTES {
            Ok(())
        } else {
            Err(Refusal::BufferLength)
        }
    }
}

//! A pool of random bytes: data of commands and stale contents of buffers are slices of it.

use crate::{cdb, Random};
use gladhamre::SECTOR_BYTES;
use mapped::Mapped;
use std::sync::OnceLock;

/// The sectors of the longest WRITE with data of its own: more than 65,535, and all that a disc of
/// [`LONG_CAPACITY`](crate::rounds::LONG_CAPACITY) blocks takes.
const LONGEST: usize = 68_800;

/// Where a slice of any length may begin.
pub const OFFSETS: usize = 1 << 20;

/// The pool: from any of the offsets there are more bytes than the longest WRITE takes.
pub fn pool() -> &'static [u8] {
    static POOL: OnceLock<Vec<u8>> = OnceLock::new();
    POOL.get_or_init(|| {
        let mut bytes = vec![0; (LONGEST + 1) * SECTOR_BYTES + OFFSETS];
        Random::new(0).fill(&mut bytes);
        bytes
    })
}

/// The data of a command: from the pool, or zeros where there are more than it has.
pub fn data(offset: usize, length: usize) -> &'static [u8] {
    static ZEROS: OnceLock<Mapped> = OnceLock::new();
    let zeros = || Mapped::zeros(cdb::LONGEST_DATA + OFFSETS).expect("address space");
    match pool().get(offset..offset + length) {
        Some(bytes) => bytes,
        None => &ZEROS.get_or_init(zeros)[..length],
    }
}

/// Fills a buffer of any length from the pool.
pub fn fill_from_pool(buffer: &mut [u8], random: &mut Random) {
    for chunk in buffer.chunks_mut(OFFSETS) {
        let offset = random.below(OFFSETS as u64) as usize;
        chunk.copy_from_slice(&pool()[offset..offset + chunk.len()]);
    }
}

//! Block numbers and sector addresses: two kinds, converted into each other here and nowhere else.

use std::ops::{Add, Range, Sub};

/// The bytes of a sector.
pub const SECTOR_BYTES: usize = 2_048;

/// The sectors of an ECC block.
pub const BLOCK_SECTORS: u64 = 16;

/// The bytes of an ECC block.
pub const BLOCK_BYTES: usize = 32_768;

/// The number of an ECC block.
#[derive(Clone, Copy, Debug, PartialEq, Eq, PartialOrd, Ord)]
pub struct Block(pub u64);

/// The address of a sector. One of a command has 32 bits, and so has a length: sums of 64 cannot wrap.
#[derive(Clone, Copy, Debug, PartialEq, Eq, PartialOrd, Ord)]
pub struct Address(pub u64);

impl Block {
    /// The block's first sector.
    pub fn first_sector(self) -> Address {
        Address(self.0 * BLOCK_SECTORS)
    }
}

impl Address {
    /// The block that holds the sector.
    pub fn block(self) -> Block {
        Block(self.0 / BLOCK_SECTORS)
    }

    /// The sectors from here up to another address, none if that one comes first.
    pub fn sectors_to(self, end: Address) -> u64 {
        end.0.saturating_sub(self.0)
    }

    /// Its low 32 bits, as a mistake takes them.
    pub(crate) fn cut(self) -> Address {
        Address(u64::from(self.0 as u32))
    }
}

impl Add<u64> for Block {
    type Output = Block;

    fn add(self, blocks: u64) -> Block {
        Block(self.0 + blocks)
    }
}

impl Sub for Block {
    type Output = u64;

    fn sub(self, earlier: Block) -> u64 {
        self.0 - earlier.0
    }
}

impl Add<u64> for Address {
    type Output = Address;

    fn add(self, sectors: u64) -> Address {
        Address(self.0 + sectors)
    }
}

impl Sub for Address {
    type Output = u64;

    fn sub(self, earlier: Address) -> u64 {
        self.0 - earlier.0
    }
}

/// How many bytes so many sectors have. A length of 32 bits has bytes of 43.
pub fn sector_bytes(sectors: u64) -> usize {
    sectors as usize * SECTOR_BYTES
}

/// Where a run of sectors lies in the medium.
pub fn stretch(from: Address, sectors: u64) -> Range<usize> {
    sector_bytes(from.0)..sector_bytes(from.0 + sectors)
}

/// Where a run of blocks lies in the medium.
pub fn block_stretch(from: Block, blocks: u64) -> Range<usize> {
    stretch(from.first_sector(), blocks * BLOCK_SECTORS)
}

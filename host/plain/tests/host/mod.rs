//! A disc with its buffers, and commands by their fields.

use plain::{Answer, Disc, Lent, BLOCK_BYTES, FRAGMENT_LIMIT, IMAGE_WORDS, SECTOR_BYTES};

pub const ACCEPTED: u32 = 0;
pub const INVALID_FIELD: u32 = 0x052400;
pub const NO_MORE_FRAGMENTS: u32 = 0x057205;
pub const END_OF_USER_AREA: u32 = 0x056300;

/// The blocks of a disc with room for a full list.
pub const CAPACITY: u64 = 480;

/// The number of a full list's last fragment.
pub const LAST: u16 = FRAGMENT_LIMIT as u16;

/// The first sector of a fragment, where all before it have one block.
pub fn start_of(number: u16) -> u16 {
    32 * (number - 1)
}

/// A disc with its buffers.
pub struct Host {
    pub disc: Disc,
    medium: Vec<u8>,
    pending: Vec<u8>,
}

impl Host {
    pub fn blank(capacity: u64) -> Host {
        Host {
            disc: Disc::blank(capacity).expect("a capacity"),
            medium: vec![0; capacity as usize * BLOCK_BYTES],
            pending: vec![0; BLOCK_BYTES],
        }
    }

    /// So many fragments, the last of them a blank tail, the others reserved, of one block and
    /// complete.
    pub fn with_fragments(count: u16) -> Host {
        let mut host = Host::blank(CAPACITY);
        for number in 1..count {
            assert_eq!(host.reserve(16), ACCEPTED);
            assert_eq!(host.write(start_of(number), 16), ACCEPTED);
        }
        assert_eq!(host.count(), count.into());
        host
    }

    pub fn send(&mut self, cdb: [u8; 12], sectors: u8) -> Answer {
        self.disc.command(Lent {
            cdb: &cdb,
            data: &vec![0x5A; usize::from(sectors) * SECTOR_BYTES],
            medium: &mut self.medium,
            pending: &mut self.pending,
            reply: &mut [0; 36],
        })
    }

    pub fn reserve(&mut self, sectors: u32) -> u32 {
        let [a, b, c, d] = sectors.to_be_bytes();
        self.send([0x53, 0, 0, 0, 0, a, b, c, d, 0, 0, 0], 0).number
    }

    pub fn write(&mut self, address: u16, sectors: u8) -> u32 {
        let [high, low] = address.to_be_bytes();
        self.send([0x2A, 0, 0, 0, high, low, 0, 0, sectors, 0, 0, 0], sectors).number
    }

    pub fn close(&mut self, function: u8, number: u16) -> u32 {
        let [high, low] = number.to_be_bytes();
        self.send([0x5B, 0, function, 0, high, low, 0, 0, 0, 0, 0, 0], 0).number
    }

    pub fn image(&self) -> [u32; IMAGE_WORDS] {
        let mut image = [0; IMAGE_WORDS];
        self.disc.write_image(&mut image);
        image
    }

    /// Session, start, length, recorded, zero-filled and kind of a record.
    pub fn record(&self, number: usize) -> [u32; 6] {
        self.image()[7 + 6 * (number - 1)..][..6].try_into().expect("six words")
    }

    pub fn count(&self) -> usize {
        (1..=FRAGMENT_LIMIT).take_while(|&number| self.record(number) != [0; 6]).count()
    }
}

//! A disc that is held between commands and one that goes in and out as an image answer alike.

use plain::{Disc, Lent, BLOCK_BYTES, IMAGE_WORDS, SECTOR_BYTES};

const CAPACITY: u32 = 300;

/// The commands of document 01's shift and a few more, each with its number.
const COMMANDS: [([u8; 12], u32); 22] = [
    ([0x51, 0, 0, 0, 0, 0, 0, 0, 34, 0, 0, 0], 0),
    ([0x2A, 0, 0, 0, 0, 0, 0, 0, 20, 0, 0, 0], 0),
    ([0x28, 0, 0, 0, 0, 10, 0, 0, 10, 0, 0, 0], 0),
    ([0x28, 0, 0, 0, 0, 16, 0, 0, 5, 0, 0, 0], 0x080000),
    ([0x25, 0, 0, 0, 0, 0, 0, 0, 0, 0, 0, 0], 0),
    ([0x2A, 0, 0, 0, 0, 16, 0, 0, 1, 0, 0, 0], 0x052102),
    ([0x03, 0, 0, 0, 18, 0, 0, 0, 0, 0, 0, 0], 0),
    ([0x35, 0, 0, 0, 0, 0, 0, 0, 0, 0, 0, 0], 0),
    ([0x28, 0, 0, 0, 0, 16, 0, 0, 16, 0, 0, 0], 0),
    ([0x28, 0, 0, 0, 0, 32, 0, 0, 1, 0, 0, 0], 0x080000),
    ([0x28, 0, 0, 0, 0x12, 0xC0, 0, 0, 1, 0, 0, 0], 0x052100),
    ([0x28, 0, 0, 0, 0x12, 0xC0, 0, 0, 0, 0, 0, 0], 0),
    ([0x5B, 0, 1, 0, 0, 1, 0, 0, 0, 0, 0, 0], 0),
    ([0x53, 0, 0, 0, 0, 0, 0, 0, 33, 0, 0, 0], 0x052400),
    ([0x53, 0, 0, 0, 0, 0, 0, 0, 48, 0, 0, 0], 0),
    ([0x5B, 0, 2, 0, 0, 0, 0, 0, 0, 0, 0, 0], 0x057203),
    ([0x2A, 0, 0, 0, 0, 48, 0, 0, 49, 0, 0, 0], 0x056300),
    ([0x2A, 0, 0, 0, 0, 48, 0, 0, 48, 0, 0, 0], 0),
    ([0x5B, 0, 2, 0, 0, 0, 0, 0, 0, 0, 0, 0], 0),
    ([0x52, 1, 0, 0, 0, 0xFF, 0, 0, 36, 0, 0, 0], 0),
    ([0x5B, 0, 6, 0, 0, 0, 0, 0, 0, 0, 0, 0], 0),
    ([0x2A, 0, 0, 0, 0x08, 0x60, 0, 0, 1, 0, 0, 0], 0x072700),
];

/// Medium, pending buffer and reply buffer.
#[derive(PartialEq)]
struct Buffers {
    medium: Vec<u8>,
    pending: Vec<u8>,
    reply: Vec<u8>,
}

impl Buffers {
    fn new() -> Buffers {
        Buffers {
            medium: vec![0xAA; CAPACITY as usize * BLOCK_BYTES],
            pending: vec![0xBB; BLOCK_BYTES],
            reply: vec![0xCC; 16 * SECTOR_BYTES],
        }
    }

    fn lend<'a>(&'a mut self, cdb: &'a [u8], data: &'a [u8]) -> Lent<'a> {
        Lent {
            cdb,
            data,
            medium: &mut self.medium,
            pending: &mut self.pending,
            reply: &mut self.reply,
        }
    }
}

#[test]
fn held_and_as_image() {
    let mut held = Disc::blank(CAPACITY.into()).expect("a capacity in range");
    let mut image = [0; IMAGE_WORDS];
    assert_eq!(plain::blank(CAPACITY, &mut image), 0);
    let (mut own, mut other) = (Buffers::new(), Buffers::new());
    let bytes: Vec<u8> = (0..49 * SECTOR_BYTES).map(|at| (at / 100) as u8).collect();
    for (cdb, number) in &COMMANDS {
        let sectors = if cdb[0] == 0x2A { cdb[8] } else { 0 };
        let data = &bytes[..usize::from(sectors) * SECTOR_BYTES];
        let answer = held.command(own.lend(cdb, data));
        assert_eq!(answer.number, *number, "{cdb:02X?}");
        assert_eq!(answer, plain::command(&mut image, other.lend(cdb, data), None));
        assert!(own == other);
        let mut written = [0; IMAGE_WORDS];
        held.write_image(&mut written);
        assert_eq!(written, image);
        assert_eq!(Disc::from_image(&image, None), Ok(held.clone()));
    }
}

//! Runs of READ (12) and WRITE (12), A8h and AAh, beside 28h and 2Ah. Each goes to a blank disc over
//! noise, and to any drive that answers on a state image.

use mapped::Mapped;
use plain::{Answer, Lent, BLOCK_BYTES, IMAGE_WORDS, SECTOR_BYTES};

/// Answers one command on a state image.
pub type Drive = fn(&mut [u32], Lent) -> Answer;

/// Commands to a blank disc, with what must come of them.
type Run = fn(&mut Host);

/// The runs by name.
pub const RUNS: [(&str, Run); 13] = [
    ("a whole disc", whole_disc),
    ("more than 65,535 sectors", longer_than_two_bytes_say),
    ("both forms by turns", by_turns),
    ("sectors of another fragment are flushed", flush_of_another),
    ("READs refused in order", reads_refused),
    ("READs whose sum passes 32 bits", reads_past_32_bits),
    ("WRITEs refused in order", writes_refused),
    ("WRITEs whose sum passes 32 bits", writes_past_32_bits),
    ("on a finalized disc", finalized),
    ("length 0", length_zero),
    ("data of another length", other_data),
    ("reply buffers that are too short", short_replies),
    ("bytes that are not looked at", other_bytes),
];

const READ: u8 = 0x28;
const WRITE: u8 = 0x2A;
const READ_12: u8 = 0xA8;
const WRITE_12: u8 = 0xAA;
const READS: [u8; 2] = [READ, READ_12];
const WRITES: [u8; 2] = [WRITE, WRITE_12];

const ACCEPTED: u32 = 0;
const WRONG_LENGTH: u32 = 4;
const WRITE_PROTECTED: u32 = 0x072700;
const ADDRESS_OUT_OF_RANGE: u32 = 0x052100;
const BLANK_CHECK: u32 = 0x080000;
const NOT_WRITABLE: u32 = 0x052102;
const END_OF_FRAGMENT: u32 = 0x056300;

/// The blocks and the sectors of the disc.
const CAPACITY: u32 = 300;
const SECTORS: u32 = 4_800;

/// The longest runs of both forms, and one longer than the short form can say.
const LONGEST_10: u32 = 65_535;
const LONGER: u32 = 65_536;
const LONGEST: u32 = u32::MAX;

/// Its bytes are 2^32: cut to 32 bits they are none.
const BYTES_CUT_TO_NONE: u32 = 1 << 21;

/// What the buffers hold before anything is written, and bytes of a command block without a name.
const STALE_MEDIUM: u8 = 0xEE;
const STALE_PENDING: u8 = 0xDD;
const STALE_REPLY: u8 = 0xCC;
const UNNAMED: u8 = 0xFF;

/// As much of a buffer's front and end as is looked at.
const EDGE: usize = 64;

/// A command block of a READ or a WRITE.
fn cdb(opcode: u8, address: u32, count: u32) -> [u8; 12] {
    let mut cdb = [UNNAMED; 12];
    cdb[0] = opcode;
    cdb[2..6].copy_from_slice(&address.to_be_bytes());
    match opcode {
        READ | WRITE => {
            let count = u16::try_from(count).expect("a length of two bytes");
            cdb[7..9].copy_from_slice(&count.to_be_bytes());
        }
        _ => cdb[6..10].copy_from_slice(&count.to_be_bytes()),
    }
    cdb
}

/// How many bytes so many sectors have.
fn bytes(count: u32) -> usize {
    count as usize * SECTOR_BYTES
}

/// The sectors from an address on, each with bytes of its own, never zeros or noise.
fn sectors(from: u32, count: u32) -> Vec<u8> {
    let mut bytes = Vec::with_capacity(bytes(count));
    for address in from..from + count {
        bytes.extend_from_slice(&(address + 1).to_be_bytes().repeat(SECTOR_BYTES / 4));
    }
    bytes
}

/// A length that takes no memory until it is touched.
fn room(length: usize) -> Mapped {
    Mapped::zeros(length).expect("address space")
}

/// A drive with its disc.
pub struct Host {
    drive: Drive,
    image: [u32; IMAGE_WORDS],
    medium: Vec<u8>,
    /// The medium as it was when a block was last recorded.
    left: Vec<u8>,
    pending: Vec<u8>,
}

impl Host {
    pub fn blank(drive: Drive) -> Host {
        Host::of_blocks(drive, CAPACITY)
    }

    fn of_blocks(drive: Drive, capacity: u32) -> Host {
        let mut image = [0; IMAGE_WORDS];
        assert_eq!(plain::blank(capacity, &mut image), ACCEPTED);
        let medium = vec![STALE_MEDIUM; capacity as usize * BLOCK_BYTES];
        let left = medium.clone();
        Host { drive, image, medium, left, pending: vec![STALE_PENDING; BLOCK_BYTES] }
    }

    /// Sends a command with so much room for a reply; gives the answer and the reply's bytes. The
    /// buffer's end past them stays, and its front where there are none.
    fn send(&mut self, cdb: [u8; 12], data: &[u8], length: usize) -> (Answer, Vec<u8>) {
        let mut reply = room(length);
        let edge = length.min(EDGE);
        reply[..edge].fill(STALE_REPLY);
        reply[length - edge..].fill(STALE_REPLY);
        let lent = Lent {
            cdb: &cdb,
            data,
            medium: &mut self.medium,
            pending: &mut self.pending,
            reply: &mut reply,
        };
        let answer = (self.drive)(&mut self.image, lent);
        if answer.recorded > 0 {
            self.left.copy_from_slice(&self.medium);
        }
        let (sent, rest) = reply.split_at(answer.reply_count as usize);
        let end = &rest[rest.len().saturating_sub(EDGE)..];
        assert!(end.iter().all(|&byte| byte == STALE_REPLY), "{cdb:02X?}");
        let front = &rest[..if sent.is_empty() { edge } else { 0 }];
        assert!(front.iter().all(|&byte| byte == STALE_REPLY), "{cdb:02X?}");
        (answer, sent.to_vec())
    }

    /// A command without data or reply that is accepted.
    #[track_caller]
    fn obey(&mut self, cdb: [u8; 12]) {
        assert_eq!(self.send(cdb, &[], 0).0.number, ACCEPTED);
    }

    /// RESERVE of so many sectors, at most 255.
    fn reserve(&mut self, count: u8) {
        self.obey([0x53, 0, 0, 0, 0, 0, 0, 0, count, 0, 0, 0]);
    }

    fn finalize(&mut self) {
        self.obey([0x5B, 0, 6, 0, 0, 0, 0, 0, 0, 0, 0, 0]);
    }

    /// WRITE, accepted; gives the blocks recorded.
    #[track_caller]
    fn write(&mut self, opcode: u8, address: u32, count: u32) -> u64 {
        let (answer, _) = self.send(cdb(opcode, address, count), &sectors(address, count), 0);
        assert_eq!(answer.number, ACCEPTED, "{opcode:02X} {address} {count}");
        assert_eq!(self.sense(), ACCEPTED);
        assert!(answer.recorded <= 1 + u64::from(count) / 16);
        answer.recorded
    }

    /// READ gives the sectors as they were written, and has room for more.
    #[track_caller]
    fn gives_back(&mut self, opcode: u8, address: u32, count: u32) {
        let (answer, reply) = self.send(cdb(opcode, address, count), &[], bytes(count) + EDGE);
        assert_eq!(answer.number, ACCEPTED, "{opcode:02X} {address} {count}");
        assert_eq!((answer.recorded, reply.len()), (0, bytes(count)));
        assert!(reply == sectors(address, count), "other bytes");
    }

    /// READ or WRITE, with all the data or room that it asks for, is refused by the drive.
    #[track_caller]
    fn refuses(&mut self, opcode: u8, address: u32, count: u32, number: u32) {
        let wanted = room(bytes(count));
        let (data, length) = match WRITES.contains(&opcode) {
            true => (&wanted[..], EDGE),
            false => (&[][..], bytes(count)),
        };
        let answer = self.leaves(cdb(opcode, address, count), data, length);
        assert_eq!(answer.number, number, "{opcode:02X} {address} {count}");
        assert_eq!(self.sense(), number);
    }

    /// READ or WRITE with so many bytes of data and reply buffer is refused by L4.
    #[track_caller]
    fn lacks(&mut self, cdb: [u8; 12], data: usize, reply: usize) {
        let sense = self.sense();
        let answer = self.leaves(cdb, &room(data), reply);
        assert_eq!(answer.number, WRONG_LENGTH, "{cdb:02X?}, {data} and {reply} bytes");
        assert_eq!(self.sense(), sense);
    }

    /// A command that changes nothing but the sense.
    #[track_caller]
    fn leaves(&mut self, cdb: [u8; 12], data: &[u8], reply: usize) -> Answer {
        let (image, pending) = (self.image, self.pending.clone());
        let (answer, sent) = self.send(cdb, data, reply);
        assert_eq!((answer.recorded, sent.len()), (0, 0));
        assert_eq!((&self.image[..2], &self.image[5..]), (&image[..2], &image[5..]));
        assert!(self.medium == self.left && self.pending == pending);
        answer
    }

    /// The state's sense as one number.
    fn sense(&self) -> u32 {
        self.image[2..5].iter().fold(0, |number, word| number << 8 | word)
    }

    /// The medium's bytes of so many sectors.
    fn on_medium(&self, address: u32, count: u32) -> &[u8] {
        &self.medium[bytes(address)..bytes(address + count)]
    }
}

/// One WRITE (12) fills the disc, and one READ (12) gives it back.
fn whole_disc(host: &mut Host) {
    assert_eq!(host.write(WRITE_12, 0, SECTORS), 300);
    for opcode in READS {
        host.gives_back(opcode, 0, SECTORS);
        host.gives_back(opcode, SECTORS - 1, 1);
        host.refuses(opcode, 0, SECTORS + 1, ADDRESS_OUT_OF_RANGE);
    }
    for opcode in WRITES {
        host.refuses(opcode, SECTORS, 1, NOT_WRITABLE);
    }
    // all but the last sector, which the other form brings
    for (long, short) in [(WRITE_12, WRITE), (WRITE, WRITE_12)] {
        let host = &mut Host::blank(host.drive);
        assert_eq!(host.write(long, 0, SECTORS - 1), 299);
        host.refuses(short, SECTORS - 1, 2, END_OF_FRAGMENT);
        assert_eq!(host.write(short, SECTORS - 1, 1), 1);
        host.gives_back(READ_12, 0, SECTORS);
    }
}

/// No length of two bytes says so much.
fn longer_than_two_bytes_say(host: &mut Host) {
    let host = &mut Host::of_blocks(host.drive, 4_200);
    host.refuses(WRITE_12, 0, 67_201, END_OF_FRAGMENT);
    assert_eq!(host.write(WRITE_12, 0, 65_557), 4_097);
    host.gives_back(READ_12, 0, 65_557);
    host.refuses(READ_12, 0, 65_558, BLANK_CHECK);
    // its length cut to two bytes
    host.gives_back(READ, 0, 21);
    assert_eq!(host.write(WRITE, 65_557, 1_643), 103);
    host.gives_back(READ_12, 1, 67_199);
    host.refuses(READ_12, 1, 67_200, ADDRESS_OUT_OF_RANGE);
}

/// Each form goes on where the other stopped, and reads what the other wrote.
fn by_turns(host: &mut Host) {
    assert_eq!(host.write(WRITE, 0, 5), 0);
    assert_eq!(host.write(WRITE_12, 5, 11), 1);
    assert_eq!(host.write(WRITE_12, 16, 4), 0);
    assert_eq!(host.write(WRITE, 20, 28), 2);
    assert_eq!(host.write(WRITE_12, 48, 303), 18);
    // 336 sectors are on the medium and 15 in the buffer
    for opcode in READS {
        for (address, count) in [(0, 351), (0, 336), (335, 2), (336, 15), (350, 1), (5, 300)] {
            host.gives_back(opcode, address, count);
        }
        for (address, count) in [(0, 352), (351, 1), (336, 16)] {
            host.refuses(opcode, address, count, BLANK_CHECK);
        }
    }
    assert_eq!(host.write(WRITE, 351, 1), 1);
    host.gives_back(READ_12, 0, 352);
}

/// A WRITE of either form, to another fragment than the last one's, fills its block with zeros.
fn flush_of_another(host: &mut Host) {
    host.reserve(32);
    for (first, second) in [(WRITE_12, WRITE_12), (WRITE, WRITE_12), (WRITE_12, WRITE)] {
        let host = &mut Host { image: host.image, ..Host::blank(host.drive) };
        assert_eq!(host.write(first, 0, 3), 0);
        assert_eq!(host.on_medium(0, 3), [STALE_MEDIUM; 3 * SECTOR_BYTES]);
        // one block for the flush, one for the sixteen of seventeen
        assert_eq!(host.write(second, 48, 17), 2);
        assert_eq!(host.on_medium(0, 3), sectors(0, 3));
        assert_eq!(host.on_medium(3, 13), [0; 13 * SECTOR_BYTES]);
        host.gives_back(READ_12, 48, 17);
        assert_eq!(host.write(first, 16, 1), 1);
        assert_eq!(host.on_medium(65, 15), [0; 15 * SECTOR_BYTES]);
    }
}

/// 5/21/00 comes before 8/00/00. Sixteen sectors are recorded and four pending.
fn reads_refused(host: &mut Host) {
    host.write(WRITE_12, 0, 20);
    for opcode in READS {
        host.gives_back(opcode, 0, 20);
        let blank = [(0, 21), (16, 5), (20, 1), (0, SECTORS), (20, SECTORS - 20), (SECTORS - 1, 1)];
        for (address, count) in blank {
            host.refuses(opcode, address, count, BLANK_CHECK);
        }
        let past = [(0, SECTORS + 1), (19, SECTORS - 18), (SECTORS - 1, 2), (SECTORS, 1)];
        for (address, count) in past.into_iter().chain([(0, LONGEST_10), (1 << 31, 1)]) {
            host.refuses(opcode, address, count, ADDRESS_OUT_OF_RANGE);
        }
    }
    for (address, count) in [(0, LONGER), (0, BYTES_CUT_TO_NONE), (0, 1 << 31), (0, LONGEST)] {
        host.refuses(READ_12, address, count, ADDRESS_OUT_OF_RANGE);
    }
}

/// Cut to 32 bits the sum would be at most the disc's end, or that of what is readable.
fn reads_past_32_bits(host: &mut Host) {
    host.write(WRITE, 0, 20);
    for opcode in READS {
        for (end, count) in [(0, 1), (20, 21), (20, 60), (0, LONGEST_10), (SECTORS, SECTORS + 1)] {
            host.refuses(opcode, end.wrapping_sub(count), count, ADDRESS_OUT_OF_RANGE);
        }
    }
    for (address, end) in [(1, 0), (17, 16), (30, 20), (SECTORS, 20), (SECTORS + 1, SECTORS)] {
        host.refuses(READ_12, address, end.wrapping_sub(address), ADDRESS_OUT_OF_RANGE);
    }
    for (address, count) in [(LONGEST, LONGEST), (LONGEST, 21), (LONGEST - 5, LONGEST)] {
        host.refuses(READ_12, address, count, ADDRESS_OUT_OF_RANGE);
    }
}

/// 5/21/02 comes before 5/63/00. Twenty sectors are written, so 20 is the next writable address.
fn writes_refused(host: &mut Host) {
    host.write(WRITE_12, 0, 20);
    for opcode in WRITES {
        let elsewhere = [(0, 1), (16, 1), (19, 1), (21, 1), (SECTORS, 1), (1 << 31, 1)];
        let and_past = [(0, SECTORS + 1), (21, SECTORS), (19, LONGEST_10), (LONGEST, LONGEST_10)];
        for (address, count) in elsewhere.into_iter().chain(and_past) {
            host.refuses(opcode, address, count, NOT_WRITABLE);
        }
        for count in [SECTORS - 19, SECTORS, LONGEST_10] {
            host.refuses(opcode, 20, count, END_OF_FRAGMENT);
        }
    }
    for count in [LONGER, BYTES_CUT_TO_NONE, 1 << 31] {
        host.refuses(WRITE_12, 20, count, END_OF_FRAGMENT);
        host.refuses(WRITE_12, 21, count, NOT_WRITABLE);
    }
    assert_eq!(host.write(WRITE_12, 20, SECTORS - 20), 299);
}

/// Cut to 32 bits the sum would be at most the fragment's end.
fn writes_past_32_bits(host: &mut Host) {
    host.write(WRITE, 0, 20);
    for count in [LONGEST, LONGEST - 3, LONGEST - 19] {
        host.refuses(WRITE_12, 20, count, END_OF_FRAGMENT);
    }
    for (address, count) in [(LONGEST, LONGEST), (LONGEST, 21), (21, LONGEST), (1, LONGEST)] {
        host.refuses(WRITE_12, address, count, NOT_WRITABLE);
    }
    host.refuses(WRITE, LONGEST, 1, NOT_WRITABLE);
    host.refuses(WRITE, LONGEST - 19, 40, NOT_WRITABLE);
}

/// 7/27/00 comes first, and READs go on.
fn finalized(host: &mut Host) {
    host.write(WRITE_12, 0, 32);
    host.finalize();
    for opcode in WRITES {
        for (address, count) in [(0, 1), (32, 1), (32, LONGEST_10), (LONGEST, 1)] {
            host.refuses(opcode, address, count, WRITE_PROTECTED);
        }
    }
    for (address, count) in [(0, LONGER), (32, LONGEST), (LONGEST, LONGEST)] {
        host.refuses(WRITE_12, address, count, WRITE_PROTECTED);
    }
    for opcode in READS {
        host.gives_back(opcode, 0, 32);
        host.refuses(opcode, 32, 1, BLANK_CHECK);
        host.refuses(opcode, SECTORS, 1, ADDRESS_OUT_OF_RANGE);
    }
}

/// Accepted wherever it points: on a blank disc, with sectors pending and stale bytes after them, and
/// on a finalized one.
fn length_zero(host: &mut Host) {
    for stage in 0..3 {
        for opcode in READS.into_iter().chain(WRITES) {
            for address in [0, 5, 20, SECTORS - 1, SECTORS, 1 << 31, LONGEST] {
                host.image[2..5].copy_from_slice(&[0x5, 0x21, 0x00]);
                let answer = host.leaves(cdb(opcode, address, 0), &[], 0);
                assert_eq!(answer.number, ACCEPTED, "{opcode:02X} {address}");
                assert_eq!(host.sense(), ACCEPTED);
            }
        }
        match stage {
            0 => {
                host.write(WRITE_12, 0, 20);
                host.pending[4 * SECTOR_BYTES..].fill(STALE_PENDING);
            }
            _ => host.finalize(),
        }
    }
}

/// L4 comes before the drive's refusals: data of exactly 2,048 x length and no other.
fn other_data(host: &mut Host) {
    host.write(WRITE_12, 0, 20);
    for stage in 0..2 {
        for address in [20, 21, LONGEST] {
            for count in [1, 16, LONGER, BYTES_CUT_TO_NONE, BYTES_CUT_TO_NONE + 1, LONGEST] {
                let right = bytes(count);
                let cut = bytes(count & 0xFFFF);
                for length in [0, right - 1, right + 1, right as u32 as usize, cut] {
                    if length != right {
                        host.lacks(cdb(WRITE_12, address, count), length, 0);
                    }
                }
            }
        }
        host.lacks(cdb(WRITE_12, LONGEST, 0), 1, 0);
        host.lacks(cdb(READ_12, 0, 1), 1, bytes(1));
        host.lacks(cdb(READ_12, 0, 20), bytes(20), bytes(20));
        host.lacks(cdb(READ_12, LONGEST, LONGEST), bytes(LONGEST), bytes(LONGEST));
        if stage == 0 {
            host.finalize();
        }
    }
}

/// L4 comes before the drive's refusals: a reply buffer of 2,048 x length at least.
fn short_replies(host: &mut Host) {
    host.write(WRITE_12, 0, 20);
    for (address, count) in [(0, 1), (0, 20), (16, 4), (0, 21), (SECTORS, 1), (LONGEST, 1)] {
        for opcode in READS {
            for length in [0, bytes(count) - 1, bytes(count - 1)] {
                host.lacks(cdb(opcode, address, count), 0, length);
            }
        }
    }
    for address in [0, 20, SECTORS, LONGEST] {
        for count in [LONGER, BYTES_CUT_TO_NONE, BYTES_CUT_TO_NONE + 1, LONGEST] {
            let right = bytes(count);
            for length in [0, right - 1, right as u32 as usize, bytes(count & 0xFFFF)] {
                if length < right {
                    host.lacks(cdb(READ_12, address, count), 0, length);
                }
            }
        }
    }
}

/// Bytes 1, 10 and 11 may hold anything.
fn other_bytes(host: &mut Host) {
    for (place, at) in [1, 10, 11].into_iter().enumerate() {
        for value in 0..=u8::MAX {
            let with = |mut cdb: [u8; 12]| {
                for other in [1, 10, 11] {
                    cdb[other] = 0;
                }
                cdb[at] = value;
                cdb
            };
            let next = 256 * place as u32 + u32::from(value);
            let (answer, _) = host.send(with(cdb(WRITE_12, next, 1)), &sectors(next, 1), 0);
            let recorded = u64::from(next % 16 == 15);
            assert_eq!((answer.number, answer.recorded), (ACCEPTED, recorded), "{at}: {value}");
            let (answer, reply) = host.send(with(cdb(READ_12, next, 1)), &[], bytes(1));
            assert_eq!(answer.number, ACCEPTED, "{at}: {value}");
            assert!(reply == sectors(next, 1));
        }
    }
}

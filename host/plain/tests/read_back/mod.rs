//! Runs of commands that read sectors back while they are pending, and after. Each goes to a blank
//! disc of 300 blocks over noise, and to any drive that answers on a state image.

use plain::{Answer, Lent, BLOCK_BYTES, IMAGE_WORDS, SECTOR_BYTES};

/// Answers one command on a state image.
pub type Drive = fn(&mut [u32], Lent) -> Answer;

/// Commands to a blank disc, with what must come of them.
type Run = fn(&mut Host);

/// The runs by name.
pub const RUNS: [(&str, Run); 12] = [
    ("document 02's case", five_sectors),
    ("across the border", across_the_border),
    ("one pending and fifteen", one_and_fifteen),
    ("pending in a middle fragment", in_a_middle_fragment),
    ("pending in the first and in the last fragment", in_the_first_and_the_last),
    ("nothing recorded", nothing_recorded),
    ("over a dividing block", over_a_dividing_block),
    ("at the end of the disc", at_the_end_of_the_disc),
    ("stale bytes", stale_bytes),
    ("after a flush", after_a_flush),
    ("after a WRITE to another fragment", after_a_write_elsewhere),
    ("reports speak of what is recorded", reports),
];

const CAPACITY: u32 = 300;

const ACCEPTED: u32 = 0;
const BLANK_CHECK: u32 = 0x080000;
const ADDRESS_OUT_OF_RANGE: u32 = 0x052100;

/// What the buffers hold before anything is written.
const STALE_MEDIUM: u8 = 0xEE;
const STALE_PENDING: u8 = 0xDD;
const STALE_REPLY: u8 = 0xCC;

/// The bytes of a sector, others for each address and never zeros or noise.
fn sector(address: u16) -> Vec<u8> {
    (address + 1).to_be_bytes().repeat(SECTOR_BYTES / 2)
}

fn sectors(from: u16, count: u16) -> Vec<u8> {
    (from..from + count).flat_map(sector).collect()
}

fn zeros(count: usize) -> Vec<u8> {
    vec![0; count * SECTOR_BYTES]
}

/// A drive with its disc.
pub struct Host {
    drive: Drive,
    image: [u32; IMAGE_WORDS],
    medium: Vec<u8>,
    pending: Vec<u8>,
}

impl Host {
    pub fn blank(drive: Drive) -> Host {
        let mut image = [0; IMAGE_WORDS];
        assert_eq!(plain::blank(CAPACITY, &mut image), ACCEPTED);
        Host {
            drive,
            image,
            medium: vec![STALE_MEDIUM; CAPACITY as usize * BLOCK_BYTES],
            pending: vec![STALE_PENDING; BLOCK_BYTES],
        }
    }

    /// Sends a command with so much room for a reply; gives the answer and the reply's bytes. Bytes
    /// of the reply buffer past them stay.
    fn send(&mut self, cdb: [u8; 12], data: &[u8], room: usize) -> (Answer, Vec<u8>) {
        let mut reply = vec![STALE_REPLY; room + 100];
        let answer = (self.drive)(
            &mut self.image,
            Lent {
                cdb: &cdb,
                data,
                medium: &mut self.medium,
                pending: &mut self.pending,
                reply: &mut reply,
            },
        );
        let rest = reply.split_off(answer.reply_count as usize);
        assert!(rest.iter().all(|&byte| byte == STALE_REPLY), "{cdb:02X?}");
        (answer, reply)
    }

    /// A command without data or reply that is accepted; gives the blocks recorded.
    #[track_caller]
    fn obey(&mut self, cdb: [u8; 12]) -> u64 {
        let (answer, _) = self.send(cdb, &[], 0);
        assert_eq!(answer.number, ACCEPTED);
        answer.recorded
    }

    /// WRITE, accepted; gives the blocks recorded.
    #[track_caller]
    fn write(&mut self, address: u16, count: u16) -> u64 {
        let (answer, _) = self.send(run(0x2A, address, count), &sectors(address, count), 0);
        assert_eq!(answer.number, ACCEPTED);
        answer.recorded
    }

    /// READ; gives the answer's number and the reply. It changes nothing but the sense.
    fn read(&mut self, address: u16, count: u16) -> (u32, Vec<u8>) {
        let (image, medium, pending) = (self.image, self.medium.clone(), self.pending.clone());
        let (answer, reply) = self.send(run(0x28, address, count), &[], reply_room(count));
        let [_, key, code, qualifier] = answer.number.to_be_bytes();
        assert_eq!(self.image[2..5], [key, code, qualifier].map(u32::from));
        assert_eq!((&self.image[..2], &self.image[5..]), (&image[..2], &image[5..]));
        assert!(self.medium == medium && self.pending == pending);
        assert_eq!(answer.recorded, 0);
        (answer.number, reply)
    }

    /// READ gives these bytes.
    #[track_caller]
    fn gives(&mut self, address: u16, count: u16, bytes: &[u8]) {
        let (number, reply) = self.read(address, count);
        assert_eq!((number, reply.len()), (ACCEPTED, bytes.len()));
        assert!(reply == bytes, "other bytes");
    }

    /// READ gives the sectors as they were written.
    #[track_caller]
    fn gives_back(&mut self, address: u16, count: u16) {
        self.gives(address, count, &sectors(address, count));
    }

    /// READ is refused by that number.
    #[track_caller]
    fn refuses(&mut self, address: u16, count: u16, number: u32) {
        assert_eq!(self.read(address, count), (number, vec![]));
    }

    /// 25h gives that address.
    #[track_caller]
    fn last_readable_is(&mut self, address: u32) {
        let (answer, reply) = self.send([0x25, 0, 0, 0, 0, 0, 0, 0, 0, 0, 0, 0], &[], 8);
        assert_eq!(answer.number, ACCEPTED);
        assert_eq!(reply, [address.to_be_bytes(), [0, 0, 8, 0]].concat());
    }

    fn flush(&mut self) -> u64 {
        self.obey([0x35, 0, 0, 0, 0, 0, 0, 0, 0, 0, 0, 0])
    }

    /// RESERVE of so many sectors, at most 255.
    fn reserve(&mut self, count: u8) {
        self.obey([0x53, 0, 0, 0, 0, 0, 0, 0, count, 0, 0, 0]);
    }

    /// CLOSE 001.
    fn close(&mut self, number: u8) {
        self.obey([0x5B, 0, 1, 0, 0, number, 0, 0, 0, 0, 0, 0]);
    }

    /// The medium's bytes of so many sectors.
    fn on_medium(&mut self, address: u16, count: u16) -> &mut [u8] {
        &mut self.medium[usize::from(address) * SECTOR_BYTES..][..usize::from(count) * SECTOR_BYTES]
    }

    /// The bytes of the pending buffer from a sector on.
    fn in_buffer(&mut self, from: usize) -> &mut [u8] {
        &mut self.pending[from * SECTOR_BYTES..]
    }
}

fn run(opcode: u8, address: u16, count: u16) -> [u8; 12] {
    let ([a, b], [c, d]) = (address.to_be_bytes(), count.to_be_bytes());
    [opcode, 0, 0, 0, a, b, 0, c, d, 0, 0, 0]
}

fn reply_room(count: u16) -> usize {
    usize::from(count) * SECTOR_BYTES
}

/// Five sectors are written and read straight back; the sixth is none.
fn five_sectors(host: &mut Host) {
    host.last_readable_is(0);
    assert_eq!(host.write(0, 5), 0);
    host.gives_back(0, 5);
    host.refuses(0, 6, BLANK_CHECK);
    host.last_readable_is(4);
    // parts of them, and none
    host.gives_back(0, 1);
    host.gives_back(1, 3);
    host.gives_back(4, 1);
    host.gives(4, 0, &[]);
    host.refuses(4, 2, BLANK_CHECK);
    host.refuses(5, 1, BLANK_CHECK);
    // they are still pending: eleven more complete the block
    assert_eq!(host.write(5, 11), 1);
    host.gives_back(0, 16);
    host.last_readable_is(15);
    assert_eq!(host.on_medium(0, 16), sectors(0, 16));
}

/// Sixteen sectors are on the medium and four in the buffer.
fn across_the_border(host: &mut Host) {
    assert_eq!(host.write(0, 20), 1);
    host.gives_back(10, 10);
    host.gives_back(15, 2);
    host.gives_back(16, 4);
    host.refuses(16, 5, BLANK_CHECK);
    host.last_readable_is(19);
    host.gives_back(0, 20);
    host.gives_back(0, 16);
    host.gives_back(10, 6);
    host.gives_back(10, 7);
    host.gives_back(16, 1);
    host.gives_back(17, 2);
    host.gives_back(19, 1);
    for (address, count) in [(0, 21), (15, 6), (16, 16), (19, 2), (20, 1), (31, 1), (32, 1)] {
        host.refuses(address, count, BLANK_CHECK);
    }
    // more blocks before the border, others after it
    assert_eq!(host.write(20, 27), 1);
    host.gives_back(0, 47);
    host.gives_back(31, 2);
    host.gives_back(32, 15);
    host.refuses(0, 48, BLANK_CHECK);
    host.last_readable_is(46);
}

/// The least and the most that can be pending.
fn one_and_fifteen(host: &mut Host) {
    host.write(0, 17);
    host.gives_back(16, 1);
    host.gives_back(15, 2);
    host.refuses(16, 2, BLANK_CHECK);
    host.last_readable_is(16);
    host.write(17, 14);
    host.gives_back(16, 15);
    host.gives_back(30, 1);
    host.gives_back(0, 31);
    host.refuses(30, 2, BLANK_CHECK);
    host.refuses(16, 16, BLANK_CHECK);
    host.last_readable_is(30);
    assert_eq!(host.write(31, 1), 1);
    host.gives_back(0, 32);
    host.refuses(32, 1, BLANK_CHECK);
    host.last_readable_is(31);
}

/// Fragments of two blocks at 0 and 48, and the tail at 96, a block of each recorded.
fn three_fragments(host: &mut Host) {
    host.reserve(32);
    host.reserve(32);
    for start in [0, 48, 96] {
        assert_eq!(host.write(start, 16), 1);
    }
}

/// Recorded sectors of the fragments before and after are read meanwhile, and 25h names the last of
/// those after.
fn in_a_middle_fragment(host: &mut Host) {
    three_fragments(host);
    host.write(64, 4);
    for (address, count) in [(64, 4), (66, 1), (48, 20), (63, 2), (0, 16), (96, 16), (15, 1)] {
        host.gives_back(address, count);
    }
    host.last_readable_is(111);
    // where pending sectors of another fragment would be, and from one fragment to the next
    for (address, count) in [(68, 1), (64, 5), (16, 1), (16, 4), (112, 1), (112, 4), (15, 34)] {
        host.refuses(address, count, BLANK_CHECK);
    }
    host.refuses(64, 33, BLANK_CHECK);
    host.refuses(67, 30, BLANK_CHECK);
}

fn in_the_first_and_the_last(host: &mut Host) {
    three_fragments(host);
    host.write(16, 3);
    for (address, count) in [(16, 3), (0, 19), (18, 1), (48, 16), (96, 16), (111, 1)] {
        host.gives_back(address, count);
    }
    for (address, count) in [(19, 1), (0, 20), (64, 1), (64, 3), (112, 1), (112, 3), (15, 34)] {
        host.refuses(address, count, BLANK_CHECK);
    }
    host.last_readable_is(111);
    assert_eq!(host.write(112, 5), 1);
    for (address, count) in [(112, 5), (96, 21), (116, 1), (16, 3), (48, 16)] {
        host.gives_back(address, count);
    }
    for (address, count) in [(117, 1), (96, 22), (32, 1), (64, 1), (64, 5)] {
        host.refuses(address, count, BLANK_CHECK);
    }
    host.last_readable_is(116);
}

/// Nothing is recorded on the disc, and what is pending belongs to a fragment in the middle.
fn nothing_recorded(host: &mut Host) {
    host.reserve(32);
    host.reserve(32);
    assert_eq!(host.write(48, 1), 0);
    host.gives_back(48, 1);
    host.last_readable_is(48);
    for (address, count) in [(0, 1), (47, 1), (47, 2), (49, 1), (96, 1)] {
        host.refuses(address, count, BLANK_CHECK);
    }
    assert_eq!(host.write(49, 14), 0);
    host.gives_back(48, 15);
    host.gives_back(55, 8);
    host.refuses(48, 16, BLANK_CHECK);
    host.last_readable_is(62);
}

/// The block between two fragments is none of theirs, also where both of its neighbours are
/// readable.
fn over_a_dividing_block(host: &mut Host) {
    host.write(0, 16);
    host.close(1);
    host.write(32, 5);
    host.gives_back(0, 16);
    host.gives_back(32, 5);
    host.last_readable_is(36);
    for (address, count) in [(15, 2), (15, 18), (0, 37), (16, 1), (31, 1), (31, 2), (16, 16)] {
        host.refuses(address, count, BLANK_CHECK);
    }
    // from pending sectors to recorded ones
    let host = &mut Host::blank(host.drive);
    host.reserve(16);
    host.write(32, 16);
    host.write(0, 15);
    host.gives_back(0, 15);
    host.gives_back(32, 16);
    host.refuses(0, 33, BLANK_CHECK);
    host.refuses(14, 19, BLANK_CHECK);
    host.last_readable_is(47);
}

/// 5/21/00 comes before 8/00/00.
fn at_the_end_of_the_disc(host: &mut Host) {
    assert_eq!(host.write(0, 4_790), 299);
    host.gives_back(4_784, 6);
    host.gives_back(4_780, 10);
    host.last_readable_is(4_789);
    host.refuses(4_784, 7, BLANK_CHECK);
    host.refuses(4_784, 16, BLANK_CHECK);
    for (address, count) in [(4_784, 17), (4_789, 12), (4_790, 11), (4_799, 2), (4_800, 1)] {
        host.refuses(address, count, ADDRESS_OUT_OF_RANGE);
    }
}

/// Noise past the pending count and on the medium under the pending block decides nothing, and is
/// never served.
fn stale_bytes(host: &mut Host) {
    host.write(0, 20);
    for noise in [0x00, 0x5A, 0xFF] {
        host.in_buffer(4).fill(noise);
        host.on_medium(16, 16).fill(noise);
        host.on_medium(32, 32).fill(!noise);
        host.gives_back(16, 4);
        host.gives_back(12, 8);
        host.gives_back(19, 1);
        host.refuses(16, 5, BLANK_CHECK);
        host.refuses(20, 1, BLANK_CHECK);
        host.refuses(32, 1, BLANK_CHECK);
        host.last_readable_is(19);
    }
    assert_eq!(host.flush(), 1);
    host.gives(16, 16, &[sectors(16, 4), zeros(12)].concat());
}

/// The same sectors come from the medium, with the drive's zeros after them.
fn after_a_flush(host: &mut Host) {
    host.write(0, 5);
    host.gives_back(0, 5);
    assert_eq!(host.flush(), 1);
    host.gives_back(0, 5);
    host.gives(0, 16, &[sectors(0, 5), zeros(11)].concat());
    host.gives(5, 1, &zeros(1));
    host.refuses(0, 17, BLANK_CHECK);
    host.last_readable_is(15);
    // what is pending next has the front of the buffer
    host.write(16, 2);
    host.gives_back(16, 2);
    host.gives(4, 14, &[sectors(4, 1), zeros(11), sectors(16, 2)].concat());
    host.last_readable_is(17);
}

/// The WRITE flushes what was pending; from then on it comes from the medium, and what is pending
/// now from the buffer.
fn after_a_write_elsewhere(host: &mut Host) {
    host.reserve(16);
    assert_eq!(host.write(0, 3), 0);
    host.gives_back(0, 3);
    assert_eq!(host.on_medium(0, 3), [STALE_MEDIUM; 3 * SECTOR_BYTES]);
    assert_eq!(host.write(32, 2), 1);
    assert_eq!(host.on_medium(0, 3), sectors(0, 3));
    host.gives_back(0, 3);
    host.gives(0, 16, &[sectors(0, 3), zeros(13)].concat());
    host.gives_back(32, 2);
    host.refuses(32, 3, BLANK_CHECK);
    host.refuses(16, 1, BLANK_CHECK);
    host.last_readable_is(33);
}

/// 51h and 52h do not follow: pending sectors are readable, and not recorded.
fn reports(host: &mut Host) {
    let fragment = |host: &mut Host| {
        let (answer, reply) = host.send([0x52, 1, 0, 0, 0, 1, 0, 0, 36, 0, 0, 0], &[], 36);
        assert_eq!(answer.number, ACCEPTED);
        let four = |at: usize| u32::from_be_bytes(reply[at..at + 4].try_into().expect("four"));
        (reply[6], reply[7], four(12), four(28))
    };
    host.write(0, 5);
    assert_eq!(fragment(host), (0x01, 0x01, 5, 0));
    let (_, disc) = host.send([0x51, 0, 0, 0, 0, 0, 0, 0, 34, 0, 0, 0], &[], 34);
    assert_eq!(disc[..7], [0x00, 0x20, 0x05, 0x01, 0x01, 0x01, 0x01]);
    host.write(5, 15);
    assert_eq!(fragment(host), (0x01, 0x03, 20, 15));
    host.flush();
    assert_eq!(fragment(host), (0x01, 0x03, 32, 31));
}

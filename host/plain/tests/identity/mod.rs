//! Runs of INQUIRY and GET CONFIGURATION, 12h and 46h. Each goes to a blank disc over noise, and to any
//! drive that answers on a state image. Every reply is held to bytes that are written out.

use super::replies::{uncut, FEATURES};
use plain::{Answer, Lent, BLOCK_BYTES, FRAGMENT_LIMIT, IMAGE_WORDS, SECTOR_BYTES};
use std::collections::BTreeSet;

/// Answers one command on a state image.
pub type Drive = fn(&mut [u32], Lent) -> Answer;

/// Commands to a blank disc, with what must come of them.
type Run = fn(&mut Host);

/// The runs by name.
pub const RUNS: [(&str, Run); 9] = [
    ("12h with every length", inquiry_lengths),
    ("46h with every length", configuration_lengths),
    ("46h from every starting feature", every_start),
    ("bytes that are not looked at", other_bytes),
    ("data", data),
    ("refusals in order", refusals_in_order),
    ("while sectors are pending", pending_sectors),
    ("on a disc with a full list", full_list),
    ("on a finalized disc", finalized),
];

const CAPACITY: u32 = 480;

const ACCEPTED: u32 = 0;
const WRONG_LENGTH: u32 = 4;
const INVALID_FIELD: u32 = 0x052400;
const BLANK_CHECK: u32 = 0x080000;

/// What the buffers hold before anything is written.
const STALE_MEDIUM: u8 = 0xEE;
const STALE_PENDING: u8 = 0xDD;
const STALE_REPLY: u8 = 0xCC;

/// The whole reply to 12h.
const INQUIRY: &[u8; 36] = b"\x05\x80\x00\x02\x1F\x00\x00\x00GLADHAMRDVD+R LOGGER    1.00";

/// 12h, with byte 1 and the allocation length.
fn inquiry(byte_1: u8, allocation: u16) -> [u8; 12] {
    let [high, low] = allocation.to_be_bytes();
    [0x12, byte_1, 0, high, low, 0, 0, 0, 0, 0, 0, 0]
}

/// 46h, with byte 1, starting feature and allocation length.
fn get_configuration(byte_1: u8, start: u16, allocation: u16) -> [u8; 12] {
    let [first, second] = start.to_be_bytes();
    let [high, low] = allocation.to_be_bytes();
    [0x46, byte_1, first, second, 0, 0, 0, high, low, 0, 0, 0]
}

/// What a reply is cut to.
fn cut(mut reply: Vec<u8>, allocation: u16) -> Vec<u8> {
    reply.truncate(allocation.into());
    reply
}

/// The starting features at and beside those of the drive, and the last.
fn starts() -> BTreeSet<u16> {
    let beside = |(number, _)| [u16::saturating_sub(number, 1), number, number + 1];
    FEATURES.into_iter().flat_map(beside).chain([u16::MAX]).collect()
}

/// A drive with its disc.
pub struct Host {
    drive: Drive,
    image: [u32; IMAGE_WORDS],
    medium: Vec<u8>,
    pending: Vec<u8>,
}

impl Host {
    pub fn blank(drive: Drive) -> Host {
        let mut image = [0; IMAGE_WORDS];
        assert_eq!(plain::blank(CAPACITY, &mut image), ACCEPTED);
        Host {
            drive,
            image,
            medium: vec![STALE_MEDIUM; CAPACITY as usize * BLOCK_BYTES],
            pending: vec![STALE_PENDING; BLOCK_BYTES],
        }
    }

    /// Sends a command with so much room for a reply; gives the answer's number and the reply's bytes.
    /// The bytes past them stay.
    fn send(&mut self, cdb: &[u8], data: &[u8], room: usize) -> (u32, Vec<u8>) {
        let mut reply = vec![STALE_REPLY; room];
        let (medium, pending) = (&mut self.medium, &mut self.pending);
        let lent = Lent { cdb, data, medium, pending, reply: &mut reply };
        let answer = (self.drive)(&mut self.image, lent);
        let rest = reply.split_off(answer.reply_count as usize);
        assert!(rest.iter().all(|&byte| byte == STALE_REPLY), "{cdb:02X?}");
        (answer.number, reply)
    }

    /// A command that makes the disc what it is for a run.
    #[track_caller]
    fn obey(&mut self, cdb: [u8; 12], sectors: usize) {
        let data = vec![0x5A; sectors * SECTOR_BYTES];
        assert_eq!(self.send(&cdb, &data, 0), (ACCEPTED, vec![]), "{cdb:02X?}");
    }

    fn write(&mut self, address: u16, sectors: u8) {
        let [high, low] = address.to_be_bytes();
        self.obey([0x2A, 0, 0, 0, high, low, 0, 0, sectors, 0, 0, 0], sectors.into());
    }

    /// The command gets this answer and leaves the state, but for the sense: 0 where it is accepted, the
    /// refusal's where the drive refuses it, the one before it on a link refusal.
    #[track_caller]
    fn answers(&mut self, cdb: &[u8], data: &[u8], room: usize, number: u32, reply: &[u8]) {
        self.set_sense(BLANK_CHECK);
        let before = self.image;
        let answer = self.send(cdb, data, room);
        assert_eq!((answer.0, answer.1.as_slice()), (number, reply), "{cdb:02X?}, room {room}");
        let sense = if (1..=4).contains(&number) { BLANK_CHECK } else { number };
        let mut expected = before;
        expected[2..5].copy_from_slice(&words(sense));
        assert!(self.image == expected, "{cdb:02X?}");
    }

    /// The command with exactly the room that it asks for, with more and with less: it sends this reply,
    /// or is refused where there is none.
    #[track_caller]
    fn tells(&mut self, cdb: [u8; 12], reply: Option<Vec<u8>>) {
        let number = if reply.is_some() { ACCEPTED } else { INVALID_FIELD };
        let reply = reply.unwrap_or_default();
        for more in [0, 1, 70] {
            self.answers(&cdb, &[], reply.len() + more, number, &reply);
        }
        if let Some(less) = reply.len().checked_sub(1) {
            self.answers(&cdb, &[], less, WRONG_LENGTH, &[]);
        }
    }

    /// Both commands, accepted and refused, cut and uncut; they leave medium and pending buffer.
    fn tells_all(&mut self) {
        let (medium, pending) = (self.medium.clone(), self.pending.clone());
        for allocation in [0, 5, 36, 512] {
            self.tells(inquiry(0, allocation), Some(cut(INQUIRY.to_vec(), allocation)));
            self.tells(inquiry(1, allocation), None);
        }
        for (kind, start, allocation) in [(0, 0, 100), (1, 0x2B, 9), (2, 0x10, 512), (3, 0, 8)] {
            let reply = uncut(kind, start).map(|reply| cut(reply, allocation));
            self.tells(get_configuration(kind, start, allocation), reply);
        }
        assert!(self.medium == medium && self.pending == pending);
    }

    fn set_sense(&mut self, sense: u32) {
        self.image[2..5].copy_from_slice(&words(sense));
    }
}

/// Key, ASC and ASCQ of a number.
fn words(number: u32) -> [u32; 3] {
    let [_, key, code, qualifier] = number.to_be_bytes();
    [key, code, qualifier].map(u32::from)
}

fn inquiry_lengths(host: &mut Host) {
    for allocation in (0..=40).chain([255, 256, 257, 292, 0x2400, 65_535]) {
        host.tells(inquiry(0, allocation), Some(cut(INQUIRY.to_vec(), allocation)));
        host.tells(inquiry(1, allocation), None);
    }
}

fn configuration_lengths(host: &mut Host) {
    for kind in 0..4 {
        for start in starts() {
            let whole = uncut(kind, start);
            for allocation in (0..=101).chain([255, 256, 65_535]) {
                let reply = whole.clone().map(|reply| cut(reply, allocation));
                host.tells(get_configuration(kind, start, allocation), reply);
            }
        }
    }
}

fn every_start(host: &mut Host) {
    for kind in 0..4 {
        for start in 0..=u16::MAX {
            let reply = uncut(kind, start);
            let number = if reply.is_some() { ACCEPTED } else { INVALID_FIELD };
            let reply = reply.unwrap_or_default();
            let cdb = get_configuration(kind, start, 100);
            host.answers(&cdb, &[], reply.len(), number, &reply);
        }
    }
}

/// Every bit of byte 1 that is no field, every page, and the bytes that neither command names.
fn other_bytes(host: &mut Host) {
    for byte in 0..=u8::MAX {
        let page = (byte & 1 == 0).then(|| INQUIRY.to_vec());
        host.tells(inquiry(byte, 36), page);
        let reply = uncut(byte & 0b11, 0x1F);
        host.tells(get_configuration(byte, 0x1F, 100), reply);
        for at in [2, 5, 6, 7, 8, 9, 10, 11] {
            let mut cdb = inquiry(0, 36);
            cdb[at] = byte;
            host.tells(cdb, Some(INQUIRY.to_vec()));
        }
        for at in [4, 5, 6, 9, 10, 11] {
            let mut cdb = get_configuration(0, 0x105, 100);
            cdb[at] = byte;
            host.tells(cdb, uncut(0, 0x105));
        }
    }
}

/// Neither command takes data, whether it is accepted or refused.
fn data(host: &mut Host) {
    for cdb in [
        inquiry(0, 36),
        inquiry(0, 0),
        inquiry(1, 36),
        get_configuration(0, 0, 100),
        get_configuration(2, 0x2B, 0),
        get_configuration(3, 0, 100),
    ] {
        for length in [1, 36, 100, SECTOR_BYTES] {
            host.answers(&cdb, &vec![0; length], 100, WRONG_LENGTH, &[]);
            host.answers(&cdb, &vec![0; length], 0, WRONG_LENGTH, &[]);
        }
    }
}

/// L1, L2 and L3 come before L4, whatever else is wrong, and L4 before the drive's refusal.
fn refusals_in_order(host: &mut Host) {
    for (served, refused) in [
        (inquiry(0, 36), inquiry(1, 36)),
        (get_configuration(0, 0, 100), get_configuration(3, 0, 100)),
    ] {
        for cdb in [served, refused] {
            let sound = host.image;
            host.image[8] = 1;
            host.answers(&cdb, &[0], 0, 3, &[]);
            host.answers(&cdb, &[], 100, 3, &[]);
            host.pending.push(STALE_PENDING);
            host.answers(&cdb, &[0], 0, 2, &[]);
            host.answers(&cdb[..10], &[0], 0, 1, &[]);
            host.pending.truncate(BLOCK_BYTES);
            host.image = sound;
            host.answers(&cdb, &[0], 0, WRONG_LENGTH, &[]);
        }
        host.answers(&served, &[], 0, WRONG_LENGTH, &[]);
        host.answers(&refused, &[], 0, INVALID_FIELD, &[]);
    }
}

fn pending_sectors(host: &mut Host) {
    host.write(0, 20);
    host.tells_all();
    assert_eq!(host.image[5..7], [4, 1]);
}

/// Fragments of one block, reserved and written, and a blank tail.
fn full_list(host: &mut Host) {
    for number in 1..FRAGMENT_LIMIT as u16 {
        host.obey([0x53, 0, 0, 0, 0, 0, 0, 0, 16, 0, 0, 0], 0);
        host.write(32 * (number - 1), 16);
    }
    assert_ne!(host.image[IMAGE_WORDS - 6..], [0; 6]);
    host.tells_all();
}

fn finalized(host: &mut Host) {
    host.write(0, 18);
    host.obey([0x5B, 0, 6, 0, 0, 0, 0, 0, 0, 0, 0, 0], 0);
    assert_eq!(host.image[1], 1);
    host.tells_all();
}

//! Document 01's "A shift on a 300-block disc", with the answers that it documents: answer and
//! sense, blocks recorded, reply, next writable address, pending sectors and the list.

use crate::play::stamped;
use crate::{Expected, Line, Run};
use gladhamre::cdb::{self, Cdb};
use gladhamre::{Record, SECTOR_BYTES};
use script::{Command, Data};

const CAPACITY: u32 = 300;

const INVALID_ADDRESS_FOR_WRITE: u32 = 0x052102;
const BLANK_CHECK: u32 = 0x080000;
const ADDRESS_OUT_OF_RANGE: u32 = 0x052100;
const INVALID_FIELD_IN_COMMAND: u32 = 0x052400;
const INCOMPLETE_TRACK_IN_SESSION: u32 = 0x057203;
const END_OF_USER_AREA: u32 = 0x056300;

/// The whole shift: the run of all lines but the last, then those of the last line and the case of
/// pending sectors, each a run of its own.
pub fn runs() -> Vec<Run> {
    let mut runs = vec![Run {
        title: "Document 01's shift on a 300-block disc".into(),
        capacity: CAPACITY,
        lines: first_run(),
        mapped: true,
    }];
    let others = [
        ("Another blank disc: CLOSE SESSION with e = 171", session_after(171)),
        ("Another blank disc: CLOSE SESSION with e = 172", session_after(172)),
        ("Another blank disc: RESERVE TRACK of 4,768", reserve(4_768)),
        ("Another blank disc: RESERVE TRACK of 4,769", reserve(4_769)),
        ("Another blank disc: RESERVE TRACK of 4,784", reserve(4_784)),
        ("Another blank disc: 5 pending sectors read back", read_back()),
    ];
    for (title, lines) in others {
        runs.push(Run { title: title.into(), capacity: CAPACITY, lines, mapped: false });
    }
    runs
}

fn appended(session: u32, start: u32, length: u32, recorded: u32, zero_filled: u32) -> Record {
    Record { session, start, length, recorded, zero_filled, kind: 1 }
}

fn reserved(start: u32, length: u32, recorded: u32) -> Record {
    Record { session: 1, start, length, recorded, zero_filled: 0, kind: 0 }
}

/// A command that is accepted, records nothing and replies nothing.
fn accepted(cdb: Cdb, next: u32, list: &[Record]) -> Line {
    let expected = Expected {
        number: 0,
        recorded: 0,
        reply: Vec::new(),
        next: Some(next),
        pending: 0,
        list: list.to_vec(),
    };
    Line::Command { command: Command { cdb, data: Data::Stamp }, expected: Some(expected) }
}

impl Line {
    fn refused(self, number: u32) -> Line {
        self.with(|expected| expected.number = number)
    }

    fn recording(self, blocks: u64) -> Line {
        self.with(|expected| expected.recorded = blocks)
    }

    fn pending(self, sectors: u32) -> Line {
        self.with(|expected| expected.pending = sectors)
    }

    fn replying(self, reply: Vec<u8>) -> Line {
        self.with(|expected| expected.reply = reply)
    }

    fn with(mut self, change: impl FnOnce(&mut Expected)) -> Line {
        if let Line::Command { expected: Some(expected), .. } = &mut self {
            change(expected);
        }
        self
    }
}

fn first_run() -> Vec<Line> {
    let blank = [appended(1, 0, 300, 0, 0)];
    let written = [appended(1, 0, 300, 1, 0)];
    let flushed = [appended(1, 0, 300, 2, 12)];
    let closed = [appended(1, 0, 2, 2, 12), appended(1, 3, 297, 0, 0)];
    let tail = appended(1, 7, 293, 0, 0);
    let open = [closed[0], reserved(3, 3, 0), tail];
    let complete = [closed[0], reserved(3, 3, 3), tail];
    let second = [closed[0], reserved(3, 3, 3), appended(2, 134, 166, 0, 0)];
    let close_session = cdb::close(cdb::SESSION, 0);
    vec![
        accepted(cdb::read_disc_information(34), 0, &blank).replying(blank_disc_information()),
        accepted(cdb::read_fragment_information(1, 1, 36), 0, &blank)
            .replying(blank_track_information()),
        accepted(cdb::write(0, 20), 20, &written).recording(1).pending(4),
        accepted(cdb::write(16, 1), 20, &written).pending(4).refused(INVALID_ADDRESS_FOR_WRITE),
        accepted(cdb::opcode_only(cdb::SYNCHRONIZE_CACHE), 32, &flushed).recording(1),
        accepted(cdb::read(16, 16), 32, &flushed).replying(flushed_block()),
        accepted(cdb::read(32, 1), 32, &flushed).refused(BLANK_CHECK),
        accepted(cdb::read(4_800, 1), 32, &flushed).refused(ADDRESS_OUT_OF_RANGE),
        accepted(cdb::read(4_800, 0), 32, &flushed),
        accepted(cdb::close(cdb::FRAGMENT, 1), 48, &closed),
        accepted(cdb::reserve(33), 48, &closed).refused(INVALID_FIELD_IN_COMMAND),
        accepted(cdb::reserve(48), 112, &open),
        accepted(close_session, 112, &open).refused(INCOMPLETE_TRACK_IN_SESSION),
        accepted(cdb::write(48, 49), 112, &open).refused(END_OF_USER_AREA),
        accepted(cdb::write(48, 48), 112, &complete).recording(3),
        accepted(close_session, 2_144, &second),
    ]
}

/// 00 20 00 01 01 01 01 and 27 zeros.
fn blank_disc_information() -> Vec<u8> {
    let mut reply = vec![0x00, 0x20, 0x00, 0x01, 0x01, 0x01, 0x01];
    reply.resize(34, 0);
    reply
}

/// Fragment 1 of session 1: blank, incomplete, free and length 4,800.
fn blank_track_information() -> Vec<u8> {
    let mut reply = vec![0; 36];
    reply[..8].copy_from_slice(&[0x00, 0x22, 1, 1, 0, 0x04, 0x41, 0x01]);
    reply[16..20].copy_from_slice(&4_800_u32.to_be_bytes());
    reply[20..24].copy_from_slice(&16_u32.to_be_bytes());
    reply[24..28].copy_from_slice(&4_800_u32.to_be_bytes());
    reply
}

/// Sectors 16 to 19 as written, 20 to 31 zero.
fn flushed_block() -> Vec<u8> {
    let mut reply = stamped(16, 4);
    reply.resize(16 * SECTOR_BYTES, 0);
    reply
}

/// A tail with so many blocks recorded, then 010.
fn session_after(end: u32) -> Vec<Line> {
    let written = [appended(1, 0, 300, end, 0)];
    let write = accepted(cdb::write(0, 16 * end as u16), 16 * end, &written);
    let close = cdb::close(cdb::SESSION, 0);
    let closed = match end {
        171 => accepted(close, 4_784, &[appended(1, 0, 171, 171, 0), appended(2, 299, 1, 0, 0)]),
        _ => accepted(close, 16 * end, &written).refused(END_OF_USER_AREA),
    };
    vec![write.recording(end.into()), closed]
}

/// 298 blocks leave one for the tail; a sector more is not of whole blocks, a block more leaves
/// none.
fn reserve(sectors: u32) -> Vec<Line> {
    let cdb = cdb::reserve(sectors);
    let blank = [appended(1, 0, 300, 0, 0)];
    vec![match sectors {
        4_768 => accepted(cdb, 4_784, &[reserved(0, 298, 0), appended(1, 299, 1, 0, 0)]),
        4_769 => accepted(cdb, 0, &blank).refused(INVALID_FIELD_IN_COMMAND),
        _ => accepted(cdb, 0, &blank).refused(END_OF_USER_AREA),
    }]
}

/// Pending sectors come back as they were written; the one after them is refused, and 25h names the
/// last.
fn read_back() -> Vec<Line> {
    let blank = [appended(1, 0, 300, 0, 0)];
    let capacity = vec![0, 0, 0, 4, 0, 0, 0x08, 0];
    vec![
        accepted(cdb::write(0, 5), 5, &blank).pending(5),
        accepted(cdb::read(0, 5), 5, &blank).pending(5).replying(stamped(0, 5)),
        accepted(cdb::read(0, 6), 5, &blank).pending(5).refused(BLANK_CHECK),
        accepted(cdb::opcode_only(cdb::READ_CAPACITY), 5, &blank).pending(5).replying(capacity),
    ]
}

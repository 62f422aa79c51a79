//! What is timed: a command on a state, on a short list and on a full one.

use crate::buffers::Buffers;
use compare::{Drive, Linked};
use gladhamre::cdb::{self, Cdb};
use gladhamre::{State, RECORD_LIMIT, SECTOR_BYTES};

/// Blocks of the disc: room for a full list, and for a session after it.
pub const CAPACITY: u32 = 500;
const BLOCK_SECTORS: u32 = 16;

/// Sectors recorded in the tail, enough for the longest READ.
const RECORDED: u16 = 64;

/// The records of a list that is neither short nor full.
const SOME_RECORDS: usize = 64;

/// The allocation of 52h: its whole reply.
const REPORT: u16 = cdb::FRAGMENT_INFORMATION_LENGTH as u16;

/// Numbers of answers.
const ACCEPTED: u32 = 0;
const ADDRESS_OUT_OF_RANGE: u32 = 0x052100;

/// A command, and the state on which it is given again and again.
pub struct Case {
    pub name: String,
    /// How long the list is, in words.
    pub list: String,
    pub cdb: Cdb,
    pub start: State,
    /// The bytes that the command moves.
    pub bytes: usize,
    /// The number of its answer.
    pub number: u32,
}

/// A disc on its way to a state.
struct Maker<'a> {
    state: State,
    buffers: &'a mut Buffers,
}

impl Maker<'_> {
    /// A disc with a blank tail after so many fragments of one recorded block.
    fn with_fragments(count: usize, buffers: &mut Buffers) -> Maker<'_> {
        let state = State::blank(CAPACITY).expect("a capacity");
        let mut maker = Maker { state, buffers };
        for number in 1..=count as u16 {
            maker.write(BLOCK_SECTORS as u16);
            maker.send(cdb::close(cdb::FRAGMENT, number));
        }
        maker
    }

    fn send(&mut self, cdb: Cdb) {
        let answer = Linked.command(self.state.words_mut(), self.buffers.lend(&cdb));
        assert_eq!(answer.number, 0, "{cdb:02X?} is accepted");
    }

    fn write(&mut self, sectors: u16) {
        self.send(cdb::write(self.next(), sectors));
    }

    fn tail(&self) -> u16 {
        self.state.records().count() as u16
    }

    fn tail_start(&self) -> u32 {
        BLOCK_SECTORS * self.state.record(usize::from(self.tail()) - 1).start
    }

    /// The tail's next writable address.
    fn next(&self) -> u32 {
        let tail = self.state.record(usize::from(self.tail()) - 1);
        BLOCK_SECTORS * (tail.start + tail.recorded) + self.state.pending_count()
    }
}

/// Every case, in the order of the table.
pub fn cases(buffers: &mut Buffers) -> Vec<Case> {
    let mut cases = Vec::new();
    for records in [1, RECORD_LIMIT] {
        let mut add = |name: String, cdb: Cdb, start: &State, bytes: usize| {
            let list = list_of(records);
            cases.push(Case { name, list, cdb, start: start.clone(), bytes, number: ACCEPTED });
        };
        let mut disc = Maker::with_fragments(records - 1, buffers);
        disc.write(RECORDED);
        let start = disc.state.clone();
        add("TEST UNIT READY".into(), cdb::opcode_only(cdb::TEST_UNIT_READY), &start, 0);
        for sectors in [1, 16, 64] {
            let bytes = usize::from(sectors) * SECTOR_BYTES;
            add(format!("READ {sectors}"), cdb::read(disc.tail_start(), sectors), &start, bytes);
        }
        for sectors in [1, 16, 64] {
            let bytes = usize::from(sectors) * SECTOR_BYTES;
            add(format!("WRITE {sectors}"), cdb::write(disc.next(), sectors), &start, bytes);
        }
        add("51h".into(), cdb::read_disc_information(34), &start, 0);
        let by_address = cdb::read_fragment_information(0, disc.tail_start(), REPORT);
        add("52h by address".into(), by_address, &start, 0);
        let by_number = cdb::read_fragment_information(1, disc.tail().into(), REPORT);
        add("52h by number".into(), by_number, &start, 0);
        add("CLOSE 001".into(), cdb::close(cdb::FRAGMENT, disc.tail()), &start, 0);
        disc.write(4);
        let bytes = 64 * SECTOR_BYTES;
        add("WRITE 64, 4 pending".into(), cdb::write(disc.next(), 64), &disc.state, bytes);
    }
    cases.extend(identity(buffers));
    cases.extend(reads_of_pending(buffers));
    cases.extend(list_changes(buffers));
    for records in [1, SOME_RECORDS, RECORD_LIMIT] {
        cases.extend(finds(records, buffers));
    }
    cases
}

/// A list of so many records, in words.
fn list_of(records: usize) -> String {
    match records {
        1 => "1 record".into(),
        _ => format!("{records} records"),
    }
}

/// What the drive says that it is: 12h, and 46h of every feature, of one, and cut to the header.
fn identity(buffers: &mut Buffers) -> Vec<Case> {
    let header = cdb::CONFIGURATION_HEADER_LENGTH as u16;
    let questions = [
        ("12h", cdb::inquiry(cdb::INQUIRY_LENGTH as u16)),
        ("46h", cdb::get_configuration(cdb::ALL_FEATURES, 0, u16::MAX)),
        ("46h, one feature", cdb::get_configuration(cdb::ONE_FEATURE, 0x002B, u16::MAX)),
        ("46h, cut to its header", cdb::get_configuration(cdb::ALL_FEATURES, 0, header)),
    ];
    let mut cases = Vec::new();
    for records in [1, RECORD_LIMIT] {
        let mut disc = Maker::with_fragments(records - 1, buffers);
        disc.write(RECORDED);
        for (name, cdb) in questions {
            let (list, start) = (list_of(records), disc.state.clone());
            cases.push(Case { name: name.into(), list, cdb, start, bytes: 0, number: ACCEPTED });
        }
    }
    cases
}

/// READs that end in the pending buffer: of the five sectors there, and of 64 across the border.
fn reads_of_pending(buffers: &mut Buffers) -> Vec<Case> {
    let mut cases = Vec::new();
    for records in [1, RECORD_LIMIT] {
        let mut disc = Maker::with_fragments(records - 1, buffers);
        disc.write(RECORDED);
        disc.write(5);
        for (name, sectors) in [("READ 5, all pending", 5), ("READ 64, 5 pending", 64)] {
            let cdb = cdb::read(disc.next() - u32::from(sectors), sectors);
            let (list, start) = (list_of(records), disc.state.clone());
            let bytes = usize::from(sectors) * SECTOR_BYTES;
            cases.push(Case { name: name.into(), list, cdb, start, bytes, number: ACCEPTED });
        }
    }
    cases
}

/// RESERVE needs a blank tail, and makes the last record where one is free; so does CLOSE 010 with a
/// full list of which the blank tail is dropped.
fn list_changes(buffers: &mut Buffers) -> Vec<Case> {
    let mut cases = Vec::new();
    let close = cdb::close(cdb::SESSION, 0);
    let reserve = cdb::reserve(BLOCK_SECTORS);
    for (name, cdb, records) in [
        ("RESERVE", reserve, 1),
        ("RESERVE", reserve, RECORD_LIMIT - 1),
        ("CLOSE 010", close, 2),
        ("CLOSE 010", close, RECORD_LIMIT),
    ] {
        let start = Maker::with_fragments(records - 1, buffers).state;
        let (name, list) = (name.into(), list_of(records));
        cases.push(Case { name, list, cdb, start, bytes: 0, number: ACCEPTED });
    }
    cases
}

/// 52h by address on a list of so many records: at the first fragment, a middle one and the last, in
/// the block after the middle one, which no fragment holds, and past the disc.
fn finds(records: usize, buffers: &mut Buffers) -> Vec<Case> {
    let mut disc = Maker::with_fragments(records - 1, buffers);
    disc.write(RECORDED);
    let middle = disc.state.record(records / 2);
    let mut places = vec![("first fragment", 0, ACCEPTED)];
    if records > 1 {
        let after_middle = middle.start + middle.length;
        places.extend([
            ("middle fragment", BLOCK_SECTORS * middle.start, ACCEPTED),
            ("last fragment", disc.tail_start(), ACCEPTED),
            ("dividing block", BLOCK_SECTORS * after_middle, ADDRESS_OUT_OF_RANGE),
        ]);
    }
    places.push(("past the disc", BLOCK_SECTORS * CAPACITY, ADDRESS_OUT_OF_RANGE));
    let case = |(place, address, number)| Case {
        name: format!("52h by address, {place}"),
        list: list_of(records),
        cdb: cdb::read_fragment_information(0, address, REPORT),
        start: disc.state.clone(),
        bytes: 0,
        number,
    };
    places.into_iter().map(case).collect()
}

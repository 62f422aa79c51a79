//! Document 01's "A shift on a 300-block disc", line by line, with the sectors' bytes, and document
//! 02's case of pending sectors read back, on both drives.

use compare::{cdb, pool, Drive, Linked, Plain};
use gladhamre::{Lent, Record, State, BLOCK_BYTES, SECTOR_BYTES, STATE_WORDS};

const ACCEPTED: u32 = 0;
const CAPACITY: u32 = 300;

/// A drive with its disc.
struct Host<'a> {
    drive: &'a dyn Drive,
    state: State,
    medium: Vec<u8>,
    pending: Vec<u8>,
}

impl<'a> Host<'a> {
    /// A blank disc over leftover bytes.
    fn blank(drive: &'a dyn Drive) -> Host<'a> {
        let mut words = [0; STATE_WORDS];
        assert_eq!(drive.blank(CAPACITY, &mut words), ACCEPTED);
        Host {
            drive,
            state: State::from_words(words),
            medium: pool()[..CAPACITY as usize * BLOCK_BYTES].to_vec(),
            pending: pool()[..BLOCK_BYTES].to_vec(),
        }
    }

    /// Sends a command; gives the answer's number, the reply and the blocks recorded.
    fn send(&mut self, cdb: [u8; 12], data: &[u8]) -> (u32, Vec<u8>, u64) {
        let mut reply = vec![0xEE; cdb::reply_room(&cdb)];
        let lent = Lent {
            cdb: &cdb,
            data,
            medium: &mut self.medium,
            pending: &mut self.pending,
            reply: &mut reply,
        };
        let answer = self.drive.command(self.state.words_mut(), lent);
        reply.truncate(answer.reply_count as usize);
        (answer.number, reply, answer.recorded)
    }

    /// Sends a command without data; gives the answer's number.
    fn number(&mut self, cdb: [u8; 12]) -> u32 {
        self.send(cdb, &[]).0
    }

    fn write(&mut self, address: u32, data: &[u8]) -> (u32, u64) {
        let sectors = (data.len() / SECTOR_BYTES) as u16;
        let (number, reply, recorded) = self.send(cdb::write(address, sectors), data);
        assert!(reply.is_empty());
        (number, recorded)
    }

    fn read(&mut self, address: u32, sectors: u16) -> (u32, Vec<u8>) {
        let (number, reply, _) = self.send(cdb::read(address, sectors), &[]);
        (number, reply)
    }

    /// A number of the 52h reply for a fragment.
    fn report(&mut self, number: u32, at: usize) -> u32 {
        let cdb = cdb::read_fragment_information(1, number, 36);
        let (answer, reply, _) = self.send(cdb, &[]);
        assert_eq!(answer, ACCEPTED);
        u32::from_be_bytes(reply[at..at + 4].try_into().expect("four bytes"))
    }

    fn next_writable(&mut self, number: u32) -> u32 {
        self.report(number, 12)
    }
}

/// So many sectors of data, other ones for each mark.
fn data(mark: usize, sectors: usize) -> &'static [u8] {
    &pool()[1_000 * mark..1_000 * mark + sectors * SECTOR_BYTES]
}

fn on_both_drives(lines: fn(&dyn Drive)) {
    lines(&Linked);
    lines(&Plain::default());
}

#[test]
fn lines_of_one_run() {
    on_both_drives(|drive| {
        let host = &mut Host::blank(drive);
        blank_disc(host);
        write_and_flush(host);
        reads(host);
        close_and_reserve(host);
        next_session(host);
    });
}

fn blank_disc(host: &mut Host) {
    let mut expected = [0; 34];
    expected[..7].copy_from_slice(&[0x00, 0x20, 0x00, 0x01, 0x01, 0x01, 0x01]);
    let information = host.send(cdb::read_disc_information(34), &[]);
    assert_eq!(information, (ACCEPTED, expected.to_vec(), 0));
    assert_eq!(host.report(1, 16), 4_800);
}

fn write_and_flush(host: &mut Host) {
    assert_eq!(host.write(0, data(1, 20)), (ACCEPTED, 1));
    assert_eq!(host.state.record(0).recorded, 1);
    assert_eq!(host.state.pending_count(), 4);
    assert_eq!(host.medium[..BLOCK_BYTES], data(1, 20)[..BLOCK_BYTES]);
    assert_eq!(host.pending[..4 * SECTOR_BYTES], data(1, 20)[BLOCK_BYTES..]);
    assert!(host.pending[4 * SECTOR_BYTES..].iter().all(|&byte| byte == 0));
    assert_eq!(host.next_writable(1), 20);
    assert_eq!(host.write(16, data(2, 1)), (0x052102, 0));
    assert_eq!(host.state.sense(), [0x5, 0x21, 0x02]);
    assert_eq!(host.send(cdb::opcode_only(0x35), &[]), (ACCEPTED, vec![], 1));
    assert_eq!(host.state.record(0).zero_filled, 12);
    assert_eq!(host.state.pending_count(), 0);
    assert_eq!(host.next_writable(1), 32);
}

fn reads(host: &mut Host) {
    let (number, sectors) = host.read(16, 16);
    assert_eq!(number, ACCEPTED);
    assert_eq!(sectors[..4 * SECTOR_BYTES], data(1, 20)[16 * SECTOR_BYTES..]);
    assert_eq!(sectors[4 * SECTOR_BYTES..], [0; 12 * SECTOR_BYTES]);
    assert_eq!(host.read(0, 16), (ACCEPTED, data(1, 16).to_vec()));
    assert_eq!(host.read(32, 1), (0x080000, vec![]));
    assert_eq!(host.read(4_800, 1), (0x052100, vec![]));
    assert_eq!(host.state.sense(), [0x5, 0x21, 0x00]);
    assert_eq!(host.read(4_800, 0), (ACCEPTED, vec![]));
    assert_eq!(host.state.sense(), [0, 0, 0]);
}

fn close_and_reserve(host: &mut Host) {
    assert_eq!(host.number(cdb::close(cdb::FRAGMENT, 1)), ACCEPTED);
    assert_eq!(host.report(2, 8), 48);
    assert_eq!(host.report(0xFF, 8), 48);
    let closed: Vec<Record> = host.state.records().collect();
    assert_eq!(host.number(cdb::reserve(33)), 0x052400);
    assert_eq!(host.state.sense(), [0x5, 0x24, 0x00]);
    assert!(host.state.records().eq(closed));
    assert_eq!(host.next_writable(0xFF), 48);
    assert_eq!(host.number(cdb::reserve(48)), ACCEPTED);
    assert_eq!((host.report(2, 8), host.report(2, 24)), (48, 48));
    assert_eq!(host.report(0xFF, 8), 112);
    assert_eq!(host.number(cdb::close(cdb::SESSION, 0)), 0x057203);
}

fn next_session(host: &mut Host) {
    assert_eq!(host.write(48, data(3, 49)), (0x056300, 0));
    assert_eq!(host.write(48, data(3, 48)), (ACCEPTED, 3));
    assert_eq!(host.read(48, 48), (ACCEPTED, data(3, 48).to_vec()));
    assert_eq!(host.state.record(1).recorded, host.state.record(1).length);
    assert_eq!(host.number(cdb::close(cdb::SESSION, 0)), ACCEPTED);
    assert_eq!(host.report(0xFF, 8), 2_144);
    let records: Vec<Record> = host.state.records().collect();
    assert_eq!(records.len(), 3);
    assert_eq!((records[2].session, records[2].start, records[2].length), (2, 134, 166));
}

/// The case of five pending sectors read back, a run of its own.
#[test]
fn pending_sectors_read_back() {
    on_both_drives(|drive| {
        let host = &mut Host::blank(drive);
        assert_eq!(host.write(0, data(5, 5)), (ACCEPTED, 0));
        assert_eq!(host.read(0, 5), (ACCEPTED, data(5, 5).to_vec()));
        assert_eq!(host.read(0, 6), (0x080000, vec![]));
        assert_eq!(host.state.sense(), [0x8, 0x00, 0x00]);
        let capacity = host.send(cdb::opcode_only(cdb::READ_CAPACITY), &[]);
        assert_eq!(capacity, (ACCEPTED, vec![0, 0, 0, 4, 0, 0, 8, 0], 0));
    });
}

#[test]
fn last_line() {
    on_both_drives(|drive| {
        for (end, number) in [(171, ACCEPTED), (172, 0x056300)] {
            let host = &mut Host::blank(drive);
            let sectors = 16 * end as usize;
            assert_eq!(host.write(0, data(4, sectors)), (ACCEPTED, end));
            assert_eq!(host.number(cdb::close(cdb::SESSION, 0)), number);
            let tail = if number == ACCEPTED { 4_784 } else { 0 };
            assert_eq!(host.report(0xFF, 8), tail);
        }
        for (size, number) in [(4_768, ACCEPTED), (4_769, 0x052400), (4_784, 0x056300)] {
            let host = &mut Host::blank(drive);
            assert_eq!(host.number(cdb::reserve(size)), number);
        }
    });
}

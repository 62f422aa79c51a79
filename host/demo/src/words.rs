//! Commands, answers, senses, replies and fragments in words.

use crate::track::Track;
use crate::{fragments, identity};
use gladhamre::cdb::{self, Cdb};
use gladhamre::{Record, Refusal};

/// Bytes of a reply to a line.
const BYTES_TO_A_LINE: usize = 36;

/// A command block in words.
pub fn command(cdb: &Cdb) -> String {
    let value = cdb::value(cdb);
    match cdb[0] {
        cdb::TEST_UNIT_READY => "TEST UNIT READY".into(),
        cdb::REQUEST_SENSE => "REQUEST SENSE".into(),
        cdb::INQUIRY => inquiry(cdb),
        cdb::READ_CAPACITY => "READ CAPACITY".into(),
        cdb::READ => run("READ", cdb),
        cdb::READ_12 => run("READ (12)", cdb),
        cdb::WRITE => run("WRITE", cdb),
        cdb::WRITE_12 => run("WRITE (12)", cdb),
        cdb::SYNCHRONIZE_CACHE => "SYNCHRONIZE CACHE".into(),
        cdb::GET_CONFIGURATION => get_configuration(cdb[1] & 0b11, cdb::start(cdb)),
        cdb::READ_DISC_INFORMATION => "READ DISC INFORMATION".into(),
        cdb::READ_FRAGMENT_INFORMATION => track_information(cdb[1] & 0b11, value),
        cdb::RESERVE => format!("RESERVE TRACK of {}", sectors(number_at(cdb, 5))),
        cdb::CLOSE => close(cdb[2] & 0b111, u16::from_be_bytes([cdb[4], cdb[5]])),
        opcode => format!("opcode {opcode:02X}h, not listed"),
    }
}

fn run(name: &str, cdb: &Cdb) -> String {
    let (address, length) = cdb::run(cdb);
    format!("{name} {} at {address}", sectors(length))
}

fn inquiry(cdb: &Cdb) -> String {
    match cdb[1] & cdb::PAGE_BIT {
        0 => "INQUIRY".into(),
        _ => format!("INQUIRY of page {:02X}h", cdb[2]),
    }
}

fn get_configuration(request: u8, start: u16) -> String {
    let which = match request {
        cdb::ALL_FEATURES => format!("all from {start:04X}h"),
        cdb::CURRENT_FEATURES => format!("current from {start:04X}h"),
        cdb::ONE_FEATURE => format!("feature {start:04X}h"),
        other => format!("type {other}"),
    };
    format!("GET CONFIGURATION, {which}")
}

fn track_information(by: u8, value: u32) -> String {
    let which = match (by, value) {
        (0, address) => format!(" at {address}"),
        (1, 0xFF) => ", tail".into(),
        (1, number) => format!(", number {number}"),
        _ => format!(", type {by}"),
    };
    format!("READ TRACK INFORMATION{which}")
}

fn close(function: u8, number: u16) -> String {
    match function {
        cdb::FRAGMENT => format!("CLOSE TRACK {number}"),
        cdb::SESSION => "CLOSE SESSION".into(),
        cdb::FINALIZE => "CLOSE and finalize".into(),
        other => format!("CLOSE, function {other:03b}"),
    }
}

fn sectors(count: u32) -> String {
    if count == 1 {
        "1 sector".into()
    } else {
        format!("{count} sectors")
    }
}

/// Bytes in hexadecimal.
pub fn hex(bytes: &[u8]) -> String {
    bytes.iter().map(|byte| format!("{byte:02X}")).collect::<Vec<_>>().join(" ")
}

/// An answer in a word.
pub fn answer<T>(answer: &Result<T, Refusal>) -> String {
    match answer {
        Ok(_) => "accepted".into(),
        Err(Refusal::Link(number)) => format!("L{number}"),
        Err(Refusal::Drive { .. }) => "refused".into(),
    }
}

/// A sense by number and name.
pub fn sense([key, code, qualifier]: [u32; 3]) -> String {
    let name = match (key, code, qualifier) {
        (0x0, 0x00, 0x00) => "no sense",
        (0x5, 0x20, 0x00) => "invalid operation code",
        (0x7, 0x27, 0x00) => "write protected",
        (0x5, 0x24, 0x00) => "invalid field in command",
        (0x5, 0x21, 0x00) => "address out of range",
        (0x8, 0x00, 0x00) => "blank check",
        (0x5, 0x21, 0x02) => "invalid address for write",
        (0x5, 0x72, 0x03) => "incomplete track in session",
        (0x5, 0x72, 0x04) => "empty track",
        (0x5, 0x72, 0x05) => "no more reservations",
        (0x5, 0x63, 0x00) => "end of user area",
        _ => "not of this drive",
    };
    format!("{key:X}/{code:02X}/{qualifier:02X} {name}")
}

/// A refusal, and why.
pub fn refusal(refusal: Refusal) -> String {
    let why = match refusal {
        Refusal::Link(number) => link_refusal(number).into(),
        Refusal::Drive { key, code, qualifier } => sense([key, code, qualifier].map(u32::from)),
    };
    format!("{:<9} {why}", answer::<()>(&Err(refusal)))
}

/// What is wrong on the link.
pub fn link_refusal(number: u8) -> &'static str {
    match number {
        1 => "the command block is not 12 bytes",
        2 => "medium or pending buffer does not fit",
        3 => "the state is not sound",
        _ => "data or reply buffer does not fit",
    }
}

/// A fragment's record; its next writable address if it is incomplete.
pub fn fragment(number: usize, record: &Record, pending: u32, next: Option<u32>) -> String {
    let kind = fragments::kind(record);
    let Record { session, start, length, recorded, zero_filled, .. } = *record;
    let blocks = match length {
        1 => format!("block {start}"),
        _ => format!("blocks {start}-{}", start + length - 1),
    };
    let mut text =
        format!("{number} {kind}, session {session}, {blocks}, {recorded} of {length} recorded");
    if zero_filled > 0 {
        text += &format!(", {zero_filled} zero-filled");
    }
    if pending > 0 {
        text += &format!(", {pending} pending");
    }
    if let Some(next) = next.filter(|_| fragments::is_reserved(record)) {
        text += &format!(", next {next}");
    }
    text
}

/// Fragments in a row.
pub fn list(records: &[Record]) -> String {
    let each = records.iter().enumerate();
    let texts: Vec<String> = each.map(|(at, record)| fragment(at + 1, record, 0, None)).collect();
    format!("[{}]", texts.join("; "))
}

/// The tail's next writable address.
pub fn next(address: Option<u32>) -> String {
    address.map_or("-".into(), |address| address.to_string())
}

/// What a reply says, then its bytes unless they are sectors; nothing for commands without one.
pub fn reply(cdb: &Cdb, reply: &[u8]) -> Vec<String> {
    if reply.is_empty() {
        return Vec::new();
    }
    let (text, details) = match cdb[0] {
        cdb::GET_CONFIGURATION => identity::configuration(reply),
        _ => (said(cdb, reply), Vec::new()),
    };
    let mut lines = vec![format!("reply of {} bytes: {text}", reply.len())];
    lines.extend(details);
    if !cdb::is_read(cdb) {
        lines.extend(byte_lines(reply));
    }
    lines
}

/// What a reply says in a line, or its bytes.
fn said(cdb: &Cdb, reply: &[u8]) -> String {
    let four = |at: usize| number_at(reply, at);
    match (cdb[0], reply.len()) {
        (cdb::REQUEST_SENSE, 14..) => sense([reply[2].into(), reply[12].into(), reply[13].into()]),
        (cdb::INQUIRY, cdb::INQUIRY_LENGTH) => identity::inquiry(reply),
        (cdb::READ_CAPACITY, 8) => {
            format!("last readable address {}, sectors of {} bytes", four(0), four(4))
        }
        (cdb::READ_DISC_INFORMATION, 34) => disc_information(reply),
        (cdb::READ_FRAGMENT_INFORMATION, cdb::FRAGMENT_INFORMATION_LENGTH) => {
            Track::of(reply).to_string()
        }
        (cdb::READ | cdb::READ_12, _) => sector_contents(reply),
        _ => hex(reply),
    }
}

fn disc_information(reply: &[u8]) -> String {
    let status = ["blank", "appendable", "finalized", "other"][usize::from(reply[2] & 0b11)];
    let session = ["empty", "incomplete", "other", "complete"][usize::from(reply[2] >> 2 & 0b11)];
    let two = |low: usize, high: usize| u16::from_be_bytes([reply[high], reply[low]]);
    format!(
        "disc {status}, last session {session}, sessions {}, its fragments {} to {}",
        two(4, 9),
        two(5, 10),
        two(6, 11)
    )
}

/// How many sectors are all zero, and how the first one begins.
fn sector_contents(reply: &[u8]) -> String {
    let zero = reply
        .chunks(gladhamre::SECTOR_BYTES)
        .filter(|sector| sector.iter().all(|&byte| byte == 0))
        .count() as u32;
    let first = &reply[..16];
    let begins = match std::str::from_utf8(first) {
        Ok(text) if !text.contains(|letter: char| letter.is_control() && letter != '\n') => {
            format!("{text:?}")
        }
        _ => hex(&first[..8]),
    };
    format!("begins {begins}, {} all zero", sectors(zero))
}

/// A reply's bytes, the zeros at its end by their number.
pub fn reply_bytes(reply: &[u8]) -> String {
    byte_lines(reply).join(" ")
}

/// The same, so many bytes to a line.
fn byte_lines(reply: &[u8]) -> Vec<String> {
    let used = reply.iter().rposition(|&byte| byte != 0).map_or(0, |last| last + 1);
    let zeros = reply.len() - used;
    if zeros <= 3 {
        return reply.chunks(BYTES_TO_A_LINE).map(hex).collect();
    }
    let mut lines: Vec<String> = reply[..used].chunks(BYTES_TO_A_LINE).map(hex).collect();
    let last = lines.pop().unwrap_or_default();
    lines.push(format!("{last} and {zeros} zeros"));
    lines
}

/// A number of four bytes.
pub fn number_at(bytes: &[u8], at: usize) -> u32 {
    u32::from_be_bytes([bytes[at], bytes[at + 1], bytes[at + 2], bytes[at + 3]])
}

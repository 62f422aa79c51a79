//! What the replay programs print is what this drive says: their traces replayed here, line by line.

use mapped::Mapped;
use plain::{Lent, BLOCK_BYTES, BLOCK_SECTORS, IMAGE_WORDS, SECTOR_BYTES};
use std::fmt::Write;
use std::path::{Path, PathBuf};

const CAPACITY: u32 = 300;
const MARK: [u8; 2] = [0xA5, 0x5A];

fn crates() -> PathBuf {
    Path::new(env!("CARGO_MANIFEST_DIR")).join("../../crates")
}

fn read(path: &str) -> Vec<u8> {
    let path = crates().join(path);
    std::fs::read(&path).unwrap_or_else(|error| panic!("{}: {error}", path.display()))
}

fn read_text(path: &str) -> String {
    String::from_utf8(read(path)).expect("a text")
}

/// The length of a READ or a WRITE; any number for other commands.
fn sectors(cdb: &[u8]) -> usize {
    let number =
        |bytes: &[u8]| bytes.iter().fold(0, |number, &byte| number << 8 | usize::from(byte));
    match cdb[0] {
        0xA8 | 0xAA => number(&cdb[6..10]),
        _ => number(&cdb[7..9]),
    }
}

/// So many sectors; a trace may ask for more than there is memory.
fn zeros(sectors: usize) -> Mapped {
    Mapped::zeros(sectors * SECTOR_BYTES).expect("address space")
}

/// A drive over a medium of its own, as an image of words.
struct Drive {
    image: [u32; IMAGE_WORDS],
    medium: Vec<u8>,
    pending: Vec<u8>,
}

impl Drive {
    fn blank() -> Drive {
        let mut image = [0; IMAGE_WORDS];
        assert_eq!(plain::blank(CAPACITY, &mut image), 0);
        Drive {
            image,
            medium: vec![0; CAPACITY as usize * BLOCK_BYTES],
            pending: vec![0; BLOCK_BYTES],
        }
    }

    /// One command, with the data that it asks for and more room for the reply than any asks for.
    fn obey(&mut self, cdb: &[u8]) {
        let sectors = sectors(cdb);
        let data = zeros(if matches!(cdb[0], 0x2A | 0xAA) { sectors } else { 0 });
        let mut reply = zeros(sectors.max(1));
        let (medium, pending) = (&mut self.medium, &mut self.pending);
        let lent = Lent { cdb, data: &data, medium, pending, reply: &mut reply };
        let answer = plain::command(&mut self.image, lent, None);
        assert!(answer.number == 0 || answer.number > 4, "refused on the link: {}", answer.number);
    }

    fn sense(&self) -> [u32; 3] {
        [self.image[2], self.image[3], self.image[4]]
    }

    /// The tail's next writable address, read off the words of the last record.
    fn next(&self) -> Option<u64> {
        let records: Vec<&[u32]> = self.image[7..].chunks(6).take_while(|r| r[2] > 0).collect();
        let &[_, start, length, recorded, _, kind] = *records.last()? else { return None };
        let is_tail = kind == 1 && recorded < length;
        let is_owner = self.image[6] as usize == records.len();
        let pending = if is_owner { self.image[5] } else { 0 };
        let address = BLOCK_SECTORS * u64::from(start + recorded) + u64::from(pending);
        is_tail.then_some(address)
    }
}

/// What a replay of the trace prints.
fn replayed(trace: &[u8]) -> String {
    let mut printed = String::from("n op key asc ascq next\n");
    let mut drive = Drive::blank();
    for (index, record) in trace.chunks(14).enumerate() {
        let number = index + 1;
        if record.iter().zip(MARK).any(|(&byte, mark)| byte != mark) {
            writeln!(printed, "{number} bad").unwrap();
            break;
        }
        if record.len() < 14 {
            writeln!(printed, "{number} cut").unwrap();
            break;
        }
        drive.obey(&record[2..]);
        let [key, asc, ascq] = drive.sense();
        let next = drive.next().map_or("-".to_string(), |address| address.to_string());
        writeln!(printed, "{number} {:02X} {key} {asc:02X} {ascq:02X} {next}", record[2]).unwrap();
    }
    printed
}

#[test]
fn document_example() {
    let example = "n op key asc ascq next\n1 2A 0 00 00 20\n2 2A 5 21 02 20\n3 35 0 00 00 32\n";
    assert_eq!(read_text("replay/stdout"), example);
    assert_eq!(replayed(&read("replay/stdin")), example);
}

#[test]
fn every_trace() {
    let mut printed = String::new();
    for name in read_text("replays/args").lines() {
        let trace = read(&format!("replays/data/{name}"));
        write!(printed, "{name}:\n{}", replayed(&trace)).unwrap();
    }
    let expected = read_text("replays/stdout");
    for (line, (here, there)) in printed.lines().zip(expected.lines()).enumerate() {
        assert_eq!(here, there, "line {}", line + 1);
    }
    assert_eq!(printed.len(), expected.len());
}

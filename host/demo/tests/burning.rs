//! A burning program's session, burning-program.txt, on the linked drive: every answer and every reply, the
//! disc that it leaves, and what is read back.

use demo::{data_bytes, fragment_list, play, Disc, Outcome, Run};
use gladhamre::cdb::{self, Cdb};
use gladhamre::SECTOR_BYTES;
use script::Part;
use std::path::Path;

const SCRIPT: &str = concat!(env!("CARGO_MANIFEST_DIR"), "/scripts/burning-program.txt");

/// The table's line for each command, without its number.
const ROWS: [&str; 45] = [
    "INQUIRY                                accepted  0/00/00 no sense                          0      0",
    "GET CONFIGURATION, all from 0000h      accepted  0/00/00 no sense                          0      0",
    "GET CONFIGURATION, all from 0000h      accepted  0/00/00 no sense                          0      0",
    "GET CONFIGURATION, feature 002Bh       accepted  0/00/00 no sense                          0      0",
    "TEST UNIT READY                        accepted  0/00/00 no sense                          0      0",
    "READ DISC INFORMATION                  accepted  0/00/00 no sense                          0      0",
    "opcode ACh, not listed                 refused   5/20/00 invalid operation code            0      0",
    "REQUEST SENSE                          accepted  0/00/00 no sense                          0      0",
    "opcode B6h, not listed                 L4        0/00/00 no sense                          0      0",
    "READ TRACK INFORMATION, tail           accepted  0/00/00 no sense                          0      0",
    "WRITE 16 sectors at 0                  accepted  0/00/00 no sense                         16      1",
    "WRITE 16 sectors at 16                 accepted  0/00/00 no sense                         32      1",
    "WRITE 16 sectors at 32                 accepted  0/00/00 no sense                         48      1",
    "SYNCHRONIZE CACHE                      accepted  0/00/00 no sense                         48      0",
    "READ DISC INFORMATION                  accepted  0/00/00 no sense                         48      0",
    "CLOSE TRACK 1                          accepted  0/00/00 no sense                         64      0",
    "CLOSE SESSION                          accepted  0/00/00 no sense                       2096      0",
    "READ DISC INFORMATION                  accepted  0/00/00 no sense                       2096      0",
    "RESERVE TRACK of 48 sectors            accepted  0/00/00 no sense                       2160      0",
    "READ TRACK INFORMATION, tail           accepted  0/00/00 no sense                       2160      0",
    "READ TRACK INFORMATION, number 2       accepted  0/00/00 no sense                       2160      0",
    "WRITE 16 sectors at 2096               accepted  0/00/00 no sense                       2160      1",
    "WRITE 16 sectors at 2112               accepted  0/00/00 no sense                       2160      1",
    "SYNCHRONIZE CACHE                      accepted  0/00/00 no sense                       2160      0",
    "READ DISC INFORMATION                  accepted  0/00/00 no sense                       2160      0",
    "CLOSE TRACK 3                          refused   5/72/04 empty track                    2160      0",
    "CLOSE TRACK 2                          accepted  0/00/00 no sense                       2160      1",
    "CLOSE SESSION                          accepted  0/00/00 no sense                       4192      0",
    "READ TRACK INFORMATION, tail           accepted  0/00/00 no sense                       4192      0",
    "WRITE 16 sectors at 4192               accepted  0/00/00 no sense                       4208      1",
    "SYNCHRONIZE CACHE                      accepted  0/00/00 no sense                       4208      0",
    "READ DISC INFORMATION                  accepted  0/00/00 no sense                       4208      0",
    "CLOSE TRACK 3                          accepted  0/00/00 no sense                       4224      0",
    "CLOSE, function 101                    refused   5/24/00 invalid field in command       4224      0",
    "CLOSE and finalize                     accepted  0/00/00 no sense                          -      0",
    "READ DISC INFORMATION                  accepted  0/00/00 no sense                          -      0",
    "READ TRACK INFORMATION, number 1       accepted  0/00/00 no sense                          -      0",
    "READ TRACK INFORMATION, number 2       accepted  0/00/00 no sense                          -      0",
    "READ TRACK INFORMATION, number 3       accepted  0/00/00 no sense                          -      0",
    "READ CAPACITY                          accepted  0/00/00 no sense                          -      0",
    "READ 48 sectors at 0                   accepted  0/00/00 no sense                          -      0",
    "READ 48 sectors at 2096                accepted  0/00/00 no sense                          -      0",
    "READ 16 sectors at 4192                accepted  0/00/00 no sense                          -      0",
    "READ 1 sector at 48                    refused   8/00/00 blank check                       -      0",
    "GET CONFIGURATION, feature 002Bh       accepted  0/00/00 no sense                          -      0",
];

/// What the replies say, by the number of the command.
const REPLIES: [(usize, &str); 23] = [
    (1, "reply of 36 bytes: device type 05h, removable medium, vendor \"GLADHAMR\", product \"DVD+R LOGGER\", revision \"1.00\""),
    (2, "reply of 8 bytes: cut, 100 bytes in all, profile 001Bh"),
    (3, "reply of 100 bytes: profile 001Bh DVD+R, 10 features"),
    (4, "reply of 16 bytes: profile 001Bh DVD+R, 1 feature"),
    (6, "reply of 34 bytes: disc blank, last session empty, sessions 1, its fragments 1 to 1"),
    (8, "reply of 18 bytes: 5/20/00 invalid operation code"),
    (10, "reply of 36 bytes: fragment 1, session 1, blank, first sector 0, next 0, free 4800, length 4800"),
    (15, "reply of 34 bytes: disc appendable, last session incomplete, sessions 1, its fragments 1 to 1"),
    (18, "reply of 34 bytes: disc appendable, last session empty, sessions 2, its fragments 2 to 2"),
    (20, "reply of 36 bytes: fragment 3, session 2, blank, first sector 2160, next 2160, free 2640, length 2640"),
    (21, "reply of 36 bytes: fragment 2, session 2, blank, first sector 2096, next 2096, free 48, length 48"),
    (25, "reply of 34 bytes: disc appendable, last session incomplete, sessions 2, its fragments 2 to 3"),
    (29, "reply of 36 bytes: fragment 3, session 3, blank, first sector 4192, next 4192, free 608, length 608"),
    (32, "reply of 34 bytes: disc appendable, last session incomplete, sessions 3, its fragments 3 to 3"),
    (36, "reply of 34 bytes: disc finalized, last session complete, sessions 3, its fragments 3 to 3"),
    (37, "reply of 36 bytes: fragment 1, session 1, first sector 0, next 0, free 0, length 48"),
    (38, "reply of 36 bytes: fragment 2, session 2, first sector 2096, next 0, free 0, length 48"),
    (39, "reply of 36 bytes: fragment 3, session 3, first sector 4192, next 0, free 0, length 16"),
    (40, "reply of 8 bytes: last readable address 4207, sectors of 2048 bytes"),
    (41, "reply of 98304 bytes: begins \"sector        0\\n\", 0 sectors all zero"),
    (42, "reply of 98304 bytes: begins B2 B2 B2 B2 B2 B2 B2 B2, 16 sectors all zero"),
    (43, "reply of 32768 bytes: begins \"sector     4192\\n\", 0 sectors all zero"),
    (45, "reply of 16 bytes: profile 001Bh DVD+R, 1 feature"),
];

/// INQUIRY's reply.
const INQUIRY: &[u8; 36] = b"\x05\x80\x00\x02\x1F\x00\x00\x00GLADHAMRDVD+R LOGGER    1.00";

/// The whole reply of GET CONFIGURATION: its header, then the features.
const CONFIGURATION: [&str; 11] = [
    "00 00 00 60 00 00 00 1B",
    "00 00 01 08 00 1B 01 00 00 10 00 00",
    "00 01 01 08 00 00 00 00 00 00 00 00",
    "00 02 01 04 00 00 00 00",
    "00 03 01 04 00 00 00 00",
    "00 10 01 08 00 00 00 00 00 00 01 00",
    "00 1F 01 04 00 00 00 00",
    "00 2B 05 04 01 00 00 00",
    "01 00 01 04 00 00 00 00",
    "01 05 01 04 00 00 00 00",
    "01 07 01 04 00 00 00 00",
];

/// The reply for feature 002Bh alone.
const DVD_PLUS_R: &str = "00 00 00 0C 00 00 00 1B 00 2B 05 04 01 00 00 00";

/// Bytes from hexadecimal.
fn bytes(text: &str) -> Vec<u8> {
    text.split(' ').map(|byte| u8::from_str_radix(byte, 16).expect("a byte")).collect()
}

fn part() -> Part {
    let mut parts = script::read(Path::new(SCRIPT)).expect("it is there");
    assert_eq!(parts.len(), 1);
    parts.remove(0)
}

/// The disc that the session leaves, and the table.
fn played() -> (Disc, String) {
    let mut out = Vec::new();
    let (disc, _) = play(&Run::of_part(part()), &mut out).expect("memory takes everything");
    (disc, String::from_utf8(out).expect("text"))
}

/// The lines of each command in the table, without the number and the indentation.
fn blocks(table: &str) -> Vec<Vec<&str>> {
    let mut blocks: Vec<Vec<&str>> = Vec::new();
    for line in table.lines().skip_while(|line| !line.starts_with("---")).skip(1) {
        match line.strip_prefix("     ") {
            Some(under) => blocks.last_mut().expect("a command stands above").push(under),
            None => blocks.push(vec![&line[5..]]),
        }
    }
    blocks
}

#[test]
fn answers_are_those_of_the_script() {
    let (_, table) = played();
    let rows: Vec<&str> = blocks(&table).iter().map(|block| block[0]).collect();
    assert_eq!(rows, ROWS);
}

#[test]
fn replies_are_told() {
    let (_, table) = played();
    let told: Vec<(usize, &str)> = (1..)
        .zip(blocks(&table))
        .filter_map(|(number, block)| {
            Some((number, *block.iter().find(|line| line.starts_with("reply of "))?))
        })
        .collect();
    assert_eq!(told, REPLIES);
}

/// Of GET CONFIGURATION every feature is named, and every byte shown.
#[test]
fn features_are_named() {
    let (_, table) = played();
    let block = blocks(&table).swap_remove(2);
    assert_eq!(
        block[2..],
        [
            "reply of 100 bytes: profile 001Bh DVD+R, 10 features",
            "0000h Profile List         0001h Core                 0002h Morphing             0003h Removable Medium",
            "0010h Random Readable      001Fh DVD Read             002Bh DVD+R                0100h Power Management",
            "0105h Time-Out             0107h Real-time Streaming",
            "00 00 00 60 00 00 00 1B 00 00 01 08 00 1B 01 00 00 10 00 00 00 01 01 08 00 00 00 00 00 00 00 00 00 02 01 04",
            "00 00 00 00 00 03 01 04 00 00 00 00 00 10 01 08 00 00 00 00 00 00 01 00 00 1F 01 04 00 00 00 00 00 2B 05 04",
            "01 00 00 00 01 00 01 04 00 00 00 00 01 05 01 04 00 00 00 00 01 07 01 04 and 4 zeros",
        ]
    );
}

/// Sends every command, and gives each with its data and its outcome.
fn sent() -> Vec<(Cdb, Vec<u8>, Outcome)> {
    let mut disc = Disc::blank(300).expect("a capacity");
    let send = |command: &script::Command| {
        let data = data_bytes(&command.data, &command.cdb).expect("memory");
        let outcome = disc.send(&command.cdb, &data).expect("memory");
        (command.cdb, data.to_vec(), outcome)
    };
    part().commands().map(send).collect()
}

#[test]
fn who_is_there_is_told_byte_for_byte() {
    let replies: Vec<Vec<u8>> = sent()
        .iter()
        .filter(|(cdb, ..)| [cdb::INQUIRY, cdb::GET_CONFIGURATION].contains(&cdb[0]))
        .map(|(_, _, outcome)| outcome.reply().to_vec())
        .collect();
    let (header, whole) = (bytes(CONFIGURATION[0]), bytes(&CONFIGURATION.join(" ")));
    let one = bytes(DVD_PLUS_R);
    assert_eq!(whole.len(), 100);
    let expected = [INQUIRY.to_vec(), header, whole, one.clone(), one];
    assert_eq!(replies, expected);
}

/// The three tracks come back as the WRITEs brought them, the reserved one filled up with zeros.
#[test]
fn tracks_are_read_back() {
    let sent = sent();
    let written = |first: u32, end: u32| -> Vec<u8> {
        let writes = sent
            .iter()
            .filter(|(cdb, ..)| cdb::is_write(cdb) && (first..end).contains(&cdb::value(cdb)));
        writes.flat_map(|(_, data, _)| data.clone()).collect()
    };
    let read: Vec<&[u8]> = sent
        .iter()
        .filter(|(cdb, _, outcome)| cdb::is_read(cdb) && outcome.answer.is_ok())
        .map(|(_, _, outcome)| outcome.reply())
        .collect();
    let mut second = written(2_096, 2_144);
    assert_eq!(second.len(), 32 * SECTOR_BYTES);
    second.resize(48 * SECTOR_BYTES, 0);
    assert!(read == [&written(0, 48)[..], &second, &written(4_192, 4_208)]);
    assert_eq!(read.concat().len(), 112 * SECTOR_BYTES);
}

#[test]
fn disc_is_burned() {
    let (disc, _) = played();
    assert_eq!(
        fragment_list(&disc),
        [
            "1 appended, session 1, blocks 0-2, 3 of 3 recorded",
            "2 reserved, session 2, blocks 131-133, 3 of 3 recorded, 16 zero-filled",
            "3 appended, session 3, block 262, 1 of 1 recorded",
            "finalized",
        ]
    );
}

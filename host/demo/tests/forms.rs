//! READ (12) and WRITE (12) in the demo: what they wrote is what they read, in the words of the table;
//! and lengths that no memory holds get the drive's own answer.

use demo::{data_bytes, play, Disc, Run};
use gladhamre::{cdb, BLOCK_BYTES, SECTOR_BYTES};
use script::{Data, Part};
use std::fs::{self, File};
use std::path::{Path, PathBuf};
use std::process::{Command, Output};

const SCRIPTS: &str = concat!(env!("CARGO_MANIFEST_DIR"), "/scripts");

fn parts(text: &str) -> Vec<Part> {
    script::parse(text, Path::new(SCRIPTS)).expect("a good script")
}

fn example() -> Vec<Part> {
    script::read(&Path::new(SCRIPTS).join("twelve-byte.txt")).expect("it is there")
}

/// The table of a part.
fn table(part: Part) -> String {
    let mut out = Vec::new();
    play(&Run::of_part(part), &mut out).expect("address space");
    String::from_utf8(out).expect("text")
}

/// The lines of a table that begin with a command's number, without it.
fn rows(table: &str) -> Vec<&str> {
    table
        .lines()
        .filter_map(|line| line.trim_start().split_once("  "))
        .filter(|(number, _)| number.parse::<u32>().is_ok())
        .map(|(_, row)| row)
        .collect()
}

/// Plays a part and holds every accepted READ to what the accepted WRITEs brought. Gives what the disc
/// holds by them, and how many sectors were read.
fn read_back(part: &Part) -> (Vec<u8>, u32) {
    let mut disc = Disc::blank(part.capacity).expect("a capacity");
    let mut written = vec![0; part.capacity as usize * BLOCK_BYTES];
    let mut read = 0;
    for command in part.commands() {
        let data = data_bytes(&command.data, &command.cdb).expect("address space");
        let outcome = disc.send(&command.cdb, &data).expect("address space");
        let (address, sectors) = cdb::run(&command.cdb);
        let first = address as usize * SECTOR_BYTES;
        if outcome.answer.is_err() || sectors == 0 {
            continue;
        }
        if cdb::is_write(&command.cdb) {
            written[first..first + data.len()].copy_from_slice(&data);
        }
        if cdb::is_read(&command.cdb) {
            let reply = outcome.reply();
            assert_eq!(reply.len(), sectors as usize * SECTOR_BYTES);
            assert!(reply == &written[first..first + reply.len()], "{:02X?}", command.cdb);
            read += sectors;
        }
    }
    (written, read)
}

/// A fragment of 300 blocks is written by one AAh and read back by one A8h, and by one 28h; written in
/// parts of both forms it is the same.
#[test]
fn what_both_forms_write_is_what_they_read() {
    let parts = example();
    let [whole, cut, long] = parts.as_slice() else { panic!("three discs") };
    let cdbs: Vec<cdb::Cdb> = whole.commands().map(|command| command.cdb).collect();
    assert_eq!(cdbs[1..3], [cdb::write_12(0, 4_800), cdb::read_12(0, 4_800)]);
    let (by_one, read) = read_back(whole);
    assert_eq!(read, 2 * 4_800 + 1);
    assert!(by_one.chunks(SECTOR_BYTES).enumerate().all(|(address, sector)| {
        sector.starts_with(format!("sector {address:>8}\nsector ").as_bytes())
    }));
    let (by_parts, read) = read_back(cut);
    assert_eq!(read, 2 * 100 + 4_800);
    assert!(by_one == by_parts);
    assert_eq!(read_back(long).1, 65_536);
}

#[test]
fn table_of_a_whole_fragment() {
    let table = table(example().remove(0));
    assert_eq!(
        rows(&table),
        [
            "WRITE (12) 4801 sectors at 0           refused   5/63/00 end of user area                  0      0",
            "WRITE (12) 4800 sectors at 0           accepted  0/00/00 no sense                          -    300",
            "READ (12) 4800 sectors at 0            accepted  0/00/00 no sense                          -      0",
            "READ 4800 sectors at 0                 accepted  0/00/00 no sense                          -      0",
            "READ (12) 1 sector at 4799             accepted  0/00/00 no sense                          -      0",
            "READ (12) 1 sector at 4800             refused   5/21/00 address out of range              -      0",
            "READ (12) 65537 sectors at 0           refused   5/21/00 address out of range              -      0",
            "READ (12) 4294967295 sectors at 0      refused   5/21/00 address out of range              -      0",
            "READ (12) 4294967280 sectors at 16     refused   5/21/00 address out of range              -      0",
            "READ (12) 1 sector at 4294967295       refused   5/21/00 address out of range              -      0",
            "READ (12) 0 sectors at 4294967295      accepted  0/00/00 no sense                          -      0",
            "WRITE (12) 16 sectors at 0             refused   5/21/02 invalid address for write         -      0",
            "WRITE (12) 0 sectors at 4294967295     accepted  0/00/00 no sense                          -      0",
        ]
    );
    for line in [
        "     AA 00 00 00 00 00 00 00 12 C0 00 00    1 appended, session 1, blocks 0-299, 300 of 300 recorded",
        "     reply of 9830400 bytes: begins \"sector        0\\n\", 0 sectors all zero",
        "     reply of 2048 bytes: begins \"sector     4799\\n\", 0 sectors all zero",
    ] {
        assert!(table.lines().any(|printed| printed == line), "{line}\nis not in\n{table}");
    }
}

#[test]
fn table_of_both_forms() {
    let table = table(example().remove(1));
    assert_eq!(
        rows(&table),
        [
            "WRITE 5 sectors at 0                   accepted  0/00/00 no sense                          5      0",
            "WRITE (12) 30 sectors at 5             accepted  0/00/00 no sense                         35      2",
            "WRITE 13 sectors at 35                 accepted  0/00/00 no sense                         48      1",
            "WRITE (12) 52 sectors at 48            accepted  0/00/00 no sense                        100      3",
            "READ (12) 100 sectors at 0             accepted  0/00/00 no sense                        100      0",
            "READ 100 sectors at 0                  accepted  0/00/00 no sense                        100      0",
            "READ (12) 101 sectors at 0             refused   8/00/00 blank check                     100      0",
            "READ (12) 4294967295 sectors at 0      refused   5/21/00 address out of range            100      0",
            "WRITE (12) 4294967295 sectors at 101   refused   5/21/02 invalid address for write       100      0",
            "WRITE (12) 4294967196 sectors at 100   refused   5/63/00 end of user area                100      0",
            "WRITE (12) 4700 sectors at 100         accepted  0/00/00 no sense                          -    294",
            "READ (12) 4800 sectors at 0            accepted  0/00/00 no sense                          -      0",
            "CLOSE and finalize                     accepted  0/00/00 no sense                          -      0",
            "WRITE (12) 4294967196 sectors at 100   refused   7/27/00 write protected                   -      0",
            "WRITE (12) 0 sectors at 100            accepted  0/00/00 no sense                          -      0",
        ]
    );
}

#[test]
fn table_of_a_length_that_two_bytes_cannot_say() {
    assert_eq!(
        rows(&table(example().remove(2))),
        [
            "WRITE (12) 65536 sectors at 0          accepted  0/00/00 no sense                      65536   4096",
            "READ (12) 65536 sectors at 0           accepted  0/00/00 no sense                      65536      0",
            "READ (12) 65536 sectors at 1           refused   8/00/00 blank check                   65536      0",
        ]
    );
}

/// A file of so many bytes, of which none is on the disk.
fn sparse(bytes: u64) -> PathBuf {
    let path = Path::new(env!("CARGO_TARGET_TMPDIR")).join(format!("forms-{bytes}"));
    File::create(&path).expect("it is made").set_len(bytes).expect("it grows");
    path
}

/// Commands that ask for more than any memory holds get the drive's answer, and so do those that bring
/// it without being asked.
#[test]
fn longest_lengths_are_answered() {
    let file = sparse(1 << 36);
    let with_file = format!("AA 00 00000000 02000000 data file {}", file.display());
    for (line, answer) in [
        ("A8 00 00000000 FFFFFFFF", "refused   5/21/00"),
        ("A8 00 FFFFFFFF FFFFFFFF", "refused   5/21/00"),
        ("AA 00 00000000 FFFFFFFF", "refused   5/63/00"),
        ("AA 00 FFFFFFFF FFFFFFFF", "refused   5/21/02"),
        ("AA 00 00000000 FFFFFFFF data fill A1", "refused   5/63/00"),
        ("AA 00 00000000 FFFFFFFF data length 8796093020160", "refused   5/63/00"),
        ("AA 00 00000000 FFFFFFFF data length 8796093020159", "L4        0/00/00"),
        ("AA 00 00000000 FFFFFFFF data length 0", "L4        0/00/00"),
        ("AA 00 00000000 00000000 data length 8796093020160", "L4        0/00/00"),
        ("2A 00 00000000 00 0001 data length 8796093020160", "L4        0/00/00"),
        ("00 data length 8796093020160", "L4        0/00/00"),
        ("AA 00 00000000 02000000 data length 68719476736", "refused   5/63/00"),
        (with_file.as_str(), "refused   5/63/00"),
    ] {
        let table = table(parts(line).remove(0));
        let row = rows(&table)[0];
        assert!(row.contains(&format!(" {answer} ")), "{line}: {row}");
    }
    fs::remove_file(file).expect("it was there");
}

/// Every sector of stamped data has its length, also at addresses that need more digits than those of
/// any disc, and past those that 32 bits have.
#[test]
fn stamped_sectors_have_their_length() {
    for (cdb, last) in [
        (cdb::write(0, 2), "sector        1\n"),
        (cdb::write_12(99_999_999, 2), "sector 100000000\n"),
        (cdb::write_12(u32::MAX, 2), "sector 4294967296\n"),
    ] {
        let bytes = data_bytes(&Data::Stamp, &cdb).expect("address space");
        assert_eq!(bytes.len(), 2 * SECTOR_BYTES);
        assert!(bytes[SECTOR_BYTES..].starts_with(last.as_bytes()), "{last}");
    }
}

/// Runs the demo on a script where it may take so many kilobytes of addresses.
fn limited(kilobytes: usize, text: &str) -> Output {
    let folder = Path::new(env!("CARGO_TARGET_TMPDIR"));
    let path = folder.join("limited.txt");
    fs::write(&path, text).expect("a script");
    let line = format!("ulimit -v {kilobytes} && exec \"$@\"");
    let ran = Command::new("sh")
        .args(["-c", &line, "sh", env!("CARGO_BIN_EXE_demo")])
        .arg(&path)
        .arg("--image")
        .arg(folder.join("limited.svg"))
        .output();
    fs::remove_file(&path).expect("it was there");
    ran.expect("sh runs")
}

/// Where the system has no addresses for a buffer, the demo says for which command, after the table so
/// far.
#[test]
fn a_buffer_that_cannot_be_had_is_told() {
    for line in
        ["A8 00 00000000 FFFFFFFF", "AA 00 00000000 FFFFFFFF", "00 data length 8796093020160"]
    {
        let ran = limited(1 << 20, &format!("disc 256\n00\n{line}\n"));
        let says = String::from_utf8_lossy(&ran.stderr).into_owned();
        assert_eq!(ran.status.code(), Some(2), "{line}: {says}");
        let message = "demo: A disc of 256 blocks, command 2: no buffer of 8796093020160 bytes: ";
        assert!(says.starts_with(message), "{says}");
        assert!(String::from_utf8_lossy(&ran.stdout).contains("  1  TEST UNIT READY  "));
    }
}

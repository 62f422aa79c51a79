//! Scripts are read as described, bad ones are refused by their line, and tools/trace reads the same
//! format.

use cdb::{Cdb, CDB_LENGTH};
use script::{parse, Data, Line, Part, Survey};
use std::fs::{self, File};
use std::io::Write;
use std::path::{Path, PathBuf};
use std::process::{Command, Output, Stdio};

const ROOT: &str = concat!(env!("CARGO_MANIFEST_DIR"), "/../..");
const SCRIPTS: &str = concat!(env!("CARGO_MANIFEST_DIR"), "/../demo/scripts");

fn parsed(text: &str) -> Result<Vec<Part>, String> {
    parse(text, Path::new(SCRIPTS)).map_err(|error| error.to_string())
}

/// The command of a part's line, from 0.
fn command(part: &Part, index: usize) -> &script::Command {
    part.commands().nth(index).expect("a command")
}

/// Every command block that a part sends.
fn cdbs(part: &Part) -> Vec<Cdb> {
    let of_line = |line: &Line| match line {
        Line::Command(command) => vec![command.cdb],
        Line::Survey(survey) => survey.cdbs().collect(),
    };
    part.lines.iter().flat_map(of_line).collect()
}

#[test]
fn scripts_are_read() {
    let text = "\
        # a comment\n\
        \n\
        2a0000000000000001000000 data fill FF # and another\n\
        disc 256\n\
        2A 00 00000000 00 0001\n\
        00 data length 7\r\n\
        AA 00 00000010 00000FF0 00 00 data fill 12\n\
        A8 00 00000010 00000FF0\n";
    let parts = parsed(text).expect("a good script");
    assert_eq!(parts.iter().map(|part| part.capacity).collect::<Vec<_>>(), [300, 256]);
    assert_eq!(command(&parts[0], 0).cdb, cdb::write(0, 1));
    assert_eq!(command(&parts[0], 0).data, Data::Fill(0xFF));
    assert_eq!(command(&parts[1], 0).cdb, cdb::write(0, 1));
    assert_eq!(command(&parts[1], 0).data, Data::Stamp);
    assert_eq!(command(&parts[1], 1).data, Data::Zeros(7));
    assert_eq!(command(&parts[1], 2).cdb, cdb::write_12(16, 4_080));
    assert_eq!(command(&parts[1], 2).data, Data::Fill(0x12));
    assert_eq!(command(&parts[1], 3).cdb, cdb::read_12(16, 4_080));
}

/// The data of a WRITE of more sectors than its disc has is zeros, however it is named; that of one
/// sector less is not.
#[test]
fn zeros_take_the_place_of_what_no_disc_holds() {
    let data_of = |line: &str| {
        let parts = parsed(line).expect("a good script");
        command(&parts[0], 0).data.clone()
    };
    let longest = Data::Zeros(cdb::LONGEST_DATA);
    for (line, data) in [
        ("AA 00 00000000 FFFFFFFF", longest.clone()),
        ("AA 00 FFFFFFFF FFFFFFFF data stamp", longest.clone()),
        ("AA 00 00000000 FFFFFFFF data fill A1", longest.clone()),
        ("AA 00 00000000 FFFFFFFF data length 8796093020160", longest.clone()),
        ("AA 00 00000000 00000001 data length 8796093020160", longest),
        ("AA 00 00000000 FFFFFFFF data length 7", Data::Zeros(7)),
        ("AA 00 00000000 000012C0", Data::Stamp),
        ("AA 00 00000000 000012C1", Data::Zeros(4_801 * cdb::SECTOR_BYTES)),
        ("disc 256\nAA 00 00000000 00001000 data fill A1", Data::Fill(0xA1)),
        ("disc 256\nAA 00 00000000 00001001 data fill A1", Data::Zeros(4_097 * cdb::SECTOR_BYTES)),
        ("2A 00 00000000 00 12C1 data fill A1", Data::Zeros(4_801 * cdb::SECTOR_BYTES)),
        ("A8 00 00000000 FFFFFFFF", Data::Stamp),
    ] {
        assert_eq!(data_of(line), data, "{line}");
    }
}

/// A survey asks for the sectors 0, step, 2 × step and so on that the disc has.
#[test]
fn surveys_are_read() {
    for (text, step, capacity, asked) in [
        ("survey 1000", 1_000, 300, vec![0, 1_000, 2_000, 3_000, 4_000]),
        ("disc 256\nsurvey 1024 # four", 1_024, 256, vec![0, 1_024, 2_048, 3_072]),
        ("disc 256\nsurvey 1", 1, 256, (0..4_096).collect()),
        ("survey 4799", 4_799, 300, vec![0, 4_799]),
        ("survey 4800", 4_800, 300, vec![0]),
        ("disc 143444\nsurvey 2295103", 2_295_103, 143_444, vec![0, 2_295_103]),
        ("disc 143444\nsurvey 2295104", 2_295_104, 143_444, vec![0]),
    ] {
        let parts = parsed(text).expect("a good script");
        let [Line::Survey(survey)] = parts[0].lines[..] else { panic!("{text:?} is a survey") };
        assert_eq!(survey, Survey { step, capacity }, "{text:?}");
        let by_address = |address| cdb::read_fragment_information(0, address, 36);
        let asked: Vec<Cdb> = asked.into_iter().map(by_address).collect();
        assert_eq!(survey.cdbs().collect::<Vec<_>>(), asked, "{text:?}");
    }
    let every_sector = Survey { step: 1, capacity: 143_444 };
    assert_eq!(every_sector.cdbs().count(), 2_295_104);
}

/// `inquiry` and `configuration` are a command block each, with room for the whole reply.
#[test]
fn questions_are_read() {
    for (text, cdb) in [
        ("inquiry", cdb::inquiry(36)),
        ("disc 256\ninquiry # who is there?", cdb::inquiry(36)),
        ("configuration", cdb::get_configuration(0, 0, 100)),
        ("configuration 1", cdb::get_configuration(1, 0, 100)),
        ("configuration 0 0100", cdb::get_configuration(0, 0x0100, 100)),
        ("configuration 2 2b", cdb::get_configuration(2, 0x002B, 100)),
        ("configuration 3 FFFF", cdb::get_configuration(3, 0xFFFF, 100)),
    ] {
        let parts = parsed(text).expect("a good script");
        assert_eq!(parts[0].lines.len(), 1, "{text:?}");
        let asked = command(&parts[0], 0);
        assert_eq!((asked.cdb, &asked.data), (cdb, &Data::Stamp), "{text:?}");
        assert_eq!(cdb::data_length(&asked.cdb), 0);
    }
}

/// The message about a word that is none of the format's.
macro_rules! no_word {
    ($line:literal, $word:literal) => {
        concat!(
            "line ",
            $line,
            ": \"",
            $word,
            "\" is neither bytes in hexadecimal nor one of the words `disc`, `survey`, `inquiry`, \
             `configuration` and `data`"
        )
    };
}

/// What is neither a command block nor a word for one, with the message; tools/trace says the same.
const NO_CDBS: [(&str, &str); 37] = [
    ("", "line 1: the script has no command"),
    ("# nothing\n\n", "line 2: the script has no command"),
    ("hello world", no_word!(1, "hello")),
    ("00\n0x2A", no_word!(2, "0x2A")),
    ("\n\n2A0", "line 3: \"2A0\" has an odd number of hexadecimal digits"),
    ("2 A", "line 1: \"2\" has an odd number of hexadecimal digits"),
    (
        "00 00 00 00 00 00 00 00 00 00 00 00 00",
        "line 1: a command block has 1 to 12 bytes, this one 13",
    ),
    ("2A\u{a0}00", no_word!(1, "2A\u{a0}00")),
    ("data fill 00", "line 1: a command block has 1 to 12 bytes, this one 0"),
    ("00 data", "line 1: data is `stamp`, `fill BYTE`, `file NAME` or `length COUNT`"),
    ("00 data fill", "line 1: data is `stamp`, `fill BYTE`, `file NAME` or `length COUNT`"),
    ("survey", "line 1: write `survey` and a number of sectors"),
    ("00\nsurvey # by what?", "line 2: write `survey` and a number of sectors"),
    ("survey 1000 2000", "line 1: write `survey` and a number of sectors"),
    ("survey 1000 data stamp", "line 1: write `survey` and a number of sectors"),
    ("survey 0", "line 1: `survey` takes 1 to 2295104 sectors, not \"0\""),
    ("survey 2295105", "line 1: `survey` takes 1 to 2295104 sectors, not \"2295105\""),
    (
        "survey 99999999999999999999",
        "line 1: `survey` takes 1 to 2295104 sectors, not \"99999999999999999999\"",
    ),
    ("survey -1000", "line 1: `survey` takes 1 to 2295104 sectors, not \"-1000\""),
    ("survey 1.5", "line 1: `survey` takes 1 to 2295104 sectors, not \"1.5\""),
    ("survey 3E8", "line 1: `survey` takes 1 to 2295104 sectors, not \"3E8\""),
    ("\nsurvey many", "line 2: `survey` takes 1 to 2295104 sectors, not \"many\""),
    ("survey \\", "line 1: `survey` takes 1 to 2295104 sectors, not \"\\\""),
    ("52 survey 1000", no_word!(1, "survey")),
    ("INQUIRY", no_word!(1, "INQUIRY")),
    ("00\ninquiry 36", "line 2: write `inquiry` by itself"),
    ("inquiry data stamp", "line 1: write `inquiry` by itself"),
    ("12 inquiry", no_word!(1, "inquiry")),
    ("46 configuration", no_word!(1, "configuration")),
    (
        "configuration 2 002B 100",
        "line 1: write `configuration`, a request type and a starting feature",
    ),
    (
        "configuration 0 0 data fill A1",
        "line 1: write `configuration`, a request type and a starting feature",
    ),
    ("configuration 4", "line 1: `configuration` takes a request type of 0 to 3, not \"4\""),
    ("configuration 00", "line 1: `configuration` takes a request type of 0 to 3, not \"00\""),
    ("configuration data", "line 1: `configuration` takes a request type of 0 to 3, not \"data\""),
    (
        "\nconfiguration 2 0002B",
        "line 2: `configuration` takes a starting feature of 0000 to FFFF, not \"0002B\"",
    ),
    (
        "configuration 2 2Bh",
        "line 1: `configuration` takes a starting feature of 0000 to FFFF, not \"2Bh\"",
    ),
    (
        "configuration 2 +2B",
        "line 1: `configuration` takes a starting feature of 0000 to FFFF, not \"+2B\"",
    ),
];

#[test]
fn bad_scripts_are_refused_by_line() {
    for (text, message) in NO_CDBS.into_iter().chain([
        ("disc", "line 1: write `disc` and the number of blocks"),
        ("disc many", "line 1: \"many\" is not a number of blocks"),
        ("disc 255", "line 1: a disc has 256 to 143444 blocks, this one 255"),
        ("disc 143445", "line 1: a disc has 256 to 143444 blocks, this one 143445"),
        ("00 data fill 0000", "line 1: `fill` takes one byte in hexadecimal, not \"0000\""),
        ("00 data length x", "line 1: \"x\" is not a number of bytes"),
        ("00 data length 8796093020161", "line 1: no command takes 8796093020161 bytes of data"),
        (
            "AA 00 00000000 FFFFFFFF data length 99999999999999999999",
            "line 1: \"99999999999999999999\" is not a number of bytes",
        ),
    ]) {
        assert_eq!(parsed(text).err().as_deref(), Some(message), "{text:?}");
    }
}

/// A file of so many bytes, of which none is on the disk.
fn sparse(bytes: u64) -> PathBuf {
    let path = Path::new(env!("CARGO_TARGET_TMPDIR")).join(format!("sparse-{bytes}"));
    File::create(&path).expect("it is made").set_len(bytes).expect("it grows");
    path
}

/// A file's length is looked at first: none is read that has other sectors than the command takes, or
/// more than the disc has.
#[test]
fn files_have_the_sectors_that_the_command_takes() {
    let with = |cdb: &str, name: &str| parsed(&format!("{cdb} data file {name}"));
    let endless = sparse(1 << 36).display().to_string();
    let has = format!("{endless} has 33554432 sectors, the command takes");
    for (cdb, name, says) in [
        ("2A", "readings.csv", "readings.csv has 3 sectors, the command takes 0".into()),
        (
            "2A0000000000000005",
            "readings.csv",
            "readings.csv has 3 sectors, the command takes 5".into(),
        ),
        (
            "AA000000000000000002",
            "readings.csv",
            "readings.csv has 3 sectors, the command takes 2".into(),
        ),
        ("2A0000000000000005", &endless, format!("{has} 5")),
        ("AA0000000000FFFFFFFF", &endless, format!("{has} 4294967295")),
        ("2A0000000000000001", "/dev/zero", "/dev/zero is no ordinary file".to_owned()),
        ("AA0000000000FFFFFFFF", "..", ".. is no ordinary file".into()),
    ] {
        let says_it = with(cdb, name).expect_err(name);
        assert!(says_it.starts_with("line 1: ") && says_it.ends_with(&says), "{says_it}");
    }
    let missing = with("2A0000000000000005", "missing.csv").expect_err("it is not there");
    assert!(missing.starts_with("line 1: ") && missing.contains("missing.csv: "), "{missing}");
    for cdb in ["2A0000000000000003", "AA000000000000000003"] {
        let parts = with(cdb, "readings.csv").expect("it fits");
        let Data::Bytes(bytes) = &command(&parts[0], 0).data else { panic!("a file's bytes") };
        assert_eq!(bytes.len(), 3 * cdb::SECTOR_BYTES);
    }
    let parts = with("AA000000000002000000", &endless).expect("it fits the command");
    assert_eq!(command(&parts[0], 0).data, Data::Zeros(1 << 36));
    fs::remove_file(endless).expect("it was there");
}

#[test]
fn scripts_are_ordinary_files_of_some_length() {
    let refused = |path: &Path| script::read(path).expect_err("no script");
    let endless = sparse(1 << 37);
    assert_eq!(refused(&endless), format!("{} has more bytes than any script", endless.display()));
    assert_eq!(refused(Path::new("/dev/zero")), "/dev/zero is no ordinary file");
    assert_eq!(refused(Path::new(".")), ". is no ordinary file");
    fs::remove_file(endless).expect("it was there");
}

/// What tools/trace makes of a script.
fn traced(text: &str) -> Output {
    let mut trace = Command::new(format!("{ROOT}/tools/trace"))
        .stdin(Stdio::piped())
        .stdout(Stdio::piped())
        .stderr(Stdio::piped())
        .spawn()
        .expect("tools/trace runs");
    trace.stdin.take().expect("piped").write_all(text.as_bytes()).expect("it reads");
    trace.wait_with_output().expect("it ends")
}

#[test]
fn a_script_that_cannot_be_read_makes_no_trace() {
    let folder = File::open(ROOT).expect("a folder opens, and cannot be read");
    let trace = Command::new(format!("{ROOT}/tools/trace")).stdin(folder).output();
    let refused = trace.expect("tools/trace runs");
    assert_eq!(refused.status.code(), Some(2));
    assert!(refused.stdout.is_empty());
    let says = String::from_utf8_lossy(&refused.stderr).into_owned();
    assert!(says.ends_with("trace: the script cannot be read\n"), "{says}");
}

/// The trace of command blocks: each after its mark.
fn trace_of(cdbs: &[Cdb]) -> Vec<u8> {
    cdbs.iter().flat_map(|cdb| [&[0xA5, 0x5A], &cdb[..]].concat()).collect()
}

#[test]
fn traces_are_made_of_the_same_cdbs() {
    let mut every_byte = String::new();
    for first in (0..=0xFF_u8).step_by(CDB_LENGTH) {
        let bytes = (first..=0xFF).take(CDB_LENGTH).map(|byte| format!("{byte:02x}"));
        every_byte += &format!("{}\n", bytes.collect::<Vec<_>>().join(" "));
    }
    let example = fs::read_to_string(format!("{SCRIPTS}/twelve-byte.txt")).expect("it is there");
    let commands: Vec<&str> = example.lines().filter(|line| !line.starts_with("disc")).collect();
    for text in [
        "2A 00 00000000 00 0014\n",
        "disc 300\n35 # flush\r\n\n 5B 00\t02",
        "2A000000000000000100FFFF data fill A1\n2A 00 00000001 00 0003 data file readings.csv\n",
        "AA 00 00000000 000012C0\nA8 00 00000000 000012C0 80 FF\nA8 00 FFFFFFFF FFFFFFFF\n",
        "aa 08 00000000 FFFFFFFF data fill A1\nAA0000000000000000030000 data file readings.csv\n",
        "survey 1000\n",
        "disc 300\n2A 00 00000000 00 0014\nsurvey 7 # 686 of them\n35\nsurvey +0999\n",
        "survey 1\nsurvey 4799\nsurvey 4800\nsurvey 2295104",
        "inquiry\nconfiguration\n00",
        "disc 300\nconfiguration 1\n configuration 2 002B # DVD+R\nconfiguration 0 1f\r\ninquiry",
        "configuration 3\nconfiguration 0 0\nconfiguration 2 FFFF\nconfiguration 2 10e",
        &every_byte,
        &commands.join("\n"),
    ] {
        let parts = parsed(text).expect("a good script");
        let made = traced(text);
        assert!(made.status.success() && made.stderr.is_empty(), "{text}");
        assert_eq!(made.stdout, trace_of(&cdbs(&parts[0])), "{text}");
    }
}

/// tools/trace refuses what a script cannot have, and what a trace cannot say, and writes nothing.
#[test]
fn traces_are_refused_by_line() {
    let one_disc = "a trace is replayed on one disc of 300 blocks";
    let other_length = "a trace has no data of another length than the command asks for";
    let no_trace = [
        ("disc 256\n00", format!("line 1: {one_disc}")),
        ("00\ndisc 300", format!("line 2: {one_disc}")),
        ("survey 1000\ndisc 300", format!("line 2: {one_disc}")),
        ("disc 480\nsurvey 1000", format!("line 1: {one_disc}")),
        ("00\n2A data length 7", format!("line 2: {other_length}")),
        ("AA 00 00000000 00000001 data length 2047", format!("line 1: {other_length}")),
        ("A8\nAA 00 00000000 FFFFFFFF data length 1", format!("line 2: {other_length}")),
        ("00 data fill 0000", "line 1: `fill` takes one byte in hexadecimal, not \"0000\"".into()),
        ("2A\0", no_word!(1, "2A?").into()),
    ];
    let no_cdbs = NO_CDBS.map(|(text, message)| (text, message.to_owned()));
    for (text, message) in no_cdbs.into_iter().chain(no_trace) {
        let refused = traced(text);
        assert_eq!(refused.status.code(), Some(2), "{text:?}");
        assert!(refused.stdout.is_empty(), "{text:?}");
        let says = String::from_utf8_lossy(&refused.stderr).into_owned();
        assert_eq!(says, format!("trace: {message}\n"), "{text:?}");
    }
}

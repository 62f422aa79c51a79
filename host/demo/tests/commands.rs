//! docs/COMMANDS.md is what the linked drive does: every example is played, every row of its table
//! of link refusals is tried, and every definition that it names is there.

use demo::{data_bytes, fragment_list, reply_bytes, Disc, Outcome};
use gladhamre::{
    cdb, raw, Lent, Refusal, State, BLOCK_BYTES, RECORD_LIMIT, SECTOR_BYTES, STATE_WORDS,
};
use mapped::Mapped;
use std::collections::BTreeSet;
use std::fs;
use std::path::{Path, PathBuf};

const ROOT: &str = concat!(env!("CARGO_MANIFEST_DIR"), "/../..");

fn manual() -> String {
    fs::read_to_string(format!("{ROOT}/docs/COMMANDS.md")).expect("the manual is there")
}

/// Plays the examples of a text, and gives it with what the drive answers in the lines `#>` and
/// `#=`.
struct Player {
    disc: Disc,
    text: String,
    /// Whether a command waits for its `#>`, and whether a list of fragments is written already.
    answer: Option<String>,
    listed: bool,
    answers: BTreeSet<String>,
}

impl Player {
    fn new() -> Player {
        let disc = blank(300);
        Player { disc, text: String::new(), answer: None, listed: false, answers: BTreeSet::new() }
    }

    fn line(&mut self, line: &str) {
        if line.starts_with("#> ") {
            let answer = self.answer.take().expect("a command stands before its answer");
            self.push(&format!("#> {answer}"));
        } else if line.starts_with("#= ") {
            if !self.listed {
                let list = fragment_list(&self.disc);
                list.iter().for_each(|fragment| self.push(&format!("#= {fragment}")));
            }
            self.listed = true;
        } else {
            assert!(self.answer.is_none(), "no answer stands before {line:?}");
            self.push(line);
            self.play(line);
        }
    }

    fn push(&mut self, line: &str) {
        self.text += line;
        self.text.push('\n');
    }

    fn play(&mut self, line: &str) {
        if let Some(capacity) = line.strip_prefix("disc ") {
            self.disc = blank(capacity.parse().expect("a capacity"));
            return;
        }
        let text = format!("disc {}\n{line}", self.disc.state.capacity());
        let parts = script::parse(&text, Path::new(ROOT)).expect("a line of a script");
        let command = parts[0].commands().next().expect("a line has one command");
        let data = data_bytes(&command.data, &command.cdb).expect("address space");
        let outcome = self.disc.send(&command.cdb, &data).expect("address space");
        self.answers.insert(name(&outcome.answer));
        self.answer = Some(told(&command.cdb, &outcome));
        self.listed = false;
    }
}

fn blank(capacity: u32) -> Disc {
    Disc::blank(capacity).expect("a capacity")
}

/// An answer as the manual writes it.
fn name<T>(answer: &Result<T, Refusal>) -> String {
    match answer {
        Ok(_) => "accepted".into(),
        Err(Refusal::Link(number)) => format!("L{number}"),
        Err(Refusal::Drive { key, code, qualifier }) => {
            format!("{key:X}/{code:02X}/{qualifier:02X}")
        }
    }
}

/// The answer, the blocks recorded and the reply.
fn told(cdb: &cdb::Cdb, outcome: &Outcome) -> String {
    let mut text = name(&outcome.answer);
    match outcome.answer.map_or(0, |accepted| accepted.recorded) {
        0 => {}
        1 => text += "; 1 block recorded",
        blocks => text += &format!("; {blocks} blocks recorded"),
    }
    match outcome.reply() {
        [] => {}
        reply if cdb::is_read(cdb) => text += &format!("; reply {}", sectors(reply)),
        reply => text += &format!("; reply {}", reply_bytes(reply)),
    }
    text
}

/// Sectors of one byte each, by runs.
fn sectors(reply: &[u8]) -> String {
    let bytes: Vec<u8> = reply
        .chunks(SECTOR_BYTES)
        .map(|sector| {
            assert!(sector.iter().all(|byte| *byte == sector[0]), "a sector of one byte");
            sector[0]
        })
        .collect();
    let run = |run: &[u8]| match run.len() {
        1 => format!("1 sector of {:02X}", run[0]),
        count => format!("{count} sectors of {:02X}", run[0]),
    };
    bytes.chunk_by(|one, next| one == next).map(run).collect::<Vec<_>>().join(", ")
}

/// The manual with what the drive answers, and the answers that came.
fn played(manual: &str) -> (String, BTreeSet<String>) {
    let mut text = String::new();
    let mut answers = BTreeSet::new();
    let mut example: Option<Player> = None;
    for line in manual.lines() {
        match (&mut example, line == "```") {
            (Some(player), true) => {
                assert!(player.answer.is_none(), "an example ends without its last answer");
                text += &player.text;
                answers.append(&mut player.answers);
                example = None;
            }
            (Some(player), false) => {
                player.line(line);
                continue;
            }
            (None, true) => example = Some(Player::new()),
            (None, false) => {}
        }
        text += line;
        text.push('\n');
    }
    assert!(example.is_none(), "the last example has no end");
    (text, answers)
}

#[test]
fn examples_are_what_the_drive_answers() {
    let manual = manual();
    let (right, answers) = played(&manual);
    if manual != right {
        let path = PathBuf::from(env!("CARGO_TARGET_TMPDIR")).join("COMMANDS.md");
        fs::write(&path, &right).expect("it is written");
        let differs = manual.lines().zip(right.lines()).find(|(is, should)| is != should);
        panic!("{differs:?}; with all of the drive's answers: {}", path.display());
    }
    for sense in refusals(&manual) {
        assert!(answers.contains(&sense), "no example gets {sense}");
    }
}

/// The senses of the manual's table of refusals, each with its number.
fn refusals(manual: &str) -> Vec<String> {
    let rows = manual.lines().filter_map(|line| line.strip_prefix("| ")?.split_once(" | 0"));
    let senses: Vec<String> = rows
        .filter(|(sense, _)| sense.contains('/'))
        .map(|(sense, rest)| {
            let number = format!("0{}", &rest[..5]);
            assert_eq!(format!("0{}", sense.replace('/', "")), number, "{sense}");
            sense.to_owned()
        })
        .collect();
    assert_eq!(senses.len(), 10);
    senses
}

/// The cells of the table that follows a heading line.
fn table<'a>(manual: &'a str, heading: &str) -> Vec<Vec<&'a str>> {
    manual
        .lines()
        .skip_while(|line| *line != heading)
        .skip(2)
        .take_while(|line| line.starts_with('|'))
        .map(|line| line.trim_matches('|').split('|').map(str::trim).collect())
        .collect()
}

/// What is lent for one command on the blank disc of 256 blocks.
struct Buffers {
    cdb: Vec<u8>,
    data: Mapped,
    state: Vec<u32>,
    medium: Vec<u8>,
    pending: Vec<u8>,
    reply: Mapped,
}

fn zeros(length: usize) -> Mapped {
    Mapped::zeros(length).expect("address space")
}

impl Buffers {
    fn fitting(cdb: cdb::Cdb) -> Buffers {
        Buffers {
            cdb: cdb.to_vec(),
            data: zeros(cdb::data_length(&cdb)),
            state: State::blank(256).expect("a capacity").words().to_vec(),
            medium: vec![0; 256 * BLOCK_BYTES],
            pending: vec![0; BLOCK_BYTES],
            reply: zeros(cdb::reply_room(&cdb)),
        }
    }

    fn answer(mut self) -> String {
        let answer = raw::command(
            &mut self.state,
            Lent {
                cdb: &self.cdb,
                data: &self.data,
                medium: &mut self.medium,
                pending: &mut self.pending,
                reply: &mut self.reply,
            },
        );
        name(&Refusal::from_number(answer.number).map_or(Ok(()), Err))
    }
}

/// The command that a row of the table speaks of.
fn command_of(row: &str) -> cdb::Cdb {
    match row {
        row if row.contains("WRITE of 1") => cdb::write(0, 1),
        row if row.contains("READ of 1") => cdb::read(0, 1),
        row if row.contains("WRITE (12) of 2,097,152") => cdb::write_12(0, 2_097_152),
        row if row.contains("WRITE (12) of 4,294,967,295") => cdb::write_12(0, u32::MAX),
        row if row.contains("READ (12) of 4,294,967,295") => cdb::read_12(0, u32::MAX),
        row if row.contains("READ DISC INFORMATION of data type 1") => {
            let mut cdb = cdb::read_disc_information(34);
            cdb[1] = 1;
            cdb
        }
        row if row.contains("the page bit") => {
            let mut cdb = cdb::inquiry(36);
            cdb[1] = cdb::PAGE_BIT;
            cdb
        }
        row if row.contains("INQUIRY of 36") => cdb::inquiry(36),
        row if row.contains("of type 3") => cdb::get_configuration(3, 0, u16::MAX),
        row if row.contains("GET CONFIGURATION of 65,535") => {
            cdb::get_configuration(cdb::ALL_FEATURES, 0, u16::MAX)
        }
        row if row.contains("opcode 4Ah") => cdb::opcode_only(0x4A),
        _ => cdb::opcode_only(cdb::TEST_UNIT_READY),
    }
}

/// The number in a row between these words and its last ones.
fn counted(row: &str, before: &str, last: &str) -> Option<usize> {
    row.split_once(before)?.1.strip_suffix(last)?.replace(',', "").parse().ok()
}

/// The buffers that it is lent there.
fn lent(row: &str) -> Buffers {
    let mut lent = Buffers::fitting(command_of(row));
    if let Some(length) = counted(row, " with ", " bytes of data") {
        lent.data = zeros(length);
        return lent;
    }
    if let Some(length) = counted(row, " with a reply buffer of ", " bytes") {
        lent.reply = zeros(length);
        return lent;
    }
    match row {
        "a command block of 10 bytes" => lent.cdb.truncate(10),
        "a command block of 10 bytes and no pending buffer" => {
            lent.cdb.truncate(10);
            lent.pending.clear();
        }
        "a medium of one block less" => lent.medium.truncate(255 * BLOCK_BYTES),
        "a pending buffer of 2,048 bytes" => lent.pending.truncate(SECTOR_BYTES),
        "a state whose C is 255" => lent.state[0] = 255,
        "a state one word short" => lent.state.truncate(STATE_WORDS - 1),
        "a state whose first record starts at block 1" => lent.state[8] = 1,
        "a state with the sense 5/21/01" => lent.state[2..5].copy_from_slice(&[0x5, 0x21, 0x01]),
        row if row.ends_with(" with one byte of data") => lent.data = zeros(1),
        row if row.ends_with(" without data") => lent.data = zeros(0),
        row if row.ends_with(" without a reply buffer") => lent.reply = zeros(0),
        _ => panic!("{row:?} is not tried"),
    }
    lent
}

#[test]
fn link_refusals_are_what_the_drive_answers() {
    let manual = manual();
    let rows = table(&manual, "| Lent | Answer |");
    assert_eq!(rows.len(), 24);
    for row in rows {
        assert_eq!(lent(row[0]).answer(), row[1], "{}", row[0]);
    }
}

/// The descriptors of the manual's table of features are those that the drive sends, in its order.
#[test]
fn features_are_what_the_drive_sends() {
    let manual = manual();
    let rows = table(&manual, "| Feature | Its name | Its descriptor | What it says |");
    let byte = |digits: &str| u8::from_str_radix(digits, 16).expect("a byte");
    let descriptors: Vec<Vec<u8>> =
        rows.iter().map(|row| row[2].split(' ').map(byte).collect()).collect();
    for (row, descriptor) in rows.iter().zip(&descriptors) {
        let number = u16::from_be_bytes([descriptor[0], descriptor[1]]);
        assert_eq!(row[0], format!("{number:04X}h"));
        assert_eq!(descriptor.len(), 4 + usize::from(descriptor[3]), "{}", row[1]);
    }
    let all = cdb::get_configuration(cdb::ALL_FEATURES, 0, u16::MAX);
    let outcome = blank(256).send(&all, &[]).expect("memory");
    assert_eq!(outcome.reply()[cdb::CONFIGURATION_HEADER_LENGTH..], descriptors.concat());
}

/// The manual's table of numbers has those of the linked drive and its wrapper.
#[test]
fn numbers_are_the_drives() {
    let manual = manual();
    let rows = table(&manual, "| What | How much | Definition |");
    let number = |what: &str| {
        let row = rows.iter().find(|row| row[0] == what).unwrap_or_else(|| panic!("{what}"));
        row[1].replace(',', "")
    };
    for (what, is) in [
        ("bytes of a command block", cdb::CDB_LENGTH.to_string()),
        ("bytes of a sector", SECTOR_BYTES.to_string()),
        ("sectors of a block", (BLOCK_BYTES / SECTOR_BYTES).to_string()),
        ("bytes of a block, and of the pending buffer", BLOCK_BYTES.to_string()),
        ("records, the tail's included", RECORD_LIMIT.to_string()),
        ("longest READ and WRITE by 28h and 2Ah", format!("{} sectors", u16::MAX)),
        ("longest READ and WRITE by A8h and AAh", format!("{} sectors", u32::MAX)),
        ("most bytes that a READ or WRITE asks for", cdb::LONGEST_DATA.to_string()),
    ] {
        assert_eq!(number(what), is, "{what}");
    }
    assert!(number("words of the state image").starts_with(&format!("{STATE_WORDS} ")));
    let capacities = number("blocks of a disc");
    let (least, most) = capacities.split_once(" to ").expect("two numbers");
    let is_capacity = |blocks: u32| State::blank(blocks).is_ok();
    let (least, most): (u32, u32) = (least.parse().expect("one"), most.parse().expect("one"));
    assert!(!is_capacity(least - 1) && is_capacity(least));
    assert!(is_capacity(most) && !is_capacity(most + 1));
}

/// The names of the definitions in the crates' specs/.
fn definitions() -> BTreeSet<String> {
    let mut names = BTreeSet::new();
    for folder in fs::read_dir(format!("{ROOT}/crates")).expect("the crates are there") {
        let Ok(files) = fs::read_dir(folder.expect("an entry").path().join("specs")) else {
            continue;
        };
        for file in files {
            let text = fs::read_to_string(file.expect("an entry").path()).expect("text");
            for line in text.lines().filter(|line| !line.starts_with(' ')) {
                let declared = line.split_once("pub ").and_then(|(_, rest)| rest.split_once(" :"));
                names.extend(declared.map(|(name, _)| name.to_owned()));
            }
        }
    }
    names
}

#[test]
fn definitions_are_there() {
    let definitions = definitions();
    let manual = manual();
    let prose = manual.lines().filter(|line| !line.starts_with("#> ") && !line.contains("```"));
    let mut named = 0;
    for line in prose {
        for name in line.split('`').skip(1).step_by(2) {
            let is_name = name.chars().all(|sign| sign.is_alphanumeric() || sign == '_');
            assert!(!is_name || definitions.contains(name), "{name} is no definition: {line}");
            named += usize::from(is_name);
        }
    }
    assert!(named > 100, "{named} definitions are named");
}

/// The opcodes that a chapter's heading names, as `## 28h READ, A8h READ (12)`.
fn opcodes(heading: &str) -> Vec<u8> {
    heading
        .split(", ")
        .filter_map(|name| u8::from_str_radix(name.split_once("h ")?.0, 16).ok())
        .collect()
}

/// Every command has its chapter, and no other has. They stand in the order of their opcodes, the two
/// forms of a command in one.
#[test]
fn commands_are_all_there() {
    let manual = manual();
    let chapters: Vec<Vec<u8>> = manual
        .lines()
        .filter_map(|line| line.strip_prefix("## "))
        .map(opcodes)
        .filter(|opcodes| !opcodes.is_empty())
        .collect();
    assert!(chapters.is_sorted());
    let mut all = chapters.concat();
    all.sort();
    assert_eq!(all, cdb::OPCODES);
}

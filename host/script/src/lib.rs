//! A script of commands: a line for each, the command block in hexadecimal and where its data comes
//! from, or a word for it, or one for all commands of a survey. host/README.md describes the format,
//! which tools/trace reads too.
//!
//! Nothing here needs the linked drive, so a script is looked at before that is built.

#![forbid(unsafe_code)]

mod questions;
mod survey;

pub use survey::Survey;

use cdb::{Cdb, CDB_LENGTH, SECTOR_BYTES};
use std::fmt;
use std::fs::{self, File};
use std::io::Read;
use std::path::Path;

/// The capacities of a disc, in blocks.
pub const SMALLEST_CAPACITY: u32 = 256;
pub const LARGEST_CAPACITY: u32 = 143_444;

/// The capacity of a script that names none.
const CAPACITY: u32 = 300;

/// Sectors and bytes of a block.
const BLOCK_SECTORS: u32 = 16;
const BLOCK_BYTES: usize = BLOCK_SECTORS as usize * SECTOR_BYTES;

/// No script has more bytes.
const LONGEST_SCRIPT: usize = 16 << 20;

/// What is asked of the drive from a blank disc on.
#[derive(Debug)]
pub struct Part {
    pub capacity: u32,
    pub lines: Vec<Line>,
}

impl Part {
    fn blank(capacity: u32) -> Part {
        Part { capacity, lines: Vec::new() }
    }

    /// The lines of one command each.
    pub fn commands(&self) -> impl Iterator<Item = &Command> {
        self.lines.iter().filter_map(|line| match line {
            Line::Command(command) => Some(command),
            Line::Survey(_) => None,
        })
    }
}

/// What a line asks of the drive.
#[derive(Debug)]
pub enum Line {
    Command(Command),
    Survey(Survey),
}

impl Line {
    /// A command that takes no data.
    fn without_data(cdb: Cdb) -> Line {
        Line::Command(Command { cdb, data: Data::Stamp })
    }
}

/// One command.
#[derive(Debug)]
pub struct Command {
    pub cdb: Cdb,
    pub data: Data,
}

/// The data that goes with a command.
#[derive(Clone, Debug, PartialEq, Eq)]
pub enum Data {
    /// As much as the command asks for; every sector tells its address.
    Stamp,
    /// As much as the command asks for, of one byte.
    Fill(u8),
    /// So many zeros: a length that the script names, or in place of bytes that nobody looks at.
    Zeros(usize),
    /// These bytes.
    Bytes(Vec<u8>),
}

/// What is wrong with a script, and in which line, from 1.
#[derive(Debug, PartialEq, Eq)]
pub struct ScriptError {
    pub line: usize,
    pub message: String,
}

impl fmt::Display for ScriptError {
    fn fmt(&self, out: &mut fmt::Formatter) -> fmt::Result {
        write!(out, "line {}: {}", self.line, self.message)
    }
}

/// The script in a file. An error begins with the file's name.
pub fn read(path: &Path) -> Result<Vec<Part>, String> {
    let bytes = read_at_most(path, LONGEST_SCRIPT)?
        .ok_or_else(|| format!("{} has more bytes than any script", path.display()))?;
    let folder = path.parent().unwrap_or(Path::new(""));
    parse(&String::from_utf8_lossy(&bytes), folder)
        .map_err(|error| format!("{}: {error}", path.display()))
}

/// The parts of a script, one for each disc. Files that it names are found from the folder given.
pub fn parse(text: &str, folder: &Path) -> Result<Vec<Part>, ScriptError> {
    let mut parts: Vec<Part> = Vec::new();
    for (index, line) in text.lines().enumerate() {
        let at = |message: String| ScriptError { line: index + 1, message };
        let words: Vec<&str> =
            line.split('#').next().unwrap_or_default().split_ascii_whitespace().collect();
        match words.as_slice() {
            [] => {}
            ["disc", rest @ ..] => parts.push(blank_disc(rest).map_err(at)?),
            words => {
                if parts.is_empty() {
                    parts.push(Part::blank(CAPACITY));
                }
                let part = parts.last_mut().expect("there is one now");
                part.lines.push(asked(words, folder, part.capacity).map_err(at)?);
            }
        }
    }
    match parts.iter().any(|part| !part.lines.is_empty()) {
        true => Ok(parts),
        false => {
            let line = text.lines().count().max(1);
            Err(ScriptError { line, message: "the script has no command".into() })
        }
    }
}

/// `disc BLOCKS`: a new blank disc.
fn blank_disc(words: &[&str]) -> Result<Part, String> {
    let [word] = words else {
        return Err("write `disc` and the number of blocks".into());
    };
    let capacity = word.parse().map_err(|_| format!("{word:?} is not a number of blocks"))?;
    if !(SMALLEST_CAPACITY..=LARGEST_CAPACITY).contains(&capacity) {
        return Err(format!(
            "a disc has {SMALLEST_CAPACITY} to {LARGEST_CAPACITY} blocks, this one {capacity}"
        ));
    }
    Ok(Part::blank(capacity))
}

/// What is asked of a disc of this capacity.
fn asked(words: &[&str], folder: &Path, capacity: u32) -> Result<Line, String> {
    match words {
        ["survey", rest @ ..] => Survey::of(rest, capacity).map(Line::Survey),
        ["inquiry", rest @ ..] => questions::inquiry(rest).map(Line::without_data),
        ["configuration", rest @ ..] => questions::configuration(rest).map(Line::without_data),
        _ => command(words, folder, capacity).map(Line::Command),
    }
}

/// A command for a disc of this capacity.
fn command(words: &[&str], folder: &Path, capacity: u32) -> Result<Command, String> {
    let end = words.iter().position(|&word| word == "data").unwrap_or(words.len());
    let cdb = cdb(&words[..end])?;
    let source = words.get(end + 1..).unwrap_or(&["stamp"]);
    let data = data(source, cdb::data_length(&cdb), folder, capacity as usize * BLOCK_BYTES)?;
    Ok(Command { cdb, data })
}

/// Bytes in hexadecimal, apart or not; those missing at the end are zero.
fn cdb(words: &[&str]) -> Result<Cdb, String> {
    let mut bytes = Vec::new();
    for word in words {
        bytes.extend(hex_bytes(word)?);
    }
    let count = bytes.len();
    if !(1..=CDB_LENGTH).contains(&count) {
        return Err(format!("a command block has 1 to {CDB_LENGTH} bytes, this one {count}"));
    }
    let mut cdb = [0; CDB_LENGTH];
    cdb[..count].copy_from_slice(&bytes);
    Ok(cdb)
}

fn hex_bytes(word: &str) -> Result<Vec<u8>, String> {
    let digits: Option<Vec<u8>> =
        word.chars().map(|digit| digit.to_digit(16).map(|value| value as u8)).collect();
    let digits = digits.ok_or_else(|| {
        format!(
            "\"{word}\" is neither bytes in hexadecimal nor one of the words `disc`, `survey`, \
             `inquiry`, `configuration` and `data`"
        )
    })?;
    if digits.len() % 2 != 0 {
        return Err(format!("\"{word}\" has an odd number of hexadecimal digits"));
    }
    Ok(digits.chunks(2).map(|pair| 16 * pair[0] + pair[1]).collect())
}

/// Where data comes from, for a command that asks for so many bytes and a disc that holds so many.
/// A WRITE of more than the disc holds is refused, and its bytes are never looked at: zeros of that
/// length take their place, since it may ask for terabytes.
fn data(words: &[&str], asked: usize, folder: &Path, holds: usize) -> Result<Data, String> {
    let data = match words {
        ["stamp"] => Data::Stamp,
        ["fill", byte] => match hex_bytes(byte).as_deref() {
            Ok([byte]) => Data::Fill(*byte),
            _ => return Err(format!("`fill` takes one byte in hexadecimal, not {byte:?}")),
        },
        ["length", count] => return length(count),
        ["file", name] => file(&folder.join(name), asked, holds)?,
        _ => return Err("data is `stamp`, `fill BYTE`, `file NAME` or `length COUNT`".into()),
    };
    Ok(if asked > holds { Data::Zeros(asked) } else { data })
}

/// Zeros of a length of the script's own.
fn length(count: &str) -> Result<Data, String> {
    let bytes = count.parse().map_err(|_| format!("{count:?} is not a number of bytes"))?;
    if bytes > cdb::LONGEST_DATA {
        return Err(format!("no command takes {bytes} bytes of data"));
    }
    Ok(Data::Zeros(bytes))
}

/// A file's bytes, its last sector filled up with zeros. It is read only if it has the sectors that
/// the command takes, and the disc holds them.
fn file(path: &Path, asked: usize, holds: usize) -> Result<Data, String> {
    let wanted = asked / SECTOR_BYTES;
    let found = sectors_of(length_of(path)?);
    if found != wanted {
        let (path, has) = (path.display(), sectors(found));
        return Err(format!("{path} has {has}, the command takes {wanted}"));
    }
    if asked > holds {
        return Ok(Data::Zeros(asked));
    }
    let bytes = read_at_most(path, asked)?.filter(|bytes| sectors_of(bytes.len()) == wanted);
    let mut bytes = bytes.ok_or_else(|| format!("{} changes while it is read", path.display()))?;
    bytes.resize(asked, 0);
    Ok(Data::Bytes(bytes))
}

/// How many sectors so many bytes begin.
fn sectors_of(bytes: usize) -> usize {
    bytes.div_ceil(SECTOR_BYTES)
}

fn sectors(count: usize) -> String {
    match count {
        1 => "1 sector".into(),
        _ => format!("{count} sectors"),
    }
}

/// The length of an ordinary file. A pipe or a device is refused: opening it may wait for ever, and
/// what it gives once it does not give again when the script is played.
fn length_of(path: &Path) -> Result<usize, String> {
    let metadata = fs::metadata(path).map_err(|error| format!("{}: {error}", path.display()))?;
    if !metadata.is_file() {
        return Err(format!("{} is no ordinary file", path.display()));
    }
    Ok(metadata.len() as usize)
}

/// An ordinary file's bytes, or nothing where it has more than so many.
fn read_at_most(path: &Path, limit: usize) -> Result<Option<Vec<u8>>, String> {
    if length_of(path)? > limit {
        return Ok(None);
    }
    let named = |error| format!("{}: {error}", path.display());
    let file = File::open(path).map_err(named)?;
    let mut bytes = Vec::new();
    file.take(limit as u64 + 1).read_to_end(&mut bytes).map_err(named)?;
    Ok((bytes.len() <= limit).then_some(bytes))
}

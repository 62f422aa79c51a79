//! Runs of commands, with or without documented answers, played on a disc and shown as a table.

use crate::disc::{zeros, Disc, Outcome};
use crate::fragments::tail_next;
use crate::{survey, table, words};
use gladhamre::cdb::{self, Cdb};
use gladhamre::{Record, Refusal, SECTOR_BYTES};
use mapped::Mapped;
use script::{Command, Data, Part, Survey};
use std::io::{self, Write};

/// Commands from a blank disc on.
pub struct Run {
    pub title: String,
    pub capacity: u32,
    pub lines: Vec<Line>,
    /// Whether a map of the disc is wanted.
    pub mapped: bool,
}

impl Run {
    /// A part of a script, with a map.
    pub fn of_part(part: Part) -> Run {
        let lines = part.lines.into_iter().map(Line::from).collect();
        let title = format!("A disc of {} blocks", part.capacity);
        Run { title, capacity: part.capacity, lines, mapped: true }
    }
}

/// A line of a run.
pub enum Line {
    /// A command, with what is documented of it.
    Command {
        command: Command,
        expected: Option<Expected>,
    },
    Survey(Survey),
}

impl From<script::Line> for Line {
    fn from(line: script::Line) -> Line {
        match line {
            script::Line::Command(command) => Line::Command { command, expected: None },
            script::Line::Survey(survey) => Line::Survey(survey),
        }
    }
}

/// The bytes that go with a command.
pub fn data_bytes(data: &Data, cdb: &Cdb) -> io::Result<Mapped> {
    let mut bytes = zeros(match data {
        Data::Stamp | Data::Fill(_) => cdb::data_length(cdb),
        Data::Zeros(count) => *count,
        Data::Bytes(bytes) => bytes.len(),
    })?;
    match data {
        Data::Stamp => stamp(&mut bytes, cdb::value(cdb)),
        Data::Fill(byte) => bytes.fill(*byte),
        Data::Zeros(_) => {}
        Data::Bytes(from) => bytes.copy_from_slice(from),
    }
    Ok(bytes)
}

/// Sectors that say their addresses over and over.
pub fn stamped(address: u32, sectors: usize) -> Vec<u8> {
    let mut bytes = vec![0; sectors * SECTOR_BYTES];
    stamp(&mut bytes, address);
    bytes
}

/// Stamps the sectors from an address on, also past the last that a command block can name.
fn stamp(bytes: &mut [u8], first: u32) {
    for (sector, address) in bytes.chunks_mut(SECTOR_BYTES).zip(u64::from(first)..) {
        let text = format!("sector {address:>8}\n").into_bytes();
        for line in sector.chunks_mut(text.len()) {
            line.copy_from_slice(&text[..line.len()]);
        }
    }
}

/// What document 01 says of a command.
#[derive(Clone, Debug)]
pub struct Expected {
    /// 0 if accepted, else the refusal's number.
    pub number: u32,
    /// Blocks recorded.
    pub recorded: u64,
    pub reply: Vec<u8>,
    /// The tail's next writable address.
    pub next: Option<u32>,
    /// Pending sectors.
    pub pending: u32,
    pub list: Vec<Record>,
}

impl Expected {
    /// Everything that is not as documented, in words.
    pub fn differences(&self, outcome: &Outcome, disc: &Disc) -> Vec<String> {
        let mut found = Vec::new();
        let mut compare = |what: &str, is: String, should: String| {
            if is != should {
                found.push(format!("{what} {is}, documented {should}"));
            }
        };
        let number = outcome.answer.map_or_else(number_of, |_| 0);
        compare("answer", format!("{number:06X}"), format!("{:06X}", self.number));
        let recorded = outcome.answer.map_or(0, |accepted| accepted.recorded);
        compare("blocks recorded", recorded.to_string(), self.recorded.to_string());
        let sense = [self.number >> 16, self.number >> 8 & 0xFF, self.number & 0xFF];
        compare("sense", words::sense(disc.state.sense()), words::sense(sense));
        compare("next", words::next(tail_next(&disc.state)), words::next(self.next));
        compare("pending", disc.state.pending_count().to_string(), self.pending.to_string());
        let list: Vec<Record> = disc.state.records().collect();
        compare("list", words::list(&list), words::list(&self.list));
        let reply = outcome.reply();
        if reply != self.reply {
            found.push(format!(
                "reply of {} bytes, documented {} bytes{}",
                reply.len(),
                self.reply.len(),
                first_difference(reply, &self.reply)
            ));
        }
        found
    }
}

fn number_of(refusal: Refusal) -> u32 {
    match refusal {
        Refusal::Link(number) => number.into(),
        Refusal::Drive { key, code, qualifier } => u32::from_be_bytes([0, key, code, qualifier]),
    }
}

fn first_difference(is: &[u8], should: &[u8]) -> String {
    match is.iter().zip(should).position(|(is, should)| is != should) {
        Some(at) => format!(", the first other byte at {at}"),
        None => String::new(),
    }
}

/// Plays a run on a blank disc and prints its table. Gives the disc, and how many answers are not as
/// documented. An error names the command for which the system has no buffer.
pub fn play(run: &Run, out: &mut impl Write) -> io::Result<(Disc, usize)> {
    let mut disc = Disc::blank(run.capacity)
        .map_err(|_| io::Error::other(format!("no disc has {} blocks", run.capacity)))?;
    let mut wrong = 0;
    writeln!(out, "\n{}\n", run.title)?;
    table::heading(out)?;
    for (line, number) in run.lines.iter().zip(1..) {
        let (command, expected) = match line {
            Line::Command { command, expected } => (command, expected),
            Line::Survey(survey) => {
                survey::play(survey, &mut disc, out, number)?;
                continue;
            }
        };
        let before = disc.state.clone();
        let sent =
            data_bytes(&command.data, &command.cdb).and_then(|data| disc.send(&command.cdb, &data));
        let outcome = sent.map_err(|error| {
            io::Error::other(format!("{}, command {number}: {error}", run.title))
        })?;
        let differences = expected.as_ref().map(|e| e.differences(&outcome, &disc));
        wrong += usize::from(differences.as_ref().is_some_and(|found| !found.is_empty()));
        let command = table::Command { cdb: &command.cdb, outcome: &outcome, before: &before };
        table::row(out, number, &command, &disc, differences.as_deref())?;
    }
    Ok((disc, wrong))
}

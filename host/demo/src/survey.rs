//! A survey in the table: a line for all of it, and a row for each answer with the addresses that got
//! it one after another.

use crate::disc::Disc;
use crate::list::count;
use crate::table::LEFT;
use crate::track::Track;
use crate::words;
use gladhamre::cdb::{self, FRAGMENT_INFORMATION_LENGTH};
use gladhamre::Refusal;
use script::Survey;
use std::fmt::Display;
use std::io::{self, Write};

type Reply = [u8; FRAGMENT_INFORMATION_LENGTH];

/// Addresses that were asked for one after another, and got the same answer.
struct Row {
    first: u32,
    last: u32,
    commands: usize,
    answer: Result<Reply, Refusal>,
}

/// Asks the drive for every address, and prints its answers under the line of this number.
pub fn play(
    survey: &Survey,
    disc: &mut Disc,
    out: &mut impl Write,
    number: usize,
) -> io::Result<()> {
    let rows = ask(survey, disc);
    let (accepted, refused): (Vec<&Row>, Vec<&Row>) =
        rows.iter().partition(|row| row.answer.is_ok());
    let [accepted, refused] = [accepted, refused].map(commands);
    let command = format!("READ TRACK INFORMATION, every {}", survey.step);
    let sent = count(accepted + refused, "command");
    writeln!(out, "{number:>3}  {command:<LEFT$} {sent}: {accepted} accepted, {refused} refused")?;
    let heading = told([&"fragment", &"session", &"first sector", &"last sector"]);
    line(out, "addresses", "commands", &heading)?;
    rows.iter().try_for_each(|row| row.print(out))
}

fn ask(survey: &Survey, disc: &mut Disc) -> Vec<Row> {
    let mut rows: Vec<Row> = Vec::new();
    for cdb in survey.cdbs() {
        let address = cdb::value(&cdb);
        let mut reply = [0; FRAGMENT_INFORMATION_LENGTH];
        let answer = disc.send_with(&cdb, &[], &mut reply).map(|_| reply);
        match rows.last_mut() {
            Some(row) if row.answer == answer => {
                row.last = address;
                row.commands += 1;
            }
            _ => rows.push(Row { first: address, last: address, commands: 1, answer }),
        }
    }
    rows
}

/// How many commands rows stand for.
fn commands(rows: Vec<&Row>) -> usize {
    rows.iter().map(|row| row.commands).sum()
}

impl Row {
    fn print(&self, out: &mut impl Write) -> io::Result<()> {
        let addresses = match self.first == self.last {
            true => self.first.to_string(),
            false => format!("{} to {}", self.first, self.last),
        };
        let answer = match &self.answer {
            Ok(reply) => {
                let track = Track::of(reply);
                told([&track.number, &track.session, &track.first, &track.last()])
            }
            Err(refusal) => words::refusal(*refusal),
        };
        line(out, &addresses, &self.commands.to_string(), &answer)
    }
}

/// What is told of a fragment.
fn told([number, session, first, last]: [&dyn Display; 4]) -> String {
    format!("{number:>8}  {session:>7}  {first:>12}  {last:>11}")
}

fn line(out: &mut impl Write, addresses: &str, commands: &str, answer: &str) -> io::Result<()> {
    let left = format!("{addresses:<26}  {commands:>8}");
    writeln!(out, "     {left:<LEFT$} {answer}")
}

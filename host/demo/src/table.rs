//! The table: a line for each command with its answer, under it the command's bytes and the list of
//! fragments that it leaves, or what it changed of a long one.

use crate::disc::{Disc, Outcome};
use crate::fragments::{next_writable, pending_in, tail_next};
use crate::{list, words};
use gladhamre::cdb::Cdb;
use gladhamre::{Refusal, State};
use std::io::{self, Write};

/// Width of the part that names the command.
pub const LEFT: usize = 38;

/// The most fragments of a list that is shown whole.
const SHORT_LIST: usize = 8;

/// The heading, of two lines as a row is.
pub fn heading(out: &mut impl Write) -> io::Result<()> {
    line(out, "no", "command", ["answer", "sense", "next", "blocks"], "")?;
    writeln!(out, "     {:<LEFT$} fragments after it", "its bytes")?;
    writeln!(out, "{}", "-".repeat(LEFT + 70))
}

/// One command, with its answer and the state before it.
pub struct Command<'a> {
    pub cdb: &'a Cdb,
    pub outcome: &'a Outcome,
    pub before: &'a State,
}

/// One command. Without documented answers there are no differences to show.
pub fn row(
    out: &mut impl Write,
    number: usize,
    command: &Command,
    disc: &Disc,
    differences: Option<&[String]>,
) -> io::Result<()> {
    let Command { cdb, outcome, before } = command;
    let recorded = outcome.answer.map_or(0, |accepted| accepted.recorded);
    let cells = [
        &*words::answer(&outcome.answer),
        &words::sense(disc.state.sense()),
        &words::next(tail_next(&disc.state)),
        &recorded.to_string(),
    ];
    let mark = match differences {
        None => "",
        Some([]) => "  ok",
        Some(_) => "  WRONG",
    };
    line(out, &number.to_string(), &words::command(cdb), cells, mark)?;
    for (left, right) in pairs(&lower_left(cdb, outcome), &shown_list(disc, before)) {
        writeln!(out, "{}", format!("     {left:<LEFT$} {right}").trim_end())?;
    }
    for difference in differences.unwrap_or_default() {
        writeln!(out, "     NOT AS DOCUMENTED: {difference}")?;
    }
    words::reply(cdb, outcome.reply()).iter().try_for_each(|text| writeln!(out, "     {text}"))
}

fn line(
    out: &mut impl Write,
    number: &str,
    command: &str,
    [answer, sense, next, blocks]: [&str; 4],
    mark: &str,
) -> io::Result<()> {
    let text = format!(
        "{number:>3}  {command:<LEFT$} {answer:<9} {sense:<36} {next:>6} {blocks:>6}{mark}"
    );
    writeln!(out, "{}", text.trim_end())
}

/// The command's bytes, and why the link refused it.
fn lower_left(cdb: &Cdb, outcome: &Outcome) -> Vec<String> {
    let mut lines = vec![words::hex(cdb)];
    if let Err(Refusal::Link(number)) = outcome.answer {
        lines.push(words::link_refusal(number).into());
    }
    lines
}

/// The list of fragments, a line for each, and whether the disc is finalized.
pub fn fragment_list(disc: &Disc) -> Vec<String> {
    let fragments = 0..disc.state.records().count();
    let mut lines: Vec<String> = fragments.map(|index| fragment_line(disc, index)).collect();
    lines.extend(finalized(disc));
    lines
}

/// The same for a short list. Of a long one the fragments that the command changed and the last one;
/// the others are counted.
fn shown_list(disc: &Disc, before: &State) -> Vec<String> {
    let count = disc.state.records().count();
    if count <= SHORT_LIST {
        return fragment_list(disc);
    }
    let as_before = |index: usize| {
        before.record(index) == disc.state.record(index)
            && pending_in(before, index) == pending_in(&disc.state, index)
    };
    let shown: Vec<usize> =
        (0..count).filter(|&index| index + 1 == count || !as_before(index)).collect();
    let mut lines = Vec::new();
    if shown.len() < count {
        lines.push(format!("{} as before it", list::count(count - shown.len(), "fragment")));
    }
    lines.extend(shown.into_iter().map(|index| fragment_line(disc, index)));
    lines.extend(finalized(disc));
    lines
}

fn fragment_line(disc: &Disc, index: usize) -> String {
    let pending = pending_in(&disc.state, index);
    let next = next_writable(&disc.state, index);
    words::fragment(index + 1, &disc.state.record(index), pending, next)
}

fn finalized(disc: &Disc) -> Option<String> {
    (disc.state.finalized() != 0).then(|| "finalized".into())
}

/// Both columns side by side, the shorter one filled up.
fn pairs<'a>(left: &'a [String], right: &'a [String]) -> impl Iterator<Item = (&'a str, &'a str)> {
    let at = |column: &'a [String], index: usize| column.get(index).map_or("", String::as_str);
    (0..left.len().max(right.len())).map(move |index| (at(left, index), at(right, index)))
}

//! What a map says in words: the disc in a few lines, its fragments with their bounds, and the runs
//! of zero-filled sectors. The text and the image have the same lines.

use crate::fragments::{
    end, is_complete, kind, next_writable, pending_in, recorded_end, BLOCK_SECTORS,
};
use crate::map::{Map, Sector};
use crate::words;
use gladhamre::{Record, RECORD_LIMIT};

/// Runs of zero-filled sectors that are listed, and how many to a line.
const RUNS: usize = 48;
const RUNS_TO_A_LINE: usize = 6;

/// Digits of a fragment's number.
const DIGITS: usize = RECORD_LIMIT.ilog10() as usize + 1;

/// Next writable addresses that the summary has room for.
const ADDRESSES: usize = 6;

/// The disc as a whole.
pub fn summary(map: &Map) -> Vec<String> {
    let state = &map.state;
    let records: Vec<Record> = state.records().collect();
    let sessions = records.last().map_or(0, |last| last.session);
    let blocks: u32 = records.iter().map(|record| record.recorded).sum();
    let status = match state.finalized() {
        0 => format!("open, session {sessions} is the last one"),
        _ => format!("finalized, with {}", count(sessions as usize, "session")),
    };
    vec![
        format!(
            "{} blocks, sectors 0 to {}; {status}; {} of at most {RECORD_LIMIT}",
            state.capacity(),
            BLOCK_SECTORS * state.capacity() - 1,
            count(records.len(), "fragment")
        ),
        format!(
            "{} recorded, {} of them zero-filled; {} pending; next writable addresses: {}",
            count(blocks as usize, "block"),
            count(map.sectors(Sector::ZeroFilled), "sector"),
            count(map.sectors(Sector::Pending), "sector"),
            next_writables(map)
        ),
    ]
}

/// So many of something.
pub fn count(number: usize, what: &str) -> String {
    match number {
        1 => format!("1 {what}"),
        _ => format!("{number} {what}s"),
    }
}

/// Those of the incomplete fragments; the list of fragments has all of them.
fn next_writables(map: &Map) -> String {
    let fragments = 0..map.state.records().count();
    let addresses: Vec<String> = fragments
        .filter_map(|index| next_writable(&map.state, index))
        .map(|address| address.to_string())
        .collect();
    match addresses.len() {
        0 => "none".into(),
        many if many > ADDRESSES => format!("listed below, {many} of them"),
        _ => addresses.join(", "),
    }
}

/// Bounds of blocks, with their number where there is more than one; `-` for none.
fn bounds(first: u32, end: u32) -> String {
    match end.saturating_sub(first) {
        0 => "-".into(),
        1 => first.to_string(),
        blocks => format!("{first}-{} ({blocks})", end - 1),
    }
}

/// A line of the list of fragments.
fn line(cells: [&str; 9]) -> String {
    let [number, session, kind, blocks, recorded, zero_filled, pending, next, front] = cells;
    let text = format!(
        "{number:>DIGITS$}  {session:>7}  {kind:<20}  {blocks:<20}  {recorded:<20}  {zero_filled:>11}  \
         {pending:>7}  {next:>7}  {front}"
    );
    text.trim_end().into()
}

/// The fragments: bounds in blocks, zero-filled and pending sectors, the next writable address, and
/// what stands in front of each.
pub fn fragments(map: &Map) -> Vec<String> {
    let heading = line([
        "no",
        "session",
        "kind",
        "blocks",
        "recorded",
        "zero-filled",
        "pending",
        "next",
        "in front of it",
    ]);
    let mut lines = vec![
        "Fragments: blocks and recorded blocks, with how many they are; zero-filled and pending \
         sectors; the next writable address"
            .into(),
        heading,
    ];
    let mut before: Option<Record> = None;
    for (index, record) in map.state.records().enumerate() {
        let pending = pending_in(&map.state, index);
        lines.push(line([
            &(index + 1).to_string(),
            &record.session.to_string(),
            &format!("{}, {}", kind(&record), fullness(&record, pending)),
            &bounds(record.start, end(&record)),
            &bounds(record.start, recorded_end(&record)),
            &record.zero_filled.to_string(),
            &pending.to_string(),
            &words::next(next_writable(&map.state, index)),
            &in_front(before, &record),
        ]));
        before = Some(record);
    }
    lines.extend(after_the_last(map, before));
    lines
}

fn fullness(record: &Record, pending: u32) -> &'static str {
    match is_complete(record) {
        true => "complete",
        false if record.recorded == 0 && pending == 0 => "blank",
        false => "incomplete",
    }
}

fn in_front(before: Option<Record>, record: &Record) -> String {
    let Some(before) = before else {
        return "-".into();
    };
    let from = end(&before);
    if before.session == record.session {
        return format!("dividing {from}");
    }
    let middle = from + (record.start - from) / 2;
    format!("Closure {from}-{}, Intro {middle}-{}", middle - 1, record.start - 1)
}

fn after_the_last(map: &Map, last: Option<Record>) -> Option<String> {
    let from = last.map_or(0, |last| end(&last));
    let capacity = map.state.capacity();
    (from < capacity).then(|| format!("in no fragment: blocks {}", bounds(from, capacity)))
}

/// The zero-filled sectors by runs, as many as a page takes.
pub fn zero_filled(map: &Map) -> Vec<String> {
    let runs = map.zero_filled_runs();
    if runs.is_empty() {
        return Vec::new();
    }
    let text = |&(first, last): &(usize, usize)| match first == last {
        true => first.to_string(),
        false => format!("{first}-{last}"),
    };
    let listed: Vec<String> = runs.iter().take(RUNS).map(text).collect();
    let mut lines = vec![format!("{} of zero-filled sectors:", count(runs.len(), "run"))];
    lines.extend(listed.chunks(RUNS_TO_A_LINE).map(|part| format!("  {}", part.join("  "))));
    if runs.len() > RUNS {
        lines.push(format!("  and {} more", count(runs.len() - RUNS, "run")));
    }
    lines
}

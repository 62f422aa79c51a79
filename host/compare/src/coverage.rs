//! What a comparison has reached.

use crate::asking::is_question;
use crate::cdb::{self, Cdb};
use crate::discs::{self, Tried};
use crate::event::Event;
use crate::searches::Searches;
use crate::situations;
use gladhamre::State;
use std::collections::BTreeMap;
use std::fmt;

/// Counts over the commands compared.
#[derive(Clone, Debug, Default)]
pub struct Coverage {
    pub commands: u64,
    /// How often each command got each answer.
    pub answers: BTreeMap<(&'static str, u32), u64>,
    /// How often each of the situations came, and how often by READ (12) or WRITE (12).
    situations: Met,
    of_long_forms: Met,
    /// How often each of the commands that are tried on every kind of disc got each answer there.
    on_discs: BTreeMap<(&'static str, &'static str, u32), u64>,
    /// Where the address of 52h, READ and WRITE lay.
    pub searches: Searches,
    pub blocks_recorded: u64,
    pub most_records: usize,
    pub most_sessions: u32,
    pub most_incomplete: usize,
    /// Commands that left a finalized disc.
    pub finalized: u64,
    /// Commands that left a disc with no incomplete fragment that is not finalized.
    pub full: u64,
    /// How often a command left so many sectors pending.
    pub pending_counts: [u64; 16],
    pub images_injected: u64,
}

/// A count for each of the situations.
#[derive(Clone, Debug)]
struct Met([u64; situations::COUNT]);

impl Default for Met {
    fn default() -> Met {
        Met([0; situations::COUNT])
    }
}

/// How often a situation came.
pub struct Meetings {
    pub name: &'static str,
    pub count: u64,
    /// By READ (12) or WRITE (12).
    pub of_long_forms: u64,
}

impl Meetings {
    /// Whether it came, and in both forms where it can.
    pub fn is_complete(&self) -> bool {
        match situations::is_of_both_forms(self.name) {
            true => self.of_long_forms > 0 && self.of_long_forms < self.count,
            false => self.count > 0,
        }
    }
}

impl fmt::Display for Meetings {
    fn fmt(&self, out: &mut fmt::Formatter) -> fmt::Result {
        write!(out, "{:>12} ", self.count)?;
        match situations::is_of_both_forms(self.name) {
            true => write!(out, "{:>10} ", self.of_long_forms)?,
            false => write!(out, "{:>10} ", "")?,
        }
        out.write_str(self.name)
    }
}

/// The commands that are tried on every kind of disc.
const ON_DISCS: [(&str, Tried); 9] = [
    ("28h READ", Tried::Read),
    ("A8h READ (12)", Tried::Read),
    ("2Ah WRITE", Tried::Write),
    ("AAh WRITE (12)", Tried::Write),
    ("12h", Tried::Inquiry),
    ("46h type 0", Tried::Served),
    ("46h type 1", Tried::Served),
    ("46h type 2", Tried::Served),
    ("46h type 3", Tried::Refused),
];

/// Whether the command is one of them.
fn is_on_discs(cdb: &Cdb) -> bool {
    cdb::is_read(cdb) || cdb::is_write(cdb) || is_question(cdb)
}

impl Coverage {
    /// Counts a command whose command block does not have twelve bytes.
    pub fn note_cut_cdb(&mut self, number: u32) {
        self.commands += 1;
        *self.answers.entry(("not 12 bytes", number)).or_default() += 1;
    }

    /// Counts a command.
    pub fn note(&mut self, event: &Event) {
        self.commands += 1;
        let number = event.answer.number;
        *self.answers.entry((command_name(event.cdb), number)).or_default() += 1;
        // up to L3 the state may be unsound
        if number == 0 || number > 3 {
            self.note_situations(event);
        }
        if number == 0 || number > 4 {
            self.blocks_recorded += event.answer.recorded;
            self.note_state(event.after);
        }
    }

    fn note_situations(&mut self, event: &Event) {
        self.searches.note(event);
        let long_form = matches!(event.cdb[0], cdb::READ_12 | cdb::WRITE_12);
        for (index, (_, is_met)) in situations::all().enumerate() {
            let met = u64::from(is_met(event));
            self.situations.0[index] += met;
            self.of_long_forms.0[index] += if long_form { met } else { 0 };
        }
        if is_on_discs(event.cdb) {
            let command = command_name(event.cdb);
            for (kind, _) in discs::KINDS.iter().filter(|(_, is_such)| is_such(event.before)) {
                *self.on_discs.entry((command, kind, event.answer.number)).or_default() += 1;
            }
        }
    }

    fn note_state(&mut self, state: &State) {
        let mut records = 0;
        let mut incomplete = 0;
        for record in state.records() {
            records += 1;
            incomplete += usize::from(record.recorded < record.length);
            self.most_sessions = self.most_sessions.max(record.session);
        }
        let finalized = state.finalized() == 1;
        self.most_records = self.most_records.max(records);
        self.most_incomplete = self.most_incomplete.max(incomplete);
        self.finalized += u64::from(finalized);
        self.full += u64::from(incomplete == 0 && !finalized);
        if let Some(count) = self.pending_counts.get_mut(state.pending_count() as usize) {
            *count += 1;
        }
    }

    /// How often an answer came, whatever the command.
    pub fn answered(&self, number: u32) -> u64 {
        let of_number = |(&(_, given), &count)| if given == number { count } else { 0 };
        self.answers.iter().map(of_number).sum()
    }

    /// Adds the counts of another comparison.
    pub fn add(&mut self, other: &Coverage) {
        self.commands += other.commands;
        for (&key, &count) in &other.answers {
            *self.answers.entry(key).or_default() += count;
        }
        add_counts(&mut self.situations.0, &other.situations.0);
        add_counts(&mut self.of_long_forms.0, &other.of_long_forms.0);
        for (&key, &count) in &other.on_discs {
            *self.on_discs.entry(key).or_default() += count;
        }
        self.searches.add(&other.searches);
        self.blocks_recorded += other.blocks_recorded;
        self.most_records = self.most_records.max(other.most_records);
        self.most_sessions = self.most_sessions.max(other.most_sessions);
        self.most_incomplete = self.most_incomplete.max(other.most_incomplete);
        self.finalized += other.finalized;
        self.full += other.full;
        add_counts(&mut self.pending_counts, &other.pending_counts);
        self.images_injected += other.images_injected;
    }

    /// How often each situation came.
    pub fn situations(&self) -> impl Iterator<Item = Meetings> + '_ {
        let counts = self.situations.0.iter().zip(&self.of_long_forms.0);
        counts.zip(situations::all()).map(|((&count, &of_long_forms), (name, _))| Meetings {
            name,
            count,
            of_long_forms,
        })
    }

    /// How often each of those came in which it counts what a command asks for, and not what fragments
    /// there are.
    pub fn situations_of_requests(&self) -> impl Iterator<Item = Meetings> + '_ {
        self.situations().skip(situations::OF_FRAGMENTS.len())
    }

    /// The answers that a command should have got on some kind of disc, and never got.
    pub fn missed_on_discs(&self) -> Vec<String> {
        let mut missed = Vec::new();
        for (command, tried) in ON_DISCS {
            for (kind, _) in discs::KINDS {
                let wanted = discs::ANSWERS.into_iter().filter(|&number| {
                    discs::can_answer(tried, number, kind)
                        && !self.on_discs.contains_key(&(command, kind, number))
                });
                missed.extend(
                    wanted.map(|number| format!("{command} on {kind}: {}", answer_name(number))),
                );
            }
        }
        missed
    }

    fn answers_on(&self, command: &str, kind: &str) -> String {
        let of_both = |&&(name, on, _): &&(&str, &str, u32)| name == command && on == kind;
        let found = self.on_discs.iter().filter(|(key, _)| of_both(key));
        let counts: Vec<String> = found
            .map(|((.., number), count)| format!("{} {count}", answer_name(*number)))
            .collect();
        counts.join(", ")
    }

    fn answers_of(&self, command: &str) -> String {
        let of_command = self.answers.iter().filter(|((name, _), _)| *name == command);
        let counts: Vec<String> = of_command
            .map(|((_, number), count)| format!("{} {count}", answer_name(*number)))
            .collect();
        counts.join(", ")
    }
}

fn add_counts(sums: &mut [u64], counts: &[u64]) {
    for (sum, count) in sums.iter_mut().zip(counts) {
        *sum += count;
    }
}

impl fmt::Display for Coverage {
    fn fmt(&self, out: &mut fmt::Formatter) -> fmt::Result {
        writeln!(out, "answers of each command:")?;
        let mut names: Vec<&str> = self.answers.keys().map(|(name, _)| *name).collect();
        names.dedup();
        for name in names {
            writeln!(out, "  {name}: {}", self.answers_of(name))?;
        }
        writeln!(out, "answers on each kind of disc:")?;
        for (command, _) in ON_DISCS {
            for (kind, _) in discs::KINDS {
                writeln!(out, "  {command} on {kind}: {}", self.answers_on(command, kind))?;
            }
        }
        writeln!(out, "situations, and how often by READ (12) or WRITE (12):")?;
        for meetings in self.situations() {
            writeln!(out, "{meetings}")?;
        }
        writeln!(out, "{}", self.searches)?;
        writeln!(
            out,
            "deepest states: {} records, {} of them incomplete, {} sessions",
            self.most_records, self.most_incomplete, self.most_sessions
        )?;
        writeln!(out, "commands that left 0 to 15 sectors pending: {:?}", self.pending_counts)?;
        writeln!(
            out,
            "commands on a finalized disc: {}, on a full one: {}",
            self.finalized, self.full
        )?;
        writeln!(
            out,
            "images injected: {}, blocks recorded: {}",
            self.images_injected, self.blocks_recorded
        )?;
        write!(out, "commands compared: {}", self.commands)
    }
}

/// A command as document 01 lists it.
pub fn command_name(cdb: &Cdb) -> &'static str {
    match (cdb[0], cdb[1] & 0b11, cdb[2] & 0b111) {
        (cdb::TEST_UNIT_READY, _, _) => "00h",
        (cdb::REQUEST_SENSE, _, _) => "03h",
        (cdb::INQUIRY, _, _) => "12h",
        (cdb::READ_CAPACITY, _, _) => "25h",
        (cdb::READ, _, _) => "28h READ",
        (cdb::WRITE, _, _) => "2Ah WRITE",
        (cdb::READ_12, _, _) => "A8h READ (12)",
        (cdb::WRITE_12, _, _) => "AAh WRITE (12)",
        (cdb::SYNCHRONIZE_CACHE, _, _) => "35h",
        (cdb::GET_CONFIGURATION, 0, _) => "46h type 0",
        (cdb::GET_CONFIGURATION, 1, _) => "46h type 1",
        (cdb::GET_CONFIGURATION, 2, _) => "46h type 2",
        (cdb::GET_CONFIGURATION, _, _) => "46h type 3",
        (cdb::READ_DISC_INFORMATION, _, _) => "51h",
        (cdb::READ_FRAGMENT_INFORMATION, 0, _) => "52h address",
        (cdb::READ_FRAGMENT_INFORMATION, 1, _) => "52h number",
        (cdb::READ_FRAGMENT_INFORMATION, _, _) => "52h other",
        (cdb::RESERVE, _, _) => "53h RESERVE",
        (cdb::CLOSE, _, cdb::FRAGMENT) => "5Bh CLOSE 001",
        (cdb::CLOSE, _, cdb::SESSION) => "5Bh CLOSE 010",
        (cdb::CLOSE, _, cdb::FINALIZE) => "5Bh CLOSE 110",
        (cdb::CLOSE, _, _) => "5Bh CLOSE other",
        _ => "unlisted",
    }
}

/// An answer's number as document 01 writes it.
pub fn answer_name(number: u32) -> String {
    let [_, key, code, qualifier] = number.to_be_bytes();
    match number {
        0 => "accepted".into(),
        1..=4 => format!("L{number}"),
        _ => format!("{key:X}/{code:02X}/{qualifier:02X}"),
    }
}

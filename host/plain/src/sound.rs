//! The rules of a sound list, each by its name, tested on the words of a state image.

use crate::image::{Record, Words};
use crate::judge::SESSION_GAP;
use crate::{BLOCK_SECTORS, FRAGMENT_LIMIT};

/// A rule of a sound state. A record is used if it is not all zero.
#[derive(Clone, Copy, Debug, PartialEq, Eq)]
pub enum Rule {
    /// Finalized and every kind are 0 or 1.
    FlagsAreBits,
    /// The sense is 0/00/00 or one of the table.
    SenseListed,
    /// There is a record.
    AnyRecord,
    /// Used records come first.
    UsedFirst,
    /// The first record starts at block 0 in session 1.
    FirstRecord,
    /// A record starts one block after its forerunner's end in the same session, 128 blocks after
    /// in the next.
    FollowsForerunner,
    /// Every length is at least 1.
    LengthAtLeastOne,
    /// No record ends after the capacity.
    WithinCapacity,
    /// No more blocks are recorded than the record has.
    RecordedWithinLength,
    /// No more sectors are zero-filled than recorded.
    ZeroFilledWithinRecorded,
    /// Incomplete records stand only in the last session.
    IncompleteInLastSession,
    /// An incomplete appended record is last.
    TailIsLast,
    /// A tail reaches the capacity.
    TailReachesCapacity,
    /// Without a tail a disc is finalized, or its list is full, or its last record ends at C - 1 or
    /// later.
    TailMissing,
    /// 1 to 15 pending sectors name an incomplete record, none name 0.
    PendingNamesIncomplete,
    /// A finalized disc has all records complete and none pending.
    FinalizedComplete,
}

impl Rule {
    pub const ALL: [Rule; 16] = [
        Rule::FlagsAreBits,
        Rule::SenseListed,
        Rule::AnyRecord,
        Rule::UsedFirst,
        Rule::FirstRecord,
        Rule::FollowsForerunner,
        Rule::LengthAtLeastOne,
        Rule::WithinCapacity,
        Rule::RecordedWithinLength,
        Rule::ZeroFilledWithinRecorded,
        Rule::IncompleteInLastSession,
        Rule::TailIsLast,
        Rule::TailReachesCapacity,
        Rule::TailMissing,
        Rule::PendingNamesIncomplete,
        Rule::FinalizedComplete,
    ];
}

/// A set of rules.
#[derive(Clone, Copy, Debug, Default, PartialEq, Eq)]
pub struct RuleSet(u32);

impl RuleSet {
    pub fn only(rule: Rule) -> RuleSet {
        RuleSet(1 << rule as u32)
    }

    pub fn is_empty(self) -> bool {
        self.0 == 0
    }

    pub fn contains(self, rule: Rule) -> bool {
        self.0 & RuleSet::only(rule).0 != 0
    }

    pub(crate) fn without(self, rule: Rule) -> RuleSet {
        RuleSet(self.0 & !RuleSet::only(rule).0)
    }

    fn require(&mut self, rule: Rule, holds: bool) {
        self.0 |= u32::from(!holds) << rule as u32;
    }
}

/// The rules that a state image of the right length breaks.
pub fn broken_rules(image: &[u32; crate::IMAGE_WORDS]) -> RuleSet {
    rules_broken_by(&Words::read(image), FRAGMENT_LIMIT)
}

/// The same of words, with the number of records from which a list is full.
pub(crate) fn rules_broken_by(words: &Words, full_list: usize) -> RuleSet {
    let mut broken = RuleSet::default();
    let used = &words.used;
    broken.require(Rule::AnyRecord, !used.is_empty());
    broken.require(Rule::UsedFirst, words.used_come_first);
    broken.require(Rule::SenseListed, words.sense().is_some());
    broken.require(Rule::FlagsAreBits, words.finalized() <= 1);
    broken.require(Rule::PendingNamesIncomplete, pending_fits(words, used));
    for (position, record) in used.iter().enumerate() {
        require_of_record(&mut broken, words, record);
        require_of_place(&mut broken, used, position);
    }
    if let Some(last) = used.last() {
        require_of_last(&mut broken, words, last, used.len() >= full_list);
    }
    let at_rest = words.pending_count() == 0 && used.iter().all(Record::is_complete);
    broken.require(Rule::FinalizedComplete, words.finalized() == 0 || at_rest);
    broken
}

/// The rules that look at one record.
fn require_of_record(broken: &mut RuleSet, words: &Words, record: &Record) {
    broken.require(Rule::FlagsAreBits, record.kind <= 1);
    broken.require(Rule::LengthAtLeastOne, record.length >= 1);
    broken.require(Rule::WithinCapacity, record.end() <= words.capacity());
    broken.require(Rule::RecordedWithinLength, record.recorded <= record.length);
    broken.require(
        Rule::ZeroFilledWithinRecorded,
        record.zero_filled <= BLOCK_SECTORS * record.recorded,
    );
}

/// The rules that look at a record and its neighbours.
fn require_of_place(broken: &mut RuleSet, used: &[Record], position: usize) {
    let record = &used[position];
    let last = &used[used.len() - 1];
    match position.checked_sub(1) {
        None => broken.require(Rule::FirstRecord, record.start == 0 && record.session == 1),
        Some(before) => broken.require(Rule::FollowsForerunner, follows(&used[before], record)),
    }
    broken.require(
        Rule::IncompleteInLastSession,
        record.is_complete() || record.session == last.session,
    );
    broken.require(Rule::TailIsLast, !record.is_tail() || position + 1 == used.len());
}

fn follows(forerunner: &Record, record: &Record) -> bool {
    let dividing = record.session == forerunner.session && record.start == forerunner.end() + 1;
    let next_session =
        record.session == forerunner.session + 1 && record.start == forerunner.end() + SESSION_GAP;
    dividing || next_session
}

/// The rules that look at the last record.
fn require_of_last(broken: &mut RuleSet, words: &Words, last: &Record, list_is_full: bool) {
    broken.require(Rule::TailReachesCapacity, !last.is_tail() || last.end() >= words.capacity());
    broken.require(
        Rule::TailMissing,
        words.finalized() != 0
            || last.is_tail()
            || list_is_full
            || last.end() + 1 >= words.capacity(),
    );
}

fn pending_fits(words: &Words, used: &[Record]) -> bool {
    let named =
        (words.pending_fragment() as usize).checked_sub(1).and_then(|index| used.get(index));
    match words.pending_count() {
        0 => words.pending_fragment() == 0,
        1..=15 => named.is_some_and(|record| !record.is_complete()),
        _ => false,
    }
}

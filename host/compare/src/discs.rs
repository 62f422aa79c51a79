//! Kinds of discs: each form of READ and WRITE, 12h and each type of 46h are to get each of their answers
//! on every one.

use crate::event::{is_full, Position};
use gladhamre::{Record, State};

/// A kind's name and how it is known. A disc may be of several kinds.
pub type Kind = (&'static str, fn(&State) -> bool);

pub const FINALIZED: &str = "a finalized disc";
pub const FULL: &str = "a full disc";

pub const KINDS: [Kind; 10] = [
    ("a blank disc", |state| {
        count(state) == 1 && state.record(0).recorded == 0 && state.pending_count() == 0
    }),
    ("a disc written in part, none pending", |state| {
        state.record(0).recorded > 0 && state.pending_count() == 0 && has_room(state)
    }),
    ("a disc with sectors pending in its only fragment", |state| {
        Position::of(state) == Some(Position::Only)
    }),
    ("a disc with sectors pending in the first fragment", |state| {
        Position::of(state) == Some(Position::First)
    }),
    ("a disc with sectors pending in a middle fragment", |state| {
        Position::of(state) == Some(Position::Middle)
    }),
    ("a disc with sectors pending in the last fragment", |state| {
        Position::of(state) == Some(Position::Last)
    }),
    ("a disc with a full list and room", |state| is_full(state) && has_room(state)),
    ("a disc with three sessions or more and room", |state| {
        state.records().any(|record| record.session >= 3) && has_room(state)
    }),
    (FULL, |state| state.finalized() == 0 && !has_room(state)),
    (FINALIZED, |state| state.finalized() == 1),
];

fn count(state: &State) -> usize {
    state.records().count()
}

/// Whether a fragment is incomplete.
fn has_room(state: &State) -> bool {
    state.records().any(|record: Record| record.recorded < record.length)
}

/// A command that is tried on every kind of disc, by the answers that it can get there.
#[derive(Clone, Copy, PartialEq, Eq)]
pub enum Tried {
    Read,
    Write,
    /// 12h.
    Inquiry,
    /// 46h of a type that is served.
    Served,
    /// 46h of the type that is refused.
    Refused,
}

/// The answers of these commands on sound states.
pub const ANSWERS: [u32; 8] = [0, 4, 0x052100, 0x080000, 0x072700, 0x052102, 0x056300, 0x052400];

/// Whether document 01 has this answer for the command on such a disc. A READ or a WRITE of length 0 is
/// accepted on every one.
pub fn can_answer(command: Tried, number: u32, kind: &str) -> bool {
    let is_write = command == Tried::Write;
    match number {
        0 => command != Tried::Refused,
        4 => true,
        0x052100 | 0x080000 => command == Tried::Read,
        0x072700 => is_write && kind == FINALIZED,
        0x052102 => is_write && kind != FINALIZED,
        0x056300 => is_write && kind != FINALIZED && kind != FULL,
        0x052400 => matches!(command, Tried::Inquiry | Tried::Refused),
        _ => false,
    }
}

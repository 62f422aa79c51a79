//! One command with the states before and after it, and what can be asked of it.

use crate::cdb::{self, Cdb};
use crate::Request;
use gladhamre::{Answer, Record, State, RECORD_LIMIT};

/// What the drive refuses a READ or a WRITE by.
pub const OUT_OF_RANGE: u32 = 0x052100;
pub const BLANK_CHECK: u32 = 0x080000;
pub const PROTECTED: u32 = 0x072700;
pub const NOT_WRITABLE: u32 = 0x052102;
pub const NO_ROOM: u32 = 0x056300;

/// Blocks between two sessions.
const SESSION_GAP: u32 = 128;

/// One command with the states before and after it.
pub struct Event<'a> {
    pub cdb: &'a Cdb,
    pub request: &'a Request,
    pub answer: &'a Answer,
    pub before: &'a State,
    pub after: &'a State,
    /// The medium and the pending buffer after it.
    pub medium: &'a [u8],
    pub pending: &'a [u8],
}

/// Whether no record is free.
pub fn is_full(state: &State) -> bool {
    state.record(RECORD_LIMIT - 1) != Record::default()
}

/// Whether exactly one record is free.
pub fn lacks_one(state: &State) -> bool {
    !is_full(state) && state.record(RECORD_LIMIT - 2) != Record::default()
}

/// Where in the list a fragment stands.
#[derive(Clone, Copy, Debug, PartialEq, Eq, PartialOrd, Ord)]
pub enum Position {
    Only,
    First,
    Middle,
    Last,
}

impl Position {
    /// Of the fragment with the pending sectors; none where no sectors are pending.
    pub fn of(state: &State) -> Option<Position> {
        match state.pending_fragment() as usize {
            0 => None,
            number => Some(Position::in_list(number, state.records().count())),
        }
    }

    /// Of the fragment of that number, among so many.
    pub fn in_list(number: usize, count: usize) -> Position {
        match number {
            1 if count == 1 => Position::Only,
            1 => Position::First,
            _ if number == count => Position::Last,
            _ => Position::Middle,
        }
    }
}

fn is_tail(record: &Record) -> bool {
    record.kind == 1 && record.recorded < record.length
}

impl Event<'_> {
    pub fn accepted(&self, opcode: u8) -> bool {
        self.cdb[0] == opcode && self.answer.number == 0
    }

    pub fn refused(&self, opcode: u8, number: u32) -> bool {
        self.cdb[0] == opcode && self.answer.number == number
    }

    /// A READ of either form, answered so.
    pub fn is_read(&self, number: u32) -> bool {
        cdb::is_read(self.cdb) && self.answer.number == number
    }

    /// A WRITE of either form, answered so.
    pub fn is_write(&self, number: u32) -> bool {
        cdb::is_write(self.cdb) && self.answer.number == number
    }

    pub fn closed(&self, function: u8) -> bool {
        self.accepted(cdb::CLOSE) && self.cdb[2] & 0b111 == function
    }

    pub fn close_refused(&self, function: u8, number: u32) -> bool {
        self.refused(cdb::CLOSE, number) && self.cdb[2] & 0b111 == function
    }

    /// 52h by number, answered so.
    pub fn named(&self, value: usize, number: u32) -> bool {
        self.cdb[0] == cdb::READ_FRAGMENT_INFORMATION
            && self.cdb[1] & 0b11 == 1
            && self.address() == value as u64
            && self.answer.number == number
    }

    /// 52h by address, accepted.
    pub fn located(&self) -> bool {
        self.accepted(cdb::READ_FRAGMENT_INFORMATION) && self.cdb[1] & 0b11 == 0
    }

    pub fn address(&self) -> u64 {
        cdb::run(self.cdb).0.into()
    }

    pub fn length(&self) -> u64 {
        cdb::run(self.cdb).1.into()
    }

    pub fn number(&self) -> u32 {
        u16::from_be_bytes([self.cdb[4], self.cdb[5]]).into()
    }

    pub fn last_before(&self) -> Record {
        self.before.records().last().unwrap_or_default()
    }

    pub fn last_after(&self) -> Record {
        self.after.records().last().unwrap_or_default()
    }

    pub fn last_end(&self) -> u32 {
        self.last_after().start + self.last_after().length
    }

    /// The record whose sectors were pending, before and after.
    fn pending_record(&self) -> Option<(Record, Record)> {
        let index = (self.before.pending_fragment() as usize).checked_sub(1)?;
        Some((self.before.record(index), self.after.record(index)))
    }

    /// The pending block was filled up with zeros.
    pub fn flushed(&self) -> bool {
        self.pending_record().is_some_and(|(before, after)| after.zero_filled > before.zero_filled)
    }

    pub fn flushed_reserved(&self) -> bool {
        self.flushed() && self.pending_record().is_some_and(|(before, _)| before.kind == 0)
    }

    /// Some record became complete without being cut.
    pub fn completed(&self) -> bool {
        self.before.records().zip(self.after.records()).any(|(before, after)| {
            before.recorded < before.length
                && after.recorded == after.length
                && after.length == before.length
        })
    }

    pub fn tail_has_pending_only(&self) -> bool {
        let last = self.last_before();
        let number = self.before.records().count() as u32;
        last.kind == 1 && last.recorded == 0 && self.before.pending_fragment() == number
    }

    /// The next writable address that the fragment with pending sectors would have after a flush.
    pub fn next_after_flush(&self) -> u64 {
        self.pending_record().map_or(0, |(record, _)| {
            16 * (u64::from(record.start) + u64::from(record.recorded) + 1)
        })
    }

    /// There was a tail and now there is none.
    pub fn lost_tail(&self, function: u8) -> bool {
        self.closed(function) && is_tail(&self.last_before()) && !is_tail(&self.last_after())
    }

    /// The last fragment before the command is a tail with sectors recorded or pending.
    pub fn tail_is_written(&self) -> bool {
        let last = self.last_before();
        is_tail(&last) && (last.recorded > 0 || self.tail_has_pending_only())
    }

    /// The last fragment before the command is a tail with nothing recorded and nothing pending.
    pub fn tail_is_blank(&self) -> bool {
        is_tail(&self.last_before()) && !self.tail_is_written()
    }

    /// The last fragment before the command is no tail.
    pub fn has_no_tail(&self) -> bool {
        !is_tail(&self.last_before())
    }

    /// The size of a RESERVE, in sectors.
    pub fn size(&self) -> u64 {
        let size = [self.cdb[5], self.cdb[6], self.cdb[7], self.cdb[8]];
        u32::from_be_bytes(size).into()
    }

    /// A RESERVE of size 0, answered so.
    pub fn reserve_of_zero(&self, number: u32) -> bool {
        self.refused(cdb::RESERVE, number) && self.size() == 0
    }

    /// A RESERVE of a size that is no multiple of 16, answered so.
    pub fn reserve_of_part(&self, number: u32) -> bool {
        self.refused(cdb::RESERVE, number) && self.size() % 16 != 0
    }

    /// The same by 5/24/00, where the next multiple of 16 would be taken: the tail is blank, a record
    /// is free, and the blocks that hold the size have room.
    pub fn refused_by_size_alone(&self) -> bool {
        self.reserve_of_part(0x052400) && self.tail_can_be_split() && self.reservation_fits()
    }

    /// The tail is blank and a record is free.
    pub fn tail_can_be_split(&self) -> bool {
        self.tail_is_blank() && !is_full(self.before)
    }

    /// The most sectors that a blank tail has room for: one dividing block and one for the new tail
    /// are left.
    pub fn most_reservable(&self) -> u64 {
        16 * u64::from(self.last_before().length.saturating_sub(2))
    }

    /// The blocks that hold a RESERVE's size leave at least one for the new tail.
    pub fn reservation_fits(&self) -> bool {
        self.size() <= self.most_reservable()
    }

    /// After the last fragment, a written tail cut, there is room for another session.
    pub fn session_fits(&self) -> bool {
        let last = self.last_before();
        let pending_here = self.before.pending_fragment() == self.before.records().count() as u32;
        let end = match is_tail(&last) {
            true => last.start + last.recorded + u32::from(pending_here),
            false => last.start + last.length,
        };
        end + SESSION_GAP < self.before.capacity()
    }

    /// The list is full before the command, and the address lies in its last record or after it.
    pub fn reaches_last_record(&self) -> bool {
        is_full(self.before) && self.address() >= 16 * u64::from(self.last_before().start)
    }
}

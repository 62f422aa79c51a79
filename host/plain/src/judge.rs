//! The drive's refusals, in the order of document 01's table. Nothing changes here: a command is
//! either refused by its sense or becomes a step.

use crate::command::Command;
use crate::configuration::{self, Request};
use crate::disc::Disc;
use crate::fault::FORMER_LIMIT;
use crate::halving::Search;
use crate::inquiry::Inquiry;
use crate::read::Run;
use crate::reply::{self, Report};
use crate::{Address, Block, ConfigurationSlip, Fault, Kind, Sense, BLOCK_SECTORS, FRAGMENT_LIMIT};

/// Closure and Intro between two sessions, 64 blocks each.
pub(crate) const SESSION_GAP: u64 = 128;

/// What an accepted command does.
#[derive(Clone, Copy, Debug)]
pub(crate) enum Step {
    Nothing,
    Send(Report),
    Read(Run),
    Write { index: usize, sectors: u64 },
    Flush,
    Reserve { index: usize, blocks: u64 },
    CloseFragment { index: usize },
    CloseSession,
    Finalize,
}

impl Disc {
    pub(crate) fn judge(&self, command: Command) -> Result<Step, Sense> {
        match command {
            Command::TestUnitReady => Ok(Step::Nothing),
            Command::RequestSense { allocation } => {
                Ok(self.send(&reply::sense(self.sense), allocation))
            }
            Command::Inquiry(inquiry) => self.judge_inquiry(inquiry),
            Command::ReadCapacity => Ok(self.send(&reply::capacity(self), reply::CAPACITY_BYTES)),
            Command::Read { from, sectors } => self.judge_read(from, sectors),
            Command::Write { to, sectors } => self.judge_write(to, sectors),
            Command::SynchronizeCache => Ok(Step::Flush),
            Command::GetConfiguration(request) => self.judge_configuration(request),
            Command::Reserve { sectors } => self.judge_reserve(sectors),
            Command::Close { function, number } => self.judge_close(function, number),
            Command::ReadDiscInformation { kind, allocation } => {
                self.judge_disc_information(kind, allocation)
            }
            Command::ReadFragmentInformation { by, value, allocation } => {
                self.judge_fragment_information(by, value, allocation)
            }
            Command::Unlisted => Err(Sense::INVALID_OPCODE),
        }
    }

    /// A reply without sectors, cut to the allocation length.
    fn send(&self, reply: &[u8], allocation: usize) -> Step {
        let allocation = if self.slips(Fault::ReplyUncut) { reply.len() } else { allocation };
        Step::Send(Report::cut(reply, allocation))
    }

    /// 12h: 5/24/00 where a page is asked for.
    fn judge_inquiry(&self, inquiry: Inquiry) -> Result<Step, Sense> {
        let reply = inquiry.reply(self.fault).ok_or(Sense::INVALID_FIELD)?;
        Ok(self.send(&reply, inquiry.allocation))
    }

    /// 46h: 5/24/00 for request type 3.
    fn judge_configuration(&self, request: Request) -> Result<Step, Sense> {
        let slip = Fault::Configuration(ConfigurationSlip::RomWhenFinalized);
        let profile = match self.finalized && self.slips(slip) {
            true => configuration::DVD_ROM,
            false => configuration::DVD_PLUS_R,
        };
        let reply = request.reply(profile, self.fault).ok_or(Sense::INVALID_FIELD)?;
        Ok(self.send(&reply, request.allocation))
    }

    /// 28h and A8h: length 0 is accepted wherever it points; 5/21/00 past the disc, then 8/00/00 where a
    /// sector is neither recorded nor pending.
    fn judge_read(&self, from: Address, sectors: u64) -> Result<Step, Sense> {
        if self.slips(Fault::StreamingRefused) {
            return Err(Sense::INVALID_FIELD);
        }
        if sectors == 0 && !self.slips(Fault::EmptyReadTwelveJudged) {
            return Ok(Step::Nothing);
        }
        let end = match self.slips(Fault::ReadEndWraps) {
            true => (from + sectors).cut(),
            false => from + sectors,
        };
        let swapped =
            self.slips(Fault::ReadRefusalsSwapped) || self.slips(Fault::ReadTwelveRefusalsSwapped);
        if end > self.end().first_sector() && !swapped {
            return Err(Sense::ADDRESS_OUT_OF_RANGE);
        }
        self.readable_run(from, sectors).map(Step::Read).ok_or(Sense::BLANK_CHECK)
    }

    /// 2Ah and AAh: length 0 is accepted wherever it points, also on a finalized disc; then 7/27/00;
    /// 5/21/02 where no next writable address is met, as they stand before any flush; 5/63/00 past
    /// the fragment's end.
    fn judge_write(&self, to: Address, sectors: u64) -> Result<Step, Sense> {
        if sectors == 0 && !self.slips(Fault::EmptyWriteTwelveJudged) {
            let flushes = self.slips(Fault::EmptyWriteFlushes);
            return Ok(if flushes { Step::Flush } else { Step::Nothing });
        }
        let sum = to + sectors;
        if self.slips(Fault::WriteOverflowTestedFirst) && sum != sum.cut() {
            return Err(Sense::END_OF_USER_AREA);
        }
        if self.finalized && !self.slips(Fault::WriteTwelveTakesFinalized) {
            return Err(Sense::WRITE_PROTECTED);
        }
        let index = self
            .candidates(Search::Write, to)
            .find(|&index| self.next_writable(index) == Some(to))
            .ok_or(Sense::INVALID_ADDRESS_FOR_WRITE)?;
        let end = self.fragments[index].end().first_sector();
        let passes_end = match self.fault {
            Some(Fault::WriteInPart) => false,
            Some(Fault::WriteEndWraps) => sum.cut() > end,
            _ => sum > end,
        };
        if passes_end {
            return Err(Sense::END_OF_USER_AREA);
        }
        let sectors = sectors.min(end - to);
        Ok(Step::Write { index, sectors })
    }

    /// 53h: 7/27/00 on a finalized disc; 5/24/00 for size 0 and for a size that is no multiple of 16,
    /// whatever the tail is like; 5/72/05 without a blank tail or with a full list; 5/63/00 where the
    /// new tail would start at the end of the disc or later.
    fn judge_reserve(&self, sectors: u64) -> Result<Step, Sense> {
        let blocks = self.whole_blocks(sectors);
        if self.finalized && (blocks.is_some() || !self.slips(Fault::ReserveRefusalsSwapped)) {
            return Err(Sense::WRITE_PROTECTED);
        }
        let blocks = blocks.ok_or_else(|| self.size_refusal(sectors))?;
        let limit = match self.slips(Fault::RecordLimitOfBefore) {
            true => FORMER_LIMIT,
            false => self.limit(Fault::RecordLimitTooLow, Fault::RecordLimitTooHigh),
        };
        let index = self
            .blank_tail()
            .filter(|_| self.fragments.len() < limit)
            .ok_or(Sense::NO_MORE_FRAGMENTS)?;
        let new_tail = self.fragments[index].start + blocks + 1;
        let slack = u64::from(self.slips(Fault::ReserveLimitTooHigh));
        if new_tail >= self.end() + slack {
            return Err(Sense::END_OF_USER_AREA);
        }
        Ok(Step::Reserve { index, blocks })
    }

    /// The blocks of a size that 53h takes: a multiple of 16, and not 0.
    fn whole_blocks(&self, sectors: u64) -> Option<u64> {
        let blocks = sectors / BLOCK_SECTORS;
        match (self.fault, sectors % BLOCK_SECTORS) {
            (Some(Fault::ReserveTakesSizeZero), 0) => Some(blocks),
            (Some(Fault::ReserveRefusesOddBlocks), 0) if blocks % 2 == 1 => None,
            (_, 0) => (blocks > 0).then_some(blocks),
            (Some(Fault::ReserveRoundsUp), _) => Some(blocks + 1),
            (Some(Fault::ReserveRoundsDown), _) => Some(blocks),
            (Some(Fault::ReserveTakesEvenSizes), rest) if rest % 2 == 0 => Some(blocks),
            (Some(Fault::ReserveTakesHalfBlocks), rest) if rest % 8 == 0 => Some(blocks),
            _ => None,
        }
    }

    /// What any other size is refused by: 5/24/00, unless a mistake brings a later test forward.
    fn size_refusal(&self, sectors: u64) -> Sense {
        let tail = self.blank_tail();
        let blocks = sectors.div_ceil(BLOCK_SECTORS);
        let lacks_room = |tail: usize| self.fragments[tail].start + blocks + 1 >= self.end();
        match self.fault {
            Some(Fault::ReserveTailTestedFirst) if tail.is_none() => Sense::NO_MORE_FRAGMENTS,
            Some(Fault::ReserveListTestedFirst) if self.fragments.len() >= FRAGMENT_LIMIT => {
                Sense::NO_MORE_FRAGMENTS
            }
            Some(Fault::ReserveRoomTestedFirst) if tail.is_some_and(lacks_room) => {
                Sense::END_OF_USER_AREA
            }
            _ => Sense::INVALID_FIELD,
        }
    }

    fn judge_close(&self, function: u8, number: u64) -> Result<Step, Sense> {
        match function {
            0b001 => self.judge_close_fragment(number),
            0b010 => self.judge_close_session(),
            0b110 => self.judge_finalize(),
            _ => Err(Sense::INVALID_FIELD),
        }
    }

    /// 001: 5/24/00 for an unlisted number, 5/72/04 for a blank fragment.
    fn judge_close_fragment(&self, number: u64) -> Result<Step, Sense> {
        let index = self.index_of(number).ok_or(Sense::INVALID_FIELD)?;
        let tolerated =
            self.slips(Fault::BlankReservedClosed) && self.fragments[index].kind == Kind::Reserved;
        if self.is_blank(index) && !tolerated {
            return Err(Sense::EMPTY_FRAGMENT);
        }
        Ok(Step::CloseFragment { index })
    }

    /// 010: nothing to do on a finalized disc or in a session that is only a blank tail. Judged as
    /// after the flush: 5/72/03 with an incomplete reserved fragment, 5/72/05 where a full list is
    /// kept, 5/63/00 where the next session would not have a block.
    fn judge_close_session(&self) -> Result<Step, Sense> {
        if self.finalized || self.last_session_is_empty() {
            return Ok(Step::Nothing);
        }
        if self.has_incomplete_reserved() {
            return Err(Sense::INCOMPLETE_FRAGMENT_IN_SESSION);
        }
        let (kept, end) = self.kept_after_flush();
        let list_full = kept >= self.limit(Fault::KeptLimitTooLow, Fault::KeptLimitTooHigh);
        let slack = u64::from(self.slips(Fault::SessionLimitTooHigh));
        let disc_full = end + SESSION_GAP + 1 > self.end() + slack;
        if list_full && !(disc_full && self.slips(Fault::CloseRefusalsSwapped)) {
            return Err(Sense::NO_MORE_FRAGMENTS);
        }
        if disc_full {
            return Err(Sense::END_OF_USER_AREA);
        }
        Ok(Step::CloseSession)
    }

    /// 110: nothing to do on a finalized disc; 5/72/03 as for 010; 5/72/04 where session 1 is only
    /// a blank tail.
    fn judge_finalize(&self) -> Result<Step, Sense> {
        if self.finalized {
            return Ok(Step::Nothing);
        }
        if self.has_incomplete_reserved() {
            return Err(Sense::INCOMPLETE_FRAGMENT_IN_SESSION);
        }
        let in_first = self.sessions() == 1 || self.slips(Fault::EmptySessionRefused);
        if self.last_session_is_empty() && in_first {
            return Err(Sense::EMPTY_FRAGMENT);
        }
        Ok(Step::Finalize)
    }

    /// Whether a reserved fragment is still incomplete once the pending sectors are flushed.
    fn has_incomplete_reserved(&self) -> bool {
        let before_flush = self.slips(Fault::ReservedJudgedBeforeFlush);
        self.fragments.iter().enumerate().any(|(index, fragment)| {
            let recorded = match before_flush {
                true => fragment.recorded,
                false => self.recorded_after_flush(index),
            };
            fragment.kind == Kind::Reserved && recorded < fragment.length
        })
    }

    /// How many fragments a session's close keeps and where the last of them ends, both after the
    /// flush: a blank tail goes, a written one is cut.
    fn kept_after_flush(&self) -> (usize, Block) {
        let count = self.fragments.len();
        match self.tail() {
            Some(tail) if self.is_blank(tail) => (tail, self.fragments[tail - 1].end()),
            Some(tail) => {
                let end = self.fragments[tail].start + self.recorded_after_flush(tail);
                (count, end)
            }
            None => (count, self.fragments[count - 1].end()),
        }
    }

    /// 51h: 5/24/00 for another type than 0.
    fn judge_disc_information(&self, kind: u8, allocation: usize) -> Result<Step, Sense> {
        if kind != 0 {
            return Err(Sense::INVALID_FIELD);
        }
        Ok(self.send(&reply::disc_information(self), allocation))
    }

    /// 52h: 5/24/00 for types 2 and 3, an unlisted number, or FFh without a tail; 5/21/00 for an
    /// address in no fragment.
    fn judge_fragment_information(
        &self,
        by: u8,
        value: u64,
        allocation: usize,
    ) -> Result<Step, Sense> {
        let found = match by {
            0 => self.fragment_at(Address(value)).ok_or(Sense::ADDRESS_OUT_OF_RANGE),
            1 => self.fragment_named(value).ok_or(Sense::INVALID_FIELD),
            _ => Err(Sense::INVALID_FIELD),
        };
        found.map(|index| self.send(&reply::fragment_information(self, index), allocation))
    }

    /// The fragment over whose blocks, recorded or not, the address lies.
    pub(crate) fn fragment_at(&self, address: Address) -> Option<usize> {
        if let Some(halving) = self.mistaken(Search::Report) {
            return halving.find(address);
        }
        let block = address.block();
        self.fragments.iter().position(|fragment| (fragment.start..fragment.end()).contains(&block))
    }

    /// The fragment of that number; FFh is the tail.
    fn fragment_named(&self, number: u64) -> Option<usize> {
        let is_tail = number == 0xFF || (number & 0xFF == 0xFF && self.slips(Fault::TailNumberCut));
        if is_tail {
            self.tail()
        } else {
            self.index_of(number)
        }
    }
}

//! Accepted commands: what they do to disc, medium, pending buffer and reply.

use crate::answer::Accepted;
use crate::command::Command;
use crate::disc::{Disc, Pending};
use crate::judge::{Step, SESSION_GAP};
use crate::reply::Report;
use crate::units::{block_stretch, sector_bytes};
use crate::{
    Answer, Block, Fault, Fragment, Kind, Lent, Refusal, Sense, BLOCK_SECTORS, FRAGMENT_LIMIT,
};

impl Disc {
    /// Answers one command.
    pub fn command(&mut self, mut lent: Lent) -> Answer {
        Answer::from(self.answer(&mut lent))
    }

    fn answer(&mut self, lent: &mut Lent) -> Result<Accepted, Refusal> {
        let cdb = lent.twelve_bytes()?;
        lent.check_lengths(Some(self.capacity))?;
        self.obey(&cdb, lent)
    }

    /// L4 and the drive, once command block, medium and pending buffer have the right lengths. A
    /// mistake that this command block does not meet is switched off meanwhile.
    pub(crate) fn obey(&mut self, cdb: &[u8; 12], lent: &mut Lent) -> Result<Accepted, Refusal> {
        let fault = self.fault;
        self.fault = fault.and_then(|fault| fault.met_by(cdb));
        let result = self.serve(Command::decode(cdb, self.fault), lent);
        self.fault = fault;
        result
    }

    fn serve(&mut self, command: Command, lent: &mut Lent) -> Result<Accepted, Refusal> {
        let judged = self.judge(command);
        let late =
            self.slips(Fault::TransferTestedLate) || self.slips(Fault::TwelveTransferTestedLate);
        if !(late && judged.is_err()) {
            command.check_transfer(lent.data.len(), lent.reply.len(), self.fault)?;
        }
        match judged {
            Ok(step) => {
                if !self.slips(Fault::SenseKept) {
                    self.sense = Sense::NONE;
                }
                let mut accepted = self.perform(step, lent);
                if self.slips(Fault::FlushOnAcceptance) {
                    accepted.recorded += self.flush(lent);
                }
                Ok(accepted)
            }
            Err(sense) => {
                if self.slips(Fault::FlushOnRefusal) {
                    self.flush(lent);
                }
                if !self.slips(Fault::SenseUnset) {
                    self.sense = sense;
                }
                Err(Refusal::Drive(sense))
            }
        }
    }

    fn perform(&mut self, step: Step, lent: &mut Lent) -> Accepted {
        match step {
            Step::Nothing => Accepted::default(),
            Step::Send(report) => Accepted::with_reply(self.send_report(report, lent)),
            Step::Read(run) => Accepted::with_reply(self.read(run, lent)),
            Step::Write { index, sectors } => {
                Accepted::with_recorded(self.write(index, sectors, lent))
            }
            Step::Flush => Accepted::with_recorded(self.synchronize(lent)),
            Step::Reserve { index, blocks } => {
                self.reserve(index, blocks);
                Accepted::default()
            }
            Step::CloseFragment { index } => {
                Accepted::with_recorded(self.close_fragment(index, lent))
            }
            Step::CloseSession => Accepted::with_recorded(self.close_session(lent)),
            Step::Finalize => Accepted::with_recorded(self.finalize(lent)),
        }
    }

    /// A reply without sectors. L4 has left room for all of it, but for a mistake. Gives the bytes sent.
    fn send_report(&self, report: Report, lent: &mut Lent) -> usize {
        let room = match self.fault {
            Some(Fault::RoomUntested | Fault::ReplyUncut) => lent.reply.len(),
            _ => report.bytes().len(),
        };
        let sent = &report.bytes()[..report.bytes().len().min(room)];
        lent.reply[..sent.len()].copy_from_slice(sent);
        if self.slips(Fault::ReplyBufferTouched) {
            lent.reply[sent.len()..].fill(0);
        }
        sent.len()
    }

    /// WRITE: sectors of another fragment are flushed first. Gives the blocks recorded.
    fn write(&mut self, index: usize, sectors: u64, lent: &mut Lent) -> u64 {
        let mut flushed = 0;
        let of_another = self.pending.is_some_and(|pending| pending.index != index);
        if of_another && !self.slips(Fault::WriteTwelveUnflushed) {
            flushed = self.flush(lent);
        }
        if self.slips(Fault::FlushedBlockUncounted) {
            flushed = 0;
        }
        let gathered = self.gather(index, sectors, lent);
        let forced = if self.slips(Fault::ForcedWriteFlushes) { self.flush(lent) } else { 0 };
        flushed + gathered + forced
    }

    /// The pending sectors and the data form one run: its whole blocks go to the medium, the rest
    /// stays pending.
    fn gather(&mut self, index: usize, sectors: u64, lent: &mut Lent) -> u64 {
        let held = self.pending_in(index);
        let blocks = (held + sectors) / BLOCK_SECTORS;
        let rest = (held + sectors) % BLOCK_SECTORS;
        let held_bytes = sector_bytes(held);
        let rest_bytes = sector_bytes(rest);
        let data = &lent.data[..sector_bytes(sectors)];
        if blocks == 0 {
            lent.pending[held_bytes..rest_bytes].copy_from_slice(data);
        } else {
            let fresh = self.fragments[index].first_unrecorded();
            let medium = &mut lent.medium[block_stretch(fresh, blocks)];
            let (whole, remainder) = data.split_at(data.len() - rest_bytes);
            medium[..held_bytes].copy_from_slice(&lent.pending[..held_bytes]);
            medium[held_bytes..].copy_from_slice(whole);
            lent.pending[..rest_bytes].copy_from_slice(remainder);
        }
        if !self.slips(Fault::PendingBytesKept) {
            lent.pending[rest_bytes..].fill(0);
        }
        self.fragments[index].recorded += blocks;
        self.pending = (rest > 0).then_some(Pending { index, count: rest });
        blocks
    }

    /// 35h: flush. With none pending nothing happens, and the pending buffer stays as it is.
    fn synchronize(&mut self, lent: &mut Lent) -> u64 {
        if self.pending.is_none() && self.slips(Fault::EmptyFlushClears) {
            lent.pending.fill(0);
        }
        let flushed = self.pending;
        let mut recorded = self.flush(lent);
        if let Some(pending) = flushed.filter(|_| self.slips(Fault::FlushFillsFragment)) {
            recorded += self.fill_with_zeros(pending.index, lent);
        }
        recorded
    }

    /// The pending block's missing sectors become zero and it is recorded. Gives the blocks
    /// recorded, 0 or 1.
    pub(crate) fn flush(&mut self, lent: &mut Lent) -> u64 {
        let Some(Pending { index, count }) = self.pending.take() else {
            return 0;
        };
        if !self.slips(Fault::FlushKeepsStaleBytes) {
            lent.pending[sector_bytes(count)..].fill(0);
        }
        if self.slips(Fault::StrayWrite) {
            let last = lent.medium.len() - 1;
            lent.medium[last] ^= 0xFF;
        }
        let forgets = self.slips(Fault::ZeroFilledForgotten);
        let fragment = &mut self.fragments[index];
        lent.medium[block_stretch(fragment.first_unrecorded(), 1)].copy_from_slice(lent.pending);
        lent.pending.fill(0);
        fragment.recorded += 1;
        if !forgets {
            fragment.zero_filled += BLOCK_SECTORS - count;
        }
        1
    }

    /// RESERVE: the blank tail becomes a reserved fragment, a dividing block later a tail starts.
    fn reserve(&mut self, index: usize, blocks: u64) {
        let fragment = &mut self.fragments[index];
        fragment.kind = Kind::Reserved;
        fragment.length = blocks;
        let (session, end) = (fragment.session, fragment.end());
        self.push_tail(session, end + 1);
    }

    /// CLOSE 001: flush, then a complete fragment needs nothing more, a reserved one is filled with
    /// zeros, and the tail ends where its recorded blocks end; a new tail starts a dividing block
    /// later if there is a block and a record for it.
    fn close_fragment(&mut self, index: usize, lent: &mut Lent) -> u64 {
        let flushed = self.flush(lent);
        let fragment = &mut self.fragments[index];
        if fragment.is_complete() {
            return flushed;
        }
        if fragment.kind == Kind::Reserved {
            return flushed + self.fill_with_zeros(index, lent);
        }
        fragment.length = fragment.recorded;
        let (session, next) = (fragment.session, fragment.end() + 1);
        if next < self.end() && self.has_free_record() {
            self.push_tail(session, next);
        }
        flushed
    }

    /// Whether there is a record for a new tail.
    fn has_free_record(&mut self) -> bool {
        if self.slips(Fault::TailOverwritesRecord) {
            self.fragments.truncate(FRAGMENT_LIMIT - 1);
        }
        let limit = FRAGMENT_LIMIT - usize::from(self.slips(Fault::TailLimitTooLow));
        self.fragments.len() < limit
    }

    /// Records zeros in the fragment's unrecorded blocks. Gives their number.
    fn fill_with_zeros(&mut self, index: usize, lent: &mut Lent) -> u64 {
        let has_block_after = self.fragments[index].end() < self.end();
        let stray = u64::from(self.slips(Fault::CloseFillsDividingBlock) && has_block_after);
        let fragment = &mut self.fragments[index];
        let blocks = fragment.length - fragment.recorded;
        lent.medium[block_stretch(fragment.first_unrecorded(), blocks + stray)].fill(0);
        fragment.zero_filled += blocks * BLOCK_SECTORS;
        fragment.recorded = fragment.length;
        blocks
    }

    /// CLOSE 010: the next session is a tail after Closure and Intro.
    fn close_session(&mut self, lent: &mut Lent) -> u64 {
        let flushed = self.flush(lent);
        self.end_tail();
        let gap = SESSION_GAP - u64::from(self.slips(Fault::SessionStartsEarly));
        if let Some(last) = self.fragments.last() {
            self.push_tail(last.session + 1, last.end() + gap);
        }
        flushed
    }

    /// CLOSE 110: as 010 for the tail, without a next session.
    fn finalize(&mut self, lent: &mut Lent) -> u64 {
        let flushed = self.flush(lent);
        self.end_tail();
        self.finalized = !self.slips(Fault::FinalizeForgotten);
        flushed
    }

    /// A blank tail is dropped, a written one ends where its recorded blocks end.
    fn end_tail(&mut self) {
        let Some(index) = self.tail() else {
            return;
        };
        if self.is_blank(index) {
            self.fragments.truncate(index);
        } else {
            self.fragments[index].length = self.fragments[index].recorded;
        }
    }

    fn push_tail(&mut self, session: u64, start: Block) {
        self.fragments.push(Fragment::tail(session, start, self.capacity));
    }
}

//! READ: which runs of sectors are readable, and where their bytes are. A sector is readable if it is
//! recorded or pending.

use crate::disc::Disc;
use crate::halving::Search;
use crate::units::{sector_bytes, stretch};
use crate::{Address, Fault, Lent, BLOCK_SECTORS, SECTOR_BYTES};

/// A readable run: sectors of the medium, then sectors of the pending buffer; either may be none.
#[derive(Clone, Copy, Debug)]
pub(crate) struct Run {
    /// The first sector.
    from: Address,
    /// How many of its sectors are recorded.
    recorded: u64,
    /// How many are pending.
    pending: u64,
    /// How many sectors lie in front of those in the pending buffer.
    skipped: u64,
}

impl Disc {
    /// The run of these sectors, if all of them are readable.
    pub(crate) fn readable_run(&self, from: Address, sectors: u64) -> Option<Run> {
        let run = self.holder(from, sectors).map(|index| self.run_in(index, from, sectors));
        let refused = |run: &Run| self.slips(Fault::BorderRunRefused) && run.crosses_border();
        run.filter(|run| !refused(run)).or_else(|| self.unreadable_run(from, sectors))
    }

    /// The fragment in which all these sectors are readable. The readable sectors of two fragments
    /// never touch, so a run that is readable has one.
    fn holder(&self, from: Address, sectors: u64) -> Option<usize> {
        self.candidates(Search::Read, from).find(|&index| {
            let first = self.fragments[index].start.first_sector();
            first <= from && from + sectors <= first + self.served_sectors(index)
        })
    }

    /// How many sectors of the fragment are served: the readable ones, but for a mistake.
    fn served_sectors(&self, index: usize) -> u64 {
        let readable = self.readable_sectors(index);
        let recorded = self.fragments[index].recorded_sectors();
        let is_last = index + 1 == self.fragments.len();
        let Some(pending) = self.pending else { return readable };
        let is_owner = index == pending.index;
        match self.fault {
            Some(Fault::PendingRefused) => recorded,
            Some(Fault::LastPendingRefused) if is_owner => readable - 1,
            Some(Fault::StaleSectorServed) if is_owner => readable + 1,
            Some(Fault::PendingBlockServed) if is_owner => recorded + BLOCK_SECTORS,
            Some(Fault::PendingInFirstFragment) if index == 0 => recorded + pending.count,
            Some(Fault::PendingInLastFragment) if is_last => recorded + pending.count,
            Some(Fault::PendingInFirstFragment | Fault::PendingInLastFragment) => recorded,
            _ => readable,
        }
    }

    /// The shares of a run that begins in the fragment: up to its first unrecorded block the medium
    /// has the sectors, from there on the pending buffer.
    fn run_in(&self, index: usize, from: Address, sectors: u64) -> Run {
        let border = self.fragments[index].first_unrecorded().first_sector();
        let recorded = sectors.min(from.sectors_to(border));
        let pending = sectors - recorded;
        Run { from, recorded, pending, skipped: border.sectors_to(from) }
    }

    /// A run with a sector that is not readable, served by mistake.
    fn unreadable_run(&self, from: Address, sectors: u64) -> Option<Run> {
        let of_medium = Run { from, recorded: sectors, pending: 0, skipped: 0 };
        match self.fault? {
            Fault::DividingBlockServed => self.is_dividing(from, sectors).then_some(of_medium),
            Fault::ReadInPart => {
                let index = self.holder(from, 1)?;
                let end = self.fragments[index].start.first_sector() + self.served_sectors(index);
                Some(self.run_in(index, from, from.sectors_to(end)))
            }
            Fault::ReadTestsEndsAlone => {
                let last = self.holder(from + (sectors - 1), 1)?;
                self.holder(from, 1).map(|_| self.run_in(last, from, sectors))
            }
            _ => None,
        }
    }

    /// Whether the run lies in the block between two fragments of a session.
    fn is_dividing(&self, from: Address, sectors: u64) -> bool {
        self.fragments.windows(2).any(|pair| {
            pair[1].session == pair[0].session
                && pair[0].end().first_sector() <= from
                && from + sectors <= pair[1].start.first_sector()
        })
    }

    /// READ: the run goes to the reply, and nothing changes. Gives the bytes sent.
    pub(crate) fn read(&mut self, run: Run, lent: &mut Lent) -> usize {
        let run = match self.slips(Fault::ReadTwelveReplyCut) {
            true => run.cut((lent.reply.len() / SECTOR_BYTES) as u64),
            false => run,
        };
        let sent = run.slipping(self.fault).send(lent);
        let Some(held) = self.pending.filter(|_| run.pending > 0) else { return sent };
        match self.fault {
            Some(Fault::PendingShareUncounted) => return sector_bytes(run.recorded),
            Some(Fault::ReadFlushes) => {
                self.flush(lent);
            }
            Some(Fault::ReadClearsStaleBytes) => lent.pending[sector_bytes(held.count)..].fill(0),
            _ => {}
        }
        sent
    }
}

impl Run {
    fn crosses_border(&self) -> bool {
        self.recorded > 0 && self.pending > 0
    }

    /// At most so many of its sectors.
    fn cut(self, most: u64) -> Run {
        let recorded = self.recorded.min(most);
        Run { recorded, pending: self.pending.min(most - recorded), ..self }
    }

    /// Copies both shares into the reply buffer, the medium's first.
    fn send(self, lent: &mut Lent) -> usize {
        let medium = &lent.medium[stretch(self.from, self.recorded)];
        let pending = &lent.pending[sector_bytes(self.skipped)..][..sector_bytes(self.pending)];
        let (front, rest) = lent.reply.split_at_mut(medium.len());
        front.copy_from_slice(medium);
        rest[..pending.len()].copy_from_slice(pending);
        medium.len() + pending.len()
    }

    /// The same sectors, some of them taken from the wrong place by mistake.
    fn slipping(self, fault: Option<Fault>) -> Run {
        let Run { recorded, pending, skipped, .. } = self;
        match fault {
            Some(Fault::PendingShareFromFront) => Run { skipped: 0, ..self },
            Some(Fault::PendingServedFromMedium) => {
                Run { recorded: recorded + pending, pending: 0, ..self }
            }
            Some(Fault::FirstSectorFromMedium) if recorded == 0 => {
                Run { recorded: 1, pending: pending - 1, skipped: skipped + 1, ..self }
            }
            _ => self,
        }
    }
}

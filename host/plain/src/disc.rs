//! The disc state: fragments, sessions, pending sectors and sense, and what can be asked of them.

use crate::{Address, Block, Fault, Refusal, Sense, BLOCK_SECTORS, CAPACITIES, FRAGMENT_LIMIT};

/// How a fragment came to be.
#[derive(Clone, Copy, Debug, PartialEq, Eq)]
pub enum Kind {
    Reserved = 0,
    Appended = 1,
}

/// A fragment. Lengths are in blocks, zero-filled counts sectors.
#[derive(Clone, Copy, Debug, PartialEq, Eq)]
pub struct Fragment {
    pub session: u64,
    pub start: Block,
    pub length: u64,
    pub recorded: u64,
    pub zero_filled: u64,
    pub kind: Kind,
}

impl Fragment {
    /// The unwritten tail of a session, from a block to the end of the disc.
    pub(crate) fn tail(session: u64, start: Block, capacity: u64) -> Fragment {
        Fragment {
            session,
            start,
            length: capacity - start.0,
            recorded: 0,
            zero_filled: 0,
            kind: Kind::Appended,
        }
    }

    /// The block after the fragment.
    pub fn end(&self) -> Block {
        self.start + self.length
    }

    /// The block after the recorded ones.
    pub fn first_unrecorded(&self) -> Block {
        self.start + self.recorded
    }

    pub fn is_complete(&self) -> bool {
        self.recorded == self.length
    }

    pub fn is_tail(&self) -> bool {
        self.kind == Kind::Appended && !self.is_complete()
    }

    /// How many sectors are recorded.
    pub fn recorded_sectors(&self) -> u64 {
        self.recorded * BLOCK_SECTORS
    }

    /// The last recorded sector.
    pub fn last_recorded_sector(&self) -> Option<Address> {
        let last = self.recorded_sectors().checked_sub(1)?;
        Some(self.start.first_sector() + last)
    }
}

/// The limit of fragments, one too low or too high with that mistake.
pub(crate) fn limit_with(fault: Option<Fault>, too_low: Fault, too_high: Fault) -> usize {
    FRAGMENT_LIMIT + usize::from(fault == Some(too_high)) - usize::from(fault == Some(too_low))
}

/// Sectors gathered in the pending buffer: at least 1 and at most 15, all of one fragment.
#[derive(Clone, Copy, Debug, PartialEq, Eq)]
pub(crate) struct Pending {
    pub index: usize,
    pub count: u64,
}

/// A disc state that keeps every rule of a sound list. Fragments are held by index, their numbers
/// are one more.
#[derive(Clone, Debug, PartialEq, Eq)]
pub struct Disc {
    pub(crate) capacity: u64,
    pub(crate) finalized: bool,
    pub(crate) sense: Sense,
    pub(crate) pending: Option<Pending>,
    pub(crate) fragments: Vec<Fragment>,
    pub(crate) fault: Option<Fault>,
}

impl Disc {
    /// A blank disc of so many blocks, or L2.
    pub fn blank(capacity: u64) -> Result<Disc, Refusal> {
        if !CAPACITIES.contains(&capacity) {
            return Err(Refusal::BufferLength);
        }
        let mut fragments = Vec::with_capacity(FRAGMENT_LIMIT);
        fragments.push(Fragment::tail(1, Block(0), capacity));
        Ok(Disc {
            capacity,
            finalized: false,
            sense: Sense::NONE,
            pending: None,
            fragments,
            fault: None,
        })
    }

    /// Whether this mistake is switched on.
    pub(crate) fn slips(&self, fault: Fault) -> bool {
        self.fault == Some(fault)
    }

    /// The limit of fragments, one too low or too high where that mistake is switched on.
    pub(crate) fn limit(&self, too_low: Fault, too_high: Fault) -> usize {
        limit_with(self.fault, too_low, too_high)
    }

    /// The block after the last one of the disc.
    pub(crate) fn end(&self) -> Block {
        Block(self.capacity)
    }

    /// The index of a fragment's number.
    pub(crate) fn index_of(&self, number: u64) -> Option<usize> {
        let index = usize::try_from(number).ok()?.checked_sub(1)?;
        (index < self.fragments.len()).then_some(index)
    }

    /// The index of the tail: if there is one, it is the last.
    pub(crate) fn tail(&self) -> Option<usize> {
        let last = self.fragments.len().checked_sub(1)?;
        self.fragments[last].is_tail().then_some(last)
    }

    pub(crate) fn blank_tail(&self) -> Option<usize> {
        self.tail().filter(|&index| self.is_blank(index))
    }

    /// How many sectors of the fragment are pending.
    pub(crate) fn pending_in(&self, index: usize) -> u64 {
        self.pending.filter(|pending| pending.index == index).map_or(0, |pending| pending.count)
    }

    /// How many sectors of the fragment are readable, from its first on: those recorded, then those
    /// pending.
    pub(crate) fn readable_sectors(&self, index: usize) -> u64 {
        self.fragments[index].recorded_sectors() + self.pending_in(index)
    }

    /// The last readable sector of the fragment.
    pub(crate) fn last_readable_sector(&self, index: usize) -> Option<Address> {
        let last = self.readable_sectors(index).checked_sub(1)?;
        Some(self.fragments[index].start.first_sector() + last)
    }

    /// Nothing recorded and nothing pending.
    pub(crate) fn is_blank(&self, index: usize) -> bool {
        self.fragments[index].recorded == 0
            && (self.pending_in(index) == 0 || self.slips(Fault::PendingTailIsBlank))
    }

    /// The next writable address, which only an incomplete fragment has.
    pub(crate) fn next_writable(&self, index: usize) -> Option<Address> {
        let fragment = &self.fragments[index];
        let next = fragment.first_unrecorded().first_sector() + self.pending_in(index);
        (!fragment.is_complete()).then_some(next)
    }

    /// How many blocks of the fragment will be recorded once the pending sectors are flushed.
    pub(crate) fn recorded_after_flush(&self, index: usize) -> u64 {
        self.fragments[index].recorded + u64::from(self.pending_in(index) > 0)
    }

    /// The number of the last session, which is the number of sessions.
    pub(crate) fn sessions(&self) -> u64 {
        self.fragments.last().map_or(0, |last| last.session)
    }

    /// The index of the last session's first fragment.
    pub(crate) fn first_of_last_session(&self) -> usize {
        let sessions = self.sessions();
        self.fragments.partition_point(|fragment| fragment.session < sessions)
    }

    /// Whether the last session is only a blank tail.
    pub(crate) fn last_session_is_empty(&self) -> bool {
        self.blank_tail() == Some(self.first_of_last_session())
    }
}

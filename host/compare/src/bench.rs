//! One drive with its state and buffers.

use crate::pair::LONG_REPLY;
use crate::pool::fill_from_pool;
use crate::{Drive, Random, Request};
use gladhamre::{Answer, Lent, State, BLOCK_BYTES, SECTOR_BYTES, STATE_WORDS};
use mapped::Mapped;

/// One drive with its state and buffers.
#[derive(Clone)]
pub struct Bench<'a> {
    drive: &'a dyn Drive,
    pub state: State,
    pub medium: Vec<u8>,
    pub pending: Vec<u8>,
}

impl<'a> Bench<'a> {
    /// A blank disc with any bytes in the buffers.
    pub fn blank(
        drive: &'a dyn Drive,
        capacity: u32,
        random: &mut Random,
    ) -> Result<Bench<'a>, String> {
        let mut bench = Bench::unwritten(drive, capacity);
        if drive.blank(capacity, bench.state.words_mut()) != 0 {
            return Err(format!("no blank disc of {capacity} blocks"));
        }
        fill_from_pool(&mut bench.medium, random);
        fill_from_pool(&mut bench.pending, random);
        Ok(bench)
    }

    /// The all-zero state, and buffers that take memory only where they are touched.
    pub fn unwritten(drive: &'a dyn Drive, blocks: u32) -> Bench<'a> {
        Bench {
            drive,
            state: State::from_words([0; STATE_WORDS]),
            medium: vec![0; blocks as usize * BLOCK_BYTES],
            pending: vec![0; BLOCK_BYTES],
        }
    }

    /// Sends a command; gives its answer and the bytes of its reply.
    pub fn command(&mut self, request: &Request) -> (Answer, Vec<u8>) {
        if request.reply_length > LONG_REPLY {
            let mut reply = Mapped::zeros(request.reply_length).expect("address space");
            let answer = self.answer(request, &mut reply);
            return (answer, reply[..answer.reply_count as usize].to_vec());
        }
        let mut reply = vec![0; request.reply_length];
        let answer = self.answer(request, &mut reply);
        reply.truncate(answer.reply_count as usize);
        (answer, reply)
    }

    fn answer(&mut self, request: &Request, reply: &mut [u8]) -> Answer {
        let lent = Lent {
            cdb: &request.cdb,
            data: request.data(),
            medium: &mut self.medium[..request.medium_length],
            pending: &mut self.pending[..request.pending_length],
            reply,
        };
        self.drive.command(self.state.words_mut(), lent)
    }

    /// Other bytes past the pending count and in some blocks that are not recorded.
    pub fn change_stale(&mut self, random: &mut Random) {
        let held = self.held_bytes();
        fill_from_pool(&mut self.pending[held..], random);
        let recorded = recorded_blocks(&self.state);
        for _ in 0..4 {
            let block = self.block_worth_changing(random);
            if !recorded[block] {
                fill_from_pool(&mut self.medium[block_bytes(block)], random);
            }
        }
    }

    /// The block where the next sectors of a fragment will go, the one after a fragment, or any.
    fn block_worth_changing(&self, random: &mut Random) -> usize {
        let capacity = self.state.capacity();
        let count = self.state.records().count() as u64;
        let record = self.state.record(random.below(count) as usize);
        let block = match random.below(3) {
            0 => record.start + record.recorded,
            1 => record.start + record.length,
            _ => random.below(capacity.into()) as u32,
        };
        block.min(capacity - 1) as usize
    }

    fn held_bytes(&self) -> usize {
        self.state.pending_count() as usize * SECTOR_BYTES
    }

    /// The pending sectors with their addresses.
    pub fn pending_sectors(&self) -> impl Iterator<Item = (usize, &[u8])> {
        let index = (self.state.pending_fragment() as usize).saturating_sub(1);
        let holder = self.state.record(index);
        let first = 16 * (holder.start + holder.recorded) as usize;
        (first..).zip(self.pending[..self.held_bytes()].chunks(SECTOR_BYTES))
    }

    /// The same state, pending sectors and recorded sectors.
    pub fn same_disc(&self, other: &Bench) -> Result<(), String> {
        if self.state != other.state {
            return Err("other states at the end".into());
        }
        let held = self.held_bytes();
        if self.pending[..held] != other.pending[..held] {
            return Err("other pending sectors at the end".into());
        }
        let recorded = recorded_blocks(&self.state);
        let differs = |&block: &usize| {
            recorded[block] && self.medium[block_bytes(block)] != other.medium[block_bytes(block)]
        };
        match (0..recorded.len()).find(differs) {
            Some(block) => Err(format!("other bytes in the recorded block {block} at the end")),
            None => Ok(()),
        }
    }

    /// The same bytes everywhere.
    pub fn same_bytes(&self, other: &Bench) -> Result<(), String> {
        if self.medium != other.medium {
            return Err("other bytes in the medium at the end".into());
        }
        if self.pending != other.pending {
            return Err("other bytes in the pending buffer at the end".into());
        }
        Ok(())
    }
}

pub fn block_bytes(block: usize) -> std::ops::Range<usize> {
    block * BLOCK_BYTES..(block + 1) * BLOCK_BYTES
}

/// For each block whether it is recorded.
pub fn recorded_blocks(state: &State) -> Vec<bool> {
    let mut recorded = vec![false; state.capacity() as usize];
    for record in state.records() {
        let start = record.start as usize;
        recorded[start..start + record.recorded as usize].fill(true);
    }
    recorded
}

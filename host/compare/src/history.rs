//! What must hold of a disc by the history of its commands.

use crate::bench::{block_bytes, recorded_blocks, Bench};
use crate::pool::pool;
use crate::{cdb, Request};
use gladhamre::{Answer, State, RECORD_LIMIT, SECTOR_BYTES};

/// What each recorded block held when it was recorded.
pub struct Ledger {
    contents: Vec<Option<Vec<u8>>>,
}

impl Ledger {
    pub fn new(capacity: u32) -> Ledger {
        Ledger { contents: vec![None; capacity as usize] }
    }

    /// Enters what is newly recorded; what was recorded must be so still.
    pub fn note(&mut self, bench: &Bench) -> Result<(), String> {
        for (block, recorded) in recorded_blocks(&bench.state).into_iter().enumerate() {
            let entry = &mut self.contents[block];
            if !recorded && entry.is_some() {
                return Err(format!("block {block} is no longer recorded"));
            }
            if recorded && entry.is_none() {
                *entry = Some(bench.medium[block_bytes(block)].to_vec());
            }
        }
        Ok(())
    }

    /// A recorded sector never changes.
    pub fn check(&self, bench: &Bench) -> Result<(), String> {
        for (block, entry) in self.contents.iter().enumerate() {
            let now = &bench.medium[block_bytes(block)];
            if entry.as_ref().is_some_and(|then| then != now) {
                return Err(format!("the recorded block {block} has changed"));
            }
        }
        Ok(())
    }
}

/// The sectors that accepted WRITEs brought.
pub struct Writes {
    /// For each sector of the disc, where in the pool its data are.
    data: Vec<Option<usize>>,
    /// How many came to each fragment.
    accepted: [u64; RECORD_LIMIT],
}

impl Writes {
    pub fn new(capacity: u32) -> Writes {
        Writes { data: vec![None; 16 * capacity as usize], accepted: [0; RECORD_LIMIT] }
    }

    /// Enters an accepted WRITE.
    pub fn note(&mut self, request: &Request, answer: &Answer, before: &State) {
        let Some(cdb) = request.twelve() else {
            return;
        };
        let (address, sectors) = cdb::run(&cdb);
        if !cdb::is_write(&cdb) || answer.number != 0 || sectors == 0 {
            return;
        }
        let mut ends = before.records().map(|record| 16 * (record.start + record.length));
        if let Some(index) = ends.position(|end| address < end) {
            self.accepted[index] += u64::from(sectors);
        }
        let places = self.data.iter_mut().skip(address as usize);
        for (sector, place) in places.take(sectors as usize).enumerate() {
            *place = Some(request.data_offset + sector * SECTOR_BYTES);
        }
    }

    /// What a readable sector holds: its data, or the zeros that filled up its block, which is
    /// recorded then. A sector without either is not readable.
    fn expected(&self, address: usize, recorded: &[bool]) -> Option<&'static [u8]> {
        match *self.data.get(address)? {
            Some(offset) => Some(&pool()[offset..][..SECTOR_BYTES]),
            None => recorded[address / 16].then_some(&[0; SECTOR_BYTES]),
        }
    }

    /// Every sector that a READ gave is readable and what was written there.
    pub fn check_reply(
        &self,
        request: &Request,
        reply: &[u8],
        before: &State,
    ) -> Result<(), String> {
        let from = match request.twelve() {
            Some(cdb) if cdb::is_read(&cdb) => cdb::value(&cdb) as usize,
            _ => return Ok(()),
        };
        let recorded = recorded_blocks(before);
        for (address, bytes) in (from..).zip(reply.chunks(SECTOR_BYTES)) {
            let Some(expected) = self.expected(address, &recorded) else {
                return Err(format!("READ gives sector {address}, neither recorded nor pending"));
            };
            if bytes != expected {
                return Err(format!("READ gives sector {address} not as it was written"));
            }
        }
        Ok(())
    }

    /// Every recorded sector has its data, or zeros where none came, and every pending one its data;
    /// in each fragment the recorded sectors are those accepted, less those pending, plus those
    /// zero-filled.
    pub fn check(&self, bench: &Bench) -> Result<(), String> {
        for (index, record) in bench.state.records().enumerate() {
            let own = bench.state.pending_fragment() as usize == index + 1;
            let pending = if own { bench.state.pending_count() } else { 0 };
            let recorded = 16 * u64::from(record.recorded);
            let kept = self.accepted[index] + u64::from(record.zero_filled);
            if recorded + u64::from(pending) != kept {
                return Err(format!("the kept count of fragment {} is wrong", index + 1));
            }
        }
        let recorded = recorded_blocks(&bench.state);
        let on_medium = bench.medium.chunks_exact(SECTOR_BYTES).enumerate();
        let on_medium = on_medium.filter(|(address, _)| recorded[address / 16]);
        for (address, bytes) in on_medium.chain(bench.pending_sectors()) {
            if self.expected(address, &recorded) != Some(bytes) {
                return Err(format!("sector {address} is not what was written there"));
            }
        }
        Ok(())
    }
}

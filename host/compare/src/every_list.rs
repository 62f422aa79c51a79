//! Lists of every length, and a search for every fragment in them: 52h by address, READ and WRITE of
//! one sector, on two drives. What must come of it is known from how the list was made.

use crate::bench::{block_bytes, Bench};
use crate::cdb::{self, Cdb};
use crate::coverage::answer_name;
use crate::event::{BLANK_CHECK, NOT_WRITABLE, OUT_OF_RANGE, PROTECTED};
use crate::lists::MOST_BLOCKS;
use crate::{Difference, Drive, Request};
use gladhamre::{Record, State, BLOCK_BYTES, SECTOR_BYTES};
use std::collections::BTreeSet;
use std::fmt;

pub use crate::lists::{Shape, SHAPES};

/// Numbers of records with numbers of fragments that were found there.
pub type Places = BTreeSet<(usize, usize)>;

/// What was tried, and which fragments each command found.
#[derive(Clone, Debug, Default)]
pub struct Tally {
    pub commands: u64,
    pub reported: Places,
    pub read: Places,
    pub written: Places,
}

impl fmt::Display for Tally {
    fn fmt(&self, out: &mut fmt::Formatter) -> fmt::Result {
        let [reported, read, written] =
            [&self.reported, &self.read, &self.written].map(Places::len);
        write!(
            out,
            "{} commands; places found: {reported} by 52h, {read} by READ, {written} by WRITE",
            self.commands
        )
    }
}

/// At which addresses of a list is searched.
#[derive(Clone, Copy, PartialEq, Eq)]
pub enum Addresses {
    /// At and beside the edges of each fragment, between two of them, and at the disc's end.
    Edges,
    /// At every sector of the disc, and after its end.
    All,
}

/// Compares the drives on lists of these lengths.
pub fn check(
    left: &dyn Drive,
    right: &dyn Drive,
    shape: &Shape,
    lengths: impl IntoIterator<Item = usize>,
    addresses: Addresses,
) -> Result<Tally, Difference> {
    let mut trial = Trial::new(left, right);
    for length in lengths {
        trial.search(&shape.list(length), addresses).map_err(|Difference(what)| {
            let sides = format!("{} and {}", left.name(), right.name());
            Difference(format!("{sides}: {what}, {}, {length} records", shape.name))
        })?;
    }
    Ok(trial.tally)
}

/// An address, and the fragment in which it lies.
struct Probe {
    address: u32,
    index: Option<usize>,
}

/// The first sector of a fragment, and the one after its last.
fn bounds(record: &Record) -> (u32, u32) {
    (16 * record.start, 16 * (record.start + record.length))
}

/// The sector after the readable ones of a fragment: the next writable address, if it is incomplete.
fn readable_end(state: &State, index: usize) -> u32 {
    let record = state.record(index);
    let own = state.pending_fragment() as usize == index + 1;
    16 * (record.start + record.recorded) + if own { state.pending_count() } else { 0 }
}

impl Addresses {
    fn probes(self, state: &State) -> Vec<Probe> {
        let mut probes = Vec::new();
        let mut add = |address, index| probes.push(Probe { address, index });
        let disc_end = 16 * state.capacity();
        let records: Vec<Record> = state.records().collect();
        for (index, record) in records.iter().enumerate() {
            let (first, end) = bounds(record);
            let after = records.get(index + 1).map_or(disc_end, |next| bounds(next).0);
            match self {
                Addresses::All => {
                    (first..end).for_each(|address| add(address, Some(index)));
                    (end..after).for_each(|address| add(address, None));
                }
                Addresses::Edges => {
                    let border = readable_end(state, index).min(end - 1);
                    let inside = [first, first + 1, border, end - 2, end - 1];
                    inside.into_iter().for_each(|address| add(address, Some(index)));
                    let outside = [end, end + (after - end) / 2, after.max(end + 1) - 1];
                    outside.into_iter().for_each(|address| add(address, None));
                }
            }
        }
        add(disc_end, None);
        add(u32::MAX, None);
        probes
    }
}

/// Two drives, and what was tried on them.
struct Trial<'a> {
    sides: [Bench<'a>; 2],
    tally: Tally,
}

impl<'a> Trial<'a> {
    fn new(left: &'a dyn Drive, right: &'a dyn Drive) -> Trial<'a> {
        let sides = [left, right].map(|drive| Bench::unwritten(drive, MOST_BLOCKS));
        Trial { sides, tally: Tally::default() }
    }

    fn search(&mut self, state: &State, addresses: Addresses) -> Result<(), Difference> {
        let count = state.records().count();
        let held = stamped_pending(state);
        self.restore_pending(&held);
        for (turn, probe) in addresses.probes(state).iter().enumerate() {
            let address = probe.address;
            let (read, write) = match (turn + count) % 2 {
                0 => (cdb::read(address, 1), cdb::write(address, 1)),
                _ => (cdb::read_12(address, 1), cdb::write_12(address, 1)),
            };
            let found = probe.index.map(|index| (count, index + 1));
            self.report(state, probe)?.then(|| self.tally.reported.extend(found));
            self.stamp(address, state);
            self.read(state, probe, read)?.then(|| self.tally.read.extend(found));
            if self.write(state, probe, write)? {
                self.tally.written.extend(found);
                self.restore_pending(&held);
            }
        }
        match self.sides.iter().all(|side| side.pending == held) {
            true => Ok(()),
            false => Err(Difference("a command that records nothing changed pending bytes".into())),
        }
    }

    /// 52h by address: the reply has the number of the fragment.
    fn report(&mut self, state: &State, probe: &Probe) -> Result<bool, Difference> {
        let cdb = cdb::read_fragment_information(0, probe.address, 36);
        let number = if probe.index.is_some() { 0 } else { OUT_OF_RANGE };
        let reply = self.send(state, cdb, number)?;
        let numbered = probe.index.map(|index| index as u16 + 1);
        match (numbered, reply.get(2), reply.get(32)) {
            (None, None, None) => Ok(false),
            (Some(number), Some(&low), Some(&high))
                if number == u16::from_be_bytes([high, low]) =>
            {
                Ok(true)
            }
            _ => Err(wrong(&cdb, "another fragment's number")),
        }
    }

    /// READ: the reply is the sector at that address.
    fn read(&mut self, state: &State, probe: &Probe, cdb: Cdb) -> Result<bool, Difference> {
        let is_readable = probe.index.is_some_and(|at| probe.address < readable_end(state, at));
        let number = match is_readable {
            true => 0,
            false if probe.address < 16 * state.capacity() => BLANK_CHECK,
            false => OUT_OF_RANGE,
        };
        let reply = self.send(state, cdb, number)?;
        if is_readable && reply[..4] != stamp(probe.address) {
            return Err(wrong(&cdb, "another sector"));
        }
        Ok(is_readable)
    }

    /// WRITE: where it is accepted, pending buffers and the blocks that it may record are compared too.
    fn write(&mut self, state: &State, probe: &Probe, cdb: Cdb) -> Result<bool, Difference> {
        let is_next = |&index: &usize| {
            let record = state.record(index);
            record.recorded < record.length && probe.address == readable_end(state, index)
        };
        let written = probe.index.filter(is_next);
        let number = match written {
            _ if state.finalized() == 1 => PROTECTED,
            Some(_) => 0,
            None => NOT_WRITABLE,
        };
        self.send(state, cdb, number)?;
        if number > 0 {
            return Ok(false);
        }
        let holder = (state.pending_fragment() as usize).checked_sub(1);
        let mut blocks = [written, holder].into_iter().flatten().map(|index| {
            let record = state.record(index);
            block_bytes((record.start + record.recorded) as usize)
        });
        let [left, right] = &self.sides;
        let same_blocks = blocks.all(|bytes| left.medium[bytes.clone()] == right.medium[bytes]);
        match same_blocks && left.pending == right.pending {
            true => Ok(true),
            false => Err(wrong(&cdb, "other bytes in the pending buffer or the medium")),
        }
    }

    /// Sends a command to both drives, on a copy of the state, and compares what they answer and what
    /// state they leave. Gives the reply.
    fn send(&mut self, state: &State, cdb: Cdb, number: u32) -> Result<Vec<u8>, Difference> {
        self.tally.commands += 1;
        let request = Request::fitting(cdb, state.capacity());
        let [left, right] = &mut self.sides;
        left.state = state.clone();
        right.state = state.clone();
        let ((answer, reply), (other, other_reply)) =
            (left.command(&request), right.command(&request));
        if answer != other {
            let names = [answer, other].map(|answer| answer_name(answer.number)).join(" and ");
            return Err(wrong(&cdb, &names));
        }
        if reply != other_reply || left.state != right.state {
            return Err(wrong(&cdb, "another reply or state"));
        }
        match answer.number == number {
            true => Ok(reply),
            false => Err(wrong(&cdb, &format!("{} from both", answer_name(answer.number)))),
        }
    }

    /// Stamps a sector on both media, if they have it.
    fn stamp(&mut self, address: u32, state: &State) {
        let at = address as usize * SECTOR_BYTES;
        if address < 16 * state.capacity() {
            for side in &mut self.sides {
                side.medium[at..at + 4].copy_from_slice(&stamp(address));
            }
        }
    }

    fn restore_pending(&mut self, held: &[u8]) {
        for side in &mut self.sides {
            side.pending.copy_from_slice(held);
        }
    }
}

/// What the sector at an address begins with: never zeros.
fn stamp(address: u32) -> [u8; 4] {
    (!address).to_be_bytes()
}

/// A pending buffer in which each pending sector has its stamp.
fn stamped_pending(state: &State) -> Vec<u8> {
    let mut held = vec![0; BLOCK_BYTES];
    if let Some(holder) = (state.pending_fragment() as usize).checked_sub(1) {
        let first = readable_end(state, holder) - state.pending_count();
        let sectors = held.chunks_mut(SECTOR_BYTES).take(state.pending_count() as usize);
        for (address, sector) in (first..).zip(sectors) {
            sector[..4].copy_from_slice(&stamp(address));
        }
    }
    held
}

fn wrong(cdb: &Cdb, what: &str) -> Difference {
    Difference(format!("{what} for {cdb:02X?}"))
}

//! The bytes of the replies about the disc, each built in one place. An allocation length cuts a reply
//! of any command.

use crate::configuration;
use crate::disc::Disc;
use crate::{Address, Fault, Fragment, Kind, Sense, BLOCK_SECTORS, SECTOR_BYTES};

pub const SENSE_BYTES: usize = 18;
pub const CAPACITY_BYTES: usize = 8;
pub const DISC_INFORMATION_BYTES: usize = 34;
pub const FRAGMENT_INFORMATION_BYTES: usize = 36;

/// The most bytes that a reply without sectors has.
const MOST_BYTES: usize = configuration::MOST_BYTES;

/// The bytes of a reply, cut to the allocation length.
#[derive(Clone, Copy, Debug)]
pub struct Report {
    bytes: [u8; MOST_BYTES],
    count: usize,
}

impl Report {
    pub fn cut(reply: &[u8], allocation: usize) -> Report {
        let count = reply.len().min(allocation);
        let mut bytes = [0; MOST_BYTES];
        bytes[..count].copy_from_slice(&reply[..count]);
        Report { bytes, count }
    }

    pub fn bytes(&self) -> &[u8] {
        &self.bytes[..self.count]
    }
}

/// 03h: the sense before the command.
pub fn sense(sense: Sense) -> [u8; SENSE_BYTES] {
    let mut reply = [0; SENSE_BYTES];
    reply[0] = 0x70;
    reply[2] = sense.key;
    reply[7] = 0x0A;
    reply[12] = sense.code;
    reply[13] = sense.qualifier;
    reply
}

/// 25h: the last readable address and the length of a sector.
pub fn capacity(disc: &Disc) -> [u8; CAPACITY_BYTES] {
    let mut reply = [0; CAPACITY_BYTES];
    put_four(&mut reply, 0, last_readable(disc).map_or(0, |address| address.0));
    put_four(&mut reply, 4, SECTOR_BYTES as u64);
    reply
}

/// The highest readable address of any fragment.
fn last_readable(disc: &Disc) -> Option<Address> {
    let of_fragment = |index: usize| disc.last_readable_sector(index);
    let readable = (0..disc.fragments.len()).filter_map(of_fragment).max();
    let recorded = disc.fragments.iter().filter_map(Fragment::last_recorded_sector).max();
    match (disc.fault, disc.pending) {
        (Some(Fault::CapacityIgnoresPending), Some(_)) => recorded,
        (Some(Fault::CapacityStopsAtPending), Some(pending)) => of_fragment(pending.index),
        (Some(Fault::CapacityAddsPending), Some(pending)) => {
            recorded.map_or(readable, |last| Some(last + pending.count))
        }
        (Some(Fault::CapacityCountsPendingBlock), Some(_)) => {
            readable.map(|last| last.block().first_sector() + (BLOCK_SECTORS - 1))
        }
        _ => readable,
    }
}

/// 51h: the disc, its sessions and the fragments of the last one.
pub fn disc_information(disc: &Disc) -> [u8; DISC_INFORMATION_BYTES] {
    let mut first = disc.first_of_last_session() + 1;
    if disc.slips(Fault::FirstFragmentOfDiscReported) {
        first = 1;
    }
    let mut reply = [0; DISC_INFORMATION_BYTES];
    reply[1] = 0x20;
    reply[2] = 4 * session_state(disc) + disc_status(disc);
    reply[3] = 1;
    put_split(&mut reply, 4, 9, disc.sessions());
    put_split(&mut reply, 5, 10, first as u64);
    put_split(&mut reply, 6, 11, disc.fragments.len() as u64);
    reply
}

/// The last session: 0 empty, 1 incomplete, 3 complete.
fn session_state(disc: &Disc) -> u8 {
    if disc.finalized {
        3
    } else if disc.last_session_is_empty() {
        0
    } else {
        1
    }
}

/// The disc: 0 blank, 1 appendable, 2 complete.
fn disc_status(disc: &Disc) -> u8 {
    if disc.finalized {
        2
    } else if disc.last_session_is_empty() && disc.sessions() == 1 {
        0
    } else {
        1
    }
}

/// 52h: one fragment.
pub fn fragment_information(disc: &Disc, index: usize) -> [u8; FRAGMENT_INFORMATION_BYTES] {
    let fragment = &disc.fragments[index];
    let mut next = disc.next_writable(index);
    if disc.slips(Fault::NextWritableIgnoresPending) {
        next = next.map(|_| fragment.first_unrecorded().first_sector());
    }
    let free = next.map_or(0, |address| fragment.end().first_sector() - address);
    let address = |found: Option<Address>| found.map_or(0, |address| address.0);
    let mut reply = [0; FRAGMENT_INFORMATION_BYTES];
    reply[1] = 0x22;
    put_split(&mut reply, 2, 32, index as u64 + 1);
    put_split(&mut reply, 3, 33, fragment.session);
    reply[5] = 0x04;
    reply[6] = 0x01 | fragment_flags(disc, index);
    reply[7] = flag(is_recorded(disc, index), 0x02) | flag(!fragment.is_complete(), 0x01);
    put_four(&mut reply, 8, fragment.start.first_sector().0);
    put_four(&mut reply, 12, address(next));
    put_four(&mut reply, 16, free);
    put_four(&mut reply, 20, BLOCK_SECTORS);
    put_four(&mut reply, 24, fragment.length * BLOCK_SECTORS);
    put_four(&mut reply, 28, address(last_recorded(disc, index)));
    reply
}

/// Whether anything of the fragment is recorded.
fn is_recorded(disc: &Disc, index: usize) -> bool {
    match disc.slips(Fault::RecordedFlagCountsPending) {
        true => disc.readable_sectors(index) > 0,
        false => disc.fragments[index].recorded > 0,
    }
}

/// The last recorded address of the fragment.
fn last_recorded(disc: &Disc, index: usize) -> Option<Address> {
    match disc.slips(Fault::LastRecordedCountsPending) {
        true => disc.last_readable_sector(index),
        false => disc.fragments[index].last_recorded_sector(),
    }
}

/// Reserved and blank.
fn fragment_flags(disc: &Disc, index: usize) -> u8 {
    let fragment = &disc.fragments[index];
    let lost = disc.slips(Fault::ReservedFlagLost) && fragment.is_complete();
    let reserved = fragment.kind == Kind::Reserved && !lost;
    flag(reserved, 0x80) | flag(disc.is_blank(index), 0x40)
}

fn flag(set: bool, value: u8) -> u8 {
    if set {
        value
    } else {
        0
    }
}

/// A big-endian number of four bytes.
fn put_four(reply: &mut [u8], at: usize, value: u64) {
    reply[at..at + 4].copy_from_slice(&(value as u32).to_be_bytes());
}

/// A number whose low and high byte stand apart.
fn put_split(reply: &mut [u8], low: usize, high: usize, value: u64) {
    let [high_byte, low_byte] = (value as u16).to_be_bytes();
    reply[low] = low_byte;
    reply[high] = high_byte;
}

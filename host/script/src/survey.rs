//! `survey STEP`: what an inspector's tool asks of a disc, 52h by address for every so many sectors.

use crate::{BLOCK_SECTORS, LARGEST_CAPACITY};
use cdb::{Cdb, FRAGMENT_INFORMATION_LENGTH};

/// The longest step: the sectors of the largest disc.
const LONGEST_STEP: u32 = BLOCK_SECTORS * LARGEST_CAPACITY;

/// 52h by address for the sectors 0, `step`, 2 × `step` and so on, up to the disc's end.
#[derive(Clone, Copy, Debug, PartialEq, Eq)]
pub struct Survey {
    pub step: u32,
    /// The disc's blocks.
    pub capacity: u32,
}

impl Survey {
    /// What stands after the word `survey`, for a disc of this capacity.
    pub(crate) fn of(words: &[&str], capacity: u32) -> Result<Survey, String> {
        let [word] = words else {
            return Err("write `survey` and a number of sectors".into());
        };
        match word.parse() {
            Ok(step @ 1..=LONGEST_STEP) => Ok(Survey { step, capacity }),
            _ => Err(format!("`survey` takes 1 to {LONGEST_STEP} sectors, not \"{word}\"")),
        }
    }

    /// Its command blocks, one by one: with a step of 1 there are as many as the disc has sectors.
    pub fn cdbs(&self) -> impl Iterator<Item = Cdb> {
        let addresses = (0..BLOCK_SECTORS * self.capacity).step_by(self.step as usize);
        let allocation = FRAGMENT_INFORMATION_LENGTH as u16;
        addresses.map(move |address| cdb::read_fragment_information(0, address, allocation))
    }
}

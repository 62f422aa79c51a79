//! The map of a disc: what every sector is, and what every block is as one character.

use crate::disc::Disc;
use crate::fragments::{end, is_reserved, pending_in, recorded_end, BLOCK_SECTORS};
use gladhamre::State;

/// Blocks of a Closure; an Intro has as many.
const CLOSURE: u32 = 64;

/// What a sector is.
#[derive(Clone, Copy, Debug, PartialEq, Eq)]
pub enum Sector {
    /// Recorded from a WRITE's data.
    Recorded,
    /// Recorded as zeros by the drive itself.
    ZeroFilled,
    /// Accepted, its block not yet recorded.
    Pending,
    /// Of a reserved fragment, neither recorded nor pending.
    Reserved,
    /// Of the tail, neither recorded nor pending.
    Blank,
    /// Between two fragments of a session.
    Dividing,
    /// Ends a session.
    Closure,
    /// Begins the next session.
    Intro,
    /// After the last fragment of a disc without a tail.
    Outside,
}

/// The sectors of a block.
pub type Block = [Sector; BLOCK_SECTORS as usize];

/// What the text and the image show of a disc.
pub struct Map {
    pub title: String,
    pub state: State,
    pub blocks: Vec<Block>,
}

impl Map {
    pub fn of(title: &str, disc: &Disc) -> Map {
        Map::of_state(title, &disc.state, disc.zero_filled())
    }

    /// The map of a state, with the sectors that the drive filled with zeros.
    pub fn of_state(title: &str, state: &State, zero_filled: &[bool]) -> Map {
        let outside = [Sector::Outside; BLOCK_SECTORS as usize];
        let mut blocks = vec![outside; state.capacity() as usize];
        let mut forerunner_end = 0;
        for (index, record) in state.records().enumerate() {
            for block in forerunner_end..record.start {
                let between = between(record.start - forerunner_end, block - forerunner_end);
                blocks[block as usize] = [between; BLOCK_SECTORS as usize];
            }
            let unrecorded = if is_reserved(&record) { Sector::Reserved } else { Sector::Blank };
            for block in record.start..end(&record) {
                blocks[block as usize] = [unrecorded; BLOCK_SECTORS as usize];
            }
            let recorded = recorded_end(&record);
            for block in record.start..recorded {
                for (sector, place) in (BLOCK_SECTORS * block..).zip(&mut blocks[block as usize]) {
                    let zeros = zero_filled[sector as usize];
                    *place = if zeros { Sector::ZeroFilled } else { Sector::Recorded };
                }
            }
            let pending = pending_in(state, index) as usize;
            if pending > 0 {
                blocks[recorded as usize][..pending].fill(Sector::Pending);
            }
            forerunner_end = end(&record);
        }
        Map { title: title.into(), state: state.clone(), blocks }
    }

    /// How many sectors of a kind there are.
    pub fn sectors(&self, kind: Sector) -> usize {
        self.blocks.iter().flatten().filter(|&&sector| sector == kind).count()
    }

    /// The runs of zero-filled sectors, each by its first and its last one.
    pub fn zero_filled_runs(&self) -> Vec<(usize, usize)> {
        let mut runs: Vec<(usize, usize)> = Vec::new();
        for (address, sector) in self.blocks.iter().flatten().enumerate() {
            match runs.last_mut() {
                _ if *sector != Sector::ZeroFilled => {}
                Some((_, last)) if *last + 1 == address => *last = address,
                _ => runs.push((address, address)),
            }
        }
        runs
    }
}

/// What stands in a stretch between two fragments, by its length and the place in it.
fn between(length: u32, place: u32) -> Sector {
    match (length, place) {
        (1, _) => Sector::Dividing,
        (_, place) if place < CLOSURE => Sector::Closure,
        _ => Sector::Intro,
    }
}

/// A block's characters, and what they mean.
pub const CHARACTERS: [(char, &str); 10] = [
    ('#', "recorded"),
    ('+', "recorded, in part zero-filled"),
    ('0', "zero-filled"),
    ('p', "pending in part"),
    ('r', "reserved, unrecorded"),
    ('.', "blank"),
    ('|', "dividing"),
    ('C', "Closure"),
    ('I', "Intro"),
    ('-', "in no fragment"),
];

/// A block's character.
pub fn character(block: &Block) -> char {
    match (block[0], block[block.len() - 1]) {
        (Sector::Recorded, Sector::ZeroFilled) => '+',
        (Sector::Recorded, _) => '#',
        (Sector::ZeroFilled, _) => '0',
        (Sector::Pending, _) => 'p',
        (Sector::Reserved, _) => 'r',
        (Sector::Blank, _) => '.',
        (Sector::Dividing, _) => '|',
        (Sector::Closure, _) => 'C',
        (Sector::Intro, _) => 'I',
        (Sector::Outside, _) => '-',
    }
}

//! Safe Rust over libgladhamre.a: a DVD+R drive that answers command blocks over lent buffers.
//!
//! [`State`] is a disc between two commands; [`State::command`] answers one. The module [`raw`] has
//! the archive's two functions as they are, over slices of any length and state images of any
//! content: what does not fit is refused by a number.
//!
//! ```
//! use gladhamre::{cdb, Lent, Refusal, State, BLOCK_BYTES, SECTOR_BYTES};
//!
//! let mut state = State::blank(256).expect("256 blocks are a capacity");
//! let mut medium = vec![0; 256 * BLOCK_BYTES];
//! let mut pending = vec![0; BLOCK_BYTES];
//! let mut reply = vec![0; 20 * SECTOR_BYTES];
//! let readings = vec![0xA1; 20 * SECTOR_BYTES];
//! let mut command = |cdb: &[u8], data: &[u8]| {
//!     let (medium, pending, reply) = (&mut medium, &mut pending, &mut reply);
//!     state.command(Lent { cdb, data, medium, pending, reply })
//! };
//!
//! let written = command(&cdb::write(0, 20), &readings).expect("the tail begins at 0");
//! assert_eq!(written.recorded, 1);
//! let flushed = command(&cdb::opcode_only(cdb::SYNCHRONIZE_CACHE), &[]);
//! assert_eq!(flushed.map(|accepted| accepted.recorded), Ok(1));
//! let blank_check = Refusal::Drive { key: 0x8, code: 0x00, qualifier: 0x00 };
//! assert_eq!(command(&cdb::read(32, 1), &[]), Err(blank_check));
//! command(&cdb::read(0, 20), &[]).expect("sectors 0 to 31 are recorded");
//! assert_eq!(reply, readings);
//! assert_eq!(state.record(0).zero_filled, 12);
//! ```

#![deny(unsafe_code)]

pub mod raw;
mod state;

pub use cdb::{self, SECTOR_BYTES};
pub use raw::{Answer, Lent};
pub use state::{Record, State, HEADER_WORDS, RECORD_LIMIT, RECORD_WORDS, STATE_WORDS};

/// The bytes of an ECC block, which is 16 sectors.
pub const BLOCK_BYTES: usize = 32_768;

/// What an accepted command reports.
#[derive(Clone, Copy, Debug, PartialEq, Eq)]
pub struct Accepted {
    /// Bytes of the reply.
    pub reply_count: u64,
    /// Blocks recorded.
    pub recorded: u64,
}

/// Why a command is refused.
#[derive(Clone, Copy, Debug, PartialEq, Eq)]
pub enum Refusal {
    /// A refusal on the link, 1 to 4 for L1 to L4. Nothing has changed.
    Link(u8),
    /// A refusal by the drive. The state has this sense now, nothing else has changed.
    Drive { key: u8, code: u8, qualifier: u8 },
}

impl Refusal {
    /// The refusal of a number; none for 0, which is acceptance.
    pub fn from_number(number: u32) -> Option<Refusal> {
        let [link, key, code, qualifier] = number.to_be_bytes();
        match (link, key) {
            (0, 0) if number == 0 => None,
            (0, 0) => Some(Refusal::Link(qualifier)),
            _ => Some(Refusal::Drive { key, code, qualifier }),
        }
    }
}

impl From<Answer> for Result<Accepted, Refusal> {
    fn from(answer: Answer) -> Result<Accepted, Refusal> {
        match Refusal::from_number(answer.number) {
            Some(refusal) => Err(refusal),
            None => Ok(Accepted { reply_count: answer.reply_count, recorded: answer.recorded }),
        }
    }
}

#[cfg(test)]
mod tests {
    use super::Refusal;

    #[test]
    fn refusals_of_numbers() {
        assert_eq!(Refusal::from_number(0), None);
        assert_eq!(Refusal::from_number(3), Some(Refusal::Link(3)));
        let drive = Refusal::Drive { key: 0x5, code: 0x21, qualifier: 0x02 };
        assert_eq!(Refusal::from_number(0x052102), Some(drive));
    }
}

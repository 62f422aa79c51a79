//! The drive of document 01 in ordinary Rust.
//!
//! It gives the same service over the same lent buffers as the linked library, but shares nothing
//! with it: own types, own algorithms, written from documents 01 and 02 alone. Comparison tests hold
//! the two against each other, and speed is measured against it.
//!
//! A [`Disc`] is always sound; [`command`] serves a state that comes as an image of 32-bit words,
//! junk included. [`Fault`] switches on one mistake at a time, to show that a comparison finds it.
//! [`read_configuration`] takes a reply to GET CONFIGURATION apart again.

#![forbid(unsafe_code)]

mod answer;
mod buffers;
mod command;
mod configuration;
mod disc;
mod fault;
mod halving;
mod image;
mod inquiry;
mod judge;
mod perform;
mod read;
mod reader;
mod reply;
mod sound;
mod units;

pub use answer::{Answer, Refusal, Sense};
pub use buffers::Lent;
pub use configuration::Slip as ConfigurationSlip;
pub use disc::{Disc, Fragment, Kind};
pub use fault::Fault;
pub use halving::{Search, Slip};
pub use image::{blank, command, IMAGE_WORDS};
pub use inquiry::Slip as InquirySlip;
pub use reader::{read_configuration, Configuration};
pub use sound::{broken_rules, Rule, RuleSet};
pub use units::{Address, Block, BLOCK_BYTES, BLOCK_SECTORS, SECTOR_BYTES};

/// The capacities that a disc can have, in blocks.
pub const CAPACITIES: std::ops::RangeInclusive<u64> = 256..=143_444;

/// The most fragments that a disc can have, the tail included.
pub const FRAGMENT_LIMIT: usize = 160;

//! Holds the linked drive against the one in ordinary Rust, command by command and byte by byte.
//!
//! [`Pair`] gives both drives the same request and compares everything that they leave.
//! [`Generator`] makes requests that suit the state reached, [`states`] makes states that no
//! sequence reaches, and [`rounds`] strings them together. All of it is drawn from a seed.

#![forbid(unsafe_code)]

mod aim;
mod asking;
mod bench;
mod coverage;
pub mod demand3;
mod discs;
mod drive;
mod event;
pub mod every_list;
mod far;
mod forms;
mod generator;
mod history;
mod identity;
mod lists;
mod mood;
mod outline;
mod pair;
mod pool;
mod random;
mod readable;
mod request;
pub mod rounds;
mod searches;
mod seat;
mod situations;
mod spoil;
mod states;
mod unsound;

pub use coverage::{answer_name, command_name, Coverage};
pub use drive::{Drive, Linked, Plain};
pub use generator::Generator;
pub use gladhamre::cdb;
pub use mood::Mood;
pub use pair::{Difference, Pair};
pub use pool::pool;
pub use random::Random;
pub use request::Request;

/// The number in an environment variable, or the default.
pub fn setting(name: &str, default: u64) -> u64 {
    match std::env::var(name) {
        Ok(text) => {
            text.parse().unwrap_or_else(|_| panic!("{name} must be a number, not {text:?}"))
        }
        Err(_) => default,
    }
}

/// The seed of all random choices: the variable GLADHAMRE_SEED, or 1.
pub fn seed() -> u64 {
    setting("GLADHAMRE_SEED", 1)
}

/// How many times as long as in the gate the tests run: the variable GLADHAMRE_ROUNDS, or 1.
pub fn rounds_wanted() -> u64 {
    setting("GLADHAMRE_ROUNDS", 1)
}

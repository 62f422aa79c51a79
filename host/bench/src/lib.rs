//! Times of commands: the linked drive's beside the ordinary one's, in one run.

#![forbid(unsafe_code)]

mod buffers;
mod cases;
mod measure;

pub use buffers::Buffers;
pub use cases::{cases, Case, CAPACITY};
pub use measure::{measure, Measured, Spread};

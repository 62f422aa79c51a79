//! Plays commands on the linked drive over a disc in memory, and shows what a person wants to see:
//! a table of answers and a map of the disc, as text and as an image.
//!
//! [`shift`] has document 01's worked example with the answers that it documents; scripts of other
//! commands are read by the package `script`.

#![forbid(unsafe_code)]

mod disc;
mod fragments;
mod grid;
mod identity;
mod list;
pub mod map;
mod play;
pub mod shift;
mod survey;
mod svg;
mod table;
pub mod text;
mod track;
mod words;

pub use disc::{Disc, Outcome};
pub use map::Map;
pub use play::{data_bytes, play, Expected, Line, Run};
pub use svg::image;
pub use table::fragment_list;
pub use words::reply_bytes;

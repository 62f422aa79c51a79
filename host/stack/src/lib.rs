//! How much stack a call of the linked drive takes: every call of a comparison runs on a painted
//! stack.

#![deny(unsafe_code)]

mod painted;

pub use painted::PaintedStack;

use compare::rounds::{everything, Effort};
use compare::{command_name, Difference, Drive, Plain};
use gladhamre::{raw, Answer, Lent, RECORD_WORDS, STATE_WORDS};
use std::collections::{BTreeMap, BTreeSet};
use std::ops::RangeInclusive;
use std::sync::Mutex;

/// As much as the measurement tries: some hundred thousand commands, from blank discs and on states
/// of every kind, with every command answered in every way.
pub const EFFORT: Effort =
    Effort { sequences: 100, injected_blocks: 1_000, sound: 5_000, unsound: 50, junk: 2_000 };

/// The numbers of L1 to L4.
const LINK_REFUSALS: RangeInclusive<u32> = 1..=4;

/// The most bytes of stack for each command and each answer's number.
pub type Depths = BTreeMap<(&'static str, u32), usize>;

/// What was measured.
#[derive(Default)]
pub struct Measurement {
    pub depths: Depths,
    /// The commands that reached the drive on a full list.
    pub on_full_lists: BTreeSet<&'static str>,
}

/// The linked drive on a painted stack.
#[derive(Default)]
struct Measured {
    stack: Mutex<PaintedStack>,
    measurement: Mutex<Measurement>,
}

impl Measured {
    /// Runs a call, and notes its depth under the name and the number that it gives.
    fn run(&self, name: &'static str, list_is_full: bool, mut call: impl FnMut() -> u32) {
        let mut number = 0;
        let depth = self.stack.lock().expect("no panic").depth_of(|| number = call());
        let mut measurement = self.measurement.lock().expect("no panic");
        let most = measurement.depths.entry((name, number)).or_default();
        *most = depth.max(*most);
        if list_is_full && !LINK_REFUSALS.contains(&number) {
            measurement.on_full_lists.insert(name);
        }
    }
}

impl Drive for Measured {
    fn name(&self) -> String {
        "the linked drive on a painted stack".into()
    }

    fn blank(&self, capacity: u32, image: &mut [u32]) -> u32 {
        let mut number = 0;
        self.run("a blank disc", false, || {
            number = raw::blank(capacity, image);
            number
        });
        number
    }

    fn command(&self, image: &mut [u32], lent: Lent) -> Answer {
        let name = lent.cdb.try_into().map_or("not 12 bytes", command_name);
        let mut lent = Some(lent);
        let mut answer = None;
        let list_is_full = image.len() == STATE_WORDS
            && image[STATE_WORDS - RECORD_WORDS..].iter().any(|word| *word != 0);
        self.run(name, list_is_full, || {
            let given = raw::command(image, lent.take().expect("one call"));
            answer = Some(given);
            given.number
        });
        answer.expect("the call was run")
    }
}

/// Compares the linked drive with the ordinary one, and measures every call of it.
pub fn measure(seed: u64) -> Result<Measurement, Difference> {
    let measured = Measured::default();
    everything(&measured, &Plain::default(), seed, EFFORT)?;
    Ok(measured.measurement.into_inner().expect("no panic"))
}

/// The figure that include/gladhamre.h claims, in bytes.
pub fn claimed() -> usize {
    let header = include_str!("../../../include/gladhamre.h");
    let name = "#define GLADHAMRE_STACK_LENGTH ";
    let line = header.lines().find_map(|line| line.strip_prefix(name)).expect("the header has it");
    let figure = line.split('u').next().expect("a number");
    figure.parse().expect("a number")
}

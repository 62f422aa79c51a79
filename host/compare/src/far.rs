//! Runs of sectors that go far past the disc: lengths that two bytes cannot say, and sums of address
//! and length that pass 32 bits.

use crate::outline::Outline;
use crate::Generator;

/// A run goes far past the disc once in so many times.
const FAR_ONCE_IN: u64 = 12;

/// The first number of more than 32 bits.
const WRAP: u64 = 1 << 32;

/// Lengths at the edges of two bytes and of four, and some whose bytes pass 32 bits.
const LENGTHS: [u64; 8] =
    [65_535, 65_536, 65_537, WRAP / 2_048, WRAP / 2_048 + 1, WRAP / 2, WRAP - 2, WRAP - 1];

impl Generator {
    /// The run as it is, or a far one, mostly from its address on.
    pub(crate) fn or_far_run(&mut self, outline: &Outline, from: u64, sectors: u64) -> (u64, u64) {
        if !self.random.once_in(FAR_ONCE_IN) {
            return (from, sectors);
        }
        let end = self.end_if_cut(outline);
        match self.random.below(10) {
            0..=2 => (from, self.random.pick(&LENGTHS)),
            3..=4 => (from, length_past_32_bits(from, end)),
            5 => {
                let length = end + self.random.between(1, 20);
                (end + WRAP - length, length)
            }
            6 => (WRAP - 1 - self.random.below(2), self.random.pick(&LENGTHS)),
            7 => (WRAP - 1, 1),
            8 => (WRAP - 1, sectors),
            _ => {
                let from = outline.sectors + self.random.between(1, 100);
                (from, length_past_32_bits(from, end))
            }
        }
    }

    /// What a sum that passes 32 bits becomes if it is cut to them: where a run may end, or begin.
    fn end_if_cut(&mut self, outline: &Outline) -> u64 {
        let count = outline.places.len() as u64;
        let place = outline.places.get(self.random.below(count) as usize);
        let of_place = place.map_or(0, |place| match self.random.below(3) {
            0 => place.next,
            1 => place.recorded_end,
            _ => place.end,
        });
        let end = match self.random.below(4) {
            0 => 0,
            1 => outline.sectors,
            2 => of_place,
            _ => self.random.between(1, 40),
        };
        end % WRAP
    }
}

/// The length from an address to this end past 32 bits, or the longest if that has more itself.
fn length_past_32_bits(from: u64, end: u64) -> u64 {
    (end + WRAP).saturating_sub(from).min(WRAP - 1)
}

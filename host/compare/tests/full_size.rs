//! The largest disc, 143,444 blocks. Not run by default: each drive has a medium of 4.7 GB,
//! allocated only where it is touched.
//!
//!     cargo test --release --test full_size -- --ignored --nocapture

use compare::rounds::{self, CAPACITY_LIMIT};
use compare::{rounds_wanted, seed, Linked, Pair, Plain};

#[test]
#[ignore = "needs up to 10 GB of memory"]
fn sequences_on_the_largest_disc() {
    let plain = Plain::default();
    let mut pair = Pair::new(&Linked, &plain, CAPACITY_LIMIT);
    for round in 0..rounds_wanted() {
        if let Err(difference) = rounds::largest_disc(&mut pair, seed() + round) {
            panic!("{difference}");
        }
    }
    println!("{}", pair.coverage);
}

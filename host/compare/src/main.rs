//! Compares the two drives for a given number of rounds and prints what was reached.
//!
//!     compare [rounds [seed]]

use compare::rounds::{everything, Effort};
use compare::{Coverage, Linked, Plain};
use std::process::ExitCode;
use std::time::Instant;

fn main() -> ExitCode {
    let mut arguments = std::env::args().skip(1).map(|text| text.parse::<u64>());
    let rounds = arguments.next().unwrap_or(Ok(1));
    let seed = arguments.next().unwrap_or(Ok(compare::seed()));
    let (Ok(rounds), Ok(seed)) = (rounds, seed) else {
        eprintln!("usage: compare [rounds [seed]]");
        return ExitCode::FAILURE;
    };
    let begun = Instant::now();
    let mut reached = Coverage::default();
    for round in 0..rounds {
        match everything(&Linked, &Plain::default(), seed + 1_000 * round, Effort::ROUND) {
            Ok(coverage) => reached.add(&coverage),
            Err(difference) => {
                eprintln!("round {round}: {difference}");
                return ExitCode::FAILURE;
            }
        }
    }
    println!("{reached}");
    println!("no difference in {rounds} rounds from seed {seed}, {:.1?}", begun.elapsed());
    ExitCode::SUCCESS
}

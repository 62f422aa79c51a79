//! Measures how much stack a call of the linked drive takes, and prints it for each command.
//!
//!     stack [seed]

use compare::answer_name;
use std::process::ExitCode;

fn main() -> ExitCode {
    let seed = std::env::args().nth(1).map_or(Ok(compare::seed()), |text| text.parse());
    let Ok(seed) = seed else {
        eprintln!("usage: stack [seed]");
        return ExitCode::FAILURE;
    };
    let depths = match stack::measure(seed) {
        Ok(measurement) => measurement.depths,
        Err(difference) => {
            eprintln!("{difference}");
            return ExitCode::FAILURE;
        }
    };
    println!("The most bytes of stack for each command and answer:");
    for (&(command, number), depth) in &depths {
        println!("  {command:<28} {:<10} {depth:>6}", answer_name(number));
    }
    let most = depths.values().max().expect("commands were measured");
    println!("The most of all: {most}; include/gladhamre.h claims {}.", stack::claimed());
    ExitCode::SUCCESS
}

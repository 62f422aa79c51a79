//! A command without many sectors costs no more than it must: what the compiler makes of copies of the disc is held by no proof, so
//! the time is held here, as a ratio to the ordinary drive's in the same run.

use bench::{cases, measure, Buffers, CAPACITY};

/// Half as much again as was measured (docs/BENCHMARKS.md): more than noise explains, since both drives take turns.
const LIMITS: [(&str, f64); 3] = [("TEST UNIT READY", 2.7), ("READ 1", 2.9), ("WRITE 1", 2.3)];

#[test]
fn a_short_command_costs_little_more_than_the_ordinary_drives() {
    let mut buffers = Buffers::new(CAPACITY);
    let cases = cases(&mut buffers);
    for (name, limit) in LIMITS {
        let case = cases.iter().find(|case| case.name == name && case.list == "1 record");
        let ratio = measure(case.expect("a case of that name"), &mut buffers).ratio;
        println!("{name}: {:.2} times the ordinary drive's time", ratio.median);
        assert!(ratio.low <= limit, "{name}: {:.2} times, at most {limit} is right", ratio.low);
    }
}

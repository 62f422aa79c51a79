//! Times every case on both drives and prints a table in Markdown.
//!
//!     bench [PART OF A NAME]

#![forbid(unsafe_code)]

use bench::{cases, measure, Buffers, Spread, CAPACITY};
use std::process::Command;

fn main() {
    let wanted = std::env::args().nth(1).unwrap_or_default();
    println!("{}\n", machine());
    println!("| Command | List | Linked, ns | Ordinary, ns | Ratio | Quartiles | Copy alone, ns |");
    println!("|---|---|---:|---:|---:|---:|---:|");
    let mut buffers = Buffers::new(CAPACITY);
    for case in cases(&mut buffers) {
        if !format!("{} {}", case.name, case.list).contains(&wanted) {
            continue;
        }
        let found = measure(&case, &mut buffers);
        let Spread { low, median, high } = found.ratio;
        let copy = found.copy.map_or("".into(), |copy| format!("{:.0}", copy.median));
        println!(
            "| {} | {} | {:.0} | {:.0} | {median:.2} | {low:.2} to {high:.2} | {copy} |",
            case.name, case.list, found.linked.median, found.plain.median
        );
    }
}

/// The machine's kind and the compiler.
fn machine() -> String {
    let processors = std::fs::read_to_string("/proc/cpuinfo").unwrap_or_default();
    let model = processors
        .lines()
        .find_map(|line| line.strip_prefix("model name")?.split_once(':'))
        .map_or("an unknown processor", |(_, name)| name.trim());
    let count = std::thread::available_parallelism().map_or(1, usize::from);
    let compiler = Command::new("rustc").arg("--version").output();
    let compiler =
        compiler.map_or(String::new(), |output| String::from_utf8_lossy(&output.stdout).into());
    format!("{model}, {count} processors, {}; {}", std::env::consts::ARCH, compiler.trim())
}

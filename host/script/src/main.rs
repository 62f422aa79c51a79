//! Says what is wrong with a script, before anything is built to play it.
//!
//!     script FILE
//!
//! Ends with 0 and says nothing if the script can be played, else with 2.

use std::path::Path;
use std::process::ExitCode;

fn main() -> ExitCode {
    let words: Vec<_> = std::env::args_os().skip(1).collect();
    let [path] = words.as_slice() else {
        eprintln!("usage: script FILE");
        return ExitCode::from(2);
    };
    match script::read(Path::new(path)) {
        Ok(_) => ExitCode::SUCCESS,
        Err(message) => {
            eprintln!("demo: {message}");
            ExitCode::from(2)
        }
    }
}

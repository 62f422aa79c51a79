//! The ordinary drive's runs of READ (12) and WRITE (12), on the linked drive.

mod linked;
#[path = "../../plain/tests/twelve_bytes/mod.rs"]
mod twelve_bytes;

use linked::linked;
use twelve_bytes::{Host, RUNS};

#[test]
fn runs_of_both_forms() {
    for (name, run) in RUNS {
        println!("{name}");
        run(&mut Host::blank(linked));
    }
}

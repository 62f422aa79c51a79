//! The ordinary drive's runs of READ while sectors are pending, on the linked drive.

mod linked;
#[path = "../../plain/tests/read_back/mod.rs"]
mod read_back;

use linked::linked;
use read_back::{Host, RUNS};

#[test]
fn runs_that_read_back() {
    for (name, run) in RUNS {
        println!("{name}");
        run(&mut Host::blank(linked));
    }
}

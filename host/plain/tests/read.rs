//! READ and READ CAPACITY while sectors are pending.

mod read_back;

use read_back::{Host, RUNS};

#[test]
fn runs_that_read_back() {
    for (name, run) in RUNS {
        println!("{name}");
        run(&mut Host::blank(|image, lent| plain::command(image, lent, None)));
    }
}

//! READ (12) and WRITE (12) beside the forms of ten bytes.

mod twelve_bytes;

use twelve_bytes::{Host, RUNS};

#[test]
fn runs_of_both_forms() {
    for (name, run) in RUNS {
        println!("{name}");
        run(&mut Host::blank(|image, lent| plain::command(image, lent, None)));
    }
}

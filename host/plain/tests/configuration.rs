//! INQUIRY and GET CONFIGURATION.

mod identity;
mod replies;

use identity::{Host, RUNS};

#[test]
fn runs_of_both_commands() {
    for (name, run) in RUNS {
        println!("{name}");
        run(&mut Host::blank(|image, lent| plain::command(image, lent, None)));
    }
}

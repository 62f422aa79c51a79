//! The ordinary drive's runs of INQUIRY and GET CONFIGURATION, on the linked drive; and that the linked
//! reader of the latter's replies reads what the ordinary one does.

#[path = "../../plain/tests/identity/mod.rs"]
mod identity;
mod linked;
#[path = "../../plain/tests/near_misses/mod.rs"]
mod near_misses;
#[path = "../../plain/tests/replies/mod.rs"]
mod replies;

use identity::{Host, RUNS};
use linked::linked;
use near_misses::visit_all;
use std::collections::BTreeSet;

#[test]
fn runs_of_both_commands() {
    for (name, run) in RUNS {
        println!("{name}");
        run(&mut Host::blank(linked));
    }
}

/// Replies and bytes that are nearly one: both read the same twenty, as the same, and refuse the rest.
#[test]
fn readers_agree() {
    let mut read = BTreeSet::new();
    let mut refused = 0;
    visit_all(&mut |bytes| {
        let linked = configuration::read(bytes).map(|it| (it.profile, it.features));
        let ordinary = plain::read_configuration(bytes).map(|it| (it.profile, it.features));
        assert_eq!(linked, ordinary, "{bytes:02X?}");
        match linked {
            Some(_) => _ = read.insert(bytes.to_vec()),
            None => refused += 1,
        }
    });
    println!("{} replies, and {refused} times other bytes", read.len());
    assert_eq!(read.len(), 20);
    assert!(refused > 200_000);
}

//! Demand 3, on the linked drive alone: recorded sectors never change, and it makes no difference
//! how WRITEs are cut or what stale bytes hold.

use compare::demand3::{check, check_long, Tally};
use compare::{rounds_wanted, seed, Drive, Linked, Plain};
use gladhamre::RECORD_LIMIT;

fn check_sequences(drive: &dyn Drive, capacity: u32, count: u64) -> Tally {
    let mut tally = Tally::default();
    for number in 0..count * rounds_wanted() {
        let seed = seed() + number;
        if let Err(what) = check(drive, capacity, seed, &mut tally) {
            panic!("{}, {capacity} blocks, seed {seed}: {what}", drive.name());
        }
    }
    println!("{} on {capacity} blocks: {tally:?}", drive.name());
    assert!(tally.tried_accepted > 0 && tally.tried_accepted < tally.tried);
    assert!(tally.writes_cut > 0 && tally.parts > 2 * tally.writes_cut);
    assert!(tally.long_form_cut > 0 && tally.long_form_cut < tally.writes_cut);
    assert!(tally.cut_into_both_forms > 0 && tally.cut_into_both_forms < tally.writes_cut);
    assert!(tally.pending_reads > 0);
    tally
}

#[test]
fn on_256_blocks() {
    check_sequences(&Linked, 256, 60);
}

#[test]
fn on_300_blocks() {
    check_sequences(&Linked, 300, 60);
}

/// With full lists among them.
#[test]
fn on_480_blocks() {
    assert_eq!(check_sequences(&Linked, 480, 24).most_records, RECORD_LIMIT);
}

#[test]
fn on_1000_blocks() {
    check_sequences(&Linked, 1_000, 8);
}

/// A WRITE (12) of more than 65,535 sectors, and its parts.
#[test]
fn longer_than_two_bytes_say() {
    for number in 0..rounds_wanted() {
        assert_eq!(check_long(&Linked, seed() + number), Ok(()));
    }
}

#[test]
fn of_the_plain_drive() {
    check_sequences(&Plain::default(), 256, 20);
}

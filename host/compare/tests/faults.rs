//! The comparison can fail: the same rounds as in the gate find each deliberate mistake of the
//! ordinary drive, by states injected without any sequence, and by sequences alone.

use compare::demand3::{self, Tally};
use compare::every_list::{self, Addresses, SHAPES};
use compare::rounds::{everything, sequences, Effort};
use compare::{seed, Coverage, Difference, Drive, Linked, Pair, Plain};
use plain::Fault;

const INJECTED: Effort =
    Effort { sequences: 0, injected_blocks: CAPACITY, sound: 12_000, unsound: 20, junk: 200 };

/// Room for a full list, and for a session after it.
const CAPACITY: u32 = 480;

/// For sequences alone.
const SEQUENCES: u64 = 1_000;

fn is_found(fault: Fault, found: Result<Coverage, Difference>) {
    match found {
        Ok(coverage) => panic!("{fault:?} is not found by {} commands", coverage.commands),
        Err(difference) => println!("{difference}\n"),
    }
}

fn injected_states_find_every_fault(right: &dyn Drive) {
    for fault in Fault::all() {
        let faulty = Plain { fault: Some(fault) };
        is_found(fault, everything(right, &faulty, seed(), INJECTED));
    }
}

#[test]
fn against_the_linked_drive() {
    injected_states_find_every_fault(&Linked);
}

#[test]
fn against_the_plain_drive() {
    injected_states_find_every_fault(&Plain::default());
}

/// Sequences from a blank disc find every mistake of commands, without any state injected.
#[test]
fn by_sequences_alone() {
    for fault in Fault::of_commands() {
        let faulty = Plain { fault: Some(fault) };
        let mut pair = Pair::new(&Linked, &faulty, CAPACITY);
        let found = sequences(&mut pair, CAPACITY, seed(), SEQUENCES);
        is_found(fault, found.map(|()| pair.coverage));
    }
}

/// The check of demand 3 finds the mistakes that break it, and READs that give what nobody wrote
/// there.
#[test]
fn of_whole_sequences() {
    let broken = [
        Fault::WriteInPart,
        Fault::PendingBytesKept,
        Fault::FlushKeepsStaleBytes,
        Fault::ZeroFilledForgotten,
        Fault::StaleSectorServed,
        Fault::PendingServedFromMedium,
        Fault::FirstSectorFromMedium,
        Fault::PendingShareFromFront,
        Fault::PendingInLastFragment,
        Fault::WriteEndWraps,
        Fault::WriteTwelveUnflushed,
        Fault::ForcedWriteFlushes,
    ];
    for fault in broken {
        let faulty = Plain { fault: Some(fault) };
        let mut tally = Tally::default();
        let found = (0..30).find_map(|seed| demand3::check(&faulty, 256, seed, &mut tally).err());
        match found {
            Some(what) => println!("{fault:?} is found: {what}"),
            None => panic!("{fault:?} is not found: {tally:?}"),
        }
    }
}

/// So does its check of a WRITE (12) of more than 65,535 sectors.
#[test]
fn of_long_writes() {
    assert_eq!(demand3::check_long(&Plain::default(), seed()), Ok(()));
    for fault in [Fault::TwelveLengthCut, Fault::PendingBytesKept] {
        let found = demand3::check_long(&Plain { fault: Some(fault) }, seed());
        assert!(found.is_err(), "{fault:?} is not found");
    }
}

/// The searches for every place of a list find the mistakes of halving, on lists of a few lengths.
#[test]
fn of_halving() {
    let right = Plain::default();
    for fault in Fault::of_commands().filter(|fault| matches!(fault, Fault::Halving(..))) {
        let faulty = Plain { fault: Some(fault) };
        let found = SHAPES.iter().find_map(|shape| {
            every_list::check(&right, &faulty, shape, [160, 129, 3], Addresses::Edges).err()
        });
        match found {
            Some(difference) => println!("{difference}"),
            None => panic!("{fault:?} is not found"),
        }
    }
}

//! Every place of every list is found, whatever the list is like: a search by halving has a way of its
//! own to each of them.

use compare::every_list::{check, Addresses, Places, Shape, Tally, SHAPES};
use compare::{Linked, Plain};
use gladhamre::RECORD_LIMIT;
use std::thread;

/// A place in each list of each length.
const PLACES: usize = RECORD_LIMIT * (RECORD_LIMIT + 1) / 2;

fn compare_on(
    shape: &Shape,
    lengths: impl IntoIterator<Item = usize>,
    addresses: Addresses,
) -> Tally {
    match check(&Linked, &Plain::default(), shape, lengths, addresses) {
        Err(difference) => panic!("{difference}"),
        Ok(tally) => {
            println!("{}: {tally}", shape.name);
            tally
        }
    }
}

/// 52h finds every place of every list, READ and WRITE find each on lists of some shape.
#[test]
fn every_place_of_every_list() {
    let (mut read, mut written) = (Places::new(), Places::new());
    thread::scope(|scope| {
        let on_every = |shape| compare_on(shape, 1..=RECORD_LIMIT, Addresses::Edges);
        let trials = SHAPES.each_ref().map(|shape| scope.spawn(move || on_every(shape)));
        for trial in trials {
            let tally = trial.join().expect("the drives answer alike");
            assert_eq!(tally.reported.len(), PLACES);
            read.extend(tally.read);
            written.extend(tally.written);
        }
    });
    assert_eq!([read.len(), written.len()], [PLACES; 2]);
}

/// Every sector of discs with dividing blocks alone, which have few sectors.
#[test]
fn every_address_of_some_lists() {
    for shape in &SHAPES[..2] {
        compare_on(shape, [2, 64, RECORD_LIMIT], Addresses::All);
    }
}

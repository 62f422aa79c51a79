//! The reader takes exactly the uncut replies that the drive can send, and writes nothing for other
//! bytes.

use configuration::{raw, read, Configuration};
use gladhamre::{cdb, Lent, State, BLOCK_BYTES};
use std::collections::{BTreeMap, BTreeSet};

const PROFILE: u16 = 0x001B;

/// The descriptors of the drive's features, in order.
const DESCRIPTORS: [&[u8]; 10] = [
    &[0x00, 0x00, 0x01, 8, 0x00, 0x1B, 1, 0, 0x00, 0x10, 0, 0],
    &[0x00, 0x01, 0x01, 8, 0, 0, 0, 0, 0, 0, 0, 0],
    &[0x00, 0x02, 0x01, 4, 0, 0, 0, 0],
    &[0x00, 0x03, 0x01, 4, 0, 0, 0, 0],
    &[0x00, 0x10, 0x01, 8, 0, 0, 0, 0, 0, 0, 1, 0],
    &[0x00, 0x1F, 0x01, 4, 0, 0, 0, 0],
    &[0x00, 0x2B, 0x05, 4, 1, 0, 0, 0],
    &[0x01, 0x00, 0x01, 4, 0, 0, 0, 0],
    &[0x01, 0x05, 0x01, 4, 0, 0, 0, 0],
    &[0x01, 0x07, 0x01, 4, 0, 0, 0, 0],
];

/// What the words hold before a call.
const UNTOUCHED: u32 = 0xA5A5_A5A5;

/// A reply of these descriptors.
fn reply(descriptors: &[&[u8]]) -> Vec<u8> {
    let features = descriptors.concat();
    let follows = 4 + features.len() as u32;
    let header = [&follows.to_be_bytes()[..], &[0, 0], &PROFILE.to_be_bytes()].concat();
    [header, features].concat()
}

/// The numbers of these descriptors.
fn numbers(descriptors: &[&[u8]]) -> Vec<u16> {
    descriptors.iter().map(|bytes| u16::from_be_bytes([bytes[0], bytes[1]])).collect()
}

/// Every uncut reply, with the features in it: all from a place on, or one alone.
fn replies() -> BTreeMap<Vec<u8>, Vec<u16>> {
    let ends = (0..=DESCRIPTORS.len()).map(|first| &DESCRIPTORS[first..]);
    let parts = ends.chain(DESCRIPTORS.chunks(1));
    parts.map(|descriptors| (reply(descriptors), numbers(descriptors))).collect()
}

fn read_as(features: &[u16]) -> Option<Configuration> {
    Some(Configuration { profile: PROFILE, features: features.to_vec() })
}

#[test]
fn uncut_replies_are_read() {
    let replies = replies();
    assert_eq!(replies.len(), 20);
    for (reply, features) in &replies {
        assert_eq!(read(reply), read_as(features), "{reply:02X?}");
    }
}

/// The words after the last feature are zero, whatever they were.
#[test]
fn every_word_is_written() {
    for (reply, features) in replies() {
        let mut words = [UNTOUCHED; raw::WORDS];
        assert_eq!(raw::read(&reply, &mut words), raw::READ);
        let mut expected: Vec<u32> = vec![PROFILE.into(), features.len() as u32];
        expected.extend(features.into_iter().map(u32::from));
        expected.resize(raw::WORDS, 0);
        assert_eq!(words[..], expected[..]);
    }
}

/// Bytes that are no reply are refused, and the words stay as they were.
fn assert_refused(bytes: &[u8]) {
    let mut words = [UNTOUCHED; raw::WORDS];
    assert_eq!(raw::read(bytes, &mut words), raw::NO_REPLY, "{bytes:02X?}");
    assert_eq!(words, [UNTOUCHED; raw::WORDS]);
    assert_eq!(read(bytes), None);
}

#[test]
fn cut_replies_are_refused() {
    for reply in replies().keys() {
        (0..reply.len()).for_each(|length| assert_refused(&reply[..length]));
    }
}

#[test]
fn longer_replies_are_refused() {
    for reply in replies().keys() {
        for more in [1, 4, 8, 100, 65_536] {
            let mut longer = reply.clone();
            longer.resize(reply.len() + more, 0);
            assert_refused(&longer);
        }
    }
}

/// With any one byte changed a reply is another one, or none.
#[test]
fn every_byte_counts() {
    let replies = replies();
    let mut others = 0;
    for reply in replies.keys() {
        for at in 0..reply.len() {
            for value in (0..=0xFF).filter(|value| *value != reply[at]) {
                let mut changed = reply.clone();
                changed[at] = value;
                match replies.get(&changed) {
                    None => assert_refused(&changed),
                    Some(features) => {
                        assert_eq!(read(&changed), read_as(features));
                        others += 1;
                    }
                }
            }
        }
    }
    // the descriptors of 0002h, 0003h and 001Fh differ in the low byte of their numbers alone, and so do
    // those of 0100h, 0105h and 0107h
    assert_eq!(others, 12);
}

/// Descriptors of the drive in an order or a choice that it never sends.
#[test]
fn other_lists_are_refused() {
    let [first, second, .., last] = DESCRIPTORS;
    let without_one = |at: usize| [&DESCRIPTORS[..at], &DESCRIPTORS[at + 1..]].concat();
    let mut lists: Vec<Vec<&[u8]>> = (1..10).map(without_one).collect();
    lists.extend([
        vec![first, second],
        vec![second, first],
        vec![last, last],
        DESCRIPTORS.into_iter().rev().collect(),
        [DESCRIPTORS, DESCRIPTORS].concat(),
    ]);
    lists.extend((1..10).map(|end| DESCRIPTORS[..end].to_vec()).filter(|list| list.len() > 1));
    lists.iter().for_each(|list| assert_refused(&reply(list)));
}

/// Another number of words is told before the reply is looked at, and none is written.
#[test]
fn other_words_are_refused_first() {
    let whole = reply(&DESCRIPTORS);
    for count in [0, 1, raw::WORDS - 1, raw::WORDS + 1, 2 * raw::WORDS] {
        for bytes in [&whole[..], &whole[..8], &[]] {
            let mut words = vec![UNTOUCHED; count];
            assert_eq!(raw::read(bytes, &mut words), raw::OTHER_WORDS, "{count} words");
            assert!(words.iter().all(|word| *word == UNTOUCHED));
        }
    }
}

/// What the linked drive sends for a command block.
fn sent(cdb: &cdb::Cdb) -> Vec<u8> {
    let mut state = State::blank(256).expect("a capacity");
    let mut reply = vec![0; cdb::reply_room(cdb)];
    let lent = Lent {
        cdb,
        data: &[],
        medium: &mut vec![0; 256 * BLOCK_BYTES],
        pending: &mut [0; BLOCK_BYTES],
        reply: &mut reply,
    };
    let accepted = state.command(lent).expect("types 0 to 2 are accepted");
    reply.truncate(accepted.reply_count as usize);
    reply
}

/// The linked drive sends every one of the replies, and no other, uncut; what is cut is refused.
#[test]
fn the_drive_sends_what_is_read() {
    let replies = replies();
    let mut seen = BTreeSet::new();
    for request in [cdb::ALL_FEATURES, cdb::CURRENT_FEATURES, cdb::ONE_FEATURE] {
        for start in (0..=0x0120).chain([0x0200, 0x2B00, 0x7FFF, 0x8000, 0xFFFF]) {
            let whole = sent(&cdb::get_configuration(request, start, u16::MAX));
            let features = replies.get(&whole).unwrap_or_else(|| panic!("{whole:02X?}"));
            assert_eq!(read(&whole), read_as(features), "type {request} from {start:04X}h");
            let cut = sent(&cdb::get_configuration(request, start, whole.len() as u16 - 1));
            assert_refused(&cut);
            seen.insert(whole);
        }
    }
    assert!(seen.iter().eq(replies.keys()));
}

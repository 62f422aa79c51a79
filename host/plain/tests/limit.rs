//! Commands where one record is free and where none is, from a blank disc of 480 blocks.

mod host;

use host::{
    start_of, Host, ACCEPTED, CAPACITY, END_OF_USER_AREA, INVALID_FIELD, LAST, NO_MORE_FRAGMENTS,
};
use plain::FRAGMENT_LIMIT;

/// The sectors of the disc: a size that has no room.
const TOO_LONG: u32 = 16 * CAPACITY as u32;

/// 52h by number.
fn report(host: &mut Host, number: u16) -> u32 {
    let [high, low] = number.to_be_bytes();
    host.send([0x52, 1, 0, 0, high, low, 0, 0, 36, 0, 0, 0], 0).number
}

#[test]
fn reserve_makes_the_last_record_and_no_more() {
    let mut host = Host::with_fragments(LAST - 1);
    assert_eq!(host.reserve(16), ACCEPTED);
    assert_eq!(host.count(), FRAGMENT_LIMIT);
    assert_eq!(host.reserve(16), NO_MORE_FRAGMENTS);
    assert_eq!(host.reserve(TOO_LONG), NO_MORE_FRAGMENTS);
    let mut host = Host::with_fragments(LAST - 1);
    assert_eq!(host.reserve(TOO_LONG), END_OF_USER_AREA);
}

#[test]
fn a_closed_tail_is_followed_while_a_record_is_free() {
    let mut host = Host::with_fragments(LAST - 1);
    assert_eq!(host.write(start_of(LAST - 1), 3), ACCEPTED);
    assert_eq!(host.close(1, LAST - 1), ACCEPTED);
    let start = u32::from(start_of(LAST)) / 16;
    assert_eq!(host.record(FRAGMENT_LIMIT), [1, start, CAPACITY as u32 - start, 0, 0, 1]);
    assert_eq!(host.write(start_of(LAST), 3), ACCEPTED);
    assert_eq!(host.close(1, LAST), ACCEPTED);
    assert_eq!(host.record(FRAGMENT_LIMIT), [1, start, 1, 1, 13, 1]);
    assert_eq!(host.close(1, LAST), ACCEPTED);
    assert_eq!(host.close(1, LAST + 1), INVALID_FIELD);
}

#[test]
fn a_session_needs_a_record_after_those_kept() {
    let mut host = Host::with_fragments(LAST);
    assert_eq!(host.close(2, 0), ACCEPTED);
    assert_eq!((host.count(), host.record(FRAGMENT_LIMIT)[0]), (FRAGMENT_LIMIT, 2));
    let mut host = Host::with_fragments(LAST - 1);
    assert_eq!(host.write(start_of(LAST - 1), 3), ACCEPTED);
    assert_eq!(host.close(2, 0), ACCEPTED);
    assert_eq!((host.count(), host.record(FRAGMENT_LIMIT)[0]), (FRAGMENT_LIMIT, 2));
    let mut host = Host::with_fragments(LAST);
    assert_eq!(host.write(start_of(LAST), 3), ACCEPTED);
    assert_eq!(host.close(2, 0), NO_MORE_FRAGMENTS);
    // with 33 blocks in the tail there is room for a session, with 34 no longer
    assert_eq!(host.write(start_of(LAST) + 3, 255), ACCEPTED);
    assert_eq!(host.write(start_of(LAST) + 258, 255), ACCEPTED);
    assert_eq!(host.close(2, 0), NO_MORE_FRAGMENTS);
    assert_eq!(host.write(start_of(LAST) + 513, 16), ACCEPTED);
    assert_eq!(host.close(2, 0), NO_MORE_FRAGMENTS);
    assert_eq!(host.close(6, 0), ACCEPTED);
    assert_eq!(host.count(), FRAGMENT_LIMIT);
}

#[test]
fn numbers_go_to_the_last_record() {
    let mut host = Host::with_fragments(LAST);
    for (number, answer) in [
        (1, ACCEPTED),
        (LAST - 1, ACCEPTED),
        (LAST, ACCEPTED),
        (LAST + 1, INVALID_FIELD),
        (0xAA, INVALID_FIELD),
        (0xFF, ACCEPTED),
    ] {
        assert_eq!(report(&mut host, number), answer, "{number}");
    }
    assert_eq!(host.write(start_of(LAST), 16), ACCEPTED);
    assert_eq!(host.close(1, LAST), ACCEPTED);
    assert_eq!(report(&mut host, 0xFF), INVALID_FIELD);
}

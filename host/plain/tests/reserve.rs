//! RESERVE TRACK by its size: whole blocks are taken, any other size is refused before the tail is
//! looked at, whatever the disc is like.

mod host;

use host::{start_of, Host, ACCEPTED, END_OF_USER_AREA, INVALID_FIELD, LAST, NO_MORE_FRAGMENTS};
use plain::FRAGMENT_LIMIT;

const WRITE_PROTECTED: u32 = 0x072700;

/// Size 0, and sizes that are no multiples of 16: parts of a block, sizes beside whole blocks and
/// beside the most that a disc of 300 blocks takes, the largest.
const NOT_TAKEN: [u32; 16] =
    [0, 1, 2, 8, 15, 17, 24, 31, 33, 47, 49, 4_767, 4_769, 0x0001_0001, 0x0100_0008, u32::MAX];

/// Whole blocks that have room on no disc here, some of them with the low bytes of a size that has.
const TOO_LONG: [u32; 4] = [0x0001_0000, 0x0100_0010, 0x8000_0030, u32::MAX - 15];

/// Every size is refused by that number, and nothing but the sense changes.
#[track_caller]
fn assert_refused(host: &mut Host, sizes: &[u32], number: u32) {
    let mut refused = host.image();
    refused[2..5].copy_from_slice(&[number >> 16, number >> 8 & 0xFF, number & 0xFF]);
    for &size in sizes {
        assert_eq!(host.reserve(size), number, "{size}");
        assert!(host.image() == refused, "{size}");
    }
}

/// The size is taken: its blocks and a dividing one are cut off the tail.
#[track_caller]
fn assert_taken(host: &mut Host, size: u32) {
    let tail = host.count();
    let [session, start, length, ..] = host.record(tail);
    assert_eq!(host.reserve(size), ACCEPTED, "{size}");
    let blocks = size / 16;
    assert_eq!(host.record(tail), [session, start, blocks, 0, 0, 0]);
    assert_eq!(host.record(tail + 1), [session, start + blocks + 1, length - blocks - 1, 0, 0, 1]);
}

#[test]
fn on_a_blank_disc() {
    assert_refused(&mut Host::blank(300), &NOT_TAKEN, INVALID_FIELD);
    assert_refused(&mut Host::blank(300), &[4_784, 4_800], END_OF_USER_AREA);
    assert_refused(&mut Host::blank(300), &TOO_LONG, END_OF_USER_AREA);
    for size in [16, 32, 48, 4_752, 4_768] {
        assert_taken(&mut Host::blank(300), size);
    }
}

/// Of all sizes up to that of the disc and beyond, the multiples of 16 that have room.
#[test]
fn sizes_that_are_taken() {
    let mut host = Host::blank(300);
    let blank = host.disc.clone();
    let taken = (0..10_000).filter(|&size| {
        host.disc.clone_from(&blank);
        host.reserve(size) == ACCEPTED
    });
    assert!(taken.eq((1..=298).map(|blocks| 16 * blocks)));
}

/// A size that is refused costs nothing: the next one finds the disc as it was.
#[test]
fn a_size_after_one_refused() {
    let mut host = Host::blank(300);
    assert_refused(&mut host, &[33], INVALID_FIELD);
    assert_taken(&mut host, 48);
    assert_refused(&mut host, &[0, 47], INVALID_FIELD);
    assert_taken(&mut host, 16);
}

#[test]
fn on_a_finalized_disc() {
    let mut host = Host::blank(300);
    assert_eq!((host.write(0, 16), host.close(6, 0)), (ACCEPTED, ACCEPTED));
    assert_refused(&mut host, &NOT_TAKEN, WRITE_PROTECTED);
    assert_refused(&mut host, &TOO_LONG, WRITE_PROTECTED);
    assert_refused(&mut host, &[16, 48], WRITE_PROTECTED);
}

/// The tail is written, has pending sectors alone, or is not there.
#[test]
fn without_a_blank_tail() {
    let mut written = Host::blank(300);
    assert_eq!(written.write(0, 20), ACCEPTED);
    let mut pending = Host::blank(300);
    assert_eq!(pending.write(0, 1), ACCEPTED);
    let mut full_disc = Host::blank(300);
    assert_taken(&mut full_disc, 4_768);
    assert_eq!(full_disc.write(4_784, 16), ACCEPTED);
    for host in [&mut written, &mut pending, &mut full_disc] {
        assert_refused(host, &NOT_TAKEN, INVALID_FIELD);
        assert_refused(host, &TOO_LONG, NO_MORE_FRAGMENTS);
        assert_refused(host, &[16, 48], NO_MORE_FRAGMENTS);
    }
}

#[test]
fn while_sectors_are_pending_elsewhere() {
    let mut host = Host::blank(300);
    assert_taken(&mut host, 32);
    assert_eq!(host.write(0, 1), ACCEPTED);
    assert_refused(&mut host, &NOT_TAKEN, INVALID_FIELD);
    assert_taken(&mut host, 16);
}

/// With a blank tail as its last record, and with none.
#[test]
fn on_a_full_list() {
    let mut host = Host::with_fragments(LAST);
    assert_refused(&mut host, &NOT_TAKEN, INVALID_FIELD);
    assert_refused(&mut host, &TOO_LONG, NO_MORE_FRAGMENTS);
    assert_refused(&mut host, &[16, 48], NO_MORE_FRAGMENTS);
    assert_eq!(host.write(start_of(LAST), 16), ACCEPTED);
    assert_eq!(host.close(1, LAST), ACCEPTED);
    assert_eq!(host.record(FRAGMENT_LIMIT)[2], 1);
    assert_refused(&mut host, &NOT_TAKEN, INVALID_FIELD);
    assert_refused(&mut host, &TOO_LONG, NO_MORE_FRAGMENTS);
    assert_refused(&mut host, &[16, 48], NO_MORE_FRAGMENTS);
}

#[test]
fn where_one_record_is_free() {
    let mut host = Host::with_fragments(LAST - 1);
    assert_refused(&mut host, &NOT_TAKEN, INVALID_FIELD);
    assert_refused(&mut host, &TOO_LONG, END_OF_USER_AREA);
    assert_taken(&mut host, 48);
    assert_refused(&mut host, &NOT_TAKEN, INVALID_FIELD);
    assert_refused(&mut host, &[16, 48], NO_MORE_FRAGMENTS);
}

/// A tail of 3 blocks has room for one, a tail of 2 blocks or 1 for none.
#[test]
fn where_the_tail_is_short() {
    let mut host = Host::blank(300);
    assert_taken(&mut host, 16 * 296);
    assert_refused(&mut host, &NOT_TAKEN, INVALID_FIELD);
    assert_refused(&mut host, &[32, 48], END_OF_USER_AREA);
    assert_taken(&mut host, 16);
    let mut of_two = Host::blank(300);
    assert_taken(&mut of_two, 16 * 297);
    for host in [&mut host, &mut of_two] {
        assert_refused(host, &NOT_TAKEN, INVALID_FIELD);
        assert_refused(host, &[16, 32, 48], END_OF_USER_AREA);
    }
}

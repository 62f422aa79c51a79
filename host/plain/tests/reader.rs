//! The reader takes the twenty replies that the drive can send, and nothing else.

mod near_misses;
mod replies;

use near_misses::{replies, visit_all};
use plain::{read_configuration, Configuration};
use replies::uncut;
use std::collections::BTreeSet;

fn reply_bytes() -> BTreeSet<Vec<u8>> {
    replies().into_iter().map(|(reply, _)| reply).collect()
}

/// Whatever is asked for, the reply is one of these.
#[test]
fn there_are_twenty_replies() {
    let starts = |kind| (0..=u16::MAX).filter_map(move |start| uncut(kind, start));
    let sent: BTreeSet<Vec<u8>> = (0..4).flat_map(starts).collect();
    assert_eq!(sent.len(), 20);
    assert_eq!(sent, reply_bytes());
}

#[test]
fn reads_every_reply() {
    for (reply, features) in replies() {
        assert_eq!(read_configuration(&reply), Some(Configuration { profile: 0x001B, features }));
    }
}

/// Some changes of one byte make another reply: six among 0002h, 0003h and 001Fh alone, whose
/// descriptors differ in a byte of the number, and six among 0100h, 0105h and 0107h.
#[test]
fn refuses_all_else() {
    let right = reply_bytes();
    let (mut read, mut refused) = (0, 0);
    visit_all(&mut |bytes| {
        let is_read = read_configuration(bytes).is_some();
        assert_eq!(is_read, right.contains(bytes), "{bytes:02X?}");
        read += usize::from(is_read);
        refused += usize::from(!is_read);
    });
    println!("{read} read, {refused} refused");
    assert!(read > 20 + 12 && refused > 200_000);
}

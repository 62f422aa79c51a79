//! Situations at the edges of document 01's rules. A comparison that never meets one has not tried
//! that rule.

use crate::cdb;
use crate::event::{is_full, lacks_one, Event};
use crate::forms::OF_FORMS;
use crate::identity::OF_IDENTITY;
use crate::readable::OF_READABLE_SECTORS;
use gladhamre::RECORD_LIMIT;

/// A situation's name and how it is known.
pub type Situation = (&'static str, fn(&Event) -> bool);

/// How many there are.
pub const COUNT: usize =
    OF_FRAGMENTS.len() + OF_READABLE_SECTORS.len() + OF_FORMS.len() + OF_IDENTITY.len();

/// Every situation, those in which it counts how the fragments are first.
pub fn all() -> impl Iterator<Item = Situation> {
    OF_FRAGMENTS.into_iter().chain(OF_READABLE_SECTORS).chain(OF_FORMS).chain(OF_IDENTITY)
}

/// Whether the situation is one of READ or WRITE, whatever the form.
pub fn is_of_both_forms(name: &str) -> bool {
    name.starts_with("READ ") || name.starts_with("WRITE ")
}

/// The situations in which it counts how the fragments are.
pub const OF_FRAGMENTS: [Situation; 63] = [
    ("WRITE flushes another fragment", |event| event.is_write(0) && event.flushed()),
    ("WRITE fills its fragment exactly", |event| event.is_write(0) && event.completed()),
    ("WRITE of length 0 while sectors are pending", |event| {
        event.is_write(0) && event.length() == 0 && event.before.pending_count() > 0
    }),
    ("WRITE where a flush would make the address right", |event| {
        event.is_write(0x052102) && event.address() == event.next_after_flush()
    }),
    ("RESERVE while sectors are pending", |event| {
        event.accepted(cdb::RESERVE) && event.before.pending_count() > 0
    }),
    ("RESERVE leaves a tail of one block", |event| {
        event.accepted(cdb::RESERVE) && event.last_after().length == 1
    }),
    ("RESERVE refused because the tail has pending sectors only", |event| {
        event.refused(cdb::RESERVE, 0x057205) && event.tail_has_pending_only()
    }),
    ("001 flushes another fragment than its own", |event| {
        event.closed(cdb::FRAGMENT)
            && event.flushed()
            && event.number() != event.before.pending_fragment()
    }),
    ("001 fills a reserved fragment that is written in part", |event| {
        event.closed(cdb::FRAGMENT) && event.completed() && event.answer.recorded > 1
    }),
    ("001 makes no tail because one block is left", |event| {
        event.lost_tail(cdb::FRAGMENT) && event.last_end() + 1 == event.before.capacity()
    }),
    ("001 makes no tail because its flush fills the disc", |event| {
        event.lost_tail(cdb::FRAGMENT) && event.last_end() == event.before.capacity()
    }),
    ("010 where a flush completes a reserved fragment", |event| {
        event.closed(cdb::SESSION) && event.flushed_reserved()
    }),
    ("010 makes a session of one block", |event| {
        event.closed(cdb::SESSION)
            && event.last_after().session > event.last_before().session
            && event.last_after().length == 1
    }),
    ("110 drops an empty session", |event| {
        event.closed(cdb::FINALIZE)
            && event.after.finalized() > event.before.finalized()
            && event.last_after().session < event.last_before().session
    }),
    ("RESERVE makes the last record", |event| event.accepted(cdb::RESERVE) && is_full(event.after)),
    ("RESERVE refused by a full list alone", |event| {
        event.refused(cdb::RESERVE, 0x057205)
            && is_full(event.before)
            && event.tail_is_blank()
            && event.reservation_fits()
    }),
    ("RESERVE refused by a full list where the disc has no room either", |event| {
        event.refused(cdb::RESERVE, 0x057205)
            && is_full(event.before)
            && event.tail_is_blank()
            && !event.reservation_fits()
    }),
    ("RESERVE not of whole blocks, refused by its size alone", |event| {
        event.refused_by_size_alone()
    }),
    (
        "RESERVE of a multiple of 8 that is not of whole blocks, refused by its size alone",
        |event| event.refused_by_size_alone() && event.size() % 8 == 0,
    ),
    ("RESERVE of less than a block, refused by its size alone", |event| {
        event.refused_by_size_alone() && event.size() < 16
    }),
    ("RESERVE of a sector less than whole blocks that fit", |event| {
        event.refused_by_size_alone() && event.size() % 16 == 15
    }),
    ("RESERVE of a sector more than whole blocks that fit", |event| {
        event.refused_by_size_alone() && event.size() % 16 == 1 && event.size() > 16
    }),
    ("RESERVE of a sector less than the most that fits", |event| {
        event.refused_by_size_alone() && event.size() + 1 == event.most_reservable()
    }),
    ("RESERVE of a sector more than the most that fits", |event| {
        event.reserve_of_part(0x052400)
            && event.tail_can_be_split()
            && event.size() == event.most_reservable() + 1
    }),
    ("RESERVE of a block more than the most that fits", |event| {
        event.refused(cdb::RESERVE, 0x056300) && event.size() == event.most_reservable() + 16
    }),
    ("RESERVE not of whole blocks where the disc has no room either", |event| {
        event.reserve_of_part(0x052400) && event.tail_can_be_split() && !event.reservation_fits()
    }),
    ("RESERVE not of whole blocks where the tail has room for one", |event| {
        event.refused_by_size_alone() && event.most_reservable() == 16
    }),
    ("RESERVE not of whole blocks where the tail has room for none", |event| {
        event.reserve_of_part(0x052400) && event.tail_can_be_split() && event.most_reservable() == 0
    }),
    ("RESERVE not of whole blocks while sectors are pending elsewhere", |event| {
        event.refused_by_size_alone() && event.before.pending_count() > 0
    }),
    ("RESERVE not of whole blocks where one record is free", |event| {
        event.refused_by_size_alone() && lacks_one(event.before)
    }),
    ("RESERVE not of whole blocks where the tail is recorded in part", |event| {
        event.reserve_of_part(0x052400) && event.tail_is_written() && !event.tail_has_pending_only()
    }),
    ("RESERVE not of whole blocks where the tail has pending sectors only", |event| {
        event.reserve_of_part(0x052400) && event.tail_has_pending_only()
    }),
    ("RESERVE not of whole blocks where there is no tail", |event| {
        event.reserve_of_part(0x052400) && event.has_no_tail()
    }),
    ("RESERVE not of whole blocks on a full list with a blank tail", |event| {
        event.reserve_of_part(0x052400) && is_full(event.before) && event.tail_is_blank()
    }),
    ("RESERVE not of whole blocks on a full list without a blank tail", |event| {
        event.reserve_of_part(0x052400) && is_full(event.before) && !event.tail_is_blank()
    }),
    ("RESERVE not of whole blocks on a finalized disc", |event| event.reserve_of_part(0x072700)),
    ("RESERVE of size 0, refused by its size alone", |event| {
        event.reserve_of_zero(0x052400) && event.tail_can_be_split() && event.most_reservable() > 0
    }),
    ("RESERVE of size 0 where the tail has room for none", |event| {
        event.reserve_of_zero(0x052400) && event.tail_can_be_split() && event.most_reservable() == 0
    }),
    ("RESERVE of size 0 where the tail is written", |event| {
        event.reserve_of_zero(0x052400) && event.tail_is_written()
    }),
    ("RESERVE of size 0 where there is no tail", |event| {
        event.reserve_of_zero(0x052400) && event.has_no_tail()
    }),
    ("RESERVE of size 0 on a full list", |event| {
        event.reserve_of_zero(0x052400) && is_full(event.before)
    }),
    ("RESERVE of size 0 on a finalized disc", |event| event.reserve_of_zero(0x072700)),
    ("RESERVE of whole blocks on a finalized disc", |event| {
        event.refused(cdb::RESERVE, 0x072700) && event.size() > 0 && event.size() % 16 == 0
    }),
    ("001 makes a tail in the last record", |event| {
        event.closed(cdb::FRAGMENT) && lacks_one(event.before) && is_full(event.after)
    }),
    ("001 makes no tail because the list is full", |event| {
        event.lost_tail(cdb::FRAGMENT)
            && is_full(event.before)
            && event.last_end() + 1 < event.before.capacity()
    }),
    ("001 of the number after a full list", |event| {
        event.close_refused(cdb::FRAGMENT, 0x052400)
            && is_full(event.before)
            && event.number() == RECORD_LIMIT as u32 + 1
    }),
    ("010 drops the blank tail of a full list", |event| {
        event.closed(cdb::SESSION)
            && is_full(event.before)
            && event.last_after().session > event.last_before().session
    }),
    ("010 cuts a tail and makes a session in the last record", |event| {
        event.closed(cdb::SESSION)
            && lacks_one(event.before)
            && event.tail_is_written()
            && is_full(event.after)
    }),
    ("010 refused by a full list alone", |event| {
        event.close_refused(cdb::SESSION, 0x057205) && event.session_fits()
    }),
    ("010 refused by a full list where the disc has no room either", |event| {
        event.close_refused(cdb::SESSION, 0x057205) && !event.session_fits()
    }),
    ("010 refused by a full list whose tail has pending sectors only", |event| {
        event.close_refused(cdb::SESSION, 0x057205) && event.tail_has_pending_only()
    }),
    ("010 leaves a full list whose last session is only a blank tail", |event| {
        event.closed(cdb::SESSION)
            && is_full(event.before)
            && event.tail_is_blank()
            && event.last_after() == event.last_before()
    }),
    ("110 keeps a full list", |event| {
        event.closed(cdb::FINALIZE)
            && event.after.finalized() > event.before.finalized()
            && is_full(event.after)
    }),
    ("110 drops the blank tail of a full list", |event| {
        event.closed(cdb::FINALIZE) && is_full(event.before) && lacks_one(event.after)
    }),
    ("51h on a full list", |event| {
        event.accepted(cdb::READ_DISC_INFORMATION) && is_full(event.before)
    }),
    ("52h of the last record's number", |event| event.named(RECORD_LIMIT, 0)),
    ("52h of the number after a full list", |event| {
        event.named(RECORD_LIMIT + 1, 0x052400) && is_full(event.before)
    }),
    ("52h of FFh, the tail of a full list", |event| event.named(0xFF, 0) && is_full(event.before)),
    ("52h of FFh where a full list has no tail", |event| {
        event.named(0xFF, 0x052400) && is_full(event.before)
    }),
    ("52h of an address in the last record", |event| {
        event.located() && event.reaches_last_record()
    }),
    ("READ in the last record", |event| {
        event.is_read(0) && event.length() > 0 && event.reaches_last_record()
    }),
    ("WRITE leaves sectors pending in the last record", |event| {
        event.is_write(0) && event.after.pending_fragment() == RECORD_LIMIT as u32
    }),
    ("WRITE to another fragment flushes the last record", |event| {
        event.is_write(0)
            && event.flushed()
            && event.before.pending_fragment() == RECORD_LIMIT as u32
    }),
];

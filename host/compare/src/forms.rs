//! Situations in which it counts how long a READ or a WRITE is, and where address and length lead:
//! past the disc, past 32 bits, or to buffers of more bytes than 32 bits can say.

use crate::cdb;
use crate::event::{Event, BLANK_CHECK, NOT_WRITABLE, NO_ROOM, OUT_OF_RANGE, PROTECTED};
use crate::situations::Situation;

/// The situations. Those that begin with READ or WRITE are for both forms, those with an opcode for
/// one.
pub const OF_FORMS: [Situation; 55] = [
    ("READ of length 0 at the disc's end", |event| {
        event.is_read(0) && event.length() == 0 && event.address() == event.disc_end()
    }),
    ("READ of length 0 past the disc's end", |event| {
        event.is_read(0) && event.length() == 0 && event.address() > event.disc_end()
    }),
    ("READ of length 0 at the last address of 32 bits", |event| {
        event.is_read(0) && event.length() == 0 && event.address() == LAST
    }),
    ("READ of length 0 where nothing is readable", |event| {
        event.is_read(0) && event.length() == 0 && !event.has_sectors()
    }),
    ("READ of one sector", |event| event.is_read(0) && event.length() == 1),
    ("READ to the disc's end", |event| {
        event.is_read(BLANK_CHECK) && event.sum() == event.disc_end()
    }),
    ("READ a sector past the disc's end", |event| {
        event.is_read(OUT_OF_RANGE) && event.sum() == event.disc_end() + 1
    }),
    ("READ from the disc's end on", |event| {
        event.is_read(OUT_OF_RANGE) && event.address() == event.disc_end()
    }),
    ("READ of the last address of 32 bits", |event| {
        event.is_read(OUT_OF_RANGE) && event.address() == LAST && event.length() == 1
    }),
    ("READ of 65,535 sectors, past the disc", |event| {
        event.is_read(OUT_OF_RANGE) && event.length() == 65_535
    }),
    ("A8h of 65,536 sectors, past the disc", |event| {
        event.is_read(OUT_OF_RANGE) && event.length() == 65_536
    }),
    ("A8h of 4,294,967,295 sectors", |event| event.is_read(OUT_OF_RANGE) && event.length() == LAST),
    ("A8h of 4,294,967,295 sectors from the last address of 32 bits", |event| {
        event.is_read(OUT_OF_RANGE) && event.length() == LAST && event.address() == LAST
    }),
    ("A8h of more than 65,535 sectors, its low 16 bits a length that fits", |event| {
        event.is_read(OUT_OF_RANGE)
            && event.length() > 65_535
            && event.address() + event.length() % 65_536 <= event.disc_end()
    }),
    ("READ whose sum passes 32 bits", |event| {
        event.is_read(OUT_OF_RANGE) && event.passes_32_bits()
    }),
    ("READ whose sum, cut to 32 bits, is 0", |event| {
        event.is_read(OUT_OF_RANGE) && event.passes_32_bits() && event.cut_sum() == 0
    }),
    ("READ whose sum, cut to 32 bits, is the disc's end", |event| {
        event.is_read(OUT_OF_RANGE) && event.passes_32_bits() && event.cut_sum() == event.disc_end()
    }),
    ("READ whose sum, cut to 32 bits, is the end of readable sectors", |event| {
        event.is_read(OUT_OF_RANGE)
            && event.passes_32_bits()
            && event.cut_sum() > 0
            && event.is_readable(event.cut_sum() - 1)
            && !event.is_readable(event.cut_sum())
    }),
    ("A8h from a readable sector, its sum past 32 bits", |event| {
        event.is_read(OUT_OF_RANGE) && event.passes_32_bits() && event.is_readable(event.address())
    }),
    ("A8h from an unreadable sector of the disc, its sum past 32 bits", |event| {
        event.is_read(OUT_OF_RANGE)
            && event.passes_32_bits()
            && event.address() < event.disc_end()
            && !event.is_readable(event.address())
    }),
    ("READ with a reply buffer a byte too short", |event| {
        event.is_read(L4) && event.lacks_of_reply() == 1
    }),
    ("READ with no reply buffer", |event| {
        event.is_read(L4) && event.request.reply_length == 0 && event.length() > 0
    }),
    ("READ with a reply buffer a sector or more too short", |event| {
        event.is_read(L4) && event.lacks_of_reply() >= cdb::SECTOR_BYTES
    }),
    ("READ past the disc with too short a reply buffer", |event| {
        event.is_read(L4) && event.lacks_of_reply() > 0 && event.sum() > event.disc_end()
    }),
    ("READ of a sector that is not readable with too short a reply buffer", |event| {
        event.is_read(L4)
            && event.lacks_of_reply() > 0
            && event.address() < event.disc_end()
            && !event.is_readable(event.address())
    }),
    ("READ with data", |event| {
        event.is_read(L4) && event.request.data_length > 0 && event.lacks_of_reply() == 0
    }),
    ("READ of length 0 with data", |event| {
        event.is_read(L4) && event.request.data_length > 0 && event.length() == 0
    }),
    ("A8h with a reply buffer that would do if its bytes were cut to 32 bits", |event| {
        event.is_read(L4)
            && event.wants_long_buffer()
            && event.request.data_length == 0
            && event.request.reply_length >= cut(event.length())
    }),
    ("A8h with a reply buffer of more than 4 GB", |event| {
        event.is_read(OUT_OF_RANGE) && event.wants_long_buffer()
    }),
    ("A8h with a reply buffer of more than 4 GB that lacks a byte", |event| {
        event.is_read(L4) && event.wants_long_buffer() && event.lacks_of_reply() == 1
    }),
    ("WRITE of length 0 at the disc's end", |event| {
        event.is_write(0) && event.length() == 0 && event.address() == event.disc_end()
    }),
    ("WRITE of length 0 past the disc's end", |event| {
        event.is_write(0) && event.length() == 0 && event.address() > event.disc_end()
    }),
    ("WRITE of length 0 on a finalized disc", |event| {
        event.is_write(0) && event.length() == 0 && event.before.finalized() == 1
    }),
    ("WRITE of length 0 at no next writable address of a disc with room", |event| {
        event.is_write(0)
            && event.length() == 0
            && event.has_room()
            && event.fragment_end().is_none()
    }),
    ("WRITE of one sector", |event| event.is_write(0) && event.length() == 1),
    ("WRITE of a sector more than its fragment has room for", |event| {
        event.is_write(NO_ROOM) && event.fragment_end().is_some_and(|end| event.sum() == end + 1)
    }),
    ("WRITE of 65,535 sectors, past its fragment", |event| {
        event.is_write(NO_ROOM) && event.length() == 65_535
    }),
    ("AAh of 65,536 sectors, past its fragment", |event| {
        event.is_write(NO_ROOM) && event.length() == 65_536
    }),
    ("AAh of 4,294,967,295 sectors, past its fragment", |event| {
        event.is_write(NO_ROOM) && event.length() == LAST
    }),
    ("AAh of 4,294,967,295 sectors at no next writable address", |event| {
        event.is_write(NOT_WRITABLE) && event.length() == LAST
    }),
    ("AAh of 4,294,967,295 sectors on a finalized disc", |event| {
        event.is_write(PROTECTED) && event.length() == LAST
    }),
    ("AAh of more than 65,535 sectors, its low 16 bits a length that fits", |event| {
        event.is_write(NO_ROOM)
            && event.length() > 65_535
            && event
                .fragment_end()
                .is_some_and(|end| event.address() + event.length() % 65_536 <= end)
    }),
    ("AAh past its fragment, its sum past 32 bits", |event| {
        event.is_write(NO_ROOM) && event.passes_32_bits()
    }),
    ("AAh past its fragment, its sum 0 if it is cut to 32 bits", |event| {
        event.is_write(NO_ROOM) && event.passes_32_bits() && event.cut_sum() == 0
    }),
    ("WRITE at no next writable address, its sum past 32 bits", |event| {
        event.is_write(NOT_WRITABLE) && event.passes_32_bits()
    }),
    ("WRITE at no next writable address, its sum one if it is cut to 32 bits", |event| {
        event.is_write(NOT_WRITABLE) && event.passes_32_bits() && event.cut_sum_is_writable()
    }),
    ("WRITE at no next writable address, its sum the disc's end if cut to 32 bits", |event| {
        event.is_write(NOT_WRITABLE)
            && event.passes_32_bits()
            && event.cut_sum() == event.disc_end()
    }),
    ("WRITE at the last address of 32 bits", |event| {
        event.is_write(NOT_WRITABLE) && event.address() == LAST
    }),
    ("WRITE on a finalized disc, its sum past 32 bits", |event| {
        event.is_write(PROTECTED) && event.passes_32_bits()
    }),
    ("WRITE with a byte of data too few or too many", |event| {
        event.is_write(L4) && event.request.data_length.abs_diff(event.wanted_bytes()) == 1
    }),
    ("WRITE at no next writable address with other data than it asks for", |event| {
        event.is_write(L4) && event.before.finalized() == 0 && event.fragment_end().is_none()
    }),
    ("WRITE past its fragment with other data than it asks for", |event| {
        event.is_write(L4) && event.fragment_end().is_some_and(|end| event.sum() > end)
    }),
    ("WRITE on a finalized disc with other data than it asks for", |event| {
        event.is_write(L4) && event.before.finalized() == 1
    }),
    ("AAh with data that would do if their bytes were cut to 32 bits", |event| {
        event.is_write(L4)
            && event.wants_long_buffer()
            && event.request.data_length == cut(event.length())
    }),
    ("AAh with data of more than 4 GB", |event| {
        event.is_write(NO_ROOM) && event.wants_long_buffer()
    }),
];

const L4: u32 = 4;

/// The last address and the longest length of 32 bits.
const LAST: u64 = u32::MAX as u64;

/// The bytes of so many sectors, cut to 32 bits.
fn cut(sectors: u64) -> usize {
    (sectors as u32).wrapping_mul(cdb::SECTOR_BYTES as u32) as usize
}

impl Event<'_> {
    /// The sector after the disc's last.
    fn disc_end(&self) -> u64 {
        16 * u64::from(self.before.capacity())
    }

    /// The sum of address and length.
    fn sum(&self) -> u64 {
        self.address() + self.length()
    }

    fn passes_32_bits(&self) -> bool {
        self.sum() > LAST
    }

    fn cut_sum(&self) -> u64 {
        self.sum() & LAST
    }

    /// Whether a fragment is incomplete.
    fn has_room(&self) -> bool {
        self.before.records().any(|record| record.recorded < record.length)
    }

    /// Whether any sector is recorded or pending.
    fn has_sectors(&self) -> bool {
        self.before.pending_count() > 0 || self.before.records().any(|record| record.recorded > 0)
    }

    /// The end of the fragment whose next writable address the command has.
    fn fragment_end(&self) -> Option<u64> {
        self.fragment_end_at(self.address())
    }

    fn fragment_end_at(&self, address: u64) -> Option<u64> {
        (1..).zip(self.before.records()).find_map(|(number, record)| {
            let own = number == self.before.pending_fragment();
            let pending = if own { self.before.pending_count() } else { 0 };
            let next = 16 * u64::from(record.start + record.recorded) + u64::from(pending);
            let end = 16 * u64::from(record.start + record.length);
            (record.recorded < record.length && next == address).then_some(end)
        })
    }

    fn cut_sum_is_writable(&self) -> bool {
        self.fragment_end_at(self.cut_sum()).is_some()
    }

    /// The bytes of data or of reply that the command asks for.
    fn wanted_bytes(&self) -> usize {
        self.length() as usize * cdb::SECTOR_BYTES
    }

    /// Whether that is more than 32 bits can say.
    fn wants_long_buffer(&self) -> bool {
        self.wanted_bytes() > LAST as usize
    }

    /// How many bytes the reply buffer of a READ lacks.
    fn lacks_of_reply(&self) -> usize {
        self.wanted_bytes().saturating_sub(self.request.reply_length)
    }
}

//! Situations in which it counts what is readable: READs beside, among and past pending sectors, and
//! reports while sectors are pending.

use crate::cdb;
use crate::event::{is_full, Event, Position, BLANK_CHECK};
use crate::situations::Situation;
use gladhamre::{Record, SECTOR_BYTES};
use std::ops::Range;

/// The situations.
pub const OF_READABLE_SECTORS: [Situation; 59] = [
    ("READ from the medium before pending sectors of the only fragment", |event| {
        event.reads_medium() && event.holder_is(Position::Only)
    }),
    ("READ from the medium before pending sectors of the first fragment", |event| {
        event.reads_medium() && event.holder_is(Position::First)
    }),
    ("READ from the medium before pending sectors of a middle fragment", |event| {
        event.reads_medium() && event.holder_is(Position::Middle)
    }),
    ("READ from the medium before pending sectors of the last fragment", |event| {
        event.reads_medium() && event.holder_is(Position::Last)
    }),
    ("READ from the pending buffer in the only fragment", |event| {
        event.reads_buffer() && event.holder_is(Position::Only)
    }),
    ("READ from the pending buffer in the first fragment", |event| {
        event.reads_buffer() && event.holder_is(Position::First)
    }),
    ("READ from the pending buffer in a middle fragment", |event| {
        event.reads_buffer() && event.holder_is(Position::Middle)
    }),
    ("READ from the pending buffer in the last fragment", |event| {
        event.reads_buffer() && event.holder_is(Position::Last)
    }),
    ("READ across the border in the only fragment", |event| {
        event.reads_across() && event.holder_is(Position::Only)
    }),
    ("READ across the border in the first fragment", |event| {
        event.reads_across() && event.holder_is(Position::First)
    }),
    ("READ across the border in a middle fragment", |event| {
        event.reads_across() && event.holder_is(Position::Middle)
    }),
    ("READ across the border in the last fragment", |event| {
        event.reads_across() && event.holder_is(Position::Last)
    }),
    ("READ a sector past the pending ones of the only fragment", |event| {
        event.reads_one_past() && event.holder_is(Position::Only)
    }),
    ("READ a sector past the pending ones of the first fragment", |event| {
        event.reads_one_past() && event.holder_is(Position::First)
    }),
    ("READ a sector past the pending ones of a middle fragment", |event| {
        event.reads_one_past() && event.holder_is(Position::Middle)
    }),
    ("READ a sector past the pending ones of the last fragment", |event| {
        event.reads_one_past() && event.holder_is(Position::Last)
    }),
    ("READ up to the border", |event| {
        event.reads_medium() && event.run().end == event.pending_run().start
    }),
    ("READ of the last recorded sector and the first pending one", |event| {
        event.reads_across()
            && event.length() == 2
            && event.run().end == event.pending_run().start + 1
    }),
    ("READ across the border to the last pending sector", |event| {
        event.reads_across() && event.run().end == event.pending_run().end
    }),
    ("READ across the border, not to the last pending sector", |event| {
        event.reads_across() && event.run().end < event.pending_run().end
    }),
    ("READ from the first pending sector on", |event| {
        event.reads_buffer() && event.run().start == event.pending_run().start
    }),
    ("READ from a later pending sector on", |event| {
        event.reads_buffer() && event.run().start > event.pending_run().start
    }),
    ("READ of all pending sectors and no other", |event| {
        event.reads_buffer() && event.run() == event.pending_run()
    }),
    ("READ of the last pending sector alone, others before it", |event| {
        event.reads_buffer()
            && event.length() == 1
            && event.run().end == event.pending_run().end
            && event.before.pending_count() > 1
    }),
    ("READ a sector past the pending ones, from the medium on", |event| {
        event.reads_one_past() && event.run().start < event.pending_run().start
    }),
    ("READ a sector past the pending ones, from the first of them on", |event| {
        event.reads_one_past() && event.run().start == event.pending_run().start
    }),
    ("READ a sector past the pending ones, from a later one on", |event| {
        event.reads_one_past() && event.run().start > event.pending_run().start
    }),
    ("READ of the sector after the pending ones alone", |event| {
        event.reads(BLANK_CHECK)
            && event.length() == 1
            && event.run().start == event.pending_run().end
            && event.before.pending_count() > 0
    }),
    ("READ over the pending sectors to the end of their block", |event| {
        event.reads_past() && event.run().end == event.pending_run().start + 16
    }),
    ("READ from pending sectors past the end of the disc", |event| {
        event.reads(0x052100) && event.pending_run().contains(&event.address())
    }),
    ("READ of an earlier fragment than that with pending sectors", |event| {
        event.reads(0) && event.holder().is_some_and(|holder| event.run().end <= first(&holder))
    }),
    ("READ of a later fragment than that with pending sectors", |event| {
        event.reads(0) && event.holder().is_some_and(|holder| end(&holder) <= event.address())
    }),
    ("READ where another fragment would have the pending sectors", |event| {
        event.reads(BLANK_CHECK)
            && event.before.pending_count() > 0
            && event.address() != event.pending_run().start
            && event.before.records().any(|record| recorded_end(&record) == event.address())
    }),
    ("READ from one fragment to another, from a recorded sector to a recorded one", |event| {
        event.reads(BLANK_CHECK)
            && event.is_recorded(event.run().start)
            && event.is_recorded(event.run().end - 1)
    }),
    ("READ from one fragment to another, from a recorded sector to a pending one", |event| {
        event.reads(BLANK_CHECK)
            && event.is_recorded(event.run().start)
            && event.pending_run().contains(&(event.run().end - 1))
    }),
    ("READ from one fragment to another, from a pending sector to a recorded one", |event| {
        event.reads(BLANK_CHECK)
            && event.pending_run().contains(&event.run().start)
            && event.is_recorded(event.run().end - 1)
    }),
    ("READ from the pending buffer where 1 is pending", |event| {
        event.reads_buffer() && event.before.pending_count() == 1
    }),
    ("READ across the border where 1 is pending", |event| {
        event.reads_across() && event.before.pending_count() == 1
    }),
    ("READ from the pending buffer where 15 are pending", |event| {
        event.reads_buffer() && event.before.pending_count() == 15
    }),
    ("READ across the border where 15 are pending", |event| {
        event.reads_across() && event.before.pending_count() == 15
    }),
    ("READ a sector past 15 pending ones", |event| {
        event.reads_one_past() && event.before.pending_count() == 15
    }),
    ("READ of pending sectors of a reserved fragment", |event| {
        event.reads_pending() && event.holder().is_some_and(|holder| holder.kind == 0)
    }),
    ("READ of pending sectors of the tail", |event| {
        event.reads_pending() && event.holder().is_some_and(|holder| holder.kind == 1)
    }),
    ("READ of pending sectors where nothing is recorded in their fragment", |event| {
        event.reads_pending() && event.holder().is_some_and(|holder| holder.recorded == 0)
    }),
    ("READ of pending sectors where nothing is recorded on the disc", |event| {
        event.reads_pending() && event.last_recorded().is_none()
    }),
    ("READ of pending sectors in a later session than the first", |event| {
        event.reads_pending() && event.holder().is_some_and(|holder| holder.session > 1)
    }),
    ("READ of pending sectors where the list is full", |event| {
        event.reads_pending() && is_full(event.before)
    }),
    ("READ of pending sectors, noise past the count", |event| {
        event.reads_pending() && event.has_noise_past_count()
    }),
    ("READ of pending sectors, noise in their place on the medium", |event| {
        event.reads_pending() && event.has_noise_below_pending()
    }),
    ("READ a sector past the pending ones, noise past the count", |event| {
        event.reads_one_past() && event.has_noise_past_count()
    }),
    ("READ of length 0 while sectors are pending", |event| {
        event.is_read(0) && event.length() == 0 && event.before.pending_count() > 0
    }),
    ("25h where nothing is readable", |event| {
        event.accepted(cdb::READ_CAPACITY)
            && event.before.pending_count() == 0
            && event.last_recorded().is_none()
    }),
    ("25h where sectors are pending and none are recorded", |event| {
        event.reports_capacity_pending() && event.last_recorded().is_none()
    }),
    ("25h where the last readable sector is pending, others of its fragment recorded", |event| {
        event.reports_capacity_pending()
            && event.last_recorded().is_some_and(|last| last + 1 == event.pending_run().start)
    }),
    (
        "25h where the last readable sector is pending, others of another fragment recorded",
        |event| {
            event.reports_capacity_pending()
                && event.last_recorded().is_some_and(|last| last + 1 < event.pending_run().start)
        },
    ),
    ("25h where sectors after the pending ones are recorded", |event| {
        event.reports_capacity_pending()
            && event.last_recorded().is_some_and(|last| last > event.pending_run().end)
    }),
    ("52h of a fragment with pending sectors and recorded ones", |event| {
        event.reports_holder() && event.holder().is_some_and(|holder| holder.recorded > 0)
    }),
    ("52h of a fragment with pending sectors only", |event| {
        event.reports_holder() && event.holder().is_some_and(|holder| holder.recorded == 0)
    }),
    ("51h where sectors are pending and none are recorded", |event| {
        event.accepted(cdb::READ_DISC_INFORMATION)
            && event.before.pending_count() > 0
            && event.last_recorded().is_none()
    }),
];

/// The first sector of a fragment.
pub fn first(record: &Record) -> u64 {
    16 * u64::from(record.start)
}

/// The sector after its recorded ones.
pub fn recorded_end(record: &Record) -> u64 {
    first(record) + 16 * u64::from(record.recorded)
}

/// The sector after its last.
pub fn end(record: &Record) -> u64 {
    first(record) + 16 * u64::from(record.length)
}

impl Event<'_> {
    /// A READ of at least one sector, answered so.
    fn reads(&self, number: u32) -> bool {
        self.is_read(number) && self.length() > 0
    }

    /// The sectors of a READ.
    fn run(&self) -> Range<u64> {
        self.address()..self.address() + self.length()
    }

    /// The fragment that has the pending sectors.
    fn holder(&self) -> Option<Record> {
        let index = (self.before.pending_fragment() as usize).checked_sub(1)?;
        Some(self.before.record(index))
    }

    /// The pending sectors, an empty run if there are none.
    fn pending_run(&self) -> Range<u64> {
        let start = self.holder().map_or(0, |holder| recorded_end(&holder));
        start..start + u64::from(self.before.pending_count())
    }

    fn holder_is(&self, position: Position) -> bool {
        Position::of(self.before) == Some(position)
    }

    /// A READ answered so, from a readable sector of the fragment with the pending sectors on.
    fn reads_holder(&self, number: u32) -> bool {
        self.reads(number)
            && self.holder().is_some_and(|holder| {
                (first(&holder)..self.pending_run().end).contains(&self.address())
            })
    }

    /// A READ from the medium alone.
    fn reads_medium(&self) -> bool {
        self.reads_holder(0) && self.run().end <= self.pending_run().start
    }

    /// A READ from the pending buffer alone.
    fn reads_buffer(&self) -> bool {
        self.reads_holder(0) && self.run().start >= self.pending_run().start
    }

    /// A READ that begins on the medium and ends in the pending buffer.
    fn reads_across(&self) -> bool {
        self.reads_pending() && !self.reads_buffer()
    }

    /// A READ that ends in the pending buffer.
    pub fn reads_pending(&self) -> bool {
        self.reads_holder(0) && self.run().end > self.pending_run().start
    }

    /// A READ that begins readable and is refused because it goes on past the pending sectors.
    fn reads_past(&self) -> bool {
        self.reads_holder(BLANK_CHECK)
    }

    /// The same, by one sector.
    fn reads_one_past(&self) -> bool {
        self.reads_past() && self.run().end == self.pending_run().end + 1
    }

    fn is_recorded(&self, address: u64) -> bool {
        self.before
            .records()
            .any(|record| (first(&record)..recorded_end(&record)).contains(&address))
    }

    /// Whether the sector is recorded or pending.
    pub fn is_readable(&self, address: u64) -> bool {
        self.is_recorded(address) || self.pending_run().contains(&address)
    }

    /// The last recorded address of the disc.
    fn last_recorded(&self) -> Option<u64> {
        let recorded = self.before.records().filter(|record| record.recorded > 0);
        recorded.map(|record| recorded_end(&record) - 1).max()
    }

    /// The sector after the pending ones in the pending buffer is not zeros. A READ leaves it.
    fn has_noise_past_count(&self) -> bool {
        let held = self.before.pending_count() as usize * SECTOR_BYTES;
        self.pending[held..held + SECTOR_BYTES] != [0; SECTOR_BYTES]
    }

    /// Where the pending sectors will be recorded, the medium does not hold their bytes.
    fn has_noise_below_pending(&self) -> bool {
        let held = self.before.pending_count() as usize * SECTOR_BYTES;
        let place = self.pending_run().start as usize * SECTOR_BYTES;
        self.medium[place..place + held] != self.pending[..held]
    }

    /// 25h while sectors are pending.
    fn reports_capacity_pending(&self) -> bool {
        self.accepted(cdb::READ_CAPACITY) && self.before.pending_count() > 0
    }

    /// 52h of the fragment with the pending sectors, by any of its addresses or by its number.
    fn reports_holder(&self) -> bool {
        let number = self.before.pending_fragment() as usize;
        let in_holder = |holder: Record| (first(&holder)..end(&holder)).contains(&self.address());
        number > 0
            && (self.named(number, 0) || self.located() && self.holder().is_some_and(in_holder))
    }
}

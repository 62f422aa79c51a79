//! Situations in which it counts what INQUIRY and GET CONFIGURATION are asked for, and with what room:
//! 12h and 46h.

use crate::cdb;
use crate::event::Event;
use crate::situations::Situation;

const L4: u32 = 4;
const INVALID_FIELD: u32 = 0x052400;

/// The situations.
pub const OF_IDENTITY: [Situation; 71] = [
    ("12h with just the allocation length of the reply", |event| {
        event.is_inquiry(0) && event.allocation() == cdb::INQUIRY_LENGTH
    }),
    ("12h with a byte more than the reply", |event| {
        event.is_inquiry(0) && event.allocation() == cdb::INQUIRY_LENGTH + 1
    }),
    ("12h cut by a byte", |event| {
        event.is_inquiry(0) && event.allocation() == cdb::INQUIRY_LENGTH - 1
    }),
    ("12h cut in front of its length", |event| {
        event.is_inquiry(0) && (1..=4).contains(&event.allocation())
    }),
    ("12h cut to nothing", |event| event.is_inquiry(0) && event.allocation() == 0),
    ("12h uncut, where the low byte of its allocation length would cut it", |event| {
        event.is_inquiry(0) && event.is_long_by_high_byte()
    }),
    ("12h uncut, where bytes 7-8 would cut it", |event| {
        event.is_inquiry(0)
            && !event.is_cut()
            && usize::from(cdb::allocation(event.cdb)) < cdb::INQUIRY_LENGTH
    }),
    ("12h with a page in byte 2 and no page bit", |event| event.is_inquiry(0) && event.cdb[2] != 0),
    ("12h with the bit beside the page bit", |event| {
        event.is_inquiry(0) && event.cdb[1] & 0b10 != 0
    }),
    ("12h with the page bit alone in byte 1", |event| {
        event.is_inquiry(INVALID_FIELD) && event.cdb[1] == cdb::PAGE_BIT
    }),
    ("12h with the page bit and page 0", |event| {
        event.is_inquiry(INVALID_FIELD) && event.cdb[2] == 0
    }),
    ("12h with the page bit and a page", |event| {
        event.is_inquiry(INVALID_FIELD) && event.cdb[2] != 0
    }),
    ("12h refused with no reply buffer, where a reply would have bytes", |event| {
        event.is_inquiry(INVALID_FIELD) && event.allocation() > 0 && event.room() == 0
    }),
    ("12h refused with room for a reply", |event| {
        event.is_inquiry(INVALID_FIELD) && event.room() >= cdb::INQUIRY_LENGTH
    }),
    ("12h cut, with just the room of the cut reply", |event| {
        event.is_inquiry(0) && event.is_cut() && event.room() == event.allocation()
    }),
    ("12h cut, with room for the whole reply", |event| {
        event.is_inquiry(0) && event.is_cut() && event.room() >= cdb::INQUIRY_LENGTH
    }),
    ("12h uncut, with just the room of the reply", |event| {
        event.is_inquiry(0) && !event.is_cut() && event.room() == cdb::INQUIRY_LENGTH
    }),
    ("12h with a byte of room too few", |event| event.is_inquiry(L4) && event.lacks_room() == 1),
    ("12h cut, with a byte of room too few", |event| {
        event.is_inquiry(L4) && event.is_cut() && event.lacks_room() == 1
    }),
    ("12h with no room", |event| {
        event.is_inquiry(L4) && event.lacks_room() > 0 && event.room() == 0
    }),
    ("12h with data", |event| {
        event.is_inquiry(L4) && event.lacks_room() == 0 && !event.asks_page()
    }),
    ("12h with data and too little room", |event| {
        event.is_inquiry(L4) && event.lacks_room() > 0 && event.request.data_length > 0
    }),
    ("12h with the page bit and data", |event| event.is_inquiry(L4) && event.asks_page()),
    ("12h clears a sense", |event| event.is_inquiry(0) && event.has_sense()),
    ("12h refused without a sense before", |event| {
        event.is_inquiry(INVALID_FIELD) && !event.has_sense()
    }),
    ("12h refused after another refusal", |event| {
        event.is_inquiry(INVALID_FIELD) && event.has_other_sense()
    }),
    ("12h while sectors are pending", |event| {
        event.is_inquiry(0) && event.before.pending_count() > 0
    }),
    ("12h refused while sectors are pending", |event| {
        event.is_inquiry(INVALID_FIELD) && event.before.pending_count() > 0
    }),
    ("46h type 0 from the first feature on, uncut", |event| {
        event.is_listing(0) && event.start() == 0 && !event.is_cut()
    }),
    ("46h type 1 from the first feature on, uncut", |event| {
        event.is_listing(1) && event.start() == 0 && !event.is_cut()
    }),
    ("46h type 0 from a later feature on", |event| event.is_listing(0) && event.starts_inside()),
    ("46h type 1 from a later feature on", |event| event.is_listing(1) && event.starts_inside()),
    ("46h type 0 from between two features on", |event| {
        event.is_listing(0) && event.starts_between()
    }),
    ("46h type 1 from between two features on", |event| {
        event.is_listing(1) && event.starts_between()
    }),
    ("46h type 0 from the last feature on", |event| {
        event.is_listing(0) && event.start() == LAST_FEATURE
    }),
    ("46h type 1 from the last feature on", |event| {
        event.is_listing(1) && event.start() == LAST_FEATURE
    }),
    ("46h type 0 from after the last feature on", |event| {
        event.is_listing(0) && event.start() == LAST_FEATURE + 1
    }),
    ("46h type 1 from after the last feature on", |event| {
        event.is_listing(1) && event.start() == LAST_FEATURE + 1
    }),
    ("46h type 0 from FFFFh on", |event| event.is_listing(0) && event.start() == u16::MAX),
    ("46h type 1 from FFFFh on", |event| event.is_listing(1) && event.start() == u16::MAX),
    ("46h type 2 of the first feature", |event| event.is_listing(2) && event.start() == 0),
    ("46h type 2 of a later feature", |event| event.is_listing(2) && event.starts_inside()),
    ("46h type 2 of a number between two features", |event| {
        event.is_listing(2) && event.starts_between()
    }),
    ("46h type 2 of FFFFh", |event| event.is_listing(2) && event.start() == u16::MAX),
    ("46h type 2 of a number whose low byte alone is a feature", |event| {
        event.is_listing(2) && !event.starts_at_feature() && is_feature(event.start() & 0xFF)
    }),
    ("46h with a bit beside the request type", |event| {
        event.is_configuration(0) && event.cdb[1] & 0b100 != 0
    }),
    ("46h type 3 with a bit beside the request type", |event| {
        event.is_configuration(INVALID_FIELD) && event.cdb[1] & 0b100 != 0
    }),
    ("46h with just the allocation length of the reply", |event| {
        event.is_configuration(0) && event.allocation() == event.whole()
    }),
    ("46h with a byte more than the reply", |event| {
        event.is_configuration(0) && event.allocation() == event.whole() + 1
    }),
    ("46h cut by a byte", |event| {
        event.is_configuration(0) && event.allocation() + 1 == event.whole()
    }),
    ("46h cut inside its length", |event| {
        event.is_configuration(0) && (1..=3).contains(&event.allocation())
    }),
    ("46h cut to its header", |event| {
        event.is_configuration(0) && event.is_cut() && event.allocation() == HEADER
    }),
    ("46h cut after its header", |event| {
        event.is_configuration(0) && event.is_cut() && event.allocation() > HEADER
    }),
    ("46h cut to nothing", |event| event.is_configuration(0) && event.allocation() == 0),
    ("46h uncut, where the low byte of its allocation length would cut it", |event| {
        event.is_configuration(0) && event.is_long_by_high_byte()
    }),
    ("46h cut, with just the room of the cut reply", |event| {
        event.is_configuration(0) && event.is_cut() && event.room() == event.allocation()
    }),
    ("46h cut, with room for the whole reply", |event| {
        event.is_configuration(0) && event.is_cut() && event.room() >= event.whole()
    }),
    ("46h uncut, with room for it and not for all features", |event| {
        event.is_configuration(0) && !event.is_cut() && (event.whole()..ALL).contains(&event.room())
    }),
    ("46h with a byte of room too few", |event| {
        event.is_configuration(L4) && event.lacks_room() == 1
    }),
    ("46h cut, with a byte of room too few", |event| {
        event.is_configuration(L4) && event.is_cut() && event.lacks_room() == 1
    }),
    ("46h with no room", |event| {
        event.is_configuration(L4) && event.lacks_room() > 0 && event.room() == 0
    }),
    ("46h with data", |event| {
        event.is_configuration(L4) && event.lacks_room() == 0 && event.kind() < 3
    }),
    ("46h with data and too little room", |event| {
        event.is_configuration(L4) && event.lacks_room() > 0 && event.request.data_length > 0
    }),
    ("46h type 3 with data", |event| event.is_configuration(L4) && event.kind() == 3),
    ("46h refused with no reply buffer, where a reply would have bytes", |event| {
        event.is_configuration(INVALID_FIELD) && event.allocation() > 0 && event.room() == 0
    }),
    ("46h refused with room for a reply", |event| {
        event.is_configuration(INVALID_FIELD) && event.room() >= HEADER
    }),
    ("46h clears a sense", |event| event.is_configuration(0) && event.has_sense()),
    ("46h refused without a sense before", |event| {
        event.is_configuration(INVALID_FIELD) && !event.has_sense()
    }),
    ("46h refused after another refusal", |event| {
        event.is_configuration(INVALID_FIELD) && event.has_other_sense()
    }),
    ("46h while sectors are pending", |event| {
        event.is_configuration(0) && event.before.pending_count() > 0
    }),
    ("46h refused while sectors are pending", |event| {
        event.is_configuration(INVALID_FIELD) && event.before.pending_count() > 0
    }),
];

/// The bytes in front of the features, and those of the reply with all of them.
const HEADER: usize = cdb::CONFIGURATION_HEADER_LENGTH;
const ALL: usize = cdb::CONFIGURATION_LENGTH;

const LAST_FEATURE: u16 = cdb::FEATURES[cdb::FEATURES.len() - 1].0;

fn is_feature(number: u16) -> bool {
    cdb::FEATURES.iter().any(|(feature, _)| *feature == number)
}

impl Event<'_> {
    /// 12h, answered so.
    fn is_inquiry(&self, number: u32) -> bool {
        self.cdb[0] == cdb::INQUIRY && self.answer.number == number
    }

    /// 46h, answered so.
    fn is_configuration(&self, number: u32) -> bool {
        self.cdb[0] == cdb::GET_CONFIGURATION && self.answer.number == number
    }

    /// 46h of this type, accepted.
    fn is_listing(&self, kind: u8) -> bool {
        self.is_configuration(0) && self.kind() == kind
    }

    /// The request type of 46h.
    fn kind(&self) -> u8 {
        self.cdb[1] & 0b11
    }

    /// The starting feature of 46h.
    fn start(&self) -> u16 {
        cdb::start(self.cdb)
    }

    fn starts_at_feature(&self) -> bool {
        is_feature(self.start())
    }

    /// At a feature that is not the first.
    fn starts_inside(&self) -> bool {
        self.starts_at_feature() && self.start() > 0
    }

    /// At no feature, but before the last.
    fn starts_between(&self) -> bool {
        !self.starts_at_feature() && self.start() < LAST_FEATURE
    }

    /// Whether 12h asks for a page.
    fn asks_page(&self) -> bool {
        self.cdb[1] & cdb::PAGE_BIT != 0
    }

    fn allocation(&self) -> usize {
        match self.cdb[0] {
            cdb::INQUIRY => cdb::inquiry_allocation(self.cdb).into(),
            _ => cdb::allocation(self.cdb).into(),
        }
    }

    /// The bytes of the uncut reply, 0 where there is none.
    fn whole(&self) -> usize {
        match self.cdb[0] {
            cdb::INQUIRY => cdb::INQUIRY_LENGTH,
            _ => cdb::configuration_length(self.cdb).unwrap_or(0),
        }
    }

    fn is_cut(&self) -> bool {
        self.allocation() < self.whole()
    }

    /// The reply is uncut, but the low byte of the allocation length is less than its bytes.
    fn is_long_by_high_byte(&self) -> bool {
        self.allocation() > 0xFF && self.allocation() & 0xFF < self.whole()
    }

    /// The bytes of the reply buffer.
    fn room(&self) -> usize {
        self.request.reply_length
    }

    /// How many bytes it lacks.
    fn lacks_room(&self) -> usize {
        cdb::reply_room(self.cdb).saturating_sub(self.room())
    }

    /// Whether the command before was refused, as far as the sense tells.
    fn has_sense(&self) -> bool {
        self.before.sense() != [0; 3]
    }

    /// The same, by another sense than 5/24/00.
    fn has_other_sense(&self) -> bool {
        self.has_sense() && self.before.sense() != [0x5, 0x24, 0x00]
    }
}

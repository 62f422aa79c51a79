//! INQUIRY and GET CONFIGURATION, at the edges of what they ask for.

use crate::cdb::{self, Cdb};
use crate::mood::Kind;
use crate::outline::Outline;
use crate::{Generator, Request};

/// No reply to either has more bytes.
const MOST_BYTES: u64 = cdb::CONFIGURATION_LENGTH as u64;

/// Whether it is one of them.
pub fn is_question(cdb: &Cdb) -> bool {
    matches!(cdb[0], cdb::INQUIRY | cdb::GET_CONFIGURATION)
}

impl Generator {
    /// Now and then one of them; often on a blank disc, which commands soon leave behind.
    pub(crate) fn question(&mut self, outline: &Outline) -> Option<Kind> {
        let once_in = if outline.is_blank() { 6 } else { 14 };
        let asks = self.random.once_in(once_in);
        asks.then(|| self.random.pick(&[Kind::Inquiry, Kind::Configuration, Kind::Configuration]))
    }

    /// 12h, now and then with the page bit, a page, or both.
    pub(crate) fn set_inquiry(&mut self, cdb: &mut Cdb) {
        cdb[0] = cdb::INQUIRY;
        cdb[1] &= !cdb::PAGE_BIT;
        if self.random.once_in(3) {
            cdb[1] |= cdb::PAGE_BIT;
        }
        if self.random.once_in(2) {
            cdb[2] = 0;
        }
        // where other commands have theirs
        let elsewhere = self.allocation_about(cdb::INQUIRY_LENGTH);
        cdb::set_allocation(cdb, elsewhere);
        let allocation = self.allocation_about(cdb::INQUIRY_LENGTH);
        cdb::set_inquiry_allocation(cdb, allocation);
    }

    /// 46h of any type, from a feature that the drive has or from beside one.
    pub(crate) fn set_configuration(&mut self, cdb: &mut Cdb) {
        cdb[0] = cdb::GET_CONFIGURATION;
        let start = self.starting_feature();
        cdb::set_start(cdb, start);
        let whole = cdb::configuration_length(cdb).unwrap_or(cdb::CONFIGURATION_HEADER_LENGTH);
        let allocation = self.allocation_about(whole);
        cdb::set_allocation(cdb, allocation);
    }

    /// Data, less room than the reply has bytes, or both.
    pub(crate) fn spoil_question(&mut self, request: &mut Request) {
        let room = request.twelve().map_or(0, |cdb| cdb::reply_room(&cdb));
        let [data, less] = match self.random.below(3) {
            0 => [true, true],
            1 if room > 0 => [false, true],
            _ => [true, false],
        };
        if data {
            request.data_length = self.random.pick(&[1, 12, 36, 100, cdb::SECTOR_BYTES]);
        }
        if less {
            request.reply_length = self.shorter(room);
        }
    }

    /// At, beside or between the numbers of the drive's features, or far from them.
    fn starting_feature(&mut self) -> u16 {
        let (number, _) = self.random.pick(&cdb::FEATURES);
        match self.random.below(12) {
            0 => 0,
            1 => u16::MAX,
            2 => self.random.draw() as u16,
            3 => 0x100 | number,
            4 | 5 => number.saturating_sub(1),
            6 | 7 => number + 1,
            _ => number,
        }
    }

    /// An allocation length about that of the whole reply, or anywhere below it; sometimes of two bytes,
    /// the low one of which is short.
    fn allocation_about(&mut self, whole: usize) -> u16 {
        match self.random.below(12) {
            0 => 0,
            1 => self.random.between(1, 8) as u16,
            2..=4 => self.random.below(MOST_BYTES + 2) as u16,
            5 | 6 => {
                self.random.below(MOST_BYTES) as u16 | (self.random.between(1, 255) as u16) << 8
            }
            _ => self.allocation(whole as u16),
        }
    }
}

//! Deliberate mistakes, one at a time. Each is tested at one place of the drive.

use crate::command::{GET_CONFIGURATION, INQUIRY, READ_12, WRITE_12};
use crate::halving::{self, Search, Slip};
use crate::{ConfigurationSlip, InquirySlip, Rule};

/// The most fragments that a disc had before the limit was raised.
pub(crate) const FORMER_LIMIT: usize = 64;

/// A mistake of the drive.
#[derive(Clone, Copy, Debug, PartialEq, Eq)]
pub enum Fault {
    /// A refused command flushes the pending sectors.
    FlushOnRefusal,
    /// 35h goes on with zeros to the fragment's end.
    FlushFillsFragment,
    /// A WRITE that passes the fragment's end is taken as far as it fits.
    WriteInPart,
    /// A dividing block is readable.
    DividingBlockServed,
    /// READ refuses pending sectors.
    PendingRefused,
    /// READ refuses the last pending sector.
    LastPendingRefused,
    /// READ refuses a run that begins on the medium and ends in the pending buffer.
    BorderRunRefused,
    /// READ serves the sector after the pending ones, from the pending buffer.
    StaleSectorServed,
    /// READ serves the pending block to its end, from the pending buffer.
    PendingBlockServed,
    /// READ takes a run that begins readable as far as it is.
    ReadInPart,
    /// READ looks at the first and the last sector of a run alone.
    ReadTestsEndsAlone,
    /// READ looks for the pending sectors in the first fragment.
    PendingInFirstFragment,
    /// READ looks for the pending sectors in the last fragment.
    PendingInLastFragment,
    /// READ takes the pending share of a run from the front of the pending buffer.
    PendingShareFromFront,
    /// READ takes pending sectors from the medium.
    PendingServedFromMedium,
    /// READ takes the first sector of a run from the medium, also where it is pending.
    FirstSectorFromMedium,
    /// READ leaves the pending share out of the reply's count.
    PendingShareUncounted,
    /// READ of pending sectors flushes them.
    ReadFlushes,
    /// READ of pending sectors clears the pending bytes past the count.
    ReadClearsStaleBytes,
    /// 25h reports the last recorded address.
    CapacityIgnoresPending,
    /// 25h reports the last pending address, also where sectors after it are recorded.
    CapacityStopsAtPending,
    /// 25h adds the pending count to the last recorded address, whosever sectors are pending.
    CapacityAddsPending,
    /// 25h reports the end of the pending block.
    CapacityCountsPendingBlock,
    /// 52h reports the last readable address as the last recorded one.
    LastRecordedCountsPending,
    /// 52h reports a fragment with nothing but pending sectors as recorded in part.
    RecordedFlagCountsPending,
    /// A WRITE leaves the pending bytes past the count.
    PendingBytesKept,
    /// The reply buffer is zeroed past the reply.
    ReplyBufferTouched,
    /// READ: 8/00/00 comes before 5/21/00.
    ReadRefusalsSwapped,
    /// 53h: 5/24/00 comes before 7/27/00.
    ReserveRefusalsSwapped,
    /// 010: 5/63/00 comes before 5/72/05.
    CloseRefusalsSwapped,
    /// 53h takes a T + b + 1 equal to C.
    ReserveLimitTooHigh,
    /// 53h takes size 0.
    ReserveTakesSizeZero,
    /// 53h takes a size that is no multiple of 16, rounded up.
    ReserveRoundsUp,
    /// 53h takes a size that is no multiple of 16, rounded down.
    ReserveRoundsDown,
    /// 53h takes a multiple of 2 for one of 16.
    ReserveTakesEvenSizes,
    /// 53h takes a multiple of 8 for one of 16.
    ReserveTakesHalfBlocks,
    /// 53h refuses a size of whole blocks if their number is odd.
    ReserveRefusesOddBlocks,
    /// 53h: 5/72/05 for want of a blank tail comes before 5/24/00.
    ReserveTailTestedFirst,
    /// 53h: 5/72/05 for a full list comes before 5/24/00.
    ReserveListTestedFirst,
    /// 53h: 5/63/00 comes before 5/24/00.
    ReserveRoomTestedFirst,
    /// 51h: the first fragment of the disc instead of that of the last session.
    FirstFragmentOfDiscReported,
    /// A block flushed by a WRITE to another fragment is not counted.
    FlushedBlockUncounted,
    /// An accepted command leaves the sense.
    SenseKept,
    /// A new session starts at e + 127.
    SessionStartsEarly,
    /// 010 takes an e + 129 above C by 1.
    SessionLimitTooHigh,
    /// L4 comes after the drive's refusals.
    TransferTestedLate,
    /// A state that breaks this rule alone is taken.
    RuleUntested(Rule),
    /// A flush forgets the zero-filled sectors.
    ZeroFilledForgotten,
    /// 52h reports the next writable address without the pending sectors.
    NextWritableIgnoresPending,
    /// 52h: a complete reserved fragment is not reported as reserved.
    ReservedFlagLost,
    /// 52h looks at the number's low byte alone to find FFh.
    TailNumberCut,
    /// A fragment with nothing but pending sectors counts as blank.
    PendingTailIsBlank,
    /// A WRITE of length 0 flushes.
    EmptyWriteFlushes,
    /// A flush with none pending clears the pending buffer.
    EmptyFlushClears,
    /// A WRITE to another fragment than the pending one leaves out the flush's zeros.
    FlushKeepsStaleBytes,
    /// 010 and 110 judge reserved fragments by what is recorded before the flush.
    ReservedJudgedBeforeFlush,
    /// 001 on a blank reserved fragment is accepted.
    BlankReservedClosed,
    /// 001 zero-fills one block too many, the dividing one.
    CloseFillsDividingBlock,
    /// 53h is refused where one record is free.
    RecordLimitTooLow,
    /// 53h is taken where no record is free.
    RecordLimitTooHigh,
    /// 53h is refused at the limit of before, [`FORMER_LIMIT`].
    RecordLimitOfBefore,
    /// 001 makes no tail where one record is free.
    TailLimitTooLow,
    /// 001 with a full list puts a new tail in the place of the last record.
    TailOverwritesRecord,
    /// 010 is refused where it keeps one record less than the limit.
    KeptLimitTooLow,
    /// 010 is taken where it keeps a full list.
    KeptLimitTooHigh,
    /// L3 is not given for a list without a tail that lacks one record to the limit.
    FullListTooLow,
    /// L3 is given for a full list without a tail.
    FullListTooHigh,
    /// 110 refuses every session that is only a blank tail, not session 1 alone.
    EmptySessionRefused,
    /// 110 leaves the disc unfinalized.
    FinalizeForgotten,
    /// A flush changes the last byte of the medium, wherever its own block is.
    StrayWrite,
    /// A8h is not listed.
    ReadTwelveUnlisted,
    /// AAh is not listed.
    WriteTwelveUnlisted,
    /// A8h has its length where 28h has it, in bytes 7-8.
    ReadTwelveLengthOfTen,
    /// AAh has its length where 2Ah has it, in bytes 7-8.
    WriteTwelveLengthOfTen,
    /// A8h and AAh have lengths of 16 bits, in bytes 8-9.
    TwelveLengthCut,
    /// A8h and AAh have their lengths in little-endian order.
    TwelveLengthReversed,
    /// READ cuts the sum of address and length to 32 bits to see whether it passes the disc.
    ReadEndWraps,
    /// WRITE cuts the sum of address and length to 32 bits to see whether it passes the
    /// fragment.
    WriteEndWraps,
    /// A WRITE whose sum passes 32 bits gets 5/63/00 before all else.
    WriteOverflowTestedFirst,
    /// L4 cuts the bytes of data to 32 bits.
    DataLengthWraps,
    /// L4 cuts the bytes of a READ's reply to 32 bits.
    ReplyRoomWraps,
    /// A8h: 8/00/00 comes before 5/21/00.
    ReadTwelveRefusalsSwapped,
    /// AAh does not give 7/27/00 on a finalized disc.
    WriteTwelveTakesFinalized,
    /// A8h of length 0 is judged by its address.
    EmptyReadTwelveJudged,
    /// AAh of length 0 is judged by its address.
    EmptyWriteTwelveJudged,
    /// AAh does not flush another fragment's sectors, which are lost.
    WriteTwelveUnflushed,
    /// A8h and AAh: L4 comes after the drive's refusals.
    TwelveTransferTestedLate,
    /// A8h sends as many sectors as the reply buffer holds.
    ReadTwelveReplyCut,
    /// AAh with bit 3 of byte 1 set, which forces unit access elsewhere, flushes.
    ForcedWriteFlushes,
    /// A8h with bit 7 of byte 10 set, which asks for streaming elsewhere, gets 5/24/00.
    StreamingRefused,
    /// The opcode is not listed.
    Unlisted,
    /// An accepted command flushes the pending sectors.
    FlushOnAcceptance,
    /// A refusal leaves the sense.
    SenseUnset,
    /// L4 is not given for data that the command does not take.
    DataUntested,
    /// L4 is not given for a reply buffer that is too short: it cuts the reply.
    RoomUntested,
    /// L4 asks for the room of the uncut reply.
    RoomUncut,
    /// L4 asks for the room of a reply also where the drive refuses the command.
    RoomOfRefused,
    /// The reply goes on past the allocation length, as far as the reply buffer has room.
    ReplyUncut,
    /// 12h makes this mistake of its own.
    Inquiry(InquirySlip),
    /// 12h, and no other command, makes this mistake.
    InInquiry(&'static Fault),
    /// 46h makes this mistake of its own.
    Configuration(ConfigurationSlip),
    /// 46h, and no other command, makes this mistake.
    InConfiguration(&'static Fault),
    /// This search finds its fragment by halving, with this mistake.
    Halving(Search, Slip),
}

impl Fault {
    /// Every mistake, with every rule that can be left untested.
    pub fn all() -> Vec<Fault> {
        let rules = Rule::ALL.map(Fault::RuleUntested);
        Self::of_commands().chain(rules).chain([Fault::FullListTooLow]).collect()
    }

    /// The mistakes that commands on sound states can show, those of halving last.
    pub fn of_commands() -> impl Iterator<Item = Fault> {
        Self::OF_COMMANDS.into_iter().chain(Self::of_identity()).chain(halving::faults())
    }

    /// The mistakes of the commands that say what the drive is, 12h and 46h.
    pub fn of_identity() -> impl Iterator<Item = Fault> {
        let of_inquiry = InquirySlip::ALL.map(Fault::Inquiry);
        let of_configuration = ConfigurationSlip::ALL.map(Fault::Configuration);
        let in_inquiry = Self::OF_REPORTS.iter().map(Fault::InInquiry);
        let in_configuration = Self::OF_REPORTS.iter().map(Fault::InConfiguration);
        of_inquiry.into_iter().chain(in_inquiry).chain(of_configuration).chain(in_configuration)
    }

    /// The mistakes that any command with a report could make.
    const OF_REPORTS: &'static [Fault] = &[
        Fault::Unlisted,
        Fault::FlushOnAcceptance,
        Fault::SenseKept,
        Fault::SenseUnset,
        Fault::TransferTestedLate,
        Fault::DataUntested,
        Fault::RoomUntested,
        Fault::RoomUncut,
        Fault::RoomOfRefused,
        Fault::ReplyUncut,
        Fault::ReplyBufferTouched,
    ];

    const OF_COMMANDS: [Fault; 88] = [
        Fault::FlushOnRefusal,
        Fault::FlushFillsFragment,
        Fault::WriteInPart,
        Fault::DividingBlockServed,
        Fault::PendingRefused,
        Fault::LastPendingRefused,
        Fault::BorderRunRefused,
        Fault::StaleSectorServed,
        Fault::PendingBlockServed,
        Fault::ReadInPart,
        Fault::ReadTestsEndsAlone,
        Fault::PendingInFirstFragment,
        Fault::PendingInLastFragment,
        Fault::PendingShareFromFront,
        Fault::PendingServedFromMedium,
        Fault::FirstSectorFromMedium,
        Fault::PendingShareUncounted,
        Fault::ReadFlushes,
        Fault::ReadClearsStaleBytes,
        Fault::CapacityIgnoresPending,
        Fault::CapacityStopsAtPending,
        Fault::CapacityAddsPending,
        Fault::CapacityCountsPendingBlock,
        Fault::LastRecordedCountsPending,
        Fault::RecordedFlagCountsPending,
        Fault::PendingBytesKept,
        Fault::ReplyBufferTouched,
        Fault::ReadRefusalsSwapped,
        Fault::ReserveRefusalsSwapped,
        Fault::CloseRefusalsSwapped,
        Fault::ReserveLimitTooHigh,
        Fault::ReserveTakesSizeZero,
        Fault::ReserveRoundsUp,
        Fault::ReserveRoundsDown,
        Fault::ReserveTakesEvenSizes,
        Fault::ReserveTakesHalfBlocks,
        Fault::ReserveRefusesOddBlocks,
        Fault::ReserveTailTestedFirst,
        Fault::ReserveListTestedFirst,
        Fault::ReserveRoomTestedFirst,
        Fault::FirstFragmentOfDiscReported,
        Fault::FlushedBlockUncounted,
        Fault::SenseKept,
        Fault::SessionStartsEarly,
        Fault::SessionLimitTooHigh,
        Fault::TransferTestedLate,
        Fault::ZeroFilledForgotten,
        Fault::NextWritableIgnoresPending,
        Fault::ReservedFlagLost,
        Fault::TailNumberCut,
        Fault::PendingTailIsBlank,
        Fault::EmptyWriteFlushes,
        Fault::EmptyFlushClears,
        Fault::FlushKeepsStaleBytes,
        Fault::ReservedJudgedBeforeFlush,
        Fault::BlankReservedClosed,
        Fault::CloseFillsDividingBlock,
        Fault::RecordLimitTooLow,
        Fault::RecordLimitTooHigh,
        Fault::RecordLimitOfBefore,
        Fault::TailLimitTooLow,
        Fault::TailOverwritesRecord,
        Fault::KeptLimitTooLow,
        Fault::KeptLimitTooHigh,
        Fault::FullListTooHigh,
        Fault::EmptySessionRefused,
        Fault::FinalizeForgotten,
        Fault::StrayWrite,
        Fault::ReadTwelveUnlisted,
        Fault::WriteTwelveUnlisted,
        Fault::ReadTwelveLengthOfTen,
        Fault::WriteTwelveLengthOfTen,
        Fault::TwelveLengthCut,
        Fault::TwelveLengthReversed,
        Fault::ReadEndWraps,
        Fault::WriteEndWraps,
        Fault::WriteOverflowTestedFirst,
        Fault::DataLengthWraps,
        Fault::ReplyRoomWraps,
        Fault::ReadTwelveRefusalsSwapped,
        Fault::WriteTwelveTakesFinalized,
        Fault::EmptyReadTwelveJudged,
        Fault::EmptyWriteTwelveJudged,
        Fault::WriteTwelveUnflushed,
        Fault::TwelveTransferTestedLate,
        Fault::ReadTwelveReplyCut,
        Fault::ForcedWriteFlushes,
        Fault::StreamingRefused,
    ];

    /// The mistake that is made with this command block, if it meets one.
    pub(crate) fn met_by(self, cdb: &[u8; 12]) -> Option<Fault> {
        let fault = match self {
            Fault::InInquiry(fault) | Fault::InConfiguration(fault) => *fault,
            _ => self,
        };
        self.is_met_by(cdb).then_some(fault)
    }

    /// Whether this command block meets the mistake: some are made by one command alone, or in one form
    /// alone of the two that READ and WRITE have, or where a bit is set.
    fn is_met_by(self, cdb: &[u8; 12]) -> bool {
        match self {
            Fault::Inquiry(_) | Fault::InInquiry(_) => cdb[0] == INQUIRY,
            Fault::Configuration(_) | Fault::InConfiguration(_) => cdb[0] == GET_CONFIGURATION,
            Fault::ReadTwelveUnlisted
            | Fault::ReadTwelveLengthOfTen
            | Fault::ReadTwelveRefusalsSwapped
            | Fault::EmptyReadTwelveJudged
            | Fault::ReadTwelveReplyCut => cdb[0] == READ_12,
            Fault::WriteTwelveUnlisted
            | Fault::WriteTwelveLengthOfTen
            | Fault::WriteTwelveTakesFinalized
            | Fault::EmptyWriteTwelveJudged
            | Fault::WriteTwelveUnflushed => cdb[0] == WRITE_12,
            Fault::TwelveTransferTestedLate => matches!(cdb[0], READ_12 | WRITE_12),
            Fault::ForcedWriteFlushes => cdb[0] == WRITE_12 && cdb[1] & 0x08 != 0,
            Fault::StreamingRefused => cdb[0] == READ_12 && cdb[10] & 0x80 != 0,
            _ => true,
        }
    }
}

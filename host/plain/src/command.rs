//! A command block's fields, and the lengths of data and reply buffer that go with them (L4).

use crate::configuration::{self, Request};
use crate::inquiry::{self, Inquiry};
use crate::reply;
use crate::units::sector_bytes;
use crate::{Address, Fault, Refusal};

pub(crate) const INQUIRY: u8 = 0x12;
pub(crate) const GET_CONFIGURATION: u8 = 0x46;
/// READ (12) and WRITE (12): the same commands with a length of four bytes.
pub(crate) const READ_12: u8 = 0xA8;
pub(crate) const WRITE_12: u8 = 0xAA;

/// A decoded command block. Bytes that document 01 does not name are gone.
#[derive(Clone, Copy, Debug, PartialEq, Eq)]
pub enum Command {
    TestUnitReady,
    RequestSense { allocation: usize },
    Inquiry(Inquiry),
    ReadCapacity,
    Read { from: Address, sectors: u64 },
    Write { to: Address, sectors: u64 },
    SynchronizeCache,
    GetConfiguration(Request),
    Reserve { sectors: u64 },
    Close { function: u8, number: u64 },
    ReadDiscInformation { kind: u8, allocation: usize },
    ReadFragmentInformation { by: u8, value: u64, allocation: usize },
    Unlisted,
}

impl Command {
    pub fn decode(cdb: &[u8; 12], fault: Option<Fault>) -> Command {
        let two = |at: usize| u64::from(u16::from_be_bytes([cdb[at], cdb[at + 1]]));
        let four = |at: usize| (two(at) << 16) | two(at + 2);
        match cdb[0] {
            _ if fault == Some(Fault::Unlisted) => Command::Unlisted,
            0x00 => Command::TestUnitReady,
            0x03 => Command::RequestSense { allocation: cdb[4].into() },
            INQUIRY => Command::Inquiry(Inquiry::decode(cdb, fault)),
            0x25 => Command::ReadCapacity,
            0x28 => Command::Read { from: Address(four(2)), sectors: two(7) },
            0x2A => Command::Write { to: Address(four(2)), sectors: two(7) },
            READ_12 => match long_length(cdb, fault) {
                Some(sectors) => Command::Read { from: Address(four(2)), sectors },
                None => Command::Unlisted,
            },
            WRITE_12 => match long_length(cdb, fault) {
                Some(sectors) => Command::Write { to: Address(four(2)), sectors },
                None => Command::Unlisted,
            },
            0x35 => Command::SynchronizeCache,
            GET_CONFIGURATION => Command::GetConfiguration(Request::decode(cdb, fault)),
            0x53 => Command::Reserve { sectors: four(5) },
            0x5B => Command::Close { function: cdb[2] & 0b111, number: two(4) },
            0x51 => {
                Command::ReadDiscInformation { kind: cdb[1] & 0b111, allocation: two(7) as usize }
            }
            0x52 => Command::ReadFragmentInformation {
                by: cdb[1] & 0b11,
                value: four(2),
                allocation: two(7) as usize,
            },
            _ => Command::Unlisted,
        }
    }

    /// L4: the data must be exactly what the command takes, and the reply buffer hold what it can
    /// send. Where the drive will refuse it, 12h and 46h can send nothing; all others can as if it
    /// did not.
    pub fn check_transfer(
        self,
        data: usize,
        reply: usize,
        fault: Option<Fault>,
    ) -> Result<(), Refusal> {
        let data_wanted = match fault {
            Some(Fault::DataLengthWraps) => self.data_wanted() as u32 as usize,
            _ => self.data_wanted(),
        };
        let room_wanted = match fault {
            Some(Fault::ReplyRoomWraps) => self.reply_room_wanted(fault) as u32 as usize,
            Some(Fault::ReadTwelveReplyCut | Fault::RoomUntested) => 0,
            _ => self.reply_room_wanted(fault),
        };
        let data_fits = data == data_wanted || fault == Some(Fault::DataUntested);
        if data_fits && reply >= room_wanted {
            Ok(())
        } else {
            Err(Refusal::TransferLength)
        }
    }

    fn data_wanted(self) -> usize {
        match self {
            Command::Write { sectors, .. } => sector_bytes(sectors),
            _ => 0,
        }
    }

    fn reply_room_wanted(self, fault: Option<Fault>) -> usize {
        match self {
            Command::Inquiry(inquiry) => {
                let whole = inquiry.reply(fault).map(|reply| reply.len());
                cut_size(whole, inquiry::BYTES, inquiry.allocation, fault)
            }
            Command::GetConfiguration(request) => {
                let whole = request.reply_length(fault);
                cut_size(whole, configuration::MOST_BYTES, request.allocation, fault)
            }
            Command::Read { sectors, .. } => sector_bytes(sectors),
            Command::ReadCapacity => reply::CAPACITY_BYTES,
            Command::RequestSense { allocation } => allocation.min(reply::SENSE_BYTES),
            Command::ReadDiscInformation { allocation, .. } => {
                allocation.min(reply::DISC_INFORMATION_BYTES)
            }
            Command::ReadFragmentInformation { allocation, .. } => {
                allocation.min(reply::FRAGMENT_INFORMATION_BYTES)
            }
            _ => 0,
        }
    }
}

/// The bytes of the whole reply that an allocation length leaves; none where there is no reply. `most` is
/// the length of the longest reply to the command, which a mistake asks for where it is refused.
fn cut_size(whole: Option<usize>, most: usize, allocation: usize, fault: Option<Fault>) -> usize {
    match (whole, fault) {
        (Some(whole), Some(Fault::RoomUncut)) => whole,
        (None, Some(Fault::RoomOfRefused)) => most.min(allocation),
        (Some(whole), _) => whole.min(allocation),
        (None, _) => 0,
    }
}

/// The length of A8h and AAh, in bytes 6-9; none where a mistake makes such an opcode unlisted.
fn long_length(cdb: &[u8; 12], fault: Option<Fault>) -> Option<u64> {
    let short = |at: usize| u64::from(u16::from_be_bytes([cdb[at], cdb[at + 1]]));
    let bytes = [cdb[6], cdb[7], cdb[8], cdb[9]];
    match fault {
        Some(Fault::ReadTwelveUnlisted | Fault::WriteTwelveUnlisted) => None,
        Some(Fault::ReadTwelveLengthOfTen | Fault::WriteTwelveLengthOfTen) => Some(short(7)),
        Some(Fault::TwelveLengthCut) => Some(short(8)),
        Some(Fault::TwelveLengthReversed) => Some(u32::from_le_bytes(bytes).into()),
        _ => Some(u32::from_be_bytes(bytes).into()),
    }
}

//! INQUIRY: the standard data, which say what kind of drive this is and who made it.

use crate::Fault;

pub const BYTES: usize = 36;

/// A drive for multimedia discs (05h) with a removable medium (80h), in the format 02h, with 1Fh bytes
/// after these five.
const HEAD: [u8; 8] = [0x05, 0x80, 0x00, 0x02, 0x1F, 0x00, 0x00, 0x00];

/// Our texts, filled up with spaces.
const VENDOR: &[u8; 8] = b"GLADHAMR";
const PRODUCT: &[u8; 16] = b"DVD+R LOGGER    ";
const REVISION: &[u8; 4] = b"1.00";

/// The fields of 12h.
#[derive(Clone, Copy, Debug, PartialEq, Eq)]
pub struct Inquiry {
    /// Whether a page is asked for, and not the standard data.
    page: bool,
    pub allocation: usize,
}

impl Inquiry {
    /// The page bit is bit 0 of byte 1, the allocation length bytes 3-4. The page in byte 2 is not
    /// looked at.
    pub fn decode(cdb: &[u8; 12], fault: Option<Fault>) -> Inquiry {
        let page_bit = cdb[1] & 0b1 != 0;
        let page = match fault {
            Some(Fault::Inquiry(Slip::PageBitIgnored)) => false,
            Some(Fault::Inquiry(Slip::PageBitBeside)) => cdb[1] & 0b10 != 0,
            Some(Fault::Inquiry(Slip::PageBitOfNextByte)) => cdb[2] & 0b1 != 0,
            Some(Fault::Inquiry(Slip::PageCodeRefused)) => page_bit || cdb[2] != 0,
            _ => page_bit,
        };
        let allocation = match fault {
            Some(Fault::Inquiry(Slip::AllocationCut)) => [0, cdb[4]],
            Some(Fault::Inquiry(Slip::AllocationElsewhere)) => [cdb[7], cdb[8]],
            _ => [cdb[3], cdb[4]],
        };
        Inquiry { page, allocation: u16::from_be_bytes(allocation).into() }
    }

    /// The uncut reply; none where a page is asked for.
    pub fn reply(self, fault: Option<Fault>) -> Option<[u8; BYTES]> {
        let mut reply = [0; BYTES];
        reply[..8].copy_from_slice(&HEAD);
        reply[8..16].copy_from_slice(VENDOR);
        reply[16..32].copy_from_slice(PRODUCT);
        reply[32..].copy_from_slice(REVISION);
        match fault {
            Some(Fault::Inquiry(Slip::LengthCut)) => {
                reply[4] = self.allocation.min(BYTES).saturating_sub(5) as u8;
            }
            Some(Fault::Inquiry(Slip::PaddedWithZeros)) => reply[28..32].fill(0),
            _ => {}
        }
        (!self.page).then_some(reply)
    }
}

/// A mistake of INQUIRY.
#[derive(Clone, Copy, Debug, PartialEq, Eq)]
pub enum Slip {
    /// The page bit is not looked at.
    PageBitIgnored,
    /// The bit beside it, which was another request once, is taken for the page bit.
    PageBitBeside,
    /// The page bit is looked for in byte 2.
    PageBitOfNextByte,
    /// A page in byte 2 is refused without the page bit too.
    PageCodeRefused,
    /// The allocation length is byte 4 alone.
    AllocationCut,
    /// The allocation length is in bytes 7-8, where other commands have it.
    AllocationElsewhere,
    /// The length in the reply is that of what the allocation length leaves.
    LengthCut,
    /// The product's text is filled up with zeros.
    PaddedWithZeros,
}

impl Slip {
    pub const ALL: [Slip; 8] = [
        Slip::PageBitIgnored,
        Slip::PageBitBeside,
        Slip::PageBitOfNextByte,
        Slip::PageCodeRefused,
        Slip::AllocationCut,
        Slip::AllocationElsewhere,
        Slip::LengthCut,
        Slip::PaddedWithZeros,
    ];
}

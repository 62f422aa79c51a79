//! GET CONFIGURATION: the features that the drive has, and the replies that list them.

use crate::Fault;

/// The bytes in front of the features.
const HEADER_BYTES: usize = 8;

/// The bytes of the reply with every feature.
pub const MOST_BYTES: usize = 100;

/// The current profile, DVD+R, and the other one that such a drive has, DVD-ROM.
pub const DVD_PLUS_R: u16 = 0x001B;
pub const DVD_ROM: u16 = 0x0010;

/// A feature, which is always current.
#[derive(Clone, Copy)]
struct Feature {
    number: u16,
    version: u8,
    /// Whether it can never be other than current.
    persistent: bool,
    data: &'static [u8],
}

impl Feature {
    const fn new(number: u16, version: u8, data: &'static [u8]) -> Feature {
        Feature { number, version, persistent: false, data }
    }

    /// The bytes of its descriptor.
    fn length(&self) -> usize {
        4 + self.data.len()
    }

    fn put_descriptor(&self, reply: &mut Vec<u8>) {
        let [high, low] = self.number.to_be_bytes();
        let current = 0b1;
        let state = self.version << 2 | u8::from(self.persistent) << 1 | current;
        reply.extend([high, low, state, self.data.len() as u8]);
        reply.extend(self.data);
    }
}

/// The features of source document 000's Table 5 in rising order, 002Bh with the version of its Table 3
/// and with the bit that says that discs are written. Their lengths are those of source document 001;
/// what 000 leaves open is zero.
const FEATURES: [Feature; 10] = [
    Feature::new(0x0000, 0, &[0x00, 0x1B, 0x01, 0x00, 0x00, 0x10, 0x00, 0x00]),
    Feature::new(0x0001, 0, &[0; 8]),
    Feature::new(0x0002, 0, &[0; 4]),
    Feature::new(0x0003, 0, &[0; 4]),
    Feature::new(0x0010, 0, &[0, 0, 0, 0, 0, 0, 0x01, 0]),
    Feature::new(0x001F, 0, &[0; 4]),
    Feature::new(0x002B, 1, &[0x01, 0, 0, 0]),
    Feature::new(0x0100, 0, &[0; 4]),
    Feature::new(0x0105, 0, &[0; 4]),
    Feature::new(0x0107, 0, &[0; 4]),
];

/// The fields of 46h.
#[derive(Clone, Copy, Debug, PartialEq, Eq)]
pub struct Request {
    /// 0 and 1: every feature from the starting one on; all of them are current. 2: that one alone.
    kind: u8,
    start: u16,
    pub allocation: usize,
}

impl Request {
    /// The request type is in the low two bits of byte 1, the starting feature in bytes 2-3, the
    /// allocation length in 7-8.
    pub fn decode(cdb: &[u8; 12], fault: Option<Fault>) -> Request {
        let kind = match fault {
            Some(Fault::Configuration(Slip::TypeOfThreeBits)) => cdb[1] & 0b111,
            _ => cdb[1] & 0b11,
        };
        let start = match fault {
            Some(Fault::Configuration(Slip::StartCut)) => [0, cdb[3]],
            Some(Fault::Configuration(Slip::StartReversed)) => [cdb[3], cdb[2]],
            _ => [cdb[2], cdb[3]],
        };
        let allocation = match fault {
            Some(Fault::Configuration(Slip::AllocationCut)) => [0, cdb[8]],
            Some(Fault::Configuration(Slip::AllocationByteLate)) => [cdb[8], cdb[9]],
            _ => [cdb[7], cdb[8]],
        };
        Request {
            kind,
            start: u16::from_be_bytes(start),
            allocation: u16::from_be_bytes(allocation).into(),
        }
    }

    /// The bytes of the uncut reply; none where the request type is refused.
    pub fn reply_length(self, fault: Option<Fault>) -> Option<usize> {
        let descriptors = self.wanted(fault)?.iter().map(Feature::length).sum::<usize>();
        Some(HEADER_BYTES + descriptors)
    }

    /// The uncut reply; none where the request type is refused.
    pub fn reply(self, profile: u16, fault: Option<Fault>) -> Option<Vec<u8>> {
        let wanted = self.wanted(fault)?;
        let after_length = HEADER_BYTES - 4 + wanted.iter().map(Feature::length).sum::<usize>();
        let length = match fault {
            Some(Fault::Configuration(Slip::LengthCountsItself)) => after_length + 4,
            Some(Fault::Configuration(Slip::LengthCut)) => {
                after_length.min(self.allocation.saturating_sub(4))
            }
            Some(Fault::Configuration(Slip::LengthOfAll)) => MOST_BYTES - 4,
            _ => after_length,
        };
        let [a, b, c, d] = (length as u32).to_be_bytes();
        let [high, low] = profile.to_be_bytes();
        let mut reply = Vec::with_capacity(MOST_BYTES);
        reply.extend([a, b, c, d, 0, 0, high, low]);
        wanted.iter().for_each(|feature| feature.put_descriptor(&mut reply));
        Some(reply)
    }

    /// The features that it asks for.
    fn wanted(self, fault: Option<Fault>) -> Option<Vec<Feature>> {
        let features = features(fault);
        let next = features.iter().map(|feature| feature.number).find(|&it| it >= self.start);
        let is_wanted = |number: u16| match (self.kind, fault) {
            (0 | 1, Some(Fault::Configuration(Slip::StartIgnored))) => true,
            (0 | 1, Some(Fault::Configuration(Slip::StartExcluded))) => number > self.start,
            (1, Some(Fault::Configuration(Slip::NoneCurrent))) => false,
            (2, Some(Fault::Configuration(Slip::OneAndAfter))) => number >= self.start,
            (2, Some(Fault::Configuration(Slip::OneOrNext))) => Some(number) == next,
            (2, _) => number == self.start,
            _ => number >= self.start,
        };
        let wanted: Vec<Feature> =
            features.into_iter().filter(|feature| is_wanted(feature.number)).collect();
        let is_refused = match fault {
            Some(Fault::Configuration(Slip::FourthTypeServed)) => false,
            Some(Fault::Configuration(Slip::NothingRefused)) => self.kind > 2 || wanted.is_empty(),
            _ => self.kind > 2,
        };
        (!is_refused).then_some(wanted)
    }
}

/// The drive's features, but for a mistake.
fn features(fault: Option<Fault>) -> [Feature; 10] {
    let mut features = FEATURES;
    let [profiles, core, morphing, removable, readable, _, dvd_plus_r, ..] = &mut features;
    match fault {
        Some(Fault::Configuration(Slip::BothProfilesCurrent)) => {
            profiles.data = &[0x00, 0x1B, 0x01, 0x00, 0x00, 0x10, 0x01, 0x00]
        }
        Some(Fault::Configuration(Slip::ProfilesRising)) => {
            profiles.data = &[0x00, 0x10, 0x00, 0x00, 0x00, 0x1B, 0x01, 0x00]
        }
        Some(Fault::Configuration(Slip::PersistentSet)) => {
            for feature in [profiles, core, morphing, removable] {
                feature.persistent = true;
            }
        }
        Some(Fault::Configuration(Slip::PageBitLost)) => readable.data = &[0; 8],
        Some(Fault::Configuration(Slip::VersionZero)) => dvd_plus_r.version = 0,
        Some(Fault::Configuration(Slip::WriteBitLost)) => dvd_plus_r.data = &[0; 4],
        Some(Fault::Configuration(Slip::OutOfOrder)) => features[5..7].reverse(),
        _ => {}
    }
    features
}

/// A mistake of GET CONFIGURATION.
#[derive(Clone, Copy, Debug, PartialEq, Eq)]
pub enum Slip {
    /// The request type has three bits.
    TypeOfThreeBits,
    /// The fourth request type is served like the first.
    FourthTypeServed,
    /// Type 1 gives no feature.
    NoneCurrent,
    /// Type 2 gives the features after the starting one too.
    OneAndAfter,
    /// Type 2 gives the next feature where the drive does not have the starting one.
    OneOrNext,
    /// Where no feature is to be given the request is refused.
    NothingRefused,
    /// Types 0 and 1 leave the starting feature out.
    StartExcluded,
    /// Types 0 and 1 give every feature.
    StartIgnored,
    /// The starting feature is byte 3 alone.
    StartCut,
    /// The starting feature has its low byte first.
    StartReversed,
    /// The allocation length is byte 8 alone.
    AllocationCut,
    /// The allocation length is in bytes 8-9.
    AllocationByteLate,
    /// The data length counts its own four bytes.
    LengthCountsItself,
    /// The data length is that of what the allocation length leaves.
    LengthCut,
    /// The data length is that of all features, whichever are given.
    LengthOfAll,
    /// 002Bh comes before 001Fh.
    OutOfOrder,
    /// The version of 002Bh is 0, as the sentence under source document 000's Table 3 has it.
    VersionZero,
    /// The bit of 002Bh that says that discs are written is clear.
    WriteBitLost,
    /// The bit of 0010h that says that its page is there is clear.
    PageBitLost,
    /// 0000h to 0003h are persistent, as source document 001 has them.
    PersistentSet,
    /// Profile 0010h is current too.
    BothProfilesCurrent,
    /// The profiles stand in rising order.
    ProfilesRising,
    /// The current profile is 0010h on a finalized disc.
    RomWhenFinalized,
}

impl Slip {
    pub const ALL: [Slip; 23] = [
        Slip::TypeOfThreeBits,
        Slip::FourthTypeServed,
        Slip::NoneCurrent,
        Slip::OneAndAfter,
        Slip::OneOrNext,
        Slip::NothingRefused,
        Slip::StartExcluded,
        Slip::StartIgnored,
        Slip::StartCut,
        Slip::StartReversed,
        Slip::AllocationCut,
        Slip::AllocationByteLate,
        Slip::LengthCountsItself,
        Slip::LengthCut,
        Slip::LengthOfAll,
        Slip::OutOfOrder,
        Slip::VersionZero,
        Slip::WriteBitLost,
        Slip::PageBitLost,
        Slip::PersistentSet,
        Slip::BothProfilesCurrent,
        Slip::ProfilesRising,
        Slip::RomWhenFinalized,
    ];
}

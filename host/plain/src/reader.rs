//! A reader of the replies to GET CONFIGURATION. It takes one apart, the header first and then
//! descriptor after descriptor, and shares nothing with what makes them.

/// What a reply says.
#[derive(Clone, Debug, PartialEq, Eq)]
pub struct Configuration {
    /// The current profile.
    pub profile: u16,
    /// The numbers of the features, in the reply's order.
    pub features: Vec<u16>,
}

/// DVD+R, as a profile.
const PROFILE: u16 = 0x001B;

/// Every feature's number, in rising order.
const NUMBERS: [u16; 10] =
    [0x0000, 0x0001, 0x0002, 0x0003, 0x0010, 0x001F, 0x002B, 0x0100, 0x0105, 0x0107];

/// Byte 2 of a descriptor: current, with version 0 or 1.
const CURRENT: u8 = 0b0000_0001;
const CURRENT_OF_VERSION_1: u8 = 0b0000_0101;

/// What an uncut reply says; none for bytes that the drive never sends as one.
pub fn read_configuration(reply: &[u8]) -> Option<Configuration> {
    let (header, mut rest) = reply.split_first_chunk()?;
    let profile = read_header(header, rest.len())?;
    let mut features = Vec::new();
    while !rest.is_empty() {
        let (number, after) = read_descriptor(rest)?;
        features.push(number);
        rest = after;
    }
    can_be_asked_for(&features).then_some(Configuration { profile, features })
}

/// The profile. In front of it stand the length of all that follows the length, and two zeros.
fn read_header(header: &[u8; 8], descriptors: usize) -> Option<u16> {
    let [a, b, c, d, 0, 0, high, low] = *header else { return None };
    let length = u32::from_be_bytes([a, b, c, d]);
    let profile = u16::from_be_bytes([high, low]);
    (length as usize == 4 + descriptors && profile == PROFILE).then_some(profile)
}

/// The number of the first feature, and the bytes after its descriptor.
fn read_descriptor(bytes: &[u8]) -> Option<(u16, &[u8])> {
    let (&[high, low, state, length], rest) = bytes.split_first_chunk()?;
    let (data, after) = rest.split_at_checked(length.into())?;
    let number = u16::from_be_bytes([high, low]);
    is_right(number, state, data).then_some((number, after))
}

/// Whether the drive has this feature, and with this byte 2 and these data.
fn is_right(number: u16, state: u8, data: &[u8]) -> bool {
    match number {
        // DVD+R is current, DVD-ROM is not
        0x0000 => state == CURRENT && data == [0x00, 0x1B, 0x01, 0x00, 0x00, 0x10, 0x00, 0x00],
        0x0001 => state == CURRENT && data == [0; 8],
        // the page of read errors is there
        0x0010 => state == CURRENT && data == [0, 0, 0, 0, 0, 0, 0x01, 0],
        // discs are written
        0x002B => state == CURRENT_OF_VERSION_1 && data == [0x01, 0, 0, 0],
        _ => NUMBERS.contains(&number) && state == CURRENT && data == [0; 4],
    }
}

/// Whether some request gets these features: all from one on, one alone, or none.
fn can_be_asked_for(features: &[u16]) -> bool {
    features.len() == 1 || NUMBERS.ends_with(features)
}

//! Command blocks from their fields, all other bytes 0, and the lengths that they ask for.

#![forbid(unsafe_code)]

/// The bytes of a sector.
pub const SECTOR_BYTES: usize = 2_048;

/// A command block.
pub type Cdb = [u8; CDB_LENGTH];

/// The bytes of a command block.
pub const CDB_LENGTH: usize = 12;

pub const TEST_UNIT_READY: u8 = 0x00;
pub const REQUEST_SENSE: u8 = 0x03;
pub const INQUIRY: u8 = 0x12;
pub const READ_CAPACITY: u8 = 0x25;
pub const READ: u8 = 0x28;
pub const WRITE: u8 = 0x2A;
pub const SYNCHRONIZE_CACHE: u8 = 0x35;
pub const GET_CONFIGURATION: u8 = 0x46;
pub const READ_DISC_INFORMATION: u8 = 0x51;
pub const READ_FRAGMENT_INFORMATION: u8 = 0x52;
pub const RESERVE: u8 = 0x53;
pub const CLOSE: u8 = 0x5B;
/// READ (12) and WRITE (12): the same commands with a length of four bytes.
pub const READ_12: u8 = 0xA8;
pub const WRITE_12: u8 = 0xAA;

/// Every listed opcode.
pub const OPCODES: [u8; 14] = [
    TEST_UNIT_READY,
    REQUEST_SENSE,
    INQUIRY,
    READ_CAPACITY,
    READ,
    WRITE,
    SYNCHRONIZE_CACHE,
    GET_CONFIGURATION,
    READ_DISC_INFORMATION,
    READ_FRAGMENT_INFORMATION,
    RESERVE,
    CLOSE,
    READ_12,
    WRITE_12,
];

/// The bytes of a whole reply to 52h.
pub const FRAGMENT_INFORMATION_LENGTH: usize = 36;

/// The bytes of a whole reply to 12h.
pub const INQUIRY_LENGTH: usize = 36;

/// The bit of 12h, in byte 1, that asks for a page, which the drive refuses.
pub const PAGE_BIT: u8 = 0b1;

/// Request types of 46h: every feature from the starting one on, those of them that are current, which
/// is all of them, or the starting one alone.
pub const ALL_FEATURES: u8 = 0b00;
pub const CURRENT_FEATURES: u8 = 0b01;
pub const ONE_FEATURE: u8 = 0b10;

/// The bytes of the longest reply to 46h, and those in front of the features.
pub const CONFIGURATION_LENGTH: usize = 100;
pub const CONFIGURATION_HEADER_LENGTH: usize = 8;

/// The features of 46h: their numbers, and the bytes that each takes in a reply.
pub const FEATURES: [(u16, usize); 10] = [
    (0x0000, 12),
    (0x0001, 12),
    (0x0002, 8),
    (0x0003, 8),
    (0x0010, 12),
    (0x001F, 8),
    (0x002B, 8),
    (0x0100, 8),
    (0x0105, 8),
    (0x0107, 8),
];

/// Functions of CLOSE.
pub const FRAGMENT: u8 = 0b001;
pub const SESSION: u8 = 0b010;
pub const FINALIZE: u8 = 0b110;

pub fn opcode_only(opcode: u8) -> Cdb {
    let mut cdb = [0; 12];
    cdb[0] = opcode;
    cdb
}

pub fn request_sense(allocation: u8) -> Cdb {
    let mut cdb = opcode_only(REQUEST_SENSE);
    cdb[4] = allocation;
    cdb
}

pub fn inquiry(allocation: u16) -> Cdb {
    let mut cdb = opcode_only(INQUIRY);
    set_inquiry_allocation(&mut cdb, allocation);
    cdb
}

pub fn read(address: u32, sectors: u16) -> Cdb {
    let mut cdb = opcode_only(READ);
    set_run(&mut cdb, address, sectors);
    cdb
}

pub fn write(address: u32, sectors: u16) -> Cdb {
    let mut cdb = opcode_only(WRITE);
    set_run(&mut cdb, address, sectors);
    cdb
}

pub fn read_12(address: u32, sectors: u32) -> Cdb {
    let mut cdb = opcode_only(READ_12);
    set_run_12(&mut cdb, address, sectors);
    cdb
}

pub fn write_12(address: u32, sectors: u32) -> Cdb {
    let mut cdb = opcode_only(WRITE_12);
    set_run_12(&mut cdb, address, sectors);
    cdb
}

/// The drive takes whole blocks alone: a multiple of 16, from 16 on.
pub fn reserve(sectors: u32) -> Cdb {
    let mut cdb = opcode_only(RESERVE);
    set_size(&mut cdb, sectors);
    cdb
}

pub fn close(function: u8, number: u16) -> Cdb {
    let mut cdb = opcode_only(CLOSE);
    cdb[2] = function;
    set_number(&mut cdb, number);
    cdb
}

/// 46h of a request type, from a starting feature on.
pub fn get_configuration(request: u8, start: u16, allocation: u16) -> Cdb {
    let mut cdb = opcode_only(GET_CONFIGURATION);
    cdb[1] = request;
    set_start(&mut cdb, start);
    set_allocation(&mut cdb, allocation);
    cdb
}

pub fn read_disc_information(allocation: u16) -> Cdb {
    let mut cdb = opcode_only(READ_DISC_INFORMATION);
    set_allocation(&mut cdb, allocation);
    cdb
}

/// 52h by address (0) or by number (1).
pub fn read_fragment_information(by: u8, value: u32, allocation: u16) -> Cdb {
    let mut cdb = opcode_only(READ_FRAGMENT_INFORMATION);
    cdb[1] = by;
    set_value(&mut cdb, value);
    set_allocation(&mut cdb, allocation);
    cdb
}

/// Address and length of READ and WRITE, 28h and 2Ah.
pub fn set_run(cdb: &mut Cdb, address: u32, sectors: u16) {
    set_value(cdb, address);
    set_allocation(cdb, sectors);
}

/// Address and length of READ (12) and WRITE (12).
pub fn set_run_12(cdb: &mut Cdb, address: u32, sectors: u32) {
    set_value(cdb, address);
    cdb[6..10].copy_from_slice(&sectors.to_be_bytes());
}

/// The size of RESERVE.
pub fn set_size(cdb: &mut Cdb, sectors: u32) {
    cdb[5..9].copy_from_slice(&sectors.to_be_bytes());
}

/// The number of CLOSE.
pub fn set_number(cdb: &mut Cdb, number: u16) {
    cdb[4..6].copy_from_slice(&number.to_be_bytes());
}

/// The starting feature of 46h.
pub fn set_start(cdb: &mut Cdb, feature: u16) {
    cdb[2..4].copy_from_slice(&feature.to_be_bytes());
}

/// The allocation length of 12h.
pub fn set_inquiry_allocation(cdb: &mut Cdb, allocation: u16) {
    cdb[3..5].copy_from_slice(&allocation.to_be_bytes());
}

/// An address or a number in bytes 2 to 5.
pub fn set_value(cdb: &mut Cdb, value: u32) {
    cdb[2..6].copy_from_slice(&value.to_be_bytes());
}

/// A length in bytes 7 and 8.
pub fn set_allocation(cdb: &mut Cdb, allocation: u16) {
    cdb[7..9].copy_from_slice(&allocation.to_be_bytes());
}

/// Whether it is a READ, of either form.
pub fn is_read(cdb: &Cdb) -> bool {
    matches!(cdb[0], READ | READ_12)
}

/// Whether it is a WRITE, of either form.
pub fn is_write(cdb: &Cdb) -> bool {
    matches!(cdb[0], WRITE | WRITE_12)
}

/// An address or a number, from bytes 2 to 5.
pub fn value(cdb: &Cdb) -> u32 {
    u32::from_be_bytes([cdb[2], cdb[3], cdb[4], cdb[5]])
}

/// A length in bytes 7 and 8.
pub fn allocation(cdb: &Cdb) -> u16 {
    u16::from_be_bytes([cdb[7], cdb[8]])
}

/// The allocation length of 12h.
pub fn inquiry_allocation(cdb: &Cdb) -> u16 {
    u16::from_be_bytes([cdb[3], cdb[4]])
}

/// The starting feature of 46h.
pub fn start(cdb: &Cdb) -> u16 {
    u16::from_be_bytes([cdb[2], cdb[3]])
}

/// The bytes of the uncut reply to 46h; none for the request type that the drive refuses.
pub fn configuration_length(cdb: &Cdb) -> Option<usize> {
    let is_sent: fn(u16, u16) -> bool = match cdb[1] & 0b11 {
        ALL_FEATURES | CURRENT_FEATURES => |number, start| number >= start,
        ONE_FEATURE => |number, start| number == start,
        _ => return None,
    };
    let sent = FEATURES.into_iter().filter(|&(number, _)| is_sent(number, start(cdb)));
    Some(CONFIGURATION_HEADER_LENGTH + sent.map(|(_, length)| length).sum::<usize>())
}

/// The length of a READ or a WRITE, in sectors: of four bytes in the forms (12), of two in the others.
pub fn sectors(cdb: &Cdb) -> u32 {
    match cdb[0] {
        READ_12 | WRITE_12 => u32::from_be_bytes([cdb[6], cdb[7], cdb[8], cdb[9]]),
        _ => allocation(cdb).into(),
    }
}

/// Address and length of a READ or a WRITE.
pub fn run(cdb: &Cdb) -> (u32, u32) {
    (value(cdb), sectors(cdb))
}

/// The bytes of data that the longest WRITE takes.
pub const LONGEST_DATA: usize = u32::MAX as usize * SECTOR_BYTES;

/// How many bytes of data the command block asks for.
pub fn data_length(cdb: &Cdb) -> usize {
    if is_write(cdb) {
        return sectors(cdb) as usize * SECTOR_BYTES;
    }
    0
}

/// How many bytes the reply buffer must have. Of 12h and 46h, none where the drive will refuse them.
pub fn reply_room(cdb: &Cdb) -> usize {
    let allocation = usize::from(allocation(cdb));
    match cdb[0] {
        REQUEST_SENSE => usize::from(cdb[4]).min(18),
        INQUIRY if cdb[1] & PAGE_BIT == 0 => {
            usize::from(inquiry_allocation(cdb)).min(INQUIRY_LENGTH)
        }
        GET_CONFIGURATION => configuration_length(cdb).map_or(0, |whole| allocation.min(whole)),
        READ_CAPACITY => 8,
        READ | READ_12 => sectors(cdb) as usize * SECTOR_BYTES,
        READ_DISC_INFORMATION => allocation.min(34),
        READ_FRAGMENT_INFORMATION => allocation.min(FRAGMENT_INFORMATION_LENGTH),
        _ => 0,
    }
}

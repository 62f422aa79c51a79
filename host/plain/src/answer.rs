//! What a command is answered: acceptance, or a refusal by its number.

/// A sense: key, additional sense code and its qualifier.
#[derive(Clone, Copy, Debug, PartialEq, Eq)]
pub struct Sense {
    pub key: u8,
    pub code: u8,
    pub qualifier: u8,
}

impl Sense {
    const fn new(key: u8, code: u8, qualifier: u8) -> Sense {
        Sense { key, code, qualifier }
    }

    pub const NONE: Sense = Sense::new(0x0, 0x00, 0x00);
    pub const INVALID_OPCODE: Sense = Sense::new(0x5, 0x20, 0x00);
    pub const WRITE_PROTECTED: Sense = Sense::new(0x7, 0x27, 0x00);
    pub const INVALID_FIELD: Sense = Sense::new(0x5, 0x24, 0x00);
    pub const ADDRESS_OUT_OF_RANGE: Sense = Sense::new(0x5, 0x21, 0x00);
    pub const BLANK_CHECK: Sense = Sense::new(0x8, 0x00, 0x00);
    pub const INVALID_ADDRESS_FOR_WRITE: Sense = Sense::new(0x5, 0x21, 0x02);
    pub const INCOMPLETE_FRAGMENT_IN_SESSION: Sense = Sense::new(0x5, 0x72, 0x03);
    pub const EMPTY_FRAGMENT: Sense = Sense::new(0x5, 0x72, 0x04);
    pub const NO_MORE_FRAGMENTS: Sense = Sense::new(0x5, 0x72, 0x05);
    pub const END_OF_USER_AREA: Sense = Sense::new(0x5, 0x63, 0x00);

    /// The senses that a state can have: none, and the table of drive refusals.
    pub const LISTED: [Sense; 11] = [
        Sense::NONE,
        Sense::INVALID_OPCODE,
        Sense::WRITE_PROTECTED,
        Sense::INVALID_FIELD,
        Sense::ADDRESS_OUT_OF_RANGE,
        Sense::BLANK_CHECK,
        Sense::INVALID_ADDRESS_FOR_WRITE,
        Sense::INCOMPLETE_FRAGMENT_IN_SESSION,
        Sense::EMPTY_FRAGMENT,
        Sense::NO_MORE_FRAGMENTS,
        Sense::END_OF_USER_AREA,
    ];

    /// The sense as one number, 5/21/02 as 0x052102.
    pub const fn number(self) -> u32 {
        u32::from_be_bytes([0, self.key, self.code, self.qualifier])
    }
}

/// Why a command is refused.
#[derive(Clone, Copy, Debug, PartialEq, Eq)]
pub enum Refusal {
    /// L1: the command block is not 12 bytes long.
    CdbLength,
    /// L2: the capacity is out of range, or medium or pending buffer have another length than they
    /// should.
    BufferLength,
    /// L3: the state is not sound.
    UnsoundState,
    /// L4: data or reply buffer do not fit the command.
    TransferLength,
    /// The drive refuses, and this is its sense from now on.
    Drive(Sense),
}

impl Refusal {
    /// The number by which document 01 knows the refusal.
    pub fn number(self) -> u32 {
        match self {
            Refusal::CdbLength => 1,
            Refusal::BufferLength => 2,
            Refusal::UnsoundState => 3,
            Refusal::TransferLength => 4,
            Refusal::Drive(sense) => sense.number(),
        }
    }
}

/// What an accepted command reports.
#[derive(Clone, Copy, Debug, Default, PartialEq, Eq)]
pub(crate) struct Accepted {
    /// Bytes of the reply.
    pub reply_count: u64,
    /// Blocks recorded.
    pub recorded: u64,
}

impl Accepted {
    pub fn with_reply(reply_count: usize) -> Accepted {
        Accepted { reply_count: reply_count as u64, recorded: 0 }
    }

    pub fn with_recorded(recorded: u64) -> Accepted {
        Accepted { reply_count: 0, recorded }
    }
}

/// A command's answer.
#[derive(Clone, Copy, Debug, PartialEq, Eq)]
pub struct Answer {
    /// 0 if accepted, else the refusal's number.
    pub number: u32,
    /// Bytes of the reply, 0 if refused.
    pub reply_count: u64,
    /// Blocks recorded, 0 if refused.
    pub recorded: u64,
}

impl From<Result<Accepted, Refusal>> for Answer {
    fn from(result: Result<Accepted, Refusal>) -> Answer {
        let number = result.err().map_or(0, Refusal::number);
        let accepted = result.unwrap_or_default();
        Answer { number, reply_count: accepted.reply_count, recorded: accepted.recorded }
    }
}

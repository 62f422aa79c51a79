//! The archive's two functions over slices. All `unsafe` code of the wrapper is here.

/// What the caller lends for one command.
pub struct Lent<'a> {
    /// The command block.
    pub cdb: &'a [u8],
    /// The sectors of a WRITE of either form, [`cdb::data_length`] bytes; empty for every other
    /// command.
    pub data: &'a [u8],
    pub medium: &'a mut [u8],
    pub pending: &'a mut [u8],
    /// At least [`cdb::reply_room`] bytes. Both lengths are asked for also where the drive will refuse
    /// the command: a READ (12) may ask for terabytes.
    pub reply: &'a mut [u8],
}

/// A command's answer.
#[derive(Clone, Copy, Debug, PartialEq, Eq)]
pub struct Answer {
    /// 0 accepted, 1 to 4 for L1 to L4, else the sense: 5/21/02 is 0x052102.
    pub number: u32,
    /// Bytes of the reply, 0 if refused.
    pub reply_count: u64,
    /// Blocks recorded, 0 if refused.
    pub recorded: u64,
}

/// Writes the image of a blank disc. An image of another length than
/// [`STATE_WORDS`](crate::STATE_WORDS) stays as it is.
pub fn blank(capacity: u32, state: &mut [u32]) -> u32 {
    linked::blank(capacity, state)
}

/// Answers one command on a state image of any length and content.
pub fn command(state: &mut [u32], lent: Lent) -> Answer {
    linked::command(state, lent)
}

/// The foreign calls.
///
/// Why they are sound: every pointer comes from a slice of exactly the length that goes with it, so
/// it is not null, aligned and valid for that length, also where the slice is empty; the mutable
/// ones are borrowed for the call and overlap nothing; the two counters are locals. The archive's
/// functions take slices of any length and words of any value, stay within the lengths, keep no
/// pointer and do not unwind.
mod linked {
    #![allow(unsafe_code)]

    use super::{Answer, Lent};

    extern "C" {
        fn gladhamre_blank(capacity: u32, state: *mut u32, state_words: usize) -> u32;

        fn gladhamre_command(
            cdb: *const u8,
            cdb_length: usize,
            data: *const u8,
            data_length: usize,
            state: *mut u32,
            state_words: usize,
            medium: *mut u8,
            medium_length: usize,
            pending: *mut u8,
            pending_length: usize,
            reply: *mut u8,
            reply_length: usize,
            reply_count: *mut u64,
            recorded: *mut u64,
        ) -> u32;
    }

    pub fn blank(capacity: u32, state: &mut [u32]) -> u32 {
        unsafe { gladhamre_blank(capacity, state.as_mut_ptr(), state.len()) }
    }

    pub fn command(state: &mut [u32], lent: Lent) -> Answer {
        let mut reply_count = u64::MAX;
        let mut recorded = u64::MAX;
        let number = unsafe {
            gladhamre_command(
                lent.cdb.as_ptr(),
                lent.cdb.len(),
                lent.data.as_ptr(),
                lent.data.len(),
                state.as_mut_ptr(),
                state.len(),
                lent.medium.as_mut_ptr(),
                lent.medium.len(),
                lent.pending.as_mut_ptr(),
                lent.pending.len(),
                lent.reply.as_mut_ptr(),
                lent.reply.len(),
                &mut reply_count,
                &mut recorded,
            )
        };
        Answer { number, reply_count, recorded }
    }
}

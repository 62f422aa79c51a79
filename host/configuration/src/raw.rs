//! The archive's function over slices. All `unsafe` code of the wrapper is here.

/// The words that it takes: the profile, the number of features, and a word for each of ten.
pub const WORDS: usize = 12;

/// What it gives: the words are the reply's.
pub const READ: u32 = 0;

/// The bytes are no uncut reply of the drive. Nothing is written.
pub const NO_REPLY: u32 = 1;

/// There are more or fewer words than [`WORDS`]. Nothing is written, and the reply is not looked at.
pub const OTHER_WORDS: u32 = 2;

/// Reads a reply into words, of any length both.
pub fn read(reply: &[u8], words: &mut [u32]) -> u32 {
    linked::read(reply, words)
}

/// The foreign call.
///
/// Why it is sound: both pointers come from slices of exactly the lengths that go with them, so they
/// are not null, aligned and valid for these, also where a slice is empty; the words are borrowed
/// for the call and overlap nothing. The archive's function takes slices of any length and bytes of
/// any value, stays within the lengths, keeps no pointer and does not unwind.
mod linked {
    #![allow(unsafe_code)]

    extern "C" {
        fn gladhamre_configuration(
            reply: *const u8,
            reply_length: usize,
            configuration: *mut u32,
            configuration_words: usize,
        ) -> u32;
    }

    pub fn read(reply: &[u8], words: &mut [u32]) -> u32 {
        unsafe {
            gladhamre_configuration(reply.as_ptr(), reply.len(), words.as_mut_ptr(), words.len())
        }
    }
}

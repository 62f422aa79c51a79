//! Safe Rust over libconfiguration.a: takes the drive's replies to GET CONFIGURATION apart again.
//!
//! ```
//! let reply = [0, 0, 0, 12, 0, 0, 0x00, 0x1B, 0x00, 0x2B, 0x05, 4, 1, 0, 0, 0];
//! let read = configuration::read(&reply).expect("what the drive sends for feature 002Bh");
//! assert_eq!((read.profile, read.features), (0x001B, vec![0x002B]));
//! assert_eq!(configuration::read(&reply[..15]), None);
//! ```

#![deny(unsafe_code)]

pub mod raw;

/// What a reply says.
#[derive(Clone, Debug, PartialEq, Eq)]
pub struct Configuration {
    /// The current profile.
    pub profile: u16,
    /// The numbers of the features, in the reply's order.
    pub features: Vec<u16>,
}

/// Reads an uncut reply of the drive; nothing for any other bytes.
pub fn read(reply: &[u8]) -> Option<Configuration> {
    let mut words = [0; raw::WORDS];
    if raw::read(reply, &mut words) != raw::READ {
        return None;
    }
    let [profile, count, features @ ..] = words.map(number);
    Some(Configuration { profile, features: features[..count.into()].to_vec() })
}

/// A number of two bytes, as all of them are.
fn number(word: u32) -> u16 {
    word.try_into().expect("two bytes")
}

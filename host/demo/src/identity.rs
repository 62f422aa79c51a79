//! What the drive says that it is: the texts of INQUIRY, and of GET CONFIGURATION the profile and the
//! features, as the linked reader gives them.

use crate::words::number_at;

/// Features to a line, and the width of one.
const FEATURES_TO_A_LINE: usize = 4;
const FEATURE_WIDTH: usize = 27;

/// What a whole reply to INQUIRY says.
pub fn inquiry(reply: &[u8]) -> String {
    let text = |from: usize, to: usize| String::from_utf8_lossy(&reply[from..to]).into_owned();
    let removable = if reply[1] & 0x80 != 0 { "removable" } else { "fixed" };
    format!(
        "device type {:02X}h, {removable} medium, vendor {:?}, product {:?}, revision {:?}",
        reply[0],
        text(8, 16).trim_end(),
        text(16, 32).trim_end(),
        text(32, 36)
    )
}

/// What a reply to GET CONFIGURATION says, and lines with the features. Of one that was cut the profile,
/// where the header is there, and how long the whole one is.
pub fn configuration(reply: &[u8]) -> (String, Vec<String>) {
    let Some(read) = ::configuration::read(reply) else {
        return (unread(reply), Vec::new());
    };
    let count = match read.features.len() {
        0 => "no feature".into(),
        1 => "1 feature".into(),
        count => format!("{count} features"),
    };
    let text = format!("profile {:04X}h {}, {count}", read.profile, profile(read.profile));
    let features: Vec<String> =
        read.features.iter().map(|&number| format!("{number:04X}h {}", feature(number))).collect();
    (text, features.chunks(FEATURES_TO_A_LINE).map(columns).collect())
}

/// Why the reader refuses it: by its length a part is missing, or it is none of the drive's.
fn unread(reply: &[u8]) -> String {
    if reply.len() < 4 {
        return "cut".into();
    }
    match 4 + u64::from(number_at(reply, 0)) {
        whole if whole > reply.len() as u64 => {
            let profile = match reply.get(6..8) {
                Some(bytes) => format!(", profile {:02X}{:02X}h", bytes[0], bytes[1]),
                None => String::new(),
            };
            format!("cut, {whole} bytes in all{profile}")
        }
        _ => "not as this drive sends it".into(),
    }
}

fn columns(features: &[String]) -> String {
    let line: String = features.iter().map(|text| format!("{text:<FEATURE_WIDTH$}")).collect();
    line.trim_end().into()
}

fn profile(number: u16) -> &'static str {
    match number {
        0x001B => "DVD+R",
        _ => "without a name",
    }
}

fn feature(number: u16) -> &'static str {
    match number {
        0x0000 => "Profile List",
        0x0001 => "Core",
        0x0002 => "Morphing",
        0x0003 => "Removable Medium",
        0x0010 => "Random Readable",
        0x001F => "DVD Read",
        0x002B => "DVD+R",
        0x0100 => "Power Management",
        0x0105 => "Time-Out",
        0x0107 => "Real-time Streaming",
        _ => "without a name",
    }
}

#[cfg(test)]
mod tests {
    use super::configuration;

    /// The drive never sends it, so that no script shows it.
    #[test]
    fn a_wrong_byte_is_no_cut() {
        let text = |reply: &[u8]| configuration(reply).0;
        assert_eq!(text(&[0, 0, 0, 4, 0, 0, 0, 0x10]), "not as this drive sends it");
        assert_eq!(text(&[0, 0, 0, 5, 0, 0, 0, 0x1B]), "cut, 9 bytes in all, profile 001Bh");
        assert_eq!(text(&[0, 0, 0, 5, 0, 0, 0]), "cut, 9 bytes in all");
        assert_eq!(text(&[0xFF; 8]), "cut, 4294967299 bytes in all, profile FFFFh");
    }
}

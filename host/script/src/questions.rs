//! `inquiry` and `configuration TYPE START`: what a burning program asks before anything else, INQUIRY
//! and GET CONFIGURATION with room for the whole reply.

use cdb::{Cdb, ALL_FEATURES, CONFIGURATION_LENGTH, INQUIRY_LENGTH};

/// What stands after the word `inquiry`: nothing.
pub(crate) fn inquiry(words: &[&str]) -> Result<Cdb, String> {
    match words {
        [] => Ok(cdb::inquiry(INQUIRY_LENGTH as u16)),
        _ => Err("write `inquiry` by itself".into()),
    }
}

/// What stands after the word `configuration`: request type and starting feature, both 0 where they
/// are missing.
pub(crate) fn configuration(words: &[&str]) -> Result<Cdb, String> {
    let (request, start) = match *words {
        [] => (ALL_FEATURES, 0),
        [request] => (request_type(request)?, 0),
        [request, start] => (request_type(request)?, starting_feature(start)?),
        _ => return Err("write `configuration`, a request type and a starting feature".into()),
    };
    Ok(cdb::get_configuration(request, start, CONFIGURATION_LENGTH as u16))
}

fn request_type(word: &str) -> Result<u8, String> {
    match word {
        "0" | "1" | "2" | "3" => Ok(word.as_bytes()[0] - b'0'),
        _ => Err(format!("`configuration` takes a request type of 0 to 3, not \"{word}\"")),
    }
}

/// One to four hexadecimal digits.
fn starting_feature(word: &str) -> Result<u16, String> {
    match u16::from_str_radix(word, 16) {
        Ok(number) if word.len() <= 4 && !word.starts_with('+') => Ok(number),
        _ => {
            Err(format!("`configuration` takes a starting feature of 0000 to FFFF, not \"{word}\""))
        }
    }
}

#[cfg(test)]
mod tests {
    use super::{configuration, CONFIGURATION_LENGTH};

    #[test]
    fn no_reply_is_longer() {
        let all = configuration(&[]).expect("no words are needed");
        assert_eq!(cdb::configuration_length(&all), Some(CONFIGURATION_LENGTH));
    }
}

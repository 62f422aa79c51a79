//! INQUIRY and GET CONFIGURATION in the table: what each form asks for, and what its reply says.

use demo::{play, Run};
use std::path::Path;

/// The lines of the table for one line of a script, on a blank disc: the command with its answer, the
/// reply in words, the names of features, the reply's bytes.
fn told(line: &str) -> Vec<String> {
    let mut parts = script::parse(line, Path::new("")).expect("a good script");
    let mut out = Vec::new();
    play(&Run::of_part(parts.remove(0)), &mut out).expect("memory takes everything");
    let table = String::from_utf8(out).expect("text");
    let lines = table.lines().skip_while(|line| !line.starts_with("  1  "));
    let lines: Vec<&str> = lines.map(|line| line[5..].trim_end()).collect();
    // under the first line stand the command block and the list of fragments, a line for both
    [&lines[..1], &lines[2..]].concat().into_iter().map(str::to_owned).collect()
}

/// The first line: the command, and whether it is accepted.
fn row(command: &str, answer: &str) -> String {
    format!("{command:<38} {answer:<46} {:>6} {:>6}", 0, 0)
}

const ACCEPTED: &str = "accepted  0/00/00 no sense";
const INVALID_FIELD: &str = "refused   5/24/00 invalid field in command";

#[test]
fn inquiries() {
    let bytes = "05 80 00 02 1F 00 00 00 47 4C 41 44 48 41 4D 52 44 56 44 2B 52 20 4C 4F 47 47 45 52 20 20 20 20 31 2E 30 30";
    let text = "reply of 36 bytes: device type 05h, removable medium, vendor \"GLADHAMR\", product \"DVD+R LOGGER\", revision \"1.00\"";
    let whole = [&row("INQUIRY", ACCEPTED), text, bytes];
    assert_eq!(told("inquiry"), whole);
    assert_eq!(told("12 00 80 FFFF"), whole);
    let cut = "05 80 00 02 1F";
    assert_eq!(
        told("12 00 00 0005"),
        [&row("INQUIRY", ACCEPTED), &format!("reply of 5 bytes: {cut}"), cut]
    );
    assert_eq!(told("12"), [row("INQUIRY", ACCEPTED)]);
    assert_eq!(told("12 01 80 0024"), [row("INQUIRY of page 80h", INVALID_FIELD)]);
}

#[test]
fn configurations() {
    for (line, command, text, features, bytes) in [
        (
            "configuration 1 0100",
            "GET CONFIGURATION, current from 0100h",
            "reply of 32 bytes: profile 001Bh DVD+R, 3 features",
            "0100h Power Management     0105h Time-Out             0107h Real-time Streaming",
            "00 00 00 1C 00 00 00 1B 01 00 01 04 00 00 00 00 01 05 01 04 00 00 00 00 01 07 01 04 and 4 zeros",
        ),
        (
            "configuration 0 0106",
            "GET CONFIGURATION, all from 0106h",
            "reply of 16 bytes: profile 001Bh DVD+R, 1 feature",
            "0107h Real-time Streaming",
            "00 00 00 0C 00 00 00 1B 01 07 01 04 and 4 zeros",
        ),
        (
            "configuration 2 0010",
            "GET CONFIGURATION, feature 0010h",
            "reply of 20 bytes: profile 001Bh DVD+R, 1 feature",
            "0010h Random Readable",
            "00 00 00 10 00 00 00 1B 00 10 01 08 00 00 00 00 00 00 01 00",
        ),
    ] {
        assert_eq!(told(line), [&row(command, ACCEPTED), text, features, bytes], "{line}");
    }
}

/// The whole list by type 1 is that by type 0.
#[test]
fn all_features_are_current() {
    assert_eq!(told("configuration")[1..], told("configuration 1")[1..]);
}

/// Without a feature the header comes alone. A reply that was cut is not taken for a shorter one.
#[test]
fn headers() {
    let header = "00 00 00 04 00 00 00 1B";
    for (line, command) in [
        ("configuration 2 0021", "GET CONFIGURATION, feature 0021h"),
        ("configuration 0 0108", "GET CONFIGURATION, all from 0108h"),
        ("46 02 0021 000000 0008", "GET CONFIGURATION, feature 0021h"),
    ] {
        let text = "reply of 8 bytes: profile 001Bh DVD+R, no feature";
        assert_eq!(told(line), [&row(command, ACCEPTED), text, header], "{line}");
    }
    for (line, command, text, bytes) in [
        (
            "46 00 0021 000000 0010",
            "GET CONFIGURATION, all from 0021h",
            "reply of 16 bytes: cut, 40 bytes in all, profile 001Bh",
            "00 00 00 24 00 00 00 1B 00 2B 05 04 01 00 00 00",
        ),
        (
            "46 02 002B 000000 0008",
            "GET CONFIGURATION, feature 002Bh",
            "reply of 8 bytes: cut, 16 bytes in all, profile 001Bh",
            "00 00 00 0C 00 00 00 1B",
        ),
        (
            "46 00 0000 000000 0003",
            "GET CONFIGURATION, all from 0000h",
            "reply of 3 bytes: cut",
            "00 00 00",
        ),
    ] {
        assert_eq!(told(line), [&row(command, ACCEPTED), text, bytes], "{line}");
    }
    assert_eq!(told("46"), [row("GET CONFIGURATION, all from 0000h", ACCEPTED)]);
    assert_eq!(told("configuration 3"), [row("GET CONFIGURATION, type 3", INVALID_FIELD)]);
}

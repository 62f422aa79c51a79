//! The header, the wrapper, the ordinary drive and the linked one have the same limit of records and
//! the same state image.

use compare::{Drive, Linked, Plain};
use gladhamre::{HEADER_WORDS, RECORD_LIMIT, RECORD_WORDS, STATE_WORDS};
use std::io::Write;
use std::process::{Command, Stdio};

const INCLUDE: &str = concat!(env!("CARGO_MANIFEST_DIR"), "/../../include");

/// Whether a C compiler finds these names of the header to have these values.
fn header_has(values: &[(&str, usize)]) -> bool {
    let mut program = String::from("#include \"gladhamre.h\"\n");
    for (name, value) in values {
        program += &format!("_Static_assert({name} == {value}u, \"{name}\");\n");
    }
    let mut compiler = Command::new("cc")
        .args(["-std=c11", "-fsyntax-only", "-I", INCLUDE, "-x", "c", "-"])
        .stdin(Stdio::piped())
        .stderr(Stdio::null())
        .spawn()
        .expect("cc runs");
    let mut input = compiler.stdin.take().expect("it is piped");
    input.write_all(program.as_bytes()).expect("it reads");
    drop(input);
    compiler.wait().expect("it ends").success()
}

#[test]
fn the_header_has_the_wrappers_numbers() {
    let numbers = [
        ("GLADHAMRE_RECORDS", RECORD_LIMIT),
        ("GLADHAMRE_STATE_FIRST_RECORD", HEADER_WORDS),
        ("GLADHAMRE_RECORD_WORDS", RECORD_WORDS),
        ("GLADHAMRE_STATE_WORDS", STATE_WORDS),
    ];
    assert!(header_has(&numbers));
    for (name, number) in numbers {
        assert!(!header_has(&[(name, number + 1)]), "{name}");
    }
}

#[test]
fn the_ordinary_drive_has_the_wrappers_numbers() {
    assert_eq!(plain::FRAGMENT_LIMIT, RECORD_LIMIT);
    assert_eq!(plain::IMAGE_WORDS, STATE_WORDS);
}

/// An image of another length than the wrapper's is L3 to both drives.
#[test]
fn both_drives_take_the_wrappers_image_alone() {
    let lengths = [
        (STATE_WORDS - RECORD_WORDS, 3),
        (STATE_WORDS - 1, 3),
        (STATE_WORDS, 0),
        (STATE_WORDS + 1, 3),
        (STATE_WORDS + RECORD_WORDS, 3),
    ];
    for (words, number) in lengths {
        for drive in [&Linked as &dyn Drive, &Plain::default()] {
            assert_eq!(drive.blank(256, &mut vec![0; words]), number, "{}", drive.name());
        }
    }
}

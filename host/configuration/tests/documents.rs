//! The C example is built and run by the README's commands, and prints what the README says; the
//! header's numbers are the wrapper's.

use configuration::raw;
use gladhamre::cdb;
use std::fs;
use std::process::{Command, Output};

const ROOT: &str = concat!(env!("CARGO_MANIFEST_DIR"), "/../..");

fn text_of(path: &str) -> String {
    fs::read_to_string(format!("{ROOT}/{path}")).expect("it is there")
}

/// Runs a line of the README at the root.
fn shell(line: &str) -> Output {
    let output = Command::new("sh").args(["-c", line]).current_dir(ROOT).output();
    let output = output.expect("sh runs");
    let says = String::from_utf8_lossy(&output.stderr);
    assert!(output.status.success() && says.is_empty(), "{line}: {says}");
    output
}

#[test]
fn c_example_is_built_and_run() {
    let readme = text_of("README.md");
    let framed: Vec<&str> = readme.lines().filter_map(|line| line.strip_prefix("    ")).collect();
    let at = framed
        .iter()
        .position(|line| line.starts_with("cc ") && line.contains(" examples/configuration.c "))
        .expect("the README has it");
    let [compile, run, ref shown @ ..] = framed[at..] else { panic!("{framed:?}") };
    shell(&compile.replace("cc ", "cc -std=c99 -pedantic -Werror "));
    shell(compile);
    let printed = String::from_utf8(shell(run).stdout).expect("text");
    let printed: Vec<&str> = printed.lines().collect();
    assert_eq!(printed.len(), 2);
    assert_eq!(printed, shown[..2]);
}

/// The numbers that the header defines by themselves.
fn defined(name: &str) -> u32 {
    let header = text_of("include/gladhamre_configuration.h");
    let line = header.lines().find_map(|line| line.strip_prefix(&format!("#define {name} ")));
    let value = line.expect("the header has it").split('u').next().expect("a number");
    match value.strip_prefix("0x") {
        Some(digits) => u32::from_str_radix(digits, 16).expect("a number"),
        None => value.parse().expect("a number"),
    }
}

#[test]
fn header_has_the_wrappers_numbers() {
    for (name, number) in [
        ("GLADHAMRE_CONFIGURATION_READ", raw::READ),
        ("GLADHAMRE_CONFIGURATION_NO_REPLY", raw::NO_REPLY),
        ("GLADHAMRE_CONFIGURATION_OTHER_WORDS", raw::OTHER_WORDS),
    ] {
        assert_eq!(defined(name), number, "{name}");
    }
    let first = defined("GLADHAMRE_CONFIGURATION_FIRST_FEATURE");
    let features = defined("GLADHAMRE_CONFIGURATION_FEATURES");
    assert_eq!((first + features) as usize, raw::WORDS);
    let whole = cdb::configuration_length(&cdb::get_configuration(cdb::ALL_FEATURES, 0, 0));
    assert_eq!(Some(defined("GLADHAMRE_CONFIGURATION_LENGTH") as usize), whole);
}

#[test]
fn header_names_every_feature() {
    let header = text_of("include/gladhamre_configuration.h");
    let numbers: Vec<u16> = header
        .lines()
        .filter_map(|line| line.strip_prefix("#define GLADHAMRE_FEATURE_")?.split_once(" 0x"))
        .map(|(_, digits)| u16::from_str_radix(digits.trim_end_matches('u'), 16).expect("one"))
        .collect();
    assert_eq!(numbers, cdb::FEATURES.map(|(number, _)| number));
}

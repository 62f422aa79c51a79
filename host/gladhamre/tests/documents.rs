//! The examples of the documents are those that are built: README.md has examples/first_disc.c and
//! the wrapper's documentation whole, and its commands build the C example and print what it says.

use std::fs;
use std::process::{Command, Output};

const ROOT: &str = concat!(env!("CARGO_MANIFEST_DIR"), "/../..");

fn read(path: &str) -> String {
    fs::read_to_string(format!("{ROOT}/{path}")).expect("it is there")
}

/// The framed parts of the README, without the four blanks in front of each line.
fn framed(readme: &str) -> Vec<String> {
    let mut parts = vec![String::new()];
    for line in readme.lines() {
        let part = parts.last_mut().expect("there is always one");
        match line.strip_prefix("    ") {
            Some(content) => *part += &format!("{content}\n"),
            None if line.is_empty() && !part.is_empty() => part.push('\n'),
            None if part.is_empty() => {}
            None => parts.push(String::new()),
        }
    }
    parts.into_iter().map(|part| part.trim_end().to_owned() + "\n").collect()
}

/// The framed part that begins with a text.
fn beginning<'a>(parts: &'a [String], text: &str) -> &'a str {
    parts.iter().find(|part| part.starts_with(text)).expect("the README has it")
}

/// Runs a line of the README at the root.
fn shell(line: &str) -> Output {
    Command::new("sh").args(["-c", line]).current_dir(ROOT).output().expect("sh runs")
}

fn assert_silent(output: &Output) {
    let says = String::from_utf8_lossy(&output.stderr);
    assert!(output.status.success() && says.is_empty(), "{says}");
}

#[test]
fn c_example_is_built_and_run() {
    let readme = read("README.md");
    let program = read("examples/first_disc.c");
    let parts = framed(&readme);
    assert_eq!(beginning(&parts, "/* The first commands"), program);
    let commands = beginning(&parts, "cc ");
    let lines: Vec<&str> = commands.lines().collect();
    let [compile, run] = lines.as_slice() else { panic!("{commands}") };
    assert_silent(&shell(&compile.replace("cc ", "cc -std=c99 -pedantic -Werror ")));
    assert_silent(&shell(compile));
    let ran = shell(run);
    assert_silent(&ran);
    assert_eq!(String::from_utf8_lossy(&ran.stdout), beginning(&parts, "WRITE 0 of 20"));
}

#[test]
fn rust_example_is_the_tested_one() {
    let source = read("host/gladhamre/src/lib.rs");
    let tested: String = source
        .lines()
        .skip_while(|line| *line != "//! ```")
        .skip(1)
        .take_while(|line| *line != "//! ```")
        .map(|line| line.strip_prefix("//! ").unwrap_or_default().to_owned() + "\n")
        .collect();
    let readme = read("README.md");
    assert_eq!(beginning(&framed(&readme), "use gladhamre::"), tested);
}

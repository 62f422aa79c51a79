//! What the archive needs from outside is what include/gladhamre.h says that it calls.

use std::process::Command;

const ARCHIVE: &str = concat!(env!("CARGO_MANIFEST_DIR"), "/../../target/staticlib/libgladhamre.a");

#[test]
fn archive_calls_memcpy_and_memset_alone() {
    let listed = Command::new("nm").args(["-u", ARCHIVE]).output().expect("nm runs");
    assert!(listed.status.success(), "{}", String::from_utf8_lossy(&listed.stderr));
    let text = String::from_utf8_lossy(&listed.stdout);
    let names: Vec<&str> = text.lines().filter_map(|line| line.trim().strip_prefix("U ")).collect();
    assert_eq!(names, ["memcpy", "memset"]);
}

//! What is timed is what its line says.

use bench::{cases, Buffers, Case, CAPACITY};
use compare::{Drive, Linked};
use std::collections::BTreeSet;

/// The linked drive's answer, and the fragment's number in the reply to 52h.
fn answered(case: &Case, buffers: &mut Buffers) -> (u32, u8) {
    let mut state = case.start.clone();
    let answer = Linked.command(state.words_mut(), buffers.lend(&case.cdb));
    (answer.number, buffers.reply[2])
}

/// No two lines have the same name, and every command gets the answer that it is timed for.
#[test]
fn cases_are_answered_as_they_say() {
    let mut buffers = Buffers::new(CAPACITY);
    let cases = cases(&mut buffers);
    let names: BTreeSet<_> = cases.iter().map(|case| (&case.name, &case.list)).collect();
    assert_eq!(names.len(), cases.len());
    for case in &cases {
        assert_eq!(answered(case, &mut buffers).0, case.number, "{}, {}", case.name, case.list);
    }
}

/// The replies of 46h are as long as their lines say, on a short list and on a full one.
#[test]
fn configurations_are_as_long_as_they_say() {
    let mut buffers = Buffers::new(CAPACITY);
    let cases = cases(&mut buffers);
    for (name, length) in
        [("12h", 36), ("46h", 100), ("46h, one feature", 16), ("46h, cut to its header", 8)]
    {
        let lines: Vec<&Case> = cases.iter().filter(|case| case.name == name).collect();
        assert_eq!(lines.len(), 2, "{name}");
        for case in lines {
            let mut state = case.start.clone();
            let answer = Linked.command(state.words_mut(), buffers.lend(&case.cdb));
            assert_eq!(answer.reply_count, length, "{name}, {}", case.list);
        }
    }
}

/// 52h by address finds the fragment that its line names.
#[test]
fn fragments_are_found_where_they_say() {
    let mut buffers = Buffers::new(CAPACITY);
    let cases = cases(&mut buffers);
    for (place, list, number) in [
        ("first fragment", "1 record", 1),
        ("first fragment", "64 records", 1),
        ("middle fragment", "64 records", 33),
        ("last fragment", "64 records", 64),
        ("first fragment", "160 records", 1),
        ("middle fragment", "160 records", 81),
        ("last fragment", "160 records", 160),
    ] {
        let name = format!("52h by address, {place}");
        let case = cases.iter().find(|case| case.name == name && case.list == list);
        let case = case.expect("a case of that name");
        assert_eq!(answered(case, &mut buffers), (0, number), "{name}, {list}");
    }
    let refused = cases.iter().filter(|case| case.number == 0x052100);
    assert_eq!(refused.count(), 5);
}

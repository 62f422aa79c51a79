//! The stack that the header claims is what a call takes at the most.

use stack::Measurement;

/// The header's figure is the measured one, rounded up to a whole kilobyte.
const ROUNDING: usize = 1_024;

/// The most that firmware is asked for.
const MOST: usize = 20 * 1_024;

/// Every command that can be accepted.
const COMMANDS: [&str; 19] = [
    "00h",
    "03h",
    "12h",
    "25h",
    "28h READ",
    "2Ah WRITE",
    "A8h READ (12)",
    "AAh WRITE (12)",
    "35h",
    "46h type 0",
    "46h type 1",
    "46h type 2",
    "51h",
    "52h address",
    "52h number",
    "53h RESERVE",
    "5Bh CLOSE 001",
    "5Bh CLOSE 010",
    "5Bh CLOSE 110",
];

/// Every refusal: L1 to L4, then document 01's table of senses.
const REFUSALS: [u32; 14] = [
    1, 2, 3, 4, 0x052000, 0x072700, 0x052400, 0x052100, 0x080000, 0x052102, 0x057203, 0x057204,
    0x057205, 0x056300,
];

fn assert_all_measured(measurement: &Measurement) {
    let Measurement { depths, on_full_lists } = measurement;
    for name in COMMANDS {
        assert!(depths.contains_key(&(name, 0)), "{name} was never accepted");
        assert!(on_full_lists.contains(name), "{name} never came on a full list");
    }
    for number in REFUSALS {
        assert!(depths.keys().any(|&(_, given)| given == number), "{number:06X} never came");
    }
}

#[test]
fn header_claims_what_a_call_takes() {
    let measurement = stack::measure(compare::seed()).unwrap_or_else(|found| panic!("{found}"));
    assert_all_measured(&measurement);
    let (deepest, most) = measurement.depths.iter().max_by_key(|(_, depth)| **depth).expect("some");
    let claimed = stack::claimed();
    println!("{most} bytes at the most, by {deepest:?}; the header claims {claimed}");
    assert!(*most <= MOST, "{most} bytes by {deepest:?}, at most {MOST} are right");
    assert!(*most <= claimed, "{most} bytes by {deepest:?}, the header claims {claimed}");
    assert!(claimed - most < ROUNDING, "{most} bytes at the most, the header claims {claimed}");
}

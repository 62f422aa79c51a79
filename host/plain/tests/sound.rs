//! The rules of a sound list, by one example each.

use plain::{blank, broken_rules, Rule, RuleSet, FRAGMENT_LIMIT, IMAGE_WORDS};

const RESERVED: u32 = 0;
const APPENDED: u32 = 1;

type Image = [u32; IMAGE_WORDS];

/// An image of 300 blocks with these records: session, start, length, recorded, zero-filled, kind.
fn image(records: &[[u32; 6]]) -> Image {
    let mut image = [0; IMAGE_WORDS];
    image[0] = 300;
    for (index, record) in records.iter().enumerate() {
        put(&mut image, index, *record);
    }
    image
}

fn put(image: &mut Image, index: usize, record: [u32; 6]) {
    image[7 + 6 * index..][..6].copy_from_slice(&record);
}

/// Two sessions; in the second a reserved fragment with a block recorded, 4 sectors pending there,
/// and a blank tail.
fn written() -> Image {
    let mut image = image(&[
        [1, 0, 2, 2, 12, APPENDED],
        [2, 130, 3, 1, 0, RESERVED],
        [2, 134, 166, 0, 0, APPENDED],
    ]);
    image[5..7].copy_from_slice(&[4, 2]);
    image
}

fn finalized() -> Image {
    let mut image = image(&[[1, 0, 2, 2, 12, APPENDED], [1, 3, 4, 4, 0, RESERVED]]);
    image[1] = 1;
    image
}

fn is_sound(image: &Image) -> bool {
    broken_rules(image).is_empty()
}

#[track_caller]
fn breaks(rule: Rule, mut image: Image, edit: impl Fn(&mut Image)) {
    assert!(is_sound(&image));
    edit(&mut image);
    assert_eq!(broken_rules(&image), RuleSet::only(rule));
}

/// With another record in that place.
#[track_caller]
fn breaks_with(rule: Rule, image: Image, index: usize, record: [u32; 6]) {
    breaks(rule, image, |image| put(image, index, record));
}

#[test]
fn sound_states() {
    let mut made = [7; IMAGE_WORDS];
    assert_eq!(blank(300, &mut made), 0);
    assert_eq!(made, image(&[[1, 0, 300, 0, 0, APPENDED]]));
    assert!(is_sound(&made));
    assert!(is_sound(&written()));
    assert!(is_sound(&finalized()));
}

/// No command leads to an incomplete reserved fragment as the last one, but no rule forbids it.
#[test]
fn reserved_last() {
    assert!(is_sound(&image(&[[1, 0, 299, 5, 0, RESERVED]])));
    assert!(is_sound(&image(&[[1, 0, 300, 5, 80, RESERVED]])));
    assert!(!is_sound(&image(&[[1, 0, 298, 5, 0, RESERVED]])));
}

#[test]
fn rules_of_the_header() {
    breaks(Rule::FlagsAreBits, finalized(), |image| image[1] = 2);
    breaks(Rule::SenseListed, written(), |image| image[2] = 5);
    breaks(Rule::SenseListed, written(), |image| image[4] = 256);
    breaks(Rule::PendingNamesIncomplete, written(), |image| image[5] = 16);
    breaks(Rule::PendingNamesIncomplete, written(), |image| image[5] = 0);
    breaks(Rule::PendingNamesIncomplete, written(), |image| image[6] = 0);
    breaks(Rule::PendingNamesIncomplete, written(), |image| image[6] = 1);
    breaks(Rule::PendingNamesIncomplete, written(), |image| image[6] = 4);
    breaks(Rule::FinalizedComplete, written(), |image| image[1] = 1);
    breaks(Rule::TailMissing, finalized(), |image| image[1] = 0);
}

#[test]
fn rules_of_one_record() {
    let reserved = |image: &mut Image, at: usize, value| image[7 + 6 + at] = value;
    breaks(Rule::FlagsAreBits, written(), |image| image[7 + 5] = 2);
    breaks(Rule::RecordedWithinLength, written(), |image| reserved(image, 3, 4));
    breaks(Rule::ZeroFilledWithinRecorded, written(), |image| reserved(image, 4, 17));
    breaks_with(Rule::LengthAtLeastOne, finalized(), 2, [1, 8, 0, 0, 0, APPENDED]);
    breaks_with(Rule::WithinCapacity, finalized(), 1, [1, 3, 298, 298, 0, RESERVED]);
    let wraps = [1, 3, u32::MAX, u32::MAX, 0, RESERVED];
    breaks_with(Rule::WithinCapacity, finalized(), 1, wraps);
}

#[test]
fn rules_of_the_list() {
    breaks(Rule::AnyRecord, finalized(), |image| image[7..].fill(0));
    breaks(Rule::UsedFirst, finalized(), |image| {
        put(image, 1, [0; 6]);
        put(image, 2, [1, 3, 4, 4, 0, RESERVED]);
    });
    let blank = || image(&[[1, 0, 300, 0, 0, APPENDED]]);
    breaks_with(Rule::FirstRecord, blank(), 0, [1, 1, 299, 0, 0, APPENDED]);
    breaks_with(Rule::FirstRecord, blank(), 0, [2, 0, 300, 0, 0, APPENDED]);
}

#[test]
fn rules_of_sessions_and_tail() {
    breaks_with(Rule::FollowsForerunner, written(), 2, [2, 135, 165, 0, 0, APPENDED]);
    breaks_with(Rule::FollowsForerunner, finalized(), 1, [1, 130, 4, 4, 0, RESERVED]);
    breaks_with(Rule::FollowsForerunner, finalized(), 1, [3, 130, 4, 4, 0, RESERVED]);
    breaks_with(Rule::IncompleteInLastSession, written(), 0, [1, 0, 2, 1, 12, RESERVED]);
    breaks_with(Rule::TailIsLast, written(), 1, [2, 130, 3, 1, 0, APPENDED]);
    breaks_with(Rule::TailReachesCapacity, written(), 2, [2, 134, 165, 0, 0, APPENDED]);
}

/// So many fragments of one block on a disc of 480, all complete, and the rest of the disc in none.
fn crowded(count: usize) -> Image {
    let records: Vec<[u32; 6]> =
        (0..count as u32).map(|index| [1, 2 * index, 1, 1, 0, RESERVED]).collect();
    let mut image = image(&records);
    image[0] = 480;
    image
}

/// A full list needs no tail, one that lacks a record does. A tail may be the last record.
#[test]
fn full_lists() {
    let last = FRAGMENT_LIMIT - 1;
    let start = 2 * last as u32;
    assert!(is_sound(&crowded(FRAGMENT_LIMIT)));
    assert_eq!(broken_rules(&crowded(last)), RuleSet::only(Rule::TailMissing));
    for ending in [
        [1, start, 480 - start, 0, 0, APPENDED],
        [1, start, 480 - start, 5, 80, APPENDED],
        [1, start, 5, 0, 0, RESERVED],
        [1, start, 479 - start, 3, 0, RESERVED],
        [2, start + 127, 7, 7, 0, APPENDED],
    ] {
        let mut full = crowded(last);
        put(&mut full, last, ending);
        let is_open = ending[3] < ending[2];
        full[5..7].copy_from_slice(if is_open { &[15, FRAGMENT_LIMIT as u32] } else { &[0, 0] });
        assert!(is_sound(&full), "{ending:?}");
    }
    let mut with_tail = crowded(last - 1);
    put(&mut with_tail, last - 1, [1, start - 2, 482 - start, 0, 0, APPENDED]);
    assert!(is_sound(&with_tail));
}

/// Pending sectors name a record of the list, the last one at most.
#[test]
fn pending_at_the_end_of_a_full_list() {
    let last = FRAGMENT_LIMIT - 1;
    let mut full = crowded(last);
    put(&mut full, last, [1, 2 * last as u32, 3, 1, 0, RESERVED]);
    full[5..7].copy_from_slice(&[1, FRAGMENT_LIMIT as u32]);
    breaks(Rule::PendingNamesIncomplete, full, |image| image[6] += 1);
    breaks(Rule::PendingNamesIncomplete, full, |image| image[6] -= 1);
}

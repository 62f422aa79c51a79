//! Surveys in the demo: survey.txt and others are played on the linked drive, and every answer is held
//! to what the list of fragments says that the demo shows.

use demo::map::Sector;
use demo::{fragment_list, play, Disc, Map, Run};
use gladhamre::{cdb, RECORD_LIMIT};
use script::{Line, Part, Survey};
use std::ops::RangeInclusive;
use std::path::Path;

const SCRIPTS: &str = concat!(env!("CARGO_MANIFEST_DIR"), "/scripts");

fn example(name: &str) -> Part {
    script::read(&Path::new(SCRIPTS).join(name)).expect("it is there").remove(0)
}

/// A fragment as a list shows it, by its sectors, or as a row of a survey does.
#[derive(Clone, Debug, PartialEq)]
struct Fragment {
    number: u32,
    session: u32,
    sectors: RangeInclusive<u32>,
}

/// The fragments of the list that is shown, as `2 appended, session 1, blocks 63-124, ...`.
fn listed(disc: &Disc) -> Vec<Fragment> {
    let lines = fragment_list(disc).into_iter().filter(|line| line != "finalized");
    lines.map(|line| fragment(&line)).collect()
}

fn fragment(line: &str) -> Fragment {
    let words: Vec<&str> = line.split([',', ' ']).filter(|word| !word.is_empty()).collect();
    let number = |text: &str| text.parse::<u32>().expect("a number");
    let (first, last) = words[5].split_once('-').unwrap_or((words[5], words[5]));
    Fragment {
        number: number(words[0]),
        session: number(words[3]),
        sectors: 16 * number(first)..=16 * number(last) + 15,
    }
}

/// The fragment that holds an address.
fn holder(list: &[Fragment], address: u32) -> Option<&Fragment> {
    list.iter().find(|fragment| fragment.sectors.contains(&address))
}

/// A row of a survey: the addresses with how many were asked for, and the fragment or nothing where
/// they are refused.
struct Row {
    addresses: RangeInclusive<u32>,
    commands: usize,
    fragment: Option<Fragment>,
}

/// Reads a row, as `1000 to 2000  2  refused   5/21/00 address out of range`.
fn row(line: &str) -> Row {
    let words: Vec<&str> = line.split_whitespace().collect();
    let number = |at: usize| words[at].parse::<u32>().expect("a number");
    let is_run = words[1] == "to";
    let (last, commands) = if is_run { (2, 3) } else { (0, 1) };
    let answer = &words[commands + 1..];
    let fragment = match answer[0] {
        "refused" => {
            assert_eq!(answer, ["refused", "5/21/00", "address", "out", "of", "range"]);
            None
        }
        _ => Some(Fragment {
            number: number(commands + 1),
            session: number(commands + 2),
            sectors: number(commands + 3)..=number(commands + 4),
        }),
    };
    Row { addresses: number(0)..=number(last), commands: number(commands) as usize, fragment }
}

/// Plays a part; gives the disc and the table.
fn played(part: Part) -> (Disc, String) {
    let mut out = Vec::new();
    let (disc, _) = play(&Run::of_part(part), &mut out).expect("memory takes everything");
    (disc, String::from_utf8(out).expect("text"))
}

/// Plays a part and a survey after it. Gives the disc and what the table has from the survey on.
fn surveyed(mut part: Part, step: u32) -> (Disc, String) {
    part.lines.push(Line::Survey(Survey { step, capacity: part.capacity }));
    let (disc, table) = played(part);
    let start = table.rfind(&format!("READ TRACK INFORMATION, every {step} ")).expect("a survey");
    (disc, table[start..].into())
}

/// Holds every answer of the survey to the list: each address below the end is asked for once, in
/// order, and the fragment that it is said to lie in is the one that holds it. Gives the fragment's
/// number for each address, 0 where it is refused.
fn assert_answers(part: Part, step: u32) -> Vec<u32> {
    let sectors = 16 * part.capacity;
    let (disc, survey) = surveyed(part, step);
    let list = listed(&disc);
    let mut found = Vec::new();
    for row in survey.lines().skip(2).map(row) {
        let asked: Vec<u32> = row.addresses.clone().step_by(step as usize).collect();
        assert_eq!((asked.len(), asked.last()), (row.commands, Some(row.addresses.end())));
        for address in asked {
            assert_eq!(address as usize, found.len() * step as usize);
            assert_eq!(row.fragment.as_ref(), holder(&list, address), "sector {address}");
            found.push(row.fragment.as_ref().map_or(0, |fragment| fragment.number));
        }
    }
    assert_eq!(found.len(), sectors.div_ceil(step) as usize);
    let refused = found.iter().filter(|number| **number == 0).count();
    let heading = survey.lines().next().expect("a heading");
    let answers = format!("{} accepted, {refused} refused", found.len() - refused);
    assert!(heading.ends_with(&answers), "{heading}");
    found
}

/// The example up to one of its surveys, from 0, which is left out.
fn before_survey(name: &str, index: usize) -> (Part, u32) {
    let mut part = example(name);
    let surveys = part.lines.iter().enumerate().filter_map(|(at, line)| match line {
        Line::Survey(survey) => Some((at, survey.step)),
        Line::Command(_) => None,
    });
    let (at, step) = surveys.collect::<Vec<_>>()[index];
    part.lines.truncate(at);
    (part, step)
}

/// Every survey of the examples, with the numbers that are found.
#[test]
fn fragments_are_those_of_the_list() {
    for (name, index, found) in [
        ("survey.txt", 0, [1; 16].to_vec()),
        ("survey.txt", 1, vec![1, 0, 0, 3, 4, 0, 0, 5, 6, 7, 8, 0, 0, 9, 10, 10]),
        ("survey.txt", 3, vec![1, 0, 0, 3, 4, 0, 0, 5, 6, 7, 8, 0, 0, 9, 0, 0]),
        ("four-rooms.txt", 0, vec![1, 32, 0, 0, 126, 157, 0, 0]),
    ] {
        let (part, step) = before_survey(name, index);
        assert_eq!(step, 1_000);
        assert_eq!(assert_answers(part, step), found, "{name}");
    }
    let (part, step) = before_survey("survey.txt", 2);
    assert_eq!(step, 16);
    let mut found = assert_answers(part, step);
    found.dedup();
    assert_eq!(found, [1, 0, 2, 0, 3, 0, 4, 0, 5, 0, 6, 0, 7, 0, 8, 0, 9, 0, 10]);
}

/// Every sector, and steps that meet other addresses, on a blank disc, with three sessions and with a
/// full list.
#[test]
fn any_step_finds_them() {
    let blank = || script::parse("disc 256\n00", Path::new(SCRIPTS)).expect("a script").remove(0);
    for part in [blank, || example("survey.txt"), || example("four-rooms.txt")] {
        for step in [1, 7, 15, 17, 999, 4_095, 4_096, 100_000, 2_295_104] {
            assert_answers(part(), step);
        }
    }
}

/// The thousandth sectors of survey.txt lie where its comments say.
#[test]
fn every_kind_of_place_is_asked_for() {
    use Sector::{Blank, Closure, Dividing, Intro, Outside, Recorded, Reserved};
    let places = |index: usize| {
        let (part, step) = before_survey("survey.txt", index);
        let map = Map::of("a disc", &surveyed(part, step).0);
        let sectors: Vec<Sector> = map.blocks.concat();
        sectors.into_iter().step_by(1_000).collect::<Vec<_>>()
    };
    let session_1 = [Recorded, Dividing, Dividing, Recorded, Recorded];
    let session_2 = [Closure, Intro, Recorded, Recorded, Recorded, Recorded];
    let open = [Closure, Intro, Reserved, Blank, Blank];
    let finalized = [Closure, Intro, Sector::ZeroFilled, Outside, Outside];
    assert_eq!(places(0), [Blank; 16]);
    assert_eq!(places(1), [&session_1[..], &session_2, &open].concat());
    assert_eq!(places(3), [&session_1[..], &session_2, &finalized].concat());
}

/// What is told by address is, byte for byte, what is told of the fragment's number.
#[test]
fn address_and_number_are_told_the_same() {
    for (name, index) in [("survey.txt", 0), ("survey.txt", 1), ("four-rooms.txt", 0)] {
        let (part, step) = before_survey(name, index);
        let (mut disc, _) = surveyed(part, step);
        for fragment in listed(&disc) {
            let number = cdb::read_fragment_information(1, fragment.number, 36);
            let by_number = disc.send(&number, &[]).expect("memory").reply().to_vec();
            for address in [*fragment.sectors.start(), *fragment.sectors.end()] {
                let cdb = cdb::read_fragment_information(0, address, 36);
                let by_address = disc.send(&cdb, &[]).expect("memory");
                assert_eq!(by_address.reply(), by_number, "{name}, sector {address}");
            }
        }
    }
}

/// A survey is one line of the table, and rows under it.
#[test]
fn table_of_a_survey() {
    let (_, table) = played(example("survey.txt"));
    let survey = "\
 23  READ TRACK INFORMATION, every 1000     16 commands: 10 accepted, 6 refused
     addresses                   commands   fragment  session  first sector  last sector
     0                                  1          1        1             0          991
     1000 to 2000                       2   refused   5/21/00 address out of range
     3000                               1          3        1          2016         3007
     4000                               1          4        1          3024         4015
     5000 to 6000                       2   refused   5/21/00 address out of range
     7000                               1          5        2          6064         7055
     8000                               1          6        2          7072         8063
     9000                               1          7        2          8080         9071
     10000                              1          8        2          9088        10079
     11000 to 12000                     2   refused   5/21/00 address out of range
     13000                              1          9        3         12128        13727
     14000 to 15000                     2         10        3         13744        15999
 24  READ TRACK INFORMATION at 15999        accepted  0/00/00 no sense                      13781      0
";
    assert!(table.contains(survey), "{survey}is not in\n{table}");
    for line in [
        " 25  READ TRACK INFORMATION at 16000        refused   5/21/00 address out of range          13781      0\n",
        " 26  READ TRACK INFORMATION at 4294967295   refused   5/21/00 address out of range          13781      0\n",
        " 27  READ TRACK INFORMATION, every 16       1000 commands: 737 accepted, 263 refused\n",
        " 28  CLOSE TRACK 9                          accepted  0/00/00 no sense                      13792    100\n",
    ] {
        assert!(table.contains(line), "{line}is not in\n{table}");
    }
}

/// A step of the whole disc asks once.
#[test]
fn a_survey_of_one_sector() {
    let (_, survey) = surveyed(example("survey.txt"), 16_000);
    assert!(survey
        .starts_with("READ TRACK INFORMATION, every 16000    1 command: 1 accepted, 0 refused\n"));
    assert_eq!(survey.lines().count(), 3);
}

/// A step of 1 asks for every sector, and has a row for each fragment and each gap after one.
#[test]
fn a_survey_of_every_sector() {
    let (_, survey) = surveyed(example("four-rooms.txt"), 1);
    let heading =
        "READ TRACK INFORMATION, every 1        7680 commands: 2560 accepted, 5120 refused\n";
    assert!(survey.starts_with(heading), "{survey}");
    assert_eq!(survey.lines().count(), 2 + 2 * RECORD_LIMIT);
}

/// A survey changes nothing but the sense.
#[test]
fn a_survey_changes_the_sense_alone() {
    let part = || before_survey("survey.txt", 1).0;
    let (without, with) = (played(part()).0.state, surveyed(part(), 12_000).0.state);
    assert_eq!((without.sense(), with.sense()), ([0; 3], [0x5, 0x21, 0x00]));
    assert_eq!(without.words()[..2], with.words()[..2]);
    assert_eq!(without.words()[5..], with.words()[5..]);
}

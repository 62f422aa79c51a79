//! The demo: document 01's answers and the notice of others, the table, the map and the image.

use demo::map::{self, Sector};
use demo::{image, play, shift, text, Disc, Line, Map, Run};
use gladhamre::{cdb, Record, State, RECORD_LIMIT};
use std::path::Path;
use std::process::{Command, Output};

const SCRIPTS: &str = concat!(env!("CARGO_MANIFEST_DIR"), "/scripts");

/// Plays a run; gives the disc, the number of wrong answers and what is printed.
fn played(run: &Run) -> (Disc, usize, String) {
    let mut out = Vec::new();
    let (disc, wrong) = play(run, &mut out).expect("memory takes everything");
    (disc, wrong, String::from_utf8(out).expect("text"))
}

/// The disc that a script of one part leaves.
fn left_by(text: &str) -> Disc {
    let mut parts = script::parse(text, Path::new(SCRIPTS)).expect("a good script");
    assert_eq!(parts.len(), 1);
    played(&Run::of_part(parts.remove(0))).0
}

/// The text of a script that is an example.
fn script(name: &str) -> String {
    std::fs::read_to_string(format!("{SCRIPTS}/{name}")).expect("it is there")
}

/// The map of that disc.
fn mapped(text: &str) -> Map {
    Map::of("a disc", &left_by(text))
}

/// What is printed of a map.
fn printed(map: &Map) -> String {
    let mut out = Vec::new();
    text::print(&mut out, map).expect("memory takes everything");
    String::from_utf8(out).expect("text")
}

fn assert_line(text: &str, line: &str) {
    assert!(text.lines().any(|printed| printed == line), "{line}\nis not in\n{text}");
}

#[test]
fn shift_is_as_documented() {
    let answers: Vec<usize> = shift::runs().iter().map(|run| run.lines.len()).collect();
    assert_eq!(answers, [16, 2, 2, 1, 1, 1, 4]);
    for run in shift::runs() {
        let (_, wrong, text) = played(&run);
        assert_eq!(wrong, 0, "{text}");
        assert_eq!(text.matches("  ok\n").count(), run.lines.len());
    }
}

/// Every documented value counts: with another one the answer is wrong.
#[test]
fn other_answers_are_noticed() {
    type Change = fn(&mut demo::Expected);
    let changes: [(Change, &str); 6] = [
        (|expected| expected.number = 0x052102, "answer 000000, documented 052102"),
        (|expected| expected.recorded = 2, "blocks recorded 1, documented 2"),
        (|expected| expected.reply = vec![0], "reply of 0 bytes, documented 1 bytes"),
        (|expected| expected.next = None, "next 20, documented -"),
        (|expected| expected.pending = 3, "pending 4, documented 3"),
        (|expected| expected.list[0].zero_filled = 1, "recorded, 1 zero-filled"),
    ];
    for (change, says) in changes {
        let mut run = shift::runs().swap_remove(0);
        let Line::Command { expected: Some(expected), .. } = &mut run.lines[2] else {
            panic!("documented");
        };
        change(expected);
        let (_, wrong, text) = played(&run);
        assert_eq!(wrong, 1, "{says}");
        assert!(text.contains("NOT AS DOCUMENTED: ") && text.contains(says), "{says}: {text}");
    }
}

#[test]
fn table_of_the_shift() {
    let (_, _, text) = played(&shift::runs()[0]);
    for line in [
        "  4  WRITE 1 sector at 16                   refused   5/21/02 invalid address for write        20      0  ok",
        "     35 00 00 00 00 00 00 00 00 00 00 00    1 tail, session 1, blocks 0-299, 2 of 300 recorded, 12 zero-filled",
        " 11  RESERVE TRACK of 33 sectors            refused   5/24/00 invalid field in command         48      0  ok",
        " 12  RESERVE TRACK of 48 sectors            accepted  0/00/00 no sense                        112      0  ok",
        "                                            3 tail, session 2, blocks 134-299, 0 of 166 recorded",
        "     00 20 00 01 01 01 01 and 27 zeros",
    ] {
        assert_line(&text, line);
    }
}

#[test]
fn map_of_the_shift() {
    let (disc, ..) = played(&shift::runs()[0]);
    let map = Map::of("The shift", &disc);
    let signs: String = map.blocks.iter().map(map::character).collect();
    let closure_and_intro = "C".repeat(64) + &"I".repeat(64);
    assert_eq!(signs, format!("#+|###{closure_and_intro}{}", ".".repeat(166)));
    assert_eq!(map.blocks[1][..4], [Sector::Recorded; 4]);
    assert_eq!(map.blocks[1][4..], [Sector::ZeroFilled; 12]);
    let text = printed(&map);
    for line in [
        &format!("300 blocks, sectors 0 to 4799; open, session 2 is the last one; 3 fragments of at most {RECORD_LIMIT}"),
        "5 blocks recorded, 12 sectors of them zero-filled; 0 sectors pending; next writable addresses: 2144",
        "         +0        +10       +20       +30       +40",
        "         S1",
        "         F1 F2",
        &format!("      0  #+|###{}", "C".repeat(44)),
        "                                           F3",
        "  1        1  appended, complete    0-1 (2)               0-1 (2)                        12        0        -  -",
        "  2        1  reserved, complete    3-5 (3)               3-5 (3)                         0        0        -  dividing 2",
        "  3        2  tail, blank           134-299 (166)         -                               0        0     2144  Closure 6-69, Intro 70-133",
        "  20-31",
    ] {
        assert_line(&text, line);
    }
}

/// A block that is reserved is none that is blank, and a finalized disc is called so.
#[test]
fn kinds_are_told_apart() {
    let reserved = printed(&mapped("53 00 000000 00000020\n2A 00 00000000 00 0001"));
    assert_line(&reserved, &format!("      0  pr|{}", ".".repeat(47)));
    assert_line(&reserved, "0 blocks recorded, 0 sectors of them zero-filled; 1 sector pending; next writable addresses: 1, 48");
    let finalized = printed(&mapped("2A 00 00000000 00 0020\n5B 00 06"));
    assert_line(&finalized, &format!("      0  ##{}", "-".repeat(48)));
    assert_line(
        &finalized,
        &format!("300 blocks, sectors 0 to 4799; finalized, with 1 session; 1 fragment of at most {RECORD_LIMIT}"),
    );
    assert_line(&finalized, "in no fragment: blocks 2-299 (298)");
}

/// The largest disc with all its records: reserved fragments of these lengths, each half recorded
/// and the last recorded block zero-filled, and the tail.
fn largest(length: impl Fn(usize) -> u32) -> Map {
    let capacity = 143_444;
    let mut state = State::blank(capacity).expect("a capacity");
    let mut zero_filled = vec![false; 16 * capacity as usize];
    let mut start = 0;
    let last = RECORD_LIMIT - 1;
    for index in 0..last {
        let length = length(index);
        let recorded = length / 2;
        state.set_record(
            index,
            Record { session: 1, start, length, recorded, zero_filled: 16, kind: 0 },
        );
        zero_filled[16 * (start + recorded - 1) as usize..][..16].fill(true);
        start += length + 1;
    }
    let length = capacity - start;
    let tail = Record { session: 1, start, length, recorded: 0, zero_filled: 0, kind: 1 };
    state.set_record(last, tail);
    Map::of_state("The largest disc", &state, &zero_filled)
}

/// Fragments of 800 blocks.
fn roomy() -> Map {
    largest(|_| 800)
}

/// Many fragments in a cell, from the last one of the first row on.
fn crowded() -> Map {
    largest(|index| if index == 0 { 4_970 } else { 2 })
}

/// The largest disc with the longest list is still a page, and a line for each fragment.
#[test]
fn large_maps_are_a_page() {
    let map = roomy();
    let text = printed(&map);
    assert!(text.lines().count() < 86 + RECORD_LIMIT, "{text}");
    assert!(text.lines().all(|line| line.chars().count() <= 160), "{text}");
    let last = RECORD_LIMIT - 1;
    let tail = 801 * last;
    assert_line(&text, &format!("{:>7}  {}", tail.next_multiple_of(5_000), ".".repeat(50)));
    assert_line(&text, &format!("{last} runs of zero-filled sectors:"));
    assert_line(&text, &format!("  and {} runs more", last - 48));
    let blocks = format!("{tail}-143443 ({})", 143_444 - tail);
    assert_line(&text, &format!("{RECORD_LIMIT}        1  tail, blank           {blocks:<20}  -                               0        0  {}  dividing {}", 16 * tail, tail - 1));
    let svg = image(&[map]);
    assert!(svg.len() < 1 << 20, "{} bytes", svg.len());
    let height = number_of(&svg, "height=\"");
    assert!(height < 1_740 + 15 * RECORD_LIMIT, "{height}");
}

/// The number after the first place of an attribute.
fn number_of(svg: &str, attribute: &str) -> usize {
    let (_, rest) = svg.split_once(attribute).expect("it has one");
    rest.split('"').next().expect("a number").parse().expect("a number")
}

/// The text and the image have the same rows and the same lists.
#[test]
fn text_and_image_agree() {
    let maps = [roomy(), mapped("disc 256\n2A 00 00000000 00 0013\n35\n5B 00 02")];
    for map in maps {
        let text = printed(&map);
        let rows = |line: &&str| {
            line.starts_with(' ')
                && line.len() > 9
                && line.as_bytes()[6].is_ascii_digit()
                && line.as_bytes()[7] == b' '
        };
        let shown: Vec<String> =
            text.lines().filter(rows).map(|line| line[..7].trim().to_owned()).collect();
        let svg = image(&[map]);
        assert_eq!(
            svg_labels(&svg, " text-anchor=\"end\""),
            [vec!["block".to_owned()], shown].concat()
        );
        let listed = text.lines().skip_while(|line| !line.starts_with("Fragments: "));
        assert_eq!(svg_labels(&svg, "xml:space=\"preserve\""), listed.collect::<Vec<_>>());
    }
}

/// A label of an image: its row, where it begins, and its text.
fn placed_label(line: &str) -> Option<(usize, usize, String)> {
    let (place, label) = line.strip_prefix("<text x=\"")?.split_once("font-size=\"10\"")?;
    let (x, rest) = place.split_once("\" y=\"")?;
    let (y, attributes) = rest.split_once('"')?;
    let label = label.split_once('>')?.1.strip_suffix("</text>")?;
    attributes
        .trim()
        .is_empty()
        .then(|| (y.parse().expect("a place"), x.parse().expect("a place"), label.to_owned()))
}

/// No label runs into the next one or over the edge, however many fragments begin in a cell.
#[test]
fn labels_keep_apart() {
    let closed: String = (0..40)
        .map(|at| format!("2A 00 {:08X} 00 0001\n5B 00 01 00 {:04X}\n", 32 * at, at + 1))
        .collect();
    for map in [roomy(), crowded(), mapped(&closed), mapped(&script("four-rooms.txt"))] {
        for row in text::rows(&map).iter().filter(|row| row.trim_start().starts_with(['S', 'F'])) {
            let touch = |two: &[u8]| two[0].is_ascii_digit() && two[1].is_ascii_alphabetic();
            assert!(!row.as_bytes().windows(2).any(touch), "{row}");
        }
        let svg = image(&[map]);
        let mut labels: Vec<_> = svg.lines().filter_map(placed_label).collect();
        labels.sort();
        assert!(labels.len() > 3);
        // letters are at most seven wide
        let end = |(_, x, label): &(usize, usize, String)| x + 7 * label.len();
        for pair in labels.windows(2).filter(|pair| pair[0].0 == pair[1].0) {
            assert!(end(&pair[0]) < pair[1].1, "{pair:?}");
        }
        let edge = number_of(&svg, "width=\"");
        labels.iter().for_each(|label| assert!(end(label) <= edge, "{label:?} at {edge}"));
    }
}

/// The texts of an image with an attribute.
fn svg_labels(svg: &str, attribute: &str) -> Vec<String> {
    let texts = svg.lines().filter(|line| line.starts_with("<text") && line.contains(attribute));
    texts.map(|line| line[line.find('>').expect("a tag") + 1..].replace("</text>", "")).collect()
}

/// The sectors shown as zero-filled are as many as each fragment's F says, and hold zeros. They, the
/// other recorded ones and the pending ones are those that can be read.
#[test]
fn zero_filled_sectors_are_those_counted() {
    let mut disc = left_by(&script("cold-store.txt"));
    let blocks = Map::of("a disc", &disc).blocks;
    let records: Vec<_> = disc.state.records().collect();
    assert!(records.iter().any(|record| record.zero_filled > 16));
    assert_eq!(disc.state.pending_count(), 10);
    for record in records {
        let own = &blocks[record.start as usize..(record.start + record.length) as usize];
        let shown = own.iter().flatten().filter(|&&sector| sector == Sector::ZeroFilled).count();
        assert_eq!(shown, record.zero_filled as usize);
    }
    for (address, sector) in blocks.iter().flatten().enumerate() {
        let outcome = disc.send(&cdb::read(address as u32, 1), &[]).expect("memory");
        let readable = matches!(sector, Sector::Recorded | Sector::ZeroFilled | Sector::Pending);
        assert_eq!(outcome.answer.is_ok(), readable, "sector {address}");
        let zeros = outcome.reply().iter().all(|&byte| byte == 0);
        assert!(!readable || zeros == (*sector == Sector::ZeroFilled), "sector {address}");
    }
}

/// Four rooms for 40 days fill the list. Of each command what it changed is shown, and the answers
/// at the limit are those that the script's comments say.
#[test]
fn four_rooms_fill_the_list() {
    let mut parts = script::parse(&script("four-rooms.txt"), Path::new(SCRIPTS)).expect("a script");
    let (disc, _, table) = played(&Run::of_part(parts.remove(0)));
    assert_eq!((disc.state.records().count(), disc.state.finalized()), (RECORD_LIMIT, 1));
    assert!(disc.state.records().all(|record| record.length == 1 && record.kind == 1));
    let zeros: u32 = disc.state.records().map(|record| record.zero_filled).sum();
    assert_eq!(zeros, 40 * 11);
    let (limit, last) = (RECORD_LIMIT, RECORD_LIMIT - 1);
    for line in [
        &format!("     5B 00 01 00 00 {last:02X} 00 00 00 00 00 00    {} fragments as before it", last - 1),
        &format!("                                            {last} appended, session 1, block 316, 1 of 1 recorded"),
        &format!("                                            {limit} tail, session 1, blocks 318-479, 0 of 162 recorded"),
        "319  RESERVE TRACK of 16 sectors            refused   5/72/05 no more reservations           5088      0",
        &format!("321  CLOSE TRACK {limit}                        accepted  0/00/00 no sense                          -      1"),
        &format!("                                            {limit} appended, session 1, block 318, 1 of 1 recorded, 11 zero-filled"),
        "322  WRITE 16 sectors at 5120               refused   5/21/02 invalid address for write         -      0",
        "323  RESERVE TRACK of 16 sectors            refused   5/72/05 no more reservations              -      0",
        "324  CLOSE SESSION                          refused   5/72/05 no more reservations              -      0",
        &format!("325  CLOSE TRACK {}                        refused   5/24/00 invalid field in command          -      0", limit + 1),
        "327  READ TRACK INFORMATION, tail           refused   5/24/00 invalid field in command          -      0",
        &format!("     reply of 34 bytes: disc appendable, last session incomplete, sessions 1, its fragments 1 to {limit}"),
        "     reply of 32768 bytes: begins 04 04 04 04 04 04 04 04, 11 sectors all zero",
        "330  CLOSE and finalize                     accepted  0/00/00 no sense                          -      0",
        &format!("     reply of 34 bytes: disc finalized, last session complete, sessions 1, its fragments 1 to {limit}"),
        "332  WRITE 16 sectors at 5120               refused   7/27/00 write protected                   -      0",
    ] {
        assert_line(&table, line);
    }
    assert!(table.lines().count() < 4 * 332, "{} lines", table.lines().count());
}

/// A controller that asks for 33 sectors is refused, asks for 48 and gets them. The answers to other sizes are those
/// that the script's comments say.
#[test]
fn whole_blocks_are_reserved() {
    let mut parts =
        script::parse(&script("whole-blocks.txt"), Path::new(SCRIPTS)).expect("a script");
    let (disc, _, table) = played(&Run::of_part(parts.remove(0)));
    let lengths: Vec<u32> = disc.state.records().map(|record| record.length).collect();
    assert_eq!((lengths, disc.state.finalized()), (vec![3, 1, 1], 1));
    for line in [
        "  1  RESERVE TRACK of 33 sectors            refused   5/24/00 invalid field in command          0      0",
        "     53 00 00 00 00 00 00 00 21 00 00 00    1 tail, session 1, blocks 0-255, 0 of 256 recorded",
        "     reply of 18 bytes: 5/24/00 invalid field in command",
        "     reply of 36 bytes: fragment 1, session 1, blank, first sector 0, next 0, free 4096, length 4096",
        "  4  RESERVE TRACK of 48 sectors            accepted  0/00/00 no sense                         64      0",
        "     53 00 00 00 00 00 00 00 30 00 00 00    1 reserved, session 1, blocks 0-2, 0 of 3 recorded, next 0",
        "     2A 00 00 00 00 00 00 00 21 00 00 00    1 reserved, session 1, blocks 0-2, 2 of 3 recorded, 1 pending, next 33",
        "     5B 00 01 00 00 01 00 00 00 00 00 00    1 reserved, session 1, blocks 0-2, 3 of 3 recorded, 15 zero-filled",
        "     reply of 98304 bytes: begins A1 A1 A1 A1 A1 A1 A1 A1, 15 sectors all zero",
        "     reply of 4096 bytes: begins A1 A1 A1 A1 A1 A1 A1 A1, 1 sector all zero",
        "  9  RESERVE TRACK of 0 sectors             refused   5/24/00 invalid field in command         64      0",
        " 10  RESERVE TRACK of 1 sector              refused   5/24/00 invalid field in command         64      0",
        " 11  RESERVE TRACK of 15 sectors            refused   5/24/00 invalid field in command         64      0",
        " 12  RESERVE TRACK of 17 sectors            refused   5/24/00 invalid field in command         64      0",
        " 13  RESERVE TRACK of 16 sectors            accepted  0/00/00 no sense                         96      0",
        " 15  RESERVE TRACK of 3969 sectors          refused   5/24/00 invalid field in command         96      0",
        " 16  RESERVE TRACK of 3984 sectors          refused   5/63/00 end of user area                 96      0",
        " 18  RESERVE TRACK of 33 sectors            refused   5/24/00 invalid field in command         97      0",
        " 19  RESERVE TRACK of 48 sectors            refused   5/72/05 no more reservations             97      0",
        " 21  RESERVE TRACK of 33 sectors            refused   7/27/00 write protected                   -      0",
        " 22  RESERVE TRACK of 0 sectors             refused   7/27/00 write protected                   -      0",
        " 23  RESERVE TRACK of 48 sectors            refused   7/27/00 write protected                   -      0",
    ] {
        assert_line(&table, line);
    }
}

/// A controller reads back what it has just written. The answers are those that the script's comments
/// say.
#[test]
fn pending_sectors_are_read_back() {
    let mut parts = script::parse(&script("read-back.txt"), Path::new(SCRIPTS)).expect("a script");
    let (disc, _, table) = played(&Run::of_part(parts.remove(0)));
    assert_eq!((disc.state.record(0).recorded, disc.state.pending_count()), (2, 0));
    for line in [
        "     2A 00 00 00 00 00 00 00 05 00 00 00    1 tail, session 1, blocks 0-255, 0 of 256 recorded, 5 pending",
        "  2  READ 5 sectors at 0                    accepted  0/00/00 no sense                          5      0",
        "     28 00 00 00 00 00 00 00 05 00 00 00    1 tail, session 1, blocks 0-255, 0 of 256 recorded, 5 pending",
        "     reply of 10240 bytes: begins A1 A1 A1 A1 A1 A1 A1 A1, 0 sectors all zero",
        "  3  READ 6 sectors at 0                    refused   8/00/00 blank check                       5      0",
        "     reply of 8 bytes: last readable address 4, sectors of 2048 bytes",
        "  5  WRITE 15 sectors at 5                  accepted  0/00/00 no sense                         20      1",
        "     28 00 00 00 00 04 00 00 10 00 00 00    1 tail, session 1, blocks 0-255, 1 of 256 recorded, 4 pending",
        "     reply of 32768 bytes: begins A1 A1 A1 A1 A1 A1 A1 A1, 0 sectors all zero",
        "  7  READ 5 sectors at 16                   refused   8/00/00 blank check                      20      0",
        "     reply of 8 bytes: last readable address 19, sectors of 2048 bytes",
        "     35 00 00 00 00 00 00 00 00 00 00 00    1 tail, session 1, blocks 0-255, 2 of 256 recorded, 12 zero-filled",
        "     28 00 00 00 00 10 00 00 10 00 00 00    1 tail, session 1, blocks 0-255, 2 of 256 recorded, 12 zero-filled",
        "     reply of 32768 bytes: begins B2 B2 B2 B2 B2 B2 B2 B2, 12 sectors all zero",
        "     reply of 8 bytes: last readable address 31, sectors of 2048 bytes",
        " 12  READ 1 sector at 32                    refused   8/00/00 blank check                      32      0",
    ] {
        assert_line(&table, line);
    }
}

#[test]
fn pending_sectors_are_shown() {
    let map = mapped("2A 00 00 00 00 00 00 00 13 00 00 00");
    assert_line(&printed(&map), &format!("      0  #p{}", ".".repeat(48)));
    assert_eq!(map.blocks[1][..3], [Sector::Pending; 3]);
    assert_eq!(map.blocks[1][3..], [Sector::Blank; 13]);
    // in the image of a large disc a block is less than a dot, this one is not
    let mut state = State::blank(143_444).expect("a capacity");
    state.words_mut()[5..7].copy_from_slice(&[3, 1]);
    let large = Map::of_state("a disc", &state, &vec![false; 16 * 143_444]);
    let seen = "width=\"2\" height=\"16\" fill=\"#f2a51f\"";
    assert_eq!(image(&[large]).matches(seen).count(), 1);
}

#[test]
fn image_has_every_block() {
    let (disc, ..) = played(&shift::runs()[0]);
    let svg = image(&[Map::of("a < b", &disc)]);
    assert!(svg.starts_with("<svg ") && svg.ends_with("</svg>\n"));
    assert_eq!(svg.matches("<g><title>block ").count(), 300);
    assert!(svg.contains("block 1: 4 sectors recorded, 12 sectors zero-filled"));
    assert!(svg.contains("a &lt; b"));
}

/// The lines of the demo that the README shows are printed so.
#[test]
fn readme_shows_what_is_printed() {
    let readme = std::fs::read_to_string(concat!(env!("CARGO_MANIFEST_DIR"), "/../../README.md"));
    let readme = readme.expect("it is there");
    let chapter = readme.split("\n## ").find(|chapter| chapter.starts_with("See it\n"));
    let (disc, _, table) = played(&shift::runs()[0]);
    let text = table + &printed(&Map::of("The shift", &disc));
    let shown = chapter.expect("it is there").lines().filter_map(|line| line.strip_prefix("    "));
    let lines: Vec<&str> = shown.filter(|line| *line != "./demo").collect();
    assert_eq!(lines.len(), 7);
    lines.into_iter().for_each(|line| assert_line(&text, line));
}

/// The script at the root looks at its arguments before it proves or builds anything.
#[test]
fn arguments_are_looked_at_first() {
    let asked = |arguments: &[&str]| {
        let script = concat!(env!("CARGO_MANIFEST_DIR"), "/../../demo");
        let output = Command::new(script).args(arguments).output().expect("it runs");
        let text = |bytes: &[u8]| String::from_utf8_lossy(bytes).into_owned();
        (output.status.code(), text(&output.stdout), text(&output.stderr))
    };
    let (status, says, errors) = asked(&["--help"]);
    assert!(status == Some(0) && says.starts_with("usage: ./demo ") && errors.is_empty());
    for (arguments, message) in [
        (&["--what"][..], "--what is no option (./demo --help)"),
        (&["--image"], "--image needs a file's name (./demo --help)"),
        (&["one.txt", "two.txt"], "two.txt is one script too many (./demo --help)"),
        (&[""], "a script's name is empty (./demo --help)"),
        (&["missing.txt"], "missing.txt: there is no such script"),
        (&["--image", "missing/a.svg"], "the image cannot be written: there is no folder missing"),
        (&["--image", "src"], "the image's name src is no file's"),
        (&["/dev/null"], "/dev/null: a script is an ordinary file"),
        (
            &["scripts/cold-store.txt", "--image", "./scripts/cold-store.txt"],
            "the image would overwrite the script scripts/cold-store.txt",
        ),
    ] {
        let refused = (Some(2), String::new(), format!("demo: {message}\n"));
        assert_eq!(asked(arguments), refused, "{arguments:?}");
    }
    // a folder that takes no file; the reason is in the system's words
    let (status, _, errors) = asked(&["--image", "/proc/disc.svg"]);
    assert_eq!(status, Some(2));
    assert!(errors.starts_with("demo: the image cannot be written: /proc/disc.svg: "), "{errors}");
}

fn demo(arguments: &[&str]) -> Output {
    Command::new(env!("CARGO_BIN_EXE_demo")).args(arguments).output().expect("it runs")
}

#[test]
fn program_ends_as_it_should() {
    let folder = std::env::temp_dir().join(format!("gladhamre-demo-{}", std::process::id()));
    std::fs::create_dir_all(&folder).expect("a folder");
    let path = |name: &str| folder.join(name).display().to_string();
    let good = demo(&["--image", &path("shift.svg")]);
    assert!(good.status.success());
    assert!(String::from_utf8_lossy(&good.stdout).contains("All 27 answers are as document 01"));
    assert!(folder.join("shift.svg").is_file());
    for example in std::fs::read_dir(SCRIPTS).expect("it is there") {
        let example = example.expect("an entry").path().display().to_string();
        if example.ends_with(".txt") {
            assert!(demo(&[&example, "--image", &path("script.svg")]).status.success());
        }
    }
    std::fs::write(folder.join("bad.txt"), "disc 300\n0x2A\n").expect("a script");
    let bad = demo(&[&path("bad.txt")]);
    assert_eq!(bad.status.code(), Some(2));
    let says = String::from_utf8_lossy(&bad.stderr).into_owned();
    assert!(
        says.ends_with("bad.txt: line 2: \"0x2A\" is neither bytes in hexadecimal nor one of the words `disc`, `survey`, `inquiry`, `configuration` and `data`\n"),
        "{says}"
    );
    assert_eq!(demo(&["--what"]).status.code(), Some(2));
    std::fs::remove_dir_all(&folder).expect("it was there");
}

//! Both drives answer alike, command by command and byte by byte.
//!
//! GLADHAMRE_ROUNDS multiplies the effort, GLADHAMRE_SEED draws other commands.

use compare::rounds::{self, Effort};
use compare::{rounds_wanted, seed, Coverage, Difference, Linked, Pair, Plain, Random};
use gladhamre::RECORD_LIMIT;
use std::thread;

const EFFORT: Effort = Effort::ROUND;

/// Runs one kind of round on buffers for so many blocks.
fn compare_with(
    name: &str,
    blocks: u32,
    round: impl Fn(&mut Pair, u64) -> Result<(), Difference>,
) -> Coverage {
    let plain = Plain::default();
    let mut pair = Pair::new(&Linked, &plain, blocks);
    pair.randomize(&mut Random::new(seed()));
    for number in 0..rounds_wanted() {
        if let Err(difference) = round(&mut pair, seed() + 1_000 * number) {
            panic!("{name}: {difference}");
        }
    }
    println!("{name}: {} commands compared", pair.coverage.commands);
    pair.coverage
}

/// States injected, and that READs, WRITEs, 12h and 46h of every kind come on them.
#[test]
fn sound_states() {
    let reached = compare_with("sound states", EFFORT.injected_blocks, |pair, seed| {
        rounds::sound_states(pair, seed, EFFORT.sound)
    });
    for meetings in reached.situations_of_requests() {
        println!("{meetings}");
        assert!(meetings.is_complete(), "never met, or in one form alone: {meetings}");
    }
    assert_eq!(reached.missed_on_discs(), [""; 0]);
    assert_eq!(reached.searches.missed(), [""; 0]);
}

/// States that break a rule, and that every command gets L3 on them.
#[test]
fn unsound_states() {
    let reached = compare_with("unsound states", EFFORT.injected_blocks, |pair, seed| {
        rounds::unsound_states(pair, seed, EFFORT.unsound)
    });
    for (command, _) in ANSWERS {
        assert!(reached.answers.contains_key(&(command, 3)), "{command} never got L3");
    }
}

#[test]
fn junk_images() {
    compare_with("junk images", EFFORT.injected_blocks, |pair, seed| {
        rounds::junk_images(pair, seed, EFFORT.junk)
    });
}

#[test]
fn blank_discs() {
    compare_with("blank discs", EFFORT.injected_blocks, |pair, seed| {
        rounds::blank_discs(pair, seed, EFFORT.junk)
    });
}

/// More sectors at once than 28h and 2Ah can name.
#[test]
fn long_runs() {
    compare_with("long runs", rounds::LONG_CAPACITY, rounds::long_runs);
}

fn sequences(capacity: u32) -> Coverage {
    compare_with(&format!("sequences on {capacity} blocks"), capacity, |pair, seed| {
        rounds::sequences(pair, capacity, seed, EFFORT.sequences)
    })
}

/// Sequences from blank discs, and that they reach every answer and every situation.
#[test]
fn sequences_from_blank_discs() {
    let mut reached = Coverage::default();
    thread::scope(|scope| {
        let runs = rounds::CAPACITIES.map(|capacity| scope.spawn(move || sequences(capacity)));
        for run in runs {
            reached.add(&run.join().expect("the drives answer alike"));
        }
    });
    println!("{reached}");
    every_answer_came(&reached);
    for meetings in reached.situations() {
        assert!(meetings.is_complete(), "never met, or in one form alone: {meetings}");
    }
    assert_eq!(reached.missed_on_discs(), [""; 0]);
    assert_eq!(reached.searches.missed(), [""; 0]);
    assert_eq!(reached.most_records, RECORD_LIMIT);
    assert!(reached.most_sessions >= 5);
    assert!(reached.finalized > 0 && reached.full > 0);
    assert!(reached.pending_counts.iter().all(|&commands| commands > 0));
}

fn every_answer_came(reached: &Coverage) {
    for link_refusal in 1..=4 {
        assert!(reached.answered(link_refusal) > 0, "L{link_refusal} never came");
    }
    for (command, numbers) in ANSWERS {
        for number in numbers {
            let came = reached.answers.contains_key(&(command, *number));
            assert!(came, "{command} never got {number:06X}");
        }
    }
}

/// Acceptance and the drive refusals that document 01 gives each command.
const ANSWERS: [(&str, &[u32]); 23] = [
    ("00h", &[0]),
    ("03h", &[0]),
    ("12h", &[0, 0x052400]),
    ("25h", &[0]),
    ("28h READ", &[0, 0x052100, 0x080000]),
    ("2Ah WRITE", &[0, 0x072700, 0x052102, 0x056300]),
    ("A8h READ (12)", &[0, 0x052100, 0x080000]),
    ("AAh WRITE (12)", &[0, 0x072700, 0x052102, 0x056300]),
    ("35h", &[0]),
    ("46h type 0", &[0]),
    ("46h type 1", &[0]),
    ("46h type 2", &[0]),
    ("46h type 3", &[0x052400]),
    ("51h", &[0, 0x052400]),
    ("52h address", &[0, 0x052100]),
    ("52h number", &[0, 0x052400]),
    ("52h other", &[0x052400]),
    ("53h RESERVE", &[0, 0x072700, 0x052400, 0x057205, 0x056300]),
    ("5Bh CLOSE 001", &[0, 0x052400, 0x057204]),
    ("5Bh CLOSE 010", &[0, 0x057203, 0x057205, 0x056300]),
    ("5Bh CLOSE 110", &[0, 0x057203, 0x057204]),
    ("5Bh CLOSE other", &[0x052400]),
    ("unlisted", &[0x052000]),
];

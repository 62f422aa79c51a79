//! The rounds of a comparison: sequences from a blank disc, states injected, junk.

use crate::cdb::{self, opcode_only, Cdb, TEST_UNIT_READY};
use crate::coverage::answer_name;
use crate::pair::IMAGE_ROOM;
use crate::pool::OFFSETS;
use crate::{states, unsound, Coverage, Difference, Drive, Generator, Mood, Pair, Random, Request};
use gladhamre::{State, RECORD_LIMIT, STATE_WORDS};
use plain::Rule;

/// Capacities of the discs that sequences run on. The first two are full before the list is; the
/// third has room for a full list of short fragments, and hardly for a session after it.
pub const CAPACITIES: [u32; 4] = [256, 300, 480, 1_000];

/// The capacity of a disc with room for WRITEs of more than 65,535 sectors.
pub const LONG_CAPACITY: u32 = 4_300;

/// The capacity of the largest disc.
pub const CAPACITY_LIMIT: u32 = 143_444;

/// How much a comparison does.
#[derive(Clone, Copy, Debug)]
pub struct Effort {
    /// Sequences from a blank disc, for each of the capacities; some three hundred commands each.
    pub sequences: u64,
    /// Blocks of the largest disc whose state is injected.
    pub injected_blocks: u32,
    /// Sound states injected, some six commands each.
    pub sound: u64,
    /// States that break one rule, for each rule; four commands each.
    pub unsound: u64,
    /// Junk images, two commands each, and blank discs of good and bad capacities.
    pub junk: u64,
}

impl Effort {
    /// One round, as much as the gate compares.
    pub const ROUND: Effort = Effort {
        sequences: 2_000,
        injected_blocks: 1_000,
        sound: 60_000,
        unsound: 1_000,
        junk: 40_000,
    };
}

/// All rounds, one after another, the shortest first.
pub fn everything(
    left: &dyn Drive,
    right: &dyn Drive,
    seed: u64,
    effort: Effort,
) -> Result<Coverage, Difference> {
    let mut pair = Pair::new(left, right, effort.injected_blocks);
    pair.randomize(&mut Random::new(seed));
    blank_discs(&mut pair, seed, effort.junk)?;
    unsound_states(&mut pair, seed, effort.unsound)?;
    junk_images(&mut pair, seed, effort.junk)?;
    sound_states(&mut pair, seed, effort.sound)?;
    let mut coverage = pair.coverage;
    for capacity in CAPACITIES {
        let mut pair = Pair::new(left, right, capacity);
        sequences(&mut pair, capacity, seed, effort.sequences)?;
        coverage.add(&pair.coverage);
    }
    Ok(coverage)
}

/// Sequences of commands, each from a blank disc over whatever bytes the last one left.
pub fn sequences(pair: &mut Pair, capacity: u32, seed: u64, count: u64) -> Result<(), Difference> {
    let mut generator = Generator::new(seed ^ u64::from(capacity));
    pair.randomize(&mut generator.random);
    for number in 0..count {
        sequence(pair, &mut generator, capacity).map_err(|difference| {
            within(&format!("capacity {capacity}, sequence"), seed, number, &difference)
        })?;
    }
    Ok(())
}

/// Sequences and sound states on the largest disc, with WRITEs and READs of any length. Its medium
/// stays untouched where nothing is written.
pub fn largest_disc(pair: &mut Pair, seed: u64) -> Result<(), Difference> {
    let mut generator = Generator::new(seed);
    generator.long_write = 65_535;
    for number in 0..12 {
        sequence(pair, &mut generator, CAPACITY_LIMIT)
            .map_err(|difference| within("sequence", seed, number, &difference))?;
    }
    sound_states(pair, seed, 100)
}

/// WRITEs and READs of more than 65,535 sectors that are accepted: up to pending sectors, and of a whole
/// fragment while sectors of another are pending.
pub fn long_runs(pair: &mut Pair, seed: u64) -> Result<(), Difference> {
    let mut random = Random::new(seed + 5);
    let sectors = 16 * LONG_CAPACITY;
    let length = random.between(65_536, 66_000) as u32;
    let fragment = 16 * random.between(4_096, 4_200) as u32;
    pair.blank(LONG_CAPACITY)?;
    let written = [
        (cdb::write_12(0, sectors + 1), 0x056300),
        (cdb::write_12(0, length), 0),
        (cdb::read_12(0, length), 0),
        (cdb::read_12(0, length + 1), 0x080000),
        (cdb::read_12(0, sectors + 1), 0x052100),
        (cdb::read(65_000, 536), 0),
        (cdb::write(length, 100), 0),
        (cdb::write_12(length + 100, sectors - length - 100), 0),
        (cdb::write_12(sectors, 1), 0x052102),
    ];
    send_all(pair, &mut random, &written)?;
    pair.blank(LONG_CAPACITY)?;
    let reserved = [
        (cdb::reserve(fragment), 0),
        (cdb::write(fragment + 16, 5), 0),
        (cdb::write_12(0, fragment + 1), 0x056300),
        (cdb::write_12(0, fragment), 0),
        (cdb::read_12(0, fragment), 0),
        (cdb::read_12(0, fragment + 1), 0x080000),
        (cdb::read_12(fragment + 16, 16), 0),
    ];
    send_all(pair, &mut random, &reserved)?;
    pair.compare_media()
}

/// Commands with the answers that both drives must give.
fn send_all(
    pair: &mut Pair,
    random: &mut Random,
    commands: &[(Cdb, u32)],
) -> Result<(), Difference> {
    for &(cdb, number) in commands {
        let mut request = Request::fitting(cdb, pair.state().capacity());
        request.data_offset = random.below(OFFSETS as u64) as usize;
        let answer = pair.command(&request, random)?;
        if answer.number != number {
            let (wanted, given) = (answer_name(number), answer_name(answer.number));
            let what = format!("{cdb:02X?}: {given} instead of {wanted}");
            return Err(Difference(what));
        }
    }
    Ok(())
}

fn sequence(pair: &mut Pair, generator: &mut Generator, capacity: u32) -> Result<(), Difference> {
    pair.blank(capacity)?;
    generator.crowds = generator.random.once_in(crowds_once_in(capacity));
    for (mood, commands) in theme(&mut generator.random, generator.crowds) {
        generator.mood = mood;
        for _ in 0..commands {
            step(pair, generator)?;
            if is_closed(&pair.state()) && generator.random.once_in(30) {
                return pair.compare_media();
            }
        }
    }
    pair.compare_media()
}

/// Nothing more can be written.
fn is_closed(state: &State) -> bool {
    state.records().all(|record| record.recorded == record.length)
}

/// One command, now and then after other stale bytes; now and then a READ first, where sectors are
/// pending, and searches for a fragment.
fn step(pair: &mut Pair, generator: &mut Generator) -> Result<(), Difference> {
    if generator.random.once_in(12) {
        pair.change_stale(&mut generator.random);
    }
    let state = pair.state();
    if state.pending_count() > 0 && generator.random.once_in(8) {
        let request = generator.read(&state, pair.allocated());
        pair.command(&request, &mut generator.random)?;
    }
    for _ in 0..generator.searches(&state) {
        let request = generator.search(&pair.state(), pair.allocated());
        pair.command(&request, &mut generator.random)?;
    }
    let request = generator.request(&pair.state(), pair.allocated());
    pair.command(&request, &mut generator.random)?;
    Ok(())
}

/// The moods of a sequence, and for how many commands each lasts.
pub fn theme(random: &mut Random, crowds: bool) -> Vec<(Mood, u64)> {
    let end = (Mood::Finishing, 60);
    if crowds {
        return crowd(random).into_iter().chain([(Mood::Reading, 40), end]).collect();
    }
    match random.below(7) {
        0 => vec![(Mood::Reserving, 120), (Mood::Completing, 250), (Mood::Closing, 60), end],
        1 => vec![(Mood::Reserving, 80), (Mood::Writing, 150), (Mood::Reading, 60), end],
        2 => vec![(Mood::Fragmenting, 350), (Mood::Closing, 60), (Mood::Reading, 60), end],
        3 => vec![(Mood::Closing, 250), (Mood::Reading, 60), end],
        4 => vec![(Mood::Writing, 200), (Mood::Filling, 100), (Mood::Reading, 60), end],
        _ => (0..8).map(|_| (random.pick(&Mood::ALL), 50)).chain([end]).collect(),
    }
}

/// A sequence in so many makes a crowd of fragments: more of them where the list can be filled.
pub fn crowds_once_in(capacity: u32) -> u64 {
    if capacity as usize >= 2 * RECORD_LIMIT {
        4
    } else {
        12
    }
}

/// A full list where the disc has room for it: by fragments closed, reserved, or both.
fn crowd(random: &mut Random) -> Vec<(Mood, u64)> {
    match random.below(3) {
        0 => vec![(Mood::Fragmenting, 450), (Mood::Closing, 30)],
        1 => vec![(Mood::Reserving, 200), (Mood::Completing, 300), (Mood::Closing, 30)],
        _ => vec![(Mood::Fragmenting, 200), (Mood::Reserving, 130), (Mood::Writing, 80)],
    }
}

/// Sound states that need not be reachable, a few commands on each.
pub fn sound_states(pair: &mut Pair, seed: u64, count: u64) -> Result<(), Difference> {
    let mut generator = Generator::new(seed + 1);
    for number in 0..count {
        let capacity = some_capacity(&mut generator.random, pair.blocks());
        let state = states::sound(&mut generator.random, capacity);
        pair.inject(state.words());
        generator.mood = generator.random.pick(&Mood::ALL);
        let commands = generator.random.between(1, 12);
        (0..commands)
            .try_for_each(|_| step(pair, &mut generator))
            .map_err(|difference| within("sound state", seed, number, &difference))?;
    }
    pair.compare_media()
}

/// States that break one rule each: refused by L3, or by what comes before it.
pub fn unsound_states(pair: &mut Pair, seed: u64, count: u64) -> Result<(), Difference> {
    let mut generator = Generator::new(seed + 2);
    generator.mood = Mood::Hostile;
    for number in 0..count {
        for rule in Rule::ALL {
            let capacity = some_capacity(&mut generator.random, pair.blocks());
            let state = unsound::breaking(&mut generator.random, rule, capacity);
            pair.inject(state.words());
            ready_then_any(pair, &mut generator, &state).map_err(|difference| {
                within(&format!("state that breaks {rule:?}"), seed, number, &difference)
            })?;
        }
    }
    pair.compare_media()
}

/// The command that every sound state accepts, then any.
fn ready_then_any(
    pair: &mut Pair,
    generator: &mut Generator,
    state: &State,
) -> Result<(), Difference> {
    let ready = Request::fitting(opcode_only(TEST_UNIT_READY), state.capacity());
    pair.command(&ready, &mut generator.random)?;
    (0..3).try_for_each(|_| step(pair, generator))
}

/// Images of junk, or sound ones with some words changed, and of any length.
pub fn junk_images(pair: &mut Pair, seed: u64, count: u64) -> Result<(), Difference> {
    let mut generator = Generator::new(seed + 3);
    generator.mood = Mood::Hostile;
    for number in 0..count {
        let random = &mut generator.random;
        let capacity = some_capacity(random, pair.blocks());
        let mut state = states::sound(random, capacity);
        if random.once_in(4) {
            unsound::junk(random, state.words_mut());
        } else {
            unsound::disturb(random, state.words_mut());
        }
        pair.inject(state.words());
        (0..2)
            .try_for_each(|_| step(pair, &mut generator))
            .map_err(|difference| within("junk image", seed, number, &difference))?;
    }
    pair.compare_media()
}

/// Blank discs of capacities in and out of range, in images of right and wrong lengths.
pub fn blank_discs(pair: &mut Pair, seed: u64, count: u64) -> Result<(), Difference> {
    let mut random = Random::new(seed + 4);
    let edges = [0, 1, 255, 256, 257, 143_443, 143_444, 143_445, u32::MAX];
    for _ in 0..count {
        let capacity = match random.below(3) {
            0 => random.pick(&edges),
            1 => random.between(256, 143_444) as u32,
            _ => random.draw() as u32,
        };
        let words = match random.below(3) {
            0 => random.between(0, IMAGE_ROOM as u64) as usize,
            _ => STATE_WORDS,
        };
        let mut image = [0; STATE_WORDS];
        image.fill_with(|| random.draw() as u32);
        pair.inject(&image);
        pair.blank_in(capacity, words)?;
    }
    Ok(())
}

/// A capacity up to that of the pair's media.
fn some_capacity(random: &mut Random, most: u32) -> u32 {
    match random.below(4) {
        0 => 256,
        1 => most,
        _ => random.between(256, most.into()) as u32,
    }
}

fn within(what: &str, seed: u64, number: u64, difference: &Difference) -> Difference {
    Difference(format!("seed {seed}, {what} {number}: {difference}"))
}

//! Timing: both drives and a plain copy take turns, so that a disturbance meets all of them.

use crate::buffers::Buffers;
use crate::cases::Case;
use compare::{Drive, Linked, Plain};
use gladhamre::cdb::is_write;
use std::hint::black_box;
use std::time::{Duration, Instant};

/// State images that are made ready before the clock starts, and used once each.
const BATCH: usize = 8;

/// Turns that each drive gets.
const ROUNDS: usize = 101;

/// The least time of a turn.
const TURN: Duration = Duration::from_micros(500);

/// Nanoseconds of a command, and how they compare.
pub struct Measured {
    pub linked: Spread,
    pub plain: Spread,
    pub ratio: Spread,
    /// A copy of the same bytes, if there are any.
    pub copy: Option<Spread>,
}

/// The median, with the quartiles around it.
#[derive(Clone, Copy)]
pub struct Spread {
    pub low: f64,
    pub median: f64,
    pub high: f64,
}

impl Spread {
    fn of(mut samples: Vec<f64>) -> Spread {
        samples.sort_by(f64::total_cmp);
        let at = |quarter: usize| samples[quarter * (samples.len() - 1) / 4];
        Spread { low: at(1), median: at(2), high: at(3) }
    }
}

/// Times a case. Both drives are first seen to do the same.
pub fn measure(case: &Case, buffers: &mut Buffers) -> Measured {
    let plain = Plain::default();
    same_answer(case, &plain, buffers);
    let mut batches = 1;
    while turn(&plain, case, buffers, batches).1 < TURN {
        batches *= 2;
    }
    let mut samples = [(); 4].map(|_| Vec::with_capacity(ROUNDS));
    for round in 0..ROUNDS {
        let (linked_time, plain_time) = if round % 2 == 0 {
            let first = turn(&Linked, case, buffers, batches).0;
            (first, turn(&plain, case, buffers, batches).0)
        } else {
            let first = turn(&plain, case, buffers, batches).0;
            (turn(&Linked, case, buffers, batches).0, first)
        };
        samples[0].push(linked_time);
        samples[1].push(plain_time);
        samples[2].push(linked_time / plain_time);
        samples[3].push(copy(case, buffers, batches));
    }
    let [linked, plain, ratio, copy] = samples.map(Spread::of);
    Measured { linked, plain, ratio, copy: (case.bytes > 0).then_some(copy) }
}

fn same_answer(case: &Case, plain: &Plain, buffers: &mut Buffers) {
    let (mut linked_state, mut plain_state) = (case.start.clone(), case.start.clone());
    let linked = Linked.command(linked_state.words_mut(), buffers.lend(&case.cdb));
    let plain = plain.command(plain_state.words_mut(), buffers.lend(&case.cdb));
    assert_eq!((linked.number, linked), (case.number, plain), "{}", case.name);
    assert!(linked_state == plain_state, "{}", case.name);
}

/// A drive's turn: nanoseconds of one command, and the whole time.
fn turn(drive: &impl Drive, case: &Case, buffers: &mut Buffers, batches: usize) -> (f64, Duration) {
    let mut images = vec![*case.start.words(); BATCH];
    let mut time = Duration::ZERO;
    for _ in 0..batches {
        images.fill(*case.start.words());
        let begun = Instant::now();
        for image in &mut images {
            black_box(drive.command(black_box(image), buffers.lend(&case.cdb)));
        }
        time += begun.elapsed();
    }
    (time.as_nanos() as f64 / (batches * BATCH) as f64, time)
}

/// Copying alone: nanoseconds to move the bytes of the command once.
fn copy(case: &Case, buffers: &mut Buffers, batches: usize) -> f64 {
    let bytes = case.bytes;
    let begun = Instant::now();
    for _ in 0..batches * BATCH {
        if is_write(&case.cdb) {
            buffers.medium[..bytes].copy_from_slice(black_box(&buffers.data[..bytes]));
            black_box(&mut buffers.medium);
        } else {
            buffers.reply[..bytes].copy_from_slice(black_box(&buffers.medium[..bytes]));
            black_box(&mut buffers.reply);
        }
    }
    begun.elapsed().as_nanos() as f64 / (batches * BATCH) as f64
}

//! Demand 3 on one drive alone: a sequence of commands from a blank disc, and the same sequence
//! again with WRITEs cut into parts and other stale bytes.

use crate::bench::Bench;
use crate::cdb;
use crate::event::Event;
use crate::history::{Ledger, Writes};
use crate::outline::{Outline, Place};
use crate::pool::OFFSETS;
use crate::rounds::{crowds_once_in, theme, LONG_CAPACITY};
use crate::{Drive, Generator, Random, Request};
use gladhamre::{Answer, SECTOR_BYTES};

/// What a check has gone through.
#[derive(Clone, Copy, Debug, Default)]
pub struct Tally {
    pub commands: u64,
    pub writes_cut: u64,
    /// How many of them were WRITEs (12), and how many were cut into parts of both forms.
    pub long_form_cut: u64,
    pub cut_into_both_forms: u64,
    pub parts: u64,
    /// WRITEs tried whole and in parts from the same state, and how many of them were accepted.
    pub tried: u64,
    pub tried_accepted: u64,
    /// READs sent again whose sectors are pending, all of them or the last.
    pub pending_reads: u64,
    pub most_records: usize,
}

impl Tally {
    fn note_cut(&mut self, turn: &Turn, parts: &[Request]) {
        let is_long = |request: &Request| request.cdb[0] == cdb::WRITE_12;
        let long_parts = parts.iter().filter(|part| is_long(part)).count();
        self.writes_cut += 1;
        self.parts += parts.len() as u64;
        self.long_form_cut += u64::from(is_long(&turn.request));
        self.cut_into_both_forms += u64::from((1..parts.len()).contains(&long_parts));
    }
}

/// A command of the first run with its answer.
struct Turn {
    request: Request,
    answer: Answer,
    reply: Vec<u8>,
    /// Whether it is a READ that ends in the pending buffer.
    reads_pending: bool,
}

/// The commands of the first run, and what must hold by their history.
struct FirstRun {
    turns: Vec<Turn>,
    ledger: Ledger,
    writes: Writes,
}

impl FirstRun {
    fn new(capacity: u32) -> FirstRun {
        FirstRun { turns: Vec::new(), ledger: Ledger::new(capacity), writes: Writes::new(capacity) }
    }

    /// Sends a command. A recorded block stays recorded, and a READ gives readable sectors alone, as
    /// they were written.
    fn send(&mut self, bench: &mut Bench, request: Request) -> Result<(), String> {
        let before = bench.state.clone();
        let (answer, reply) = bench.command(&request);
        self.writes.note(&request, &answer, &before);
        self.writes.check_reply(&request, &reply, &before)?;
        self.ledger.note(bench)?;
        let reads_pending = request.twelve().is_some_and(|cdb| {
            let (medium, pending) = (&bench.medium, &bench.pending);
            let (before, after) = (&before, &bench.state);
            let (cdb, request, answer) = (&cdb, &request, &answer);
            Event { cdb, request, answer, before, after, medium, pending }.reads_pending()
        });
        self.turns.push(Turn { request, answer, reply, reads_pending });
        Ok(())
    }

    /// No recorded block has changed, and recorded and pending sectors hold what the history says and
    /// are as many.
    fn check(&self, bench: &Bench) -> Result<(), String> {
        self.ledger.check(bench)?;
        self.writes.check(bench)
    }
}

/// Checks one random sequence on a disc of that many blocks.
pub fn check(drive: &dyn Drive, capacity: u32, seed: u64, tally: &mut Tally) -> Result<(), String> {
    let mut random = Random::new(seed);
    let start = random.draw();
    let disturbed = random.once_in(2);
    let mut first = Bench::blank(drive, capacity, &mut Random::new(start))?;
    let turns = first_run(&mut first, &mut random, disturbed, tally)?;
    let mut second = Bench::blank(drive, capacity, &mut random)?;
    second_run(&mut second, &turns, &mut random, true, tally)?;
    first.same_disc(&second)?;
    if !disturbed {
        let mut third = Bench::blank(drive, capacity, &mut Random::new(start))?;
        second_run(&mut third, &turns, &mut random, false, tally)?;
        first.same_disc(&third)?;
        first.same_bytes(&third)?;
    }
    Ok(())
}

/// Checks one WRITE (12) of more than 65,535 sectors: whole, cut into WRITEs that are no WRITE (12),
/// and into parts of both forms.
pub fn check_long(drive: &dyn Drive, seed: u64) -> Result<(), String> {
    let mut random = Random::new(seed);
    let start = random.draw();
    let sectors = random.between(65_537, 68_000) as u32;
    let mut first = Bench::blank(drive, LONG_CAPACITY, &mut Random::new(start))?;
    let mut run = FirstRun::new(LONG_CAPACITY);
    run.send(&mut first, Request::fitting(cdb::write_12(0, sectors), LONG_CAPACITY))?;
    run.check(&first)?;
    let turn = &run.turns[0];
    if turn.answer.number != 0 {
        return Err(format!("a WRITE (12) of {sectors} sectors is refused"));
    }
    let short = [cdb::WRITE, cdb::WRITE];
    let both = [cdb::WRITE, cdb::WRITE_12];
    for (length, forms) in [(65_535, short), (sectors - 65_535, short), (1, both)] {
        let parts = parts_of(&turn.request, &[length, sectors - length], &forms, &mut random);
        let mut cut = Bench::blank(drive, LONG_CAPACITY, &mut Random::new(start))?;
        send_parts(&mut cut, turn, &parts, &mut random, false)?;
        first.same_disc(&cut)?;
        first.same_bytes(&cut)?;
    }
    Ok(())
}

/// Draws and sends the commands, with READs more where sectors are pending; now and then a WRITE is
/// tried whole and in parts.
fn first_run(
    bench: &mut Bench,
    random: &mut Random,
    disturbed: bool,
    tally: &mut Tally,
) -> Result<Vec<Turn>, String> {
    let mut generator = Generator::new(random.draw());
    generator.buffers_right = true;
    generator.crowds = random.once_in(crowds_once_in(bench.state.capacity()));
    let mut run = FirstRun::new(bench.state.capacity());
    for (mood, commands) in theme(random, generator.crowds) {
        generator.mood = mood;
        for _ in 0..commands {
            if disturbed && random.once_in(3) {
                bench.change_stale(random);
            }
            if bench.state.pending_count() > 0 && random.once_in(8) {
                run.send(bench, generator.read(&bench.state, bench.medium.len()))?;
            }
            run.send(bench, generator.request(&bench.state, bench.medium.len()))?;
            tally.most_records = tally.most_records.max(bench.state.records().count());
            if random.once_in(40) {
                try_cut(bench, random, tally)?;
            }
        }
        run.check(bench)?;
    }
    tally.commands += run.turns.len() as u64;
    Ok(run.turns)
}

/// Sends the same commands again, some accepted WRITEs in parts.
fn second_run(
    bench: &mut Bench,
    turns: &[Turn],
    random: &mut Random,
    disturbed: bool,
    tally: &mut Tally,
) -> Result<(), String> {
    for (number, turn) in turns.iter().enumerate() {
        if disturbed && random.once_in(3) {
            bench.change_stale(random);
        }
        let parts = cut(turn, random);
        let outcome = if parts.is_empty() {
            tally.pending_reads += u64::from(turn.reads_pending);
            repeat(bench, turn)
        } else {
            tally.note_cut(turn, &parts);
            send_parts(bench, turn, &parts, random, disturbed)
        };
        outcome.map_err(|what| {
            format!("command {number}, command block {:02X?}: {what}", turn.request.cdb)
        })?;
    }
    Ok(())
}

/// A command that is not cut answers alike.
fn repeat(bench: &mut Bench, turn: &Turn) -> Result<(), String> {
    let (answer, reply) = bench.command(&turn.request);
    if answer != turn.answer {
        return Err(format!("{:X?} became {answer:X?}", turn.answer));
    }
    if reply != turn.reply {
        return Err("other reply bytes".into());
    }
    Ok(())
}

/// The parts are accepted and record as many blocks together.
fn send_parts(
    bench: &mut Bench,
    turn: &Turn,
    parts: &[Request],
    random: &mut Random,
    disturbed: bool,
) -> Result<(), String> {
    let mut recorded = 0;
    for part in parts {
        if disturbed && random.once_in(3) {
            bench.change_stale(random);
        }
        let (answer, _) = bench.command(part);
        if answer.number != 0 {
            return Err(format!("a part is refused by {:X}", answer.number));
        }
        recorded += answer.recorded;
    }
    if recorded != turn.answer.recorded {
        return Err(format!("{} blocks became {recorded}", turn.answer.recorded));
    }
    Ok(())
}

/// The parts of an accepted WRITE, none if it stays whole.
fn cut(turn: &Turn, random: &mut Random) -> Vec<Request> {
    let is_write = turn.request.twelve().is_some_and(|cdb| cdb::is_write(&cdb));
    let long_enough = turn.request.data_length >= 2 * SECTOR_BYTES;
    if turn.answer.number != 0 || !is_write || !long_enough || random.once_in(4) {
        return Vec::new();
    }
    parts(&turn.request, random)
}

/// Cuts a WRITE of two sectors or more into parts of both forms. There are none where the second
/// would begin past 32 bits.
fn parts(whole: &Request, random: &mut Random) -> Vec<Request> {
    let (address, sectors) = whole.twelve().map_or((0, 0), |cdb| cdb::run(&cdb));
    let lengths = part_lengths(address, sectors, random);
    if lengths.len() < 2 {
        return Vec::new();
    }
    let forms = lengths.iter().map(|&length| match u16::try_from(length) {
        Ok(_) if random.once_in(2) => cdb::WRITE,
        _ => cdb::WRITE_12,
    });
    let forms: Vec<u8> = forms.collect();
    parts_of(whole, &lengths, &forms, random)
}

/// The parts of these lengths and forms.
fn parts_of(whole: &Request, lengths: &[u32], forms: &[u8], random: &mut Random) -> Vec<Request> {
    let address = whole.twelve().map_or(0, |cdb| cdb::value(&cdb));
    let mut done = 0;
    let part = |(&length, &form): (&u32, &u8)| {
        let mut cdb = [0; 12];
        random.fill(&mut cdb);
        cdb[0] = form;
        match form {
            cdb::WRITE => cdb::set_run(&mut cdb, address + done, length as u16),
            _ => cdb::set_run_12(&mut cdb, address + done, length),
        }
        let mut part = Request::fitting(cdb, 0);
        part.medium_length = whole.medium_length;
        part.data_offset = whole.data_offset + done as usize * SECTOR_BYTES;
        part.reply_length = random.below(100) as usize;
        done += length;
        part
    };
    lengths.iter().zip(forms).map(part).collect()
}

/// Lengths of at least 1 that add up: single sectors, or a few parts, each of which begins within 32
/// bits.
fn part_lengths(address: u32, sectors: u32, random: &mut Random) -> Vec<u32> {
    let last_start = (sectors - 1).min(u32::MAX - address);
    if sectors <= 100 && last_start + 1 == sectors && random.once_in(4) {
        return vec![1; sectors as usize];
    }
    let mut done = 0;
    let mut lengths = Vec::new();
    for _ in 0..random.between(1, 5) {
        let left = last_start - done;
        let most = if random.once_in(2) { left } else { left.min(5_000) };
        if left > 0 {
            let length = random.between(1, most.into()) as u32;
            lengths.push(length);
            done += length;
        }
    }
    lengths.push(sectors - done);
    lengths
}

/// From the same state, a WRITE is accepted exactly when all its parts are.
fn try_cut(bench: &Bench, random: &mut Random, tally: &mut Tally) -> Result<(), String> {
    let request = some_write(bench, random);
    let mut whole = bench.clone();
    let mut cut = bench.clone();
    whole.change_stale(random);
    let accepted = whole.command(&request).0.number == 0;
    let parts = parts(&request, random);
    if parts.is_empty() {
        return Ok(());
    }
    let all_accepted = parts.iter().all(|part| {
        cut.change_stale(random);
        cut.command(part).0.number == 0
    });
    tally.tried += 1;
    tally.tried_accepted += u64::from(accepted);
    if accepted != all_accepted {
        return Err(format!(
            "command block {:02X?}: whole accepted {accepted}, in parts {all_accepted}",
            request.cdb
        ));
    }
    if accepted {
        whole.same_disc(&cut)?;
    }
    Ok(())
}

/// A WRITE of at least 2 sectors and of either form, mostly at a next writable address.
fn some_write(bench: &Bench, random: &mut Random) -> Request {
    let outline = Outline::new(&bench.state);
    let open: Vec<&Place> = outline.places.iter().filter(|place| place.is_incomplete()).collect();
    let (next, room) = match open.is_empty() {
        true => (0, 0),
        false => {
            let place = random.pick(&open);
            (place.next, place.room)
        }
    };
    let longest = u64::from(u32::MAX);
    let sectors = match random.below(10) {
        0 => 65_535,
        1 => random.between(2, 65_535),
        2 => room + 1,
        3 | 4 => room,
        5 => random.pick(&[65_536, 1 << 31, longest]),
        6 => longest - random.below(next + 1),
        _ => random.between(2, 40),
    };
    let address = match random.below(10) {
        0 => random.draw() >> 33,
        1 => next + 1,
        2 => longest - random.below(20),
        _ => next,
    };
    let (address, sectors) = (address as u32, sectors.max(2) as u32);
    let cdb = match u16::try_from(sectors) {
        Ok(sectors) if random.once_in(2) => cdb::write(address, sectors),
        _ => cdb::write_12(address, sectors),
    };
    let mut request = Request::fitting(cdb, bench.state.capacity());
    request.data_offset = random.below(OFFSETS as u64) as usize;
    request
}

#[cfg(test)]
mod tests {
    use super::{part_lengths, parts, FirstRun};
    use crate::bench::Bench;
    use crate::cdb::{self, Cdb};
    use crate::{Plain, Random, Request};
    use plain::Fault;

    /// Commands to a blank disc over zeros, where a sector that a READ must not give looks like one
    /// filled up with zeros.
    fn send(fault: Option<Fault>, cdbs: &[Cdb]) -> Result<(), String> {
        let capacity = 256;
        let drive = Plain { fault };
        let mut bench = Bench::blank(&drive, capacity, &mut Random::new(1))?;
        bench.medium.fill(0);
        bench.pending.fill(0);
        let mut run = FirstRun::new(capacity);
        for cdb in cdbs {
            run.send(&mut bench, Request::fitting(*cdb, capacity))?;
        }
        run.check(&bench)
    }

    /// Without the mistake the commands pass; with it the READ of this sector is found.
    fn finds(fault: Fault, sector: usize, cdbs: &[Cdb]) {
        assert_eq!(send(None, cdbs), Ok(()));
        let what = format!("READ gives sector {sector}, neither recorded nor pending");
        assert_eq!(send(Some(fault), cdbs), Err(what));
    }

    /// The parts of a WRITE add up, and each begins within 32 bits; where the second could not, there
    /// is no cut.
    #[test]
    fn parts_begin_within_32_bits() {
        let mut random = Random::new(1);
        let wholes = [(0, 2), (0, u32::MAX), (40, u32::MAX), (u32::MAX - 1, 2), (u32::MAX - 9, 50)];
        for (address, sectors) in wholes.into_iter().cycle().take(500) {
            let lengths = part_lengths(address, sectors, &mut random);
            assert!(lengths.len() >= 2 && lengths.iter().all(|&length| length > 0));
            let (last, others) = lengths.split_last().expect("two");
            let begun = others.iter().map(|&length| u64::from(length)).sum::<u64>();
            assert_eq!(begun + u64::from(*last), sectors.into());
            assert!(u64::from(address) + begun <= u32::MAX.into());
        }
        for sectors in [2, 100, u32::MAX] {
            let whole = Request::fitting(cdb::write_12(u32::MAX, sectors), 256);
            assert_eq!(parts(&whole, &mut random), []);
        }
    }

    #[test]
    fn zeros_past_the_pending_sectors_are_found() {
        finds(Fault::StaleSectorServed, 5, &[cdb::write(0, 5), cdb::read(0, 6)]);
        finds(Fault::StaleSectorServed, 21, &[cdb::write(0, 21), cdb::read(21, 1)]);
        finds(Fault::PendingBlockServed, 21, &[cdb::write(0, 21), cdb::read(0, 32)]);
    }

    #[test]
    fn zeros_of_a_dividing_block_are_found() {
        let close = cdb::close(cdb::FRAGMENT, 1);
        let cdbs = [cdb::write(0, 5), close, cdb::write(32, 16), cdb::read(16, 1)];
        finds(Fault::DividingBlockServed, 16, &cdbs);
        let cdbs = [cdb::reserve(16), cdb::write(32, 5), cdb::read(16, 16)];
        finds(Fault::DividingBlockServed, 16, &cdbs);
    }

    #[test]
    fn zeros_that_fill_up_a_block_are_taken() {
        let flush = cdb::opcode_only(cdb::SYNCHRONIZE_CACHE);
        let cdbs = [cdb::write(0, 5), flush, cdb::read(0, 16), cdb::read(15, 1)];
        assert_eq!(send(None, &cdbs), Ok(()));
    }
}

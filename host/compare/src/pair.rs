//! Two drives with buffers of their own that always begin alike: every command goes to both, and
//! what they leave is compared.

use crate::coverage::answer_name;
use crate::event::Event;
use crate::pool::{fill_from_pool, pool, OFFSETS};
use crate::{Coverage, Drive, Random, Request};
use gladhamre::{
    Answer, Lent, State, BLOCK_BYTES, RECORD_LIMIT, RECORD_WORDS, SECTOR_BYTES, STATE_WORDS,
};
use mapped::Mapped;
use std::ops::Range;
use std::{fmt, mem};

/// Words allocated for a state image: a record and some more than it has, to lend too many.
pub const IMAGE_ROOM: usize = STATE_WORDS + RECORD_WORDS + 3;

/// Bytes allocated for a pending buffer.
const PENDING_ROOM: usize = BLOCK_BYTES + SECTOR_BYTES;

/// Bytes after a reply buffer.
const REPLY_GUARD: usize = 64;

/// A longer reply buffer takes memory only where it is touched, and its front and its end alone are
/// looked at: the longest has 8.8 TB.
pub const LONG_REPLY: usize = 4 << 20;

/// How much of them, beside the reply.
const REPLY_EDGE: usize = 4_096;

/// The media are compared as a whole after one command for so many of their bytes, and at the end
/// of a sequence.
const BYTES_FOR_A_COMMAND: usize = 20_000;

/// What two drives do differently.
#[derive(Debug)]
pub struct Difference(pub String);

impl fmt::Display for Difference {
    fn fmt(&self, out: &mut fmt::Formatter) -> fmt::Result {
        out.write_str(&self.0)
    }
}

/// One drive's buffers.
struct Side<'a> {
    drive: &'a dyn Drive,
    image: Vec<u32>,
    medium: Vec<u8>,
    pending: Vec<u8>,
    /// The reply buffer after a command, as far as it is looked at.
    reply: Vec<u8>,
}

impl<'a> Side<'a> {
    fn new(drive: &'a dyn Drive, medium_room: usize) -> Side<'a> {
        Side {
            drive,
            image: vec![0; IMAGE_ROOM],
            medium: vec![0; medium_room],
            pending: vec![0; PENDING_ROOM],
            reply: Vec::new(),
        }
    }

    /// The stale bytes are those of the reply buffer, with some more than are lent.
    fn command(&mut self, request: &Request, stale_reply: &[u8]) -> Answer {
        if request.reply_length > LONG_REPLY {
            return self.command_with_long_reply(request, stale_reply);
        }
        let mut reply = mem::take(&mut self.reply);
        reply.clear();
        reply.extend_from_slice(stale_reply);
        let answer = self.answer(request, &mut reply[..request.reply_length]);
        self.reply = reply;
        answer
    }

    /// The same with a buffer that takes memory only where it is touched. The stale bytes are those of
    /// its front and its end.
    fn command_with_long_reply(&mut self, request: &Request, stale_reply: &[u8]) -> Answer {
        let mut buffer = Mapped::zeros(request.reply_length + REPLY_GUARD).expect("address space");
        let end = buffer.len() - REPLY_EDGE;
        let (stale_front, stale_end) = stale_reply.split_at(REPLY_EDGE);
        buffer[..REPLY_EDGE].copy_from_slice(stale_front);
        buffer[end..].copy_from_slice(stale_end);
        let answer = self.answer(request, &mut buffer[..request.reply_length]);
        let front = (answer.reply_count as usize + REPLY_EDGE).min(end);
        self.reply = [&buffer[..front], &buffer[end..]].concat();
        answer
    }

    /// A refusal leaves the reply buffer.
    fn leaves_reply(&self, answer: &Answer, stale_reply: &[u8]) -> Result<(), String> {
        match answer.number {
            0 => Ok(()),
            _ => same("byte of the reply buffer, before and after", stale_reply, &self.reply),
        }
    }

    fn answer(&mut self, request: &Request, reply: &mut [u8]) -> Answer {
        let lent = Lent {
            cdb: &request.cdb,
            data: request.data(),
            medium: &mut self.medium[..request.medium_length],
            pending: &mut self.pending[..request.pending_length],
            reply,
        };
        self.drive.command(&mut self.image[..request.state_words], lent)
    }
}

/// How many stale bytes a reply buffer has to begin with.
fn stale_length(reply_length: usize) -> usize {
    if reply_length > LONG_REPLY {
        2 * REPLY_EDGE
    } else {
        reply_length + REPLY_GUARD
    }
}

/// Two drives under comparison.
pub struct Pair<'a> {
    left: Side<'a>,
    right: Side<'a>,
    pub coverage: Coverage,
    commands_since_whole: usize,
}

impl<'a> Pair<'a> {
    /// Media of so many blocks and one more, to lend too long ones; all zero and not yet touched.
    pub fn new(left: &'a dyn Drive, right: &'a dyn Drive, blocks: u32) -> Pair<'a> {
        let room = (blocks as usize + 1) * BLOCK_BYTES;
        Pair {
            left: Side::new(left, room),
            right: Side::new(right, room),
            coverage: Coverage::default(),
            commands_since_whole: 0,
        }
    }

    /// The blocks of the largest disc that fits.
    pub fn blocks(&self) -> u32 {
        (self.allocated() / BLOCK_BYTES) as u32 - 1
    }

    /// The bytes allocated for each medium.
    pub fn allocated(&self) -> usize {
        self.left.medium.len()
    }

    pub fn state(&self) -> State {
        let mut words = [0; STATE_WORDS];
        words.copy_from_slice(&self.left.image[..STATE_WORDS]);
        State::from_words(words)
    }

    /// Random bytes everywhere, the same on both sides.
    pub fn randomize(&mut self, random: &mut Random) {
        fill_from_pool(&mut self.left.medium, random);
        fill_from_pool(&mut self.left.pending, random);
        self.right.medium.copy_from_slice(&self.left.medium);
        self.right.pending.copy_from_slice(&self.left.pending);
    }

    /// New bytes past the pending count and, now and then, in a block that is not recorded.
    pub fn change_stale(&mut self, random: &mut Random) {
        let state = self.state();
        let held = state.pending_count().min(16) as usize * SECTOR_BYTES;
        fill_from_pool(&mut self.left.pending[held..], random);
        self.right.pending[held..].copy_from_slice(&self.left.pending[held..]);
        let block = random.below(state.capacity().into()) as u32;
        let bytes = block_range(block..block + 1, self.allocated());
        if !is_recorded(&state, block) {
            fill_from_pool(&mut self.left.medium[bytes.clone()], random);
            self.right.medium[bytes.clone()].copy_from_slice(&self.left.medium[bytes]);
        }
    }

    /// Makes both discs blank.
    pub fn blank(&mut self, capacity: u32) -> Result<(), Difference> {
        self.blank_in(capacity, STATE_WORDS)
    }

    /// Makes both discs blank in an image of so many words.
    pub fn blank_in(&mut self, capacity: u32, words: usize) -> Result<(), Difference> {
        let left = self.left.drive.blank(capacity, &mut self.left.image[..words]);
        let right = self.right.drive.blank(capacity, &mut self.right.image[..words]);
        if left == right && self.left.image == self.right.image {
            return Ok(());
        }
        Err(self.differ_in(&format!(
            "a blank disc of {capacity} blocks in {words} words, answered {left} and {right}"
        )))
    }

    /// Puts an image in place of both states.
    pub fn inject(&mut self, words: &[u32; STATE_WORDS]) {
        self.coverage.images_injected += 1;
        for side in [&mut self.left, &mut self.right] {
            side.image[..STATE_WORDS].copy_from_slice(words);
        }
    }

    /// Gives both drives the command and compares answer, reply buffer, state and pending buffer,
    /// and the medium where blocks were recorded.
    pub fn command(
        &mut self,
        request: &Request,
        random: &mut Random,
    ) -> Result<Answer, Difference> {
        let before = self.state();
        let offset = random.below(OFFSETS as u64) as usize;
        let stale_reply = &pool()[offset..offset + stale_length(request.reply_length)];
        let left = self.left.command(request, stale_reply);
        let right = self.right.command(request, stale_reply);
        let after = self.state();
        self.compare_after(&left, &right, &before, &after)
            .and_then(|()| self.left.leaves_reply(&left, stale_reply))
            .map_err(|what| self.difference(&what, request, &before))?;
        match &request.twelve() {
            Some(cdb) => self.coverage.note(&Event {
                cdb,
                request,
                answer: &left,
                before: &before,
                after: &after,
                medium: &self.left.medium,
                pending: &self.left.pending[..BLOCK_BYTES],
            }),
            None => self.coverage.note_cut_cdb(left.number),
        }
        self.commands_since_whole += 1;
        if self.commands_since_whole * BYTES_FOR_A_COMMAND > self.allocated() {
            self.compare_media()?;
        }
        Ok(left)
    }

    fn compare_after(
        &self,
        left: &Answer,
        right: &Answer,
        before: &State,
        after: &State,
    ) -> Result<(), String> {
        if left != right {
            return Err(format!("answer: {} and {}", described(left), described(right)));
        }
        same("word of the state", &self.left.image, &self.right.image)?;
        same("byte of the reply buffer", &self.left.reply, &self.right.reply)?;
        same("byte of the pending buffer", &self.left.pending, &self.right.pending)?;
        for index in 0..RECORD_LIMIT {
            let bytes = self.touched(before, after, index);
            same(
                "byte of the touched stretch",
                &self.left.medium[bytes.clone()],
                &self.right.medium[bytes],
            )?;
        }
        Ok(())
    }

    /// Where a record's blocks were recorded, and a block before and after.
    fn touched(&self, before: &State, after: &State, index: usize) -> Range<usize> {
        let (old, new) = (before.record(index), after.record(index));
        if old.recorded == new.recorded && old.start == new.start {
            return 0..0;
        }
        let from = old.recorded.min(new.recorded).saturating_add(new.start);
        let to = old.recorded.max(new.recorded).saturating_add(new.start);
        block_range(from.saturating_sub(1)..to.saturating_add(1), self.allocated())
    }

    /// Compares the whole media.
    pub fn compare_media(&mut self) -> Result<(), Difference> {
        self.commands_since_whole = 0;
        same("byte of the medium", &self.left.medium, &self.right.medium)
            .map_err(|what| self.differ_in(&what))
    }

    fn difference(&self, what: &str, request: &Request, before: &State) -> Difference {
        let records: Vec<_> = before.records().collect();
        self.differ_in(&format!(
            "{what}\nafter command {} of this comparison, command block {:02X?}, {} bytes of data, \
             {} of reply buffer, {} of medium, {} of pending buffer, {} state words\n\
             on a disc of {} blocks, finalized {}, sense {:X?}, {} pending in fragment {}, \
             {records:?}",
            self.coverage.commands + 1,
            request.cdb,
            request.data_length,
            request.reply_length,
            request.medium_length,
            request.pending_length,
            request.state_words,
            before.capacity(),
            before.finalized(),
            before.sense(),
            before.pending_count(),
            before.pending_fragment(),
        ))
    }

    fn differ_in(&self, what: &str) -> Difference {
        let (left, right) = (self.left.drive.name(), self.right.drive.name());
        Difference(format!("{left} and {right} differ in {what}"))
    }
}

fn described(answer: &Answer) -> String {
    format!(
        "{} with {} bytes of reply and {} blocks recorded",
        answer_name(answer.number),
        answer.reply_count,
        answer.recorded
    )
}

/// Whether a block lies among the recorded ones of a fragment.
pub fn is_recorded(state: &State, block: u32) -> bool {
    state.records().any(|record| record.start <= block && block - record.start < record.recorded)
}

/// The bytes of a run of blocks, cut to the buffer.
fn block_range(blocks: Range<u32>, room: usize) -> Range<usize> {
    let byte = |block: u32| (block as usize).saturating_mul(BLOCK_BYTES).min(room);
    byte(blocks.start)..byte(blocks.end)
}

/// Compares two slices of the same length.
fn same<T: PartialEq + fmt::Debug>(what: &str, left: &[T], right: &[T]) -> Result<(), String> {
    if left == right {
        return Ok(());
    }
    let differs = |&at: &usize| left[at] != right[at];
    let at = (0..left.len()).find(differs).unwrap_or(0);
    Err(format!("{what} {at}: {:X?} and {:X?}", left[at], right[at]))
}

#[cfg(test)]
mod tests {
    use super::{Difference, Pair, LONG_REPLY};
    use crate::{cdb, Drive, Plain, Random, Request};
    use gladhamre::{Answer, Lent};

    /// The plain drive, but for a byte of the reply buffer that a refusal changes.
    struct Touching {
        place: fn(usize) -> usize,
    }

    impl Drive for Touching {
        fn name(&self) -> String {
            "a drive that touches the reply buffer".into()
        }

        fn blank(&self, capacity: u32, image: &mut [u32]) -> u32 {
            Plain::default().blank(capacity, image)
        }

        fn command(&self, image: &mut [u32], lent: Lent) -> Answer {
            let Lent { cdb, data, medium, pending, reply } = lent;
            let lent = Lent { cdb, data, medium, pending, reply: &mut *reply };
            let answer = Plain::default().command(image, lent);
            let place = (self.place)(reply.len());
            reply[place] ^= u8::from(answer.number != 0);
            answer
        }
    }

    /// READs that are refused, with buffers of a sector and of terabytes.
    fn refused_reads(left: &dyn Drive, right: &dyn Drive) -> [Result<Answer, Difference>; 2] {
        let mut pair = Pair::new(left, right, 256);
        pair.blank(256).expect("both make it");
        [cdb::read_12(0, 1), cdb::read_12(0, u32::MAX)]
            .map(|cdb| pair.command(&Request::fitting(cdb, 256), &mut Random::new(1)))
    }

    #[test]
    fn reply_buffers_are_left() {
        assert!(cdb::reply_room(&cdb::read_12(0, u32::MAX)) > LONG_REPLY);
        let answers = refused_reads(&Plain::default(), &Plain::default());
        let numbers = answers.map(|answer| answer.expect("both drives are the same").number);
        assert_eq!(numbers, [0x080000, 0x052100]);
    }

    /// At the front and at the end, by one drive and by both.
    #[test]
    fn touched_reply_buffers_are_found() {
        let places: [fn(usize) -> usize; 2] = [|_| 0, |length| length - 1];
        for place in places {
            let touching = Touching { place };
            assert!(refused_reads(&Plain::default(), &touching).iter().all(Result::is_err));
            assert!(refused_reads(&touching, &touching).iter().all(Result::is_err));
        }
    }
}

//! Requests drawn at random, with an eye on the state: boundaries of fragments, lengths that just
//! fit or just do not, and now and then junk.

use crate::aim::{READS, WRITES};
use crate::asking::is_question;
use crate::cdb::{self, Cdb};
use crate::mood::{Kind, Mood, KINDS};
use crate::outline::{Holder, Outline, Place};
use crate::pool::OFFSETS;
use crate::{Random, Request};
use gladhamre::State;

/// READs longer than this, in sectors, are rare.
const LONG_READ: u64 = 100;

/// The most whole blocks that the size of a RESERVE can name.
const MOST_BLOCKS: u64 = u32::MAX as u64 / 16;

/// Draws requests.
pub struct Generator {
    pub random: Random,
    pub mood: Mood,
    /// State, medium and pending buffer always have the right lengths.
    pub buffers_right: bool,
    /// Fragments are of one block, but for the first, and made one after another, so that the list is
    /// full before the disc is.
    pub crowds: bool,
    /// WRITEs longer than this, in sectors, are rare where they fit.
    pub long_write: u64,
}

impl Generator {
    pub fn new(seed: u64) -> Generator {
        Generator {
            random: Random::new(seed),
            mood: Mood::Writing,
            buffers_right: false,
            crowds: false,
            long_write: 600,
        }
    }

    /// A request for a drive in that state, its medium in a buffer of so many bytes.
    pub fn request(&mut self, state: &State, allocated: usize) -> Request {
        let outline = Outline::new(state);
        let mut cdb = [0; 12];
        self.random.fill(&mut cdb);
        let kind = self.kind(&outline);
        self.set_fields(kind, &outline, &mut cdb);
        self.lend(cdb, state, allocated)
    }

    /// A READ for a drive in that state.
    pub fn read(&mut self, state: &State, allocated: usize) -> Request {
        let mut cdb = [0; 12];
        self.random.fill(&mut cdb);
        self.set_read(&Outline::new(state), &mut cdb);
        self.lend(cdb, state, allocated)
    }

    /// The command block with what is lent for it.
    pub(crate) fn lend(&mut self, cdb: Cdb, state: &State, allocated: usize) -> Request {
        let mut request = Request::fitting(cdb, state.capacity());
        request.medium_length = request.medium_length.min(allocated);
        request.data_offset = self.random.below(OFFSETS as u64) as usize;
        request.reply_length += self.extra_room();
        let once_in = match request.wants_long_buffer() {
            true => self.mood.spoils_once_in().min(6),
            false => self.mood.spoils_once_in(),
        };
        if self.random.once_in(once_in) {
            self.spoil(&mut request, allocated);
        } else if is_question(&cdb) && self.random.once_in(4) {
            self.spoil_question(&mut request);
        }
        request
    }

    /// What makes a crowd, a question what the drive is, what the disc is at the edge of, or what the
    /// mood says.
    fn kind(&mut self, outline: &Outline) -> Kind {
        let crowds = self.crowds && !self.random.once_in(8);
        let of_crowd = outline.next_of_crowd(self.mood).filter(|_| crowds);
        let question = of_crowd.or_else(|| self.question(outline));
        if let Some(kind) = question.or_else(|| self.limit_try(outline)) {
            return kind;
        }
        let edge = outline.edge().filter(|edge| match edge {
            Kind::Finalize => self.random.once_in(30),
            _ => self.random.once_in(3),
        });
        edge.unwrap_or_else(|| KINDS[self.random.weighted(&self.mood.weights())])
    }

    /// Now and then what tries the limit of records, if the list is at it.
    fn limit_try(&mut self, outline: &Outline) -> Option<Kind> {
        let tries = outline.limit_tries();
        if tries.is_empty() || self.random.once_in(2) {
            return None;
        }
        let kind = self.random.pick(tries);
        (kind != Kind::Finalize || self.random.once_in(2)).then_some(kind)
    }

    /// Sets the bytes that document 01 names; all others stay random.
    fn set_fields(&mut self, kind: Kind, outline: &Outline, cdb: &mut Cdb) {
        match kind {
            Kind::TestUnitReady => cdb[0] = cdb::TEST_UNIT_READY,
            Kind::RequestSense => {
                cdb[0] = cdb::REQUEST_SENSE;
                cdb[4] = self.allocation(18) as u8;
            }
            Kind::ReadCapacity => cdb[0] = cdb::READ_CAPACITY,
            Kind::Read => self.set_read(outline, cdb),
            Kind::Write => self.set_write(outline, cdb),
            Kind::SynchronizeCache => cdb[0] = cdb::SYNCHRONIZE_CACHE,
            Kind::Reserve => self.set_reserve(outline, cdb),
            Kind::CloseFragment => self.set_close_fragment(outline, cdb),
            Kind::CloseSession => set_function(cdb, cdb::SESSION),
            Kind::Finalize => set_function(cdb, cdb::FINALIZE),
            Kind::CloseOther => {
                let function = self.random.pick(&[0b000, 0b011, 0b100, 0b101, 0b111]);
                set_function(cdb, function);
            }
            Kind::DiscInformation => self.set_disc_information(cdb),
            Kind::FragmentInformation => self.set_fragment_information(outline, cdb),
            Kind::Junk => self.set_junk(cdb),
            Kind::Inquiry => self.set_inquiry(cdb),
            Kind::Configuration => self.set_configuration(cdb),
        }
    }

    fn set_read(&mut self, outline: &Outline, cdb: &mut Cdb) {
        let pending = outline.pending().filter(|_| self.random.once_in(2));
        let recorded = self.place(outline, |place| place.recorded_end > place.first);
        let (from, sectors) = match (pending, recorded) {
            (Some(holder), _) => self.read_about_pending(outline, &holder),
            (None, Some(place)) if !self.random.once_in(3) => self.read_near(&place),
            _ => self.read_anywhere(outline),
        };
        let (from, sectors) = self.or_far_run(outline, from, sectors);
        let sectors = if self.random.once_in(30) { 0 } else { sectors };
        self.set_run(cdb, READS, from, sectors);
    }

    /// Opcode, address and length of a READ or a WRITE, in either form; in the long one where the
    /// short one has no room for the length.
    pub(crate) fn set_run(&mut self, cdb: &mut Cdb, forms: [u8; 2], address: u64, sectors: u64) {
        let [short, long] = forms;
        match u16::try_from(sectors) {
            Ok(sectors) if self.random.once_in(2) => {
                cdb[0] = short;
                cdb::set_run(cdb, address as u32, sectors);
            }
            _ => {
                cdb[0] = long;
                cdb::set_run_12(cdb, address as u32, sectors as u32);
            }
        }
    }

    /// A run that begins and ends at, beside or among the pending sectors; now and then it comes from
    /// the fragment before theirs or goes on to the one after.
    fn read_about_pending(&mut self, outline: &Outline, holder: &Holder) -> (u64, u64) {
        let Place { first, recorded_end: border, next, .. } = holder.place;
        let distance = self.random.between(1, 40);
        let from = match self.random.below(10) {
            0 => holder.before.map_or(first, |place| place.recorded_end.saturating_sub(1)),
            1 => border.saturating_sub(1).max(first),
            2 | 3 => border.saturating_sub(distance).max(first),
            4 | 5 => border,
            6 => next - 1,
            7 => next,
            _ => self.random.between(border, next - 1),
        };
        let end = match self.random.below(10) {
            0 => holder.after.map_or(outline.sectors, |place| place.first) + 1,
            1 => border,
            2 => border + 1,
            3 | 4 => next,
            5 | 6 => next + 1,
            7 => border + 16,
            _ => self.random.between(from + 1, next),
        };
        (from, end.saturating_sub(from).clamp(1, LONG_READ))
    }

    /// A run that begins in the recorded part, and often ends next to its end.
    fn read_near(&mut self, place: &Place) -> (u64, u64) {
        let recorded = place.recorded_end - place.first;
        let offset = match self.random.below(4) {
            0 => 0,
            1 => recorded - 1,
            _ => self.random.below(recorded),
        };
        let left = recorded - offset;
        let longest = left.min(if self.random.once_in(50) { 65_534 } else { LONG_READ });
        let sectors = match self.random.below(5) {
            0 => 1,
            1 => longest,
            2 => longest + 1,
            3 => self.random.between(1, longest),
            _ => self.random.between(1, 40),
        };
        (place.first + offset, sectors)
    }

    fn read_anywhere(&mut self, outline: &Outline) -> (u64, u64) {
        let sectors = match self.random.below(3_000) {
            0 => 65_535,
            1..=1_000 => 1,
            _ => self.random.between(1, 40),
        };
        let from = match self.random.below(6) {
            0 => outline.sectors.saturating_sub(sectors),
            1 => (outline.sectors + 1).saturating_sub(sectors),
            _ => self.boundary(outline),
        };
        (from, sectors)
    }

    fn set_write(&mut self, outline: &Outline, cdb: &mut Cdb) {
        let wanted = self.write_target(outline);
        let (to, sectors) = match wanted {
            Some(place) if !self.random.once_in(8) => {
                (place.next, self.write_length(outline, &place))
            }
            Some(place) => (self.near_miss(&place), self.random.between(0, 40)),
            None => (self.boundary(outline), self.random.between(0, 40)),
        };
        let (to, sectors) = self.or_far_run(outline, to, sectors);
        self.set_run(cdb, WRITES, to, sectors);
    }

    /// Some incomplete fragment: reserved ones first where the tail should stay blank.
    fn write_target(&mut self, outline: &Outline) -> Option<Place> {
        let preferred = match self.mood {
            Mood::Reserving | Mood::Completing => {
                self.place(outline, |place| place.is_incomplete() && place.reserved)
            }
            Mood::Filling => self.place(outline, Place::is_tail),
            Mood::Fragmenting if self.crowds => self.place(outline, Place::is_tail),
            _ => None,
        };
        preferred.or_else(|| self.place(outline, Place::is_incomplete))
    }

    /// A length around what the block or the fragment still takes.
    fn write_length(&mut self, outline: &Outline, place: &Place) -> u64 {
        let to_block_end = 16 - place.pending.min(15);
        let completes = self.mood == Mood::Completing && place.room <= self.long_write;
        if completes && !self.random.once_in(5) {
            return place.room;
        }
        match self.mood {
            Mood::Closing if self.random.once_in(8) => {
                return self.length_to_session_edge(outline, place)
            }
            Mood::Fragmenting if self.crowds => return self.random.between(1, to_block_end),
            Mood::Fragmenting if !self.random.once_in(6) => return self.random.between(1, 20),
            _ => {}
        }
        match self.random.below(40) {
            0 => 0,
            1..=3 => to_block_end,
            4..=5 => to_block_end + 1,
            6 => to_block_end - 1,
            7..=9 => self.whole_room(place),
            10..=12 => place.room + 1,
            13 => place.room + self.random.between(1, 20),
            14 if self.random.once_in(20) => 65_535,
            15 => self.length_to_session_edge(outline, place),
            16..=18 => self.random.between(1, place.room.min(self.long_write)),
            19..=28 => self.random.between(1, 3),
            _ => self.random.between(1, 48),
        }
    }

    /// All the room that is left or a little less, unless that is very long: then rarely.
    fn whole_room(&mut self, place: &Place) -> u64 {
        let rare = place.room > self.long_write && self.mood != Mood::Filling;
        if rare && !self.random.once_in(20) {
            return self.random.between(1, 32);
        }
        place.room.saturating_sub(self.random.pick(&[0, 0, 1, 1, 15, 16, 17, 31]))
    }

    /// So long that the last session that fits, or the first that does not, can follow.
    fn length_to_session_edge(&mut self, outline: &Outline, place: &Place) -> u64 {
        let edge = outline.sectors.saturating_sub(16 * 128 + self.random.pick(&[0, 1, 16, 17]));
        let distance = edge.saturating_sub(place.next);
        if distance > 4 * self.long_write && !self.random.once_in(20) {
            return 1;
        }
        distance
    }

    /// An address beside the next writable one, or one that would be right without the pending
    /// sectors or after a flush.
    fn near_miss(&mut self, place: &Place) -> u64 {
        match self.random.below(6) {
            0 => place.next + 1,
            1 => place.next.saturating_sub(1),
            2 => place.recorded_end,
            3 => place.recorded_end + 16,
            4 => place.end,
            _ => place.first,
        }
    }

    fn set_reserve(&mut self, outline: &Outline, cdb: &mut Cdb) {
        cdb[0] = cdb::RESERVE;
        let size = self.reserve_size(outline);
        cdb::set_size(cdb, size as u32);
    }

    /// Mostly a few whole blocks, else none, any number, or about as many as the tail has room for;
    /// often a part of a block more or less.
    fn reserve_size(&mut self, outline: &Outline) -> u64 {
        let room = outline.places.last().map_or(0, |place| place.room / 16);
        let most = room.saturating_sub(2);
        let crowds = self.crowds && outline.next_of_crowd(Mood::Reserving).is_some();
        let in_part = !crowds && self.is_in_part(outline, most);
        let wants_many = self.mood == Mood::Reserving && !in_part;
        let blocks = match self.random.below(if wants_many { 120 } else { 16 }) {
            _ if crowds && outline.places.len() == 1 => self.random.pick(&[1, 16]),
            _ if crowds => 1,
            0 => 0,
            1 if in_part || self.random.once_in(4) => most,
            2 => most + 1,
            3 if in_part || self.random.once_in(4) => most.saturating_sub(self.random.below(4)),
            4 => MOST_BLOCKS - self.random.below(2),
            5 => self.random.between(0, MOST_BLOCKS),
            6 => self.random.between(1, most.max(1)),
            _ => self.random.between(1, 3),
        };
        let part = match in_part {
            true => self.random.pick(&[-15, -8, -2, -1, -1, 1, 1, 2, 8, 15]),
            false => 0,
        };
        (16 * blocks).saturating_add_signed(part)
    }

    /// Whether a RESERVE's size is a part of a block more or less than whole blocks: often where the
    /// last block or record could be reserved, seldom where many fragments are wanted.
    fn is_in_part(&mut self, outline: &Outline, most: u64) -> bool {
        let once_in = match self.mood {
            _ if most == 1 || !outline.limit_tries().is_empty() => 2,
            Mood::Reserving => 8,
            _ => 4,
        };
        self.random.once_in(once_in)
    }

    /// The last fragment more often than others.
    fn set_close_fragment(&mut self, outline: &Outline, cdb: &mut Cdb) {
        set_function(cdb, cdb::FRAGMENT);
        let count = outline.places.len() as u64;
        let number = match self.random.below(20) {
            _ if self.crowds && !self.random.once_in(6) => count,
            _ if self.mood == Mood::Fragmenting && self.random.once_in(2) => count,
            0 => 0,
            1 => count + 1,
            2 => 0xFF,
            3 => 0x100 + self.random.between(1, count),
            4..=9 => count,
            _ => self.random.between(1, count),
        };
        cdb::set_number(cdb, number as u16);
    }

    fn set_disc_information(&mut self, cdb: &mut Cdb) {
        cdb[0] = cdb::READ_DISC_INFORMATION;
        cdb[1] &= 0b1111_1000;
        if self.random.once_in(8) {
            cdb[1] |= self.random.between(1, 7) as u8;
        }
        let allocation = self.allocation(34);
        cdb::set_allocation(cdb, allocation);
    }

    fn set_fragment_information(&mut self, outline: &Outline, cdb: &mut Cdb) {
        cdb[0] = cdb::READ_FRAGMENT_INFORMATION;
        let by = self.random.weighted(&[10, 10, 1, 1]) as u8;
        cdb[1] = cdb[1] & 0b1111_1100 | by;
        let count = outline.places.len() as u64;
        let value = match self.random.below(10) {
            _ if by != 1 => self.boundary(outline),
            0 => 0,
            1 => count + 1,
            2 => 0xFF,
            3 => self.random.draw() << 8 | 0xFF,
            4 => self.random.draw() << 8 | count,
            5 => count,
            _ => self.random.between(1, count),
        };
        cdb::set_value(cdb, value as u32);
        let allocation = self.allocation(36);
        cdb::set_allocation(cdb, allocation);
    }

    /// Any bytes, a listed opcode now and then.
    fn set_junk(&mut self, cdb: &mut Cdb) {
        if self.random.once_in(4) {
            cdb[0] = self.random.pick(&cdb::OPCODES);
        }
    }

    /// An allocation length around the length of the reply.
    pub(crate) fn allocation(&mut self, whole: u16) -> u16 {
        match self.random.below(6) {
            0 => self.random.below(u64::from(whole) + 4) as u16,
            1 => whole - 1,
            2 => whole + 1,
            3 => self.random.draw() as u16,
            _ => whole,
        }
    }

    /// An address at or beside a boundary of the disc or of a fragment.
    fn boundary(&mut self, outline: &Outline) -> u64 {
        let place = self.place(outline, |_| true);
        let of_place = |boundary: fn(&Place) -> u64| place.as_ref().map_or(0, boundary);
        let base = match self.random.below(8) {
            0 => 0,
            1 => outline.sectors,
            2 => of_place(|place| place.first),
            3 => of_place(|place| place.end),
            4 => of_place(|place| place.recorded_end),
            5 => of_place(|place| place.next),
            6 => self.random.below(outline.sectors),
            _ if self.random.once_in(4) => self.random.draw() >> 32,
            _ => of_place(|place| place.end + 15),
        };
        let step = self.random.pick(&[-17, -16, -1, 0, 0, 0, 0, 1, 15, 16]);
        base.saturating_add_signed(step)
    }

    /// Any fragment of the wanted sort, the last one more often than others.
    fn place(&mut self, outline: &Outline, wanted: impl Fn(&Place) -> bool) -> Option<Place> {
        let count = outline.places.iter().filter(|place| wanted(place)).count();
        let drawn = match self.random.once_in(6) {
            true => count.saturating_sub(1),
            false => self.random.below(count as u64) as usize,
        };
        outline.places.iter().filter(|place| wanted(place)).nth(drawn).copied()
    }

    /// More room in the reply buffer than the reply needs.
    fn extra_room(&mut self) -> usize {
        match self.random.below(4) {
            0 => 0,
            1 => 1,
            _ => self.random.below(80) as usize,
        }
    }
}

fn set_function(cdb: &mut Cdb, function: u8) {
    cdb[0] = cdb::CLOSE;
    cdb[2] = cdb[2] & 0b1111_1000 | function;
}

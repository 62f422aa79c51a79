//! The state as an image of 32-bit words: capacity, finalized, key, ASC, ASCQ, pending count, its
//! fragment's number, then six words for each record.

use crate::answer::Accepted;
use crate::disc::{limit_with, Disc, Pending};
use crate::sound::rules_broken_by;
use crate::{Answer, Block, Fault, Fragment, Kind, Lent, Refusal, Sense, FRAGMENT_LIMIT};

const HEADER_WORDS: usize = 7;
const RECORD_WORDS: usize = 6;

/// The words of a state image.
pub const IMAGE_WORDS: usize = HEADER_WORDS + RECORD_WORDS * FRAGMENT_LIMIT;

/// Writes the image of a blank disc, or an all-zero one where the capacity is out of range. An
/// image of another length stays as it is. Gives 0 or the refusal's number.
pub fn blank(capacity: u32, image: &mut [u32]) -> u32 {
    let words: Option<&mut [u32; IMAGE_WORDS]> = image.try_into().ok();
    match (Disc::blank(capacity.into()), words) {
        (Ok(disc), Some(words)) => {
            disc.write_image(words);
            0
        }
        (Ok(_), None) => Refusal::UnsoundState.number(),
        (Err(refusal), words) => {
            if let Some(words) = words {
                words.fill(0);
            }
            refusal.number()
        }
    }
}

/// Answers one command on a state that comes as an image of any length and content.
pub fn command(image: &mut [u32], mut lent: Lent, fault: Option<Fault>) -> Answer {
    Answer::from(command_on_image(image, &mut lent, fault))
}

fn command_on_image(
    image: &mut [u32],
    lent: &mut Lent,
    fault: Option<Fault>,
) -> Result<Accepted, Refusal> {
    let cdb = lent.twelve_bytes()?;
    lent.check_lengths(image.first().map(|&word| word.into()))?;
    let words: &mut [u32; IMAGE_WORDS] = image.try_into().map_err(|_| Refusal::UnsoundState)?;
    let mut disc = Disc::from_image(words, fault)?;
    let result = disc.obey(&cdb, lent);
    if matches!(result, Ok(_) | Err(Refusal::Drive(_))) {
        disc.write_image(words);
    }
    result
}

impl Disc {
    /// The disc of an image, or L3. The capacity's range is not tested here.
    pub fn from_image(image: &[u32; IMAGE_WORDS], fault: Option<Fault>) -> Result<Disc, Refusal> {
        let words = Words::read(image);
        let full_list = limit_with(fault, Fault::FullListTooLow, Fault::FullListTooHigh);
        let mut broken = rules_broken_by(&words, full_list);
        if let Some(Fault::RuleUntested(rule)) = fault {
            broken = broken.without(rule);
        }
        if !broken.is_empty() {
            return Err(Refusal::UnsoundState);
        }
        let index = (words.pending_fragment() as usize).saturating_sub(1);
        let count = words.pending_count();
        Ok(Disc {
            capacity: words.capacity(),
            finalized: words.finalized() != 0,
            sense: words.sense().unwrap_or(Sense::NONE),
            pending: (count > 0).then_some(Pending { index, count }),
            fragments: words.used.into_iter().map(Fragment::from).collect(),
            fault,
        })
    }

    /// Writes the disc's image.
    pub fn write_image(&self, image: &mut [u32; IMAGE_WORDS]) {
        let pending =
            self.pending.map_or([0, 0], |pending| [pending.count as u32, pending.index as u32 + 1]);
        image.fill(0);
        image[0] = self.capacity as u32;
        image[1] = self.finalized.into();
        image[2] = self.sense.key.into();
        image[3] = self.sense.code.into();
        image[4] = self.sense.qualifier.into();
        image[5..HEADER_WORDS].copy_from_slice(&pending);
        let records = image[HEADER_WORDS..].chunks_exact_mut(RECORD_WORDS);
        for (record, fragment) in records.zip(&self.fragments) {
            record.copy_from_slice(&record_words(fragment));
        }
    }
}

fn record_words(fragment: &Fragment) -> [u32; RECORD_WORDS] {
    [
        fragment.session as u32,
        fragment.start.0 as u32,
        fragment.length as u32,
        fragment.recorded as u32,
        fragment.zero_filled as u32,
        fragment.kind as u32,
    ]
}

/// An image's words by name, sound or not. A record is used if it is not all zero.
pub(crate) struct Words<'a> {
    header: &'a [u32],
    pub used: Vec<Record>,
    /// Whether no unused record stands before a used one.
    pub used_come_first: bool,
}

impl<'a> Words<'a> {
    pub fn read(image: &'a [u32; IMAGE_WORDS]) -> Words<'a> {
        let (header, records) = image.split_at(HEADER_WORDS);
        let is_used = |words: &&[u32]| words.iter().any(|&word| word != 0);
        let leading = records.chunks_exact(RECORD_WORDS).take_while(is_used).count();
        let (leading, rest) = records.split_at(leading * RECORD_WORDS);
        let used_come_first = rest.iter().fold(0, |bits, word| bits | word) == 0;
        let strays = if used_come_first { &[] } else { rest };
        let used = leading
            .chunks_exact(RECORD_WORDS)
            .chain(strays.chunks_exact(RECORD_WORDS).filter(is_used))
            .map(Record::new)
            .collect();
        Words { header, used, used_come_first }
    }

    pub fn capacity(&self) -> u64 {
        self.header[0].into()
    }

    pub fn finalized(&self) -> u32 {
        self.header[1]
    }

    /// The sense, if it is one that a state can have.
    pub fn sense(&self) -> Option<Sense> {
        let found = &self.header[2..5];
        Sense::LISTED.into_iter().find(|sense| {
            let words = [sense.key, sense.code, sense.qualifier].map(u32::from);
            found == words
        })
    }

    pub fn pending_count(&self) -> u64 {
        self.header[5].into()
    }

    pub fn pending_fragment(&self) -> u64 {
        self.header[6].into()
    }
}

/// A record as it stands in an image. Sums of 64 bits cannot wrap.
pub(crate) struct Record {
    pub session: u64,
    pub start: u64,
    pub length: u64,
    pub recorded: u64,
    pub zero_filled: u64,
    pub kind: u64,
}

impl Record {
    fn new(words: &[u32]) -> Record {
        let word = |at: usize| u64::from(words[at]);
        Record {
            session: word(0),
            start: word(1),
            length: word(2),
            recorded: word(3),
            zero_filled: word(4),
            kind: word(5),
        }
    }

    pub fn end(&self) -> u64 {
        self.start + self.length
    }

    pub fn is_complete(&self) -> bool {
        self.recorded == self.length
    }

    pub fn is_tail(&self) -> bool {
        self.kind != 0 && !self.is_complete()
    }
}

impl From<Record> for Fragment {
    fn from(record: Record) -> Fragment {
        Fragment {
            session: record.session,
            start: Block(record.start),
            length: record.length,
            recorded: record.recorded,
            zero_filled: record.zero_filled,
            kind: if record.kind == 0 { Kind::Reserved } else { Kind::Appended },
        }
    }
}

//! A search by halving, for mistakes alone. The drive walks along its fragments, so that it has nothing
//! in common with a drive that halves; the mistakes that halving invites are made here, one at a time.

use crate::disc::{Disc, Fragment};
use crate::fault::FORMER_LIMIT;
use crate::{Address, Fault, FRAGMENT_LIMIT};
use std::ops::Range;

/// The steps that leave one of 160 records.
const STEPS: usize = 8;

/// What looks for the fragment of an address.
#[derive(Clone, Copy, Debug, PartialEq, Eq)]
pub enum Search {
    /// 52h by address.
    Report,
    Read,
    Write,
}

/// A mistake of a search by halving.
#[derive(Clone, Copy, Debug, PartialEq, Eq)]
pub enum Slip {
    /// It ends a step early: some records are never reached.
    StepTooFew,
    /// It has as many steps as the list's length halves to 1, each half rounded down: too few unless
    /// the length is a power of two.
    StepsRoundedDown,
    /// It begins with as many records as seven steps halve to one: those after them are never reached.
    SevenStepsOfRecords,
    /// The middle of two records is the first: the second is never reached.
    MiddleTooLow,
    /// It begins with the second record: the first is never reached.
    FirstLeftOut,
    /// It ends with the last record but one: the last of a full list is never reached.
    LastLeftOut,
    /// It ends with the limit of before, [`FORMER_LIMIT`].
    LimitOfBefore,
    /// An unused record is one that starts at 0: the search leaves the list.
    UnusedStartsAtZero,
    /// A fragment that starts at the address counts as one that starts above it.
    StartExcluded,
    /// The right half is taken without the record that was looked at.
    MiddleSkipped,
    /// The left half is taken without its last record.
    NeighbourSkipped,
    /// The end of the fragment found is not looked at.
    EndUntested,
    /// The end of the list's last fragment is not looked at.
    LastEndUntested,
    /// The sector after the fragment found counts as its own.
    EndIncluded,
    /// The end is that of the record at which the last step looked.
    EndOfLastLook,
    /// The end is that of the recorded blocks.
    EndOfRecorded,
}

impl Slip {
    /// Those on the way to the fragment.
    const OF_STARTS: [Slip; 11] = [
        Slip::StepTooFew,
        Slip::StepsRoundedDown,
        Slip::SevenStepsOfRecords,
        Slip::MiddleTooLow,
        Slip::FirstLeftOut,
        Slip::LastLeftOut,
        Slip::LimitOfBefore,
        Slip::UnusedStartsAtZero,
        Slip::StartExcluded,
        Slip::MiddleSkipped,
        Slip::NeighbourSkipped,
    ];

    /// Those about its end, which 52h alone asks for: READ and WRITE go by what is recorded.
    const OF_ENDS: [Slip; 5] = [
        Slip::EndUntested,
        Slip::LastEndUntested,
        Slip::EndIncluded,
        Slip::EndOfLastLook,
        Slip::EndOfRecorded,
    ];
}

/// Every mistake of every search.
pub(crate) fn faults() -> impl Iterator<Item = Fault> {
    let of_starts = |search| Slip::OF_STARTS.map(|slip| Fault::Halving(search, slip));
    let of_ends = Slip::OF_ENDS.map(|slip| Fault::Halving(Search::Report, slip));
    [Search::Report, Search::Read, Search::Write].into_iter().flat_map(of_starts).chain(of_ends)
}

impl Disc {
    /// The fragments among which READ or WRITE look for theirs: all of them, or the one to which
    /// halving with a mistake leads.
    pub(crate) fn candidates(&self, search: Search, address: Address) -> Range<usize> {
        let count = self.fragments.len();
        match self.mistaken(search) {
            Some(halving) => {
                let (place, _) = halving.place(address);
                place..count.min(place + 1)
            }
            None => 0..count,
        }
    }

    /// The halving of this search, if its mistake is switched on.
    pub(crate) fn mistaken(&self, search: Search) -> Option<Halving<'_>> {
        match self.fault {
            Some(Fault::Halving(of, slip)) if of == search => {
                Some(Halving { fragments: &self.fragments, slip: Some(slip) })
            }
            _ => None,
        }
    }
}

/// A search by halving over as many records as a list can have, those after the fragments unused.
pub(crate) struct Halving<'a> {
    fragments: &'a [Fragment],
    slip: Option<Slip>,
}

impl Halving<'_> {
    /// The fragment over whose blocks the address lies.
    pub(crate) fn find(&self, address: Address) -> Option<usize> {
        let (place, looked_at) = self.place(address);
        let fragment = self.fragments.get(place)?;
        let end = self.end_of(place);
        let is_before_end = match self.slip {
            Some(Slip::EndUntested) => true,
            Some(Slip::LastEndUntested) if place + 1 == self.fragments.len() => true,
            Some(Slip::EndIncluded) => address <= end,
            Some(Slip::EndOfLastLook) => address < self.end_of(looked_at),
            Some(Slip::EndOfRecorded) => address < fragment.first_unrecorded().first_sector(),
            _ => address < end,
        };
        is_before_end.then_some(place)
    }

    /// The last record that starts at the address or before it, and the one at which the last step
    /// looked. The first record always does, so that no step need look at it.
    fn place(&self, address: Address) -> (usize, usize) {
        let Range { mut start, mut end } = self.range();
        let mut middle = start;
        for _ in 0..self.steps() {
            if end - start < 2 {
                break;
            }
            middle = (start + end - self.one_if(Slip::MiddleTooLow)) / 2;
            if self.starts_by(middle, address) {
                start = middle + self.one_if(Slip::MiddleSkipped);
            } else {
                end = middle - self.one_if(Slip::NeighbourSkipped);
            }
        }
        (start, middle)
    }

    /// The most steps that it takes.
    fn steps(&self) -> usize {
        match self.slip {
            Some(Slip::StepTooFew) => STEPS - 1,
            Some(Slip::StepsRoundedDown) => self.fragments.len().ilog2() as usize,
            _ => STEPS,
        }
    }

    /// The records to begin with.
    fn range(&self) -> Range<usize> {
        match self.slip {
            Some(Slip::StepsRoundedDown) => 0..self.fragments.len(),
            Some(Slip::SevenStepsOfRecords) => 0..1 << (STEPS - 1),
            Some(Slip::FirstLeftOut) => 1..FRAGMENT_LIMIT,
            Some(Slip::LastLeftOut) => 0..FRAGMENT_LIMIT - 1,
            Some(Slip::LimitOfBefore) => 0..FORMER_LIMIT,
            _ => 0..FRAGMENT_LIMIT,
        }
    }

    /// Whether the record is a fragment's that starts at the address or before it.
    fn starts_by(&self, index: usize, address: Address) -> bool {
        match (self.fragments.get(index), self.slip) {
            (None, slip) => slip == Some(Slip::UnusedStartsAtZero),
            (Some(fragment), Some(Slip::StartExcluded)) => fragment.start.first_sector() < address,
            (Some(fragment), _) => fragment.start.first_sector() <= address,
        }
    }

    /// The sector after a record's last; an unused one ends at 0.
    fn end_of(&self, index: usize) -> Address {
        self.fragments.get(index).map_or(Address(0), |fragment| fragment.end().first_sector())
    }

    fn one_if(&self, slip: Slip) -> usize {
        usize::from(self.slip == Some(slip))
    }
}

#[cfg(test)]
mod tests {
    use super::{faults, Halving, Slip};
    use crate::disc::Disc;
    use crate::{Address, Block, Fault, Fragment, Kind, FRAGMENT_LIMIT};
    use std::collections::BTreeSet;

    /// A disc with so many fragments of two blocks, the first of them recorded; three to a session.
    fn disc(count: usize) -> Disc {
        let mut disc = Disc::blank(143_444).expect("a capacity");
        disc.fragments.clear();
        let mut start = Block(0);
        for index in 0..count {
            disc.fragments.push(Fragment {
                session: 1 + index as u64 / 3,
                start,
                length: 2,
                recorded: 1,
                zero_filled: 0,
                kind: Kind::Reserved,
            });
            start = start + if index % 3 == 2 { 130 } else { 3 };
        }
        disc
    }

    /// The addresses at and beside the edges of the list's fragments, and the last of 32 bits.
    fn addresses(disc: &Disc) -> BTreeSet<u64> {
        let edges = disc.fragments.iter().flat_map(|fragment| [fragment.start, fragment.end()]);
        let beside = |edge: Block| {
            let first = edge.first_sector().0;
            [first.saturating_sub(1), first, first + 1]
        };
        edges.flat_map(beside).chain([u32::MAX.into()]).collect()
    }

    /// Whether halving and walking give the same fragment of every list at every address.
    fn is_right(slip: Option<Slip>) -> bool {
        (1..=FRAGMENT_LIMIT).all(|count| {
            let disc = disc(count);
            let halving = Halving { fragments: &disc.fragments, slip };
            addresses(&disc)
                .into_iter()
                .map(Address)
                .all(|address| halving.find(address) == disc.fragment_at(address))
        })
    }

    /// Without a mistake halving is right: what a mistake changes is its own doing.
    #[test]
    fn halving_is_right_but_for_its_mistakes() {
        assert!(is_right(None));
        for fault in faults() {
            let Fault::Halving(_, slip) = fault else { panic!("{fault:?} is of halving") };
            assert!(!is_right(Some(slip)), "{slip:?}");
        }
    }

    /// How many places of a list are never reached.
    fn missed(slip: Slip, count: usize) -> usize {
        let disc = disc(count);
        let halving = Halving { fragments: &disc.fragments, slip: Some(slip) };
        let middle = |fragment: &Fragment| fragment.start.first_sector() + 5;
        let found = |(index, fragment)| halving.find(middle(fragment)) == Some(index);
        disc.fragments.iter().enumerate().filter(|&place| !found(place)).count()
    }

    /// A mistake that loses few places is the harder to find.
    #[test]
    fn some_mistakes_lose_few_places() {
        assert_eq!(missed(Slip::StepTooFew, FRAGMENT_LIMIT), FRAGMENT_LIMIT / 5);
        assert_eq!(missed(Slip::StepsRoundedDown, 3), 1);
        assert_eq!(missed(Slip::StepsRoundedDown, 64), 0);
        assert_eq!(missed(Slip::SevenStepsOfRecords, 128), 0);
        assert_eq!(missed(Slip::SevenStepsOfRecords, 129), 1);
        assert_eq!(missed(Slip::FirstLeftOut, FRAGMENT_LIMIT), 1);
        assert_eq!(missed(Slip::LastLeftOut, FRAGMENT_LIMIT), 1);
        assert_eq!(missed(Slip::LastLeftOut, FRAGMENT_LIMIT - 1), 0);
        assert_eq!(missed(Slip::StartExcluded, FRAGMENT_LIMIT), 0);
        assert_eq!(missed(Slip::UnusedStartsAtZero, FRAGMENT_LIMIT), 0);
    }
}

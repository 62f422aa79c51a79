//! What commands come, and how often.

/// What a stretch of commands is after.
#[derive(Clone, Copy, Debug, PartialEq, Eq)]
pub enum Mood {
    /// WRITEs that hop between fragments.
    Writing,
    /// Many reserved fragments.
    Reserving,
    /// Many closed fragments.
    Fragmenting,
    /// Many sessions.
    Closing,
    /// WRITEs that complete reserved fragments.
    Completing,
    /// WRITEs that fill the disc.
    Filling,
    /// READs and reports.
    Reading,
    /// Junk and wrong lengths.
    Hostile,
    /// Towards a finalized disc.
    Finishing,
}

impl Mood {
    pub const ALL: [Mood; 9] = [
        Mood::Writing,
        Mood::Reserving,
        Mood::Fragmenting,
        Mood::Closing,
        Mood::Completing,
        Mood::Filling,
        Mood::Reading,
        Mood::Hostile,
        Mood::Finishing,
    ];

    /// How often each of [`KINDS`] comes.
    pub fn weights(self) -> [u32; 14] {
        match self {
            Mood::Writing => [1, 1, 1, 4, 40, 4, 3, 3, 1, 0, 1, 1, 3, 1],
            Mood::Reserving => [1, 1, 1, 2, 6, 1, 40, 1, 1, 0, 1, 1, 3, 1],
            Mood::Fragmenting => [1, 1, 1, 2, 25, 2, 1, 25, 0, 0, 1, 1, 2, 1],
            Mood::Closing => [1, 1, 1, 2, 20, 2, 1, 3, 20, 0, 1, 1, 2, 1],
            Mood::Completing => [1, 1, 1, 2, 50, 1, 1, 3, 3, 0, 1, 1, 2, 1],
            Mood::Filling => [1, 1, 1, 2, 20, 3, 3, 3, 1, 0, 1, 1, 2, 1],
            Mood::Reading => [2, 2, 4, 30, 4, 1, 1, 1, 0, 0, 1, 8, 20, 1],
            Mood::Hostile => [2, 2, 2, 6, 6, 2, 4, 4, 1, 0, 2, 3, 6, 12],
            Mood::Finishing => [1, 1, 1, 3, 8, 3, 2, 8, 8, 12, 1, 3, 3, 1],
        }
    }

    /// A length of something is wrong once in so many requests, more often where much is lent.
    pub fn spoils_once_in(self) -> u64 {
        if self == Mood::Hostile {
            2
        } else {
            25
        }
    }
}

/// The kinds of requests.
#[derive(Clone, Copy, PartialEq, Eq)]
pub enum Kind {
    TestUnitReady,
    RequestSense,
    ReadCapacity,
    Read,
    Write,
    SynchronizeCache,
    Reserve,
    CloseFragment,
    CloseSession,
    Finalize,
    CloseOther,
    DiscInformation,
    FragmentInformation,
    Junk,
    /// No mood has a weight for these two: [`Generator::question`](crate::Generator::question) draws
    /// them.
    Inquiry,
    Configuration,
}

/// In the order of the weights.
pub const KINDS: [Kind; 14] = [
    Kind::TestUnitReady,
    Kind::RequestSense,
    Kind::ReadCapacity,
    Kind::Read,
    Kind::Write,
    Kind::SynchronizeCache,
    Kind::Reserve,
    Kind::CloseFragment,
    Kind::CloseSession,
    Kind::Finalize,
    Kind::CloseOther,
    Kind::DiscInformation,
    Kind::FragmentInformation,
    Kind::Junk,
];

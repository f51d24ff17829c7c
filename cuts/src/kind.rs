//! The two kinds of stores that are tried.

use oracle::random::Random;

/// What recovery does to a store that no cut has touched.
#[derive(Clone, Copy, PartialEq, Eq, Debug)]
pub enum Kind {
    /// Nothing: demand 3 itself.
    Settled,
    /// It erases parts of blobs: the demand's general form.
    Unsettled,
}

impl Kind {
    pub const ALL: [Kind; 2] = [Kind::Settled, Kind::Unsettled];

    pub fn name(self) -> &'static str {
        match self {
            Kind::Settled => "settled",
            Kind::Unsettled => "unsettled",
        }
    }

    /// A store depends on the seed, its kind and its number alone. Unsettled ones count from the other end, so that
    /// no two stores are drawn by the same numbers.
    pub fn random(self, seed: u64, number: u64) -> Random {
        match self {
            Kind::Settled => Random::of_case(seed, number),
            Kind::Unsettled => Random::of_case(seed, !number),
        }
    }
}

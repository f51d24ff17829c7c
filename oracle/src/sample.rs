//! The recorded sample: few and small cases that meet every branch.

use std::cmp::Reverse;
use std::collections::{BTreeMap, BTreeSet};

use crate::branch::Branch;
use crate::case_branches::branches_of;
use crate::generate::case_of;
use crate::mutants::caught_by;
use crate::named::{named_cases, slip_cases};
use crate::protocol::{Case, Operation};
use crate::random::Random;

/// How many generated cases an operation's sample is chosen from, and their seed.
const CANDIDATES: u64 = 100_000;
const SEED: u64 = 1;

/// How often some chosen cases are exchanged for others, and how many of them at a time.
const EXCHANGES: usize = 10_000;
const EXCHANGED: usize = 6;

/// 16 sectors. Document 01 wants one image of this length run, by recovery; longer than six sectors is else
/// too long for the sample.
const SIXTEEN_SECTORS: usize = 65_536;
const LONGEST_OTHER: usize = 24_576;

type Branches = BTreeSet<Branch>;

/// What a case is worth having for, a bit each: branches, and slips that it catches.
#[derive(Clone, Copy, Default, PartialEq, Eq, PartialOrd, Ord)]
struct Rows([u128; 4]);

impl Rows {
    fn of_branches(case: &Case) -> Rows {
        let mut rows = Rows::default();
        for branch in own_branches(case) {
            rows.0[branch as usize / 128] |= 1 << (branch as usize % 128);
        }
        rows
    }

    /// Recovery shows most slips, so its cases are chosen by them too.
    fn of_slips(case: &Case) -> Rows {
        let mut rows = Rows::default();
        if case.operation == Operation::Recover {
            caught_by(case).into_iter().for_each(|slip| rows.0[3] |= 1 << slip as u32);
        }
        rows
    }

    fn with(self, other: Rows) -> Rows {
        Rows(std::array::from_fn(|part| self.0[part] | other.0[part]))
    }

    fn without(self, other: Rows) -> Rows {
        Rows(std::array::from_fn(|part| self.0[part] & !other.0[part]))
    }

    fn count(self) -> usize {
        self.0.iter().map(|bits| bits.count_ones() as usize).sum()
    }
}

/// A generated case, without its bytes: its number is enough to make it again.
#[derive(Clone, Copy)]
struct Candidate {
    number: u64,
    length: usize,
    rows: Rows,
}

/// Of the branches that a case meets, those that belong to its operation.
pub fn own_branches(case: &Case) -> Branches {
    branches_of(case).into_iter().filter(|branch| branch.operation() == case.operation).collect()
}

fn candidates(operation: Operation) -> Vec<Candidate> {
    let candidate = |number| {
        let case = case_of(SEED, number, &[operation]);
        Candidate { number, length: case.image.len(), rows: Rows::of_branches(&case) }
    };
    (0..CANDIDATES).map(candidate).collect()
}

impl Candidate {
    fn with_slips(self, operation: Operation) -> Candidate {
        let slips = Rows::of_slips(&case_of(SEED, self.number, &[operation]));
        Candidate { rows: self.rows.with(slips), ..self }
    }
}

/// The shortest of those that meet the same new branches, the first among equals.
fn shortest(candidates: Vec<Candidate>, met: Rows) -> Vec<Candidate> {
    let mut shortest: BTreeMap<Rows, Candidate> = BTreeMap::new();
    for candidate in candidates {
        let kept = shortest.entry(candidate.rows.without(met)).or_insert(candidate);
        if candidate.length < kept.length {
            *kept = candidate;
        }
    }
    shortest.into_values().collect()
}

fn met_by(chosen: &[Candidate], met_before: Rows) -> Rows {
    chosen.iter().fold(met_before, |met, candidate| met.with(candidate.rows))
}

/// The case that meets the most new branches for its length; new ones count by their square, so that a case
/// which meets many at once comes before the shortest. `chance` weighs each by 8 to 12.
fn best(candidates: &[Candidate], met: Rows, chance: &mut Random) -> Option<Candidate> {
    let mut worth = |candidate: &Candidate| {
        let new = candidate.rows.without(met).count();
        let weight = if new > 0 { 8 + chance.below(5) } else { 0 };
        (1_000_000 * weight * new * new / (candidate.length + 1), Reverse(candidate.number))
    };
    let best = candidates.iter().max_by_key(|candidate| worth(candidate)).copied();
    best.filter(|candidate| candidate.rows.without(met).count() > 0)
}

/// Chooses from the candidates until they have no branch that was not met.
fn choose(chosen: &mut Vec<Candidate>, candidates: &[Candidate], met_before: Rows, chance: &mut Random) {
    let mut met = met_by(chosen, met_before);
    while let Some(candidate) = best(candidates, met, chance) {
        met = met.with(candidate.rows);
        chosen.push(candidate);
    }
}

/// Drops each case that the others make needless, the longest first.
fn drop_needless(chosen: &mut Vec<Candidate>, met_before: Rows) {
    chosen.sort_by_key(|candidate| (Reverse(candidate.length), candidate.number));
    let mut place = 0;
    while place < chosen.len() {
        let candidate = chosen.remove(place);
        if candidate.rows.without(met_by(chosen, met_before)).count() > 0 {
            chosen.insert(place, candidate);
            place += 1;
        }
    }
}

/// Chooses, and again and again exchanges some for others, where that makes the whole no longer.
fn choose_short(candidates: &[Candidate], met_before: Rows) -> Vec<Candidate> {
    let length = |chosen: &[Candidate]| chosen.iter().map(|candidate| candidate.length).sum::<usize>();
    let mut chance = Random::of_case(SEED, 0);
    let mut chosen = Vec::new();
    choose(&mut chosen, candidates, met_before, &mut chance);
    for _ in 0..EXCHANGES {
        let mut other = chosen.clone();
        chance.shuffle(&mut other);
        other.truncate(chosen.len().saturating_sub(EXCHANGED));
        choose(&mut other, candidates, met_before, &mut chance);
        drop_needless(&mut other, met_before);
        if length(&other) <= length(&chosen) {
            chosen = other;
        }
    }
    chosen
}

/// The named cases of an operation, recovery's case of 16 sectors, the chosen ones, then those for slips.
pub fn sample(operation: Operation) -> Vec<Case> {
    let (mut cases, for_slips) = (named_cases(operation), slip_cases(operation));
    let with = |met: Rows, rows: Rows| met.with(rows);
    let slips = cases.iter().chain(&for_slips).map(Rows::of_slips).fold(Rows::default(), with);
    let mut met = cases.iter().map(Rows::of_branches).fold(slips, with);
    let (mut long, short): (Vec<_>, Vec<_>) =
        candidates(operation).into_iter().partition(|candidate| candidate.length > LONGEST_OTHER);
    long.retain(|candidate| operation == Operation::Recover && candidate.length == SIXTEEN_SECTORS);
    let longest =
        best(&long, met, &mut Random::of_case(SEED, 0)).map(|longest| longest.with_slips(operation));
    longest.iter().for_each(|candidate| met = met.with(candidate.rows));
    let short: Vec<Candidate> =
        shortest(short, met).into_iter().map(|candidate| candidate.with_slips(operation)).collect();
    let chosen = choose_short(&short, met);
    let numbers = longest.iter().chain(&chosen).map(|candidate| candidate.number);
    cases.extend(numbers.map(|number| case_of(SEED, number, &[operation])));
    cases.extend(for_slips);
    cases
}

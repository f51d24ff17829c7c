//! The recorded sample: cases of the class with document 01's answers, each confirmed by a run of the crate.

use std::cmp::Reverse;
use std::collections::BTreeSet;
use std::fs;
use std::io;
use std::path::Path;

use model::branch::Branch;
use model::protocol::{answer, Case, Operation};
use model::sector::SECTOR_BYTES;

use crate::compare::{agree, run_beside};
use crate::draw::{case_of, Drawn};

/// Bytes of a case before its image.
const HEAD_BYTES: usize = 17;
/// Bytes of input that one operation's list may have: nine cases of two sectors.
const MOST_BYTES: usize = 9 * (HEAD_BYTES + 2 * SECTOR_BYTES);
const DRAWN: u64 = 8_000;

/// Draws cases of at most three sectors and takes, again and again, the one that meets the most new branches for
/// its length; where none is new, the first of the shortest, until the room is used.
fn choose(operation: Operation, seed: u64) -> (Vec<Case>, BTreeSet<Branch>) {
    let short = |drawn: &Drawn| drawn.case.image.len() <= 3 * SECTOR_BYTES && drawn.outcome.steps > 0;
    let mut left: Vec<_> =
        (0..DRAWN).map(|number| case_of(operation, seed, number)).filter(short).collect();
    let (mut chosen, mut met, mut bytes) = (Vec::new(), BTreeSet::<Branch>::new(), 0);
    while let Some(place) = best(&left, &met) {
        let Drawn { case, outcome, .. } = left.remove(place);
        bytes += HEAD_BYTES + case.image.len();
        left.retain(|drawn| bytes + HEAD_BYTES + drawn.case.image.len() <= MOST_BYTES);
        let of_crate = run_beside(&case, &outcome, false);
        let alike = of_crate.is_some_and(|of_crate| agree(&outcome, &of_crate));
        assert!(alike, "a case of the class on which the crate differs");
        met.extend(outcome.branches);
        chosen.push(case);
    }
    (chosen, met)
}

fn best(left: &[Drawn], met: &BTreeSet<Branch>) -> Option<usize> {
    let worth = |place: usize| {
        let Drawn { case, outcome, .. } = &left[place];
        let new = outcome.branches.difference(met).count();
        (new * 16 * SECTOR_BYTES / case.image.len(), Reverse((case.image.len(), place)))
    };
    (0..left.len()).max_by_key(|place| worth(*place))
}

/// Writes recover.in and .out, reclaim.in and .out into a folder: answers by document 01.
pub fn record(folder: &str, seed: u64) -> io::Result<()> {
    for (operation, name) in [(Operation::Recover, "recover"), (Operation::Reclaim, "reclaim")] {
        let (cases, met) = choose(operation, seed);
        let (mut input, mut output) = (Vec::new(), Vec::new());
        for case in &cases {
            case.encode(&mut input);
            output.extend(answer(case));
        }
        println!(
            "{name}: {} cases, {} bytes of input, {} branches met",
            cases.len(),
            input.len(),
            met.len()
        );
        fs::write(Path::new(folder).join(format!("{name}.in")), input)?;
        fs::write(Path::new(folder).join(format!("{name}.out")), output)?;
    }
    Ok(())
}

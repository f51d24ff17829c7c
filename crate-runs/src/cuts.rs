//! The power goes in a reclaim, document 01's or the crate's, after any step; then both recover what it left.

use std::collections::BTreeMap;

use model::protocol::{Case, Operation};
use model::random::Random;
use model::sector::SECTOR_BYTES;

use crate::class::{in_class, model_outcome, recovers_alike};
use crate::crate_call::{run, End};
use crate::draw::draw_store;
use crate::words;

/// A store of the class that reclaim makes steps on.
fn draw_reclaim(random: &mut Random) -> Case {
    loop {
        let image = draw_store(random, Operation::Reclaim);
        let case = Case { operation: Operation::Reclaim, allowance: u64::MAX, records: 0, image };
        if in_class(&case).is_ok_and(|outcome| outcome.steps > 0) {
            return case;
        }
    }
}

/// What a reclaim left, as a case of recovery.
fn after_cut(random: &mut Random) -> Case {
    let reclaim = draw_reclaim(random);
    let list = model_outcome(&reclaim).list;
    let image = if random.once_in(2) {
        let allowance = random.below(words::ends(&list).len()) as u64;
        run(Operation::Reclaim, &reclaim.image, allowance, false).image
    } else {
        let allowance = random.below(list.len() + 1) as u64;
        model_outcome(&Case { allowance, ..reclaim }).image
    };
    let records = (image.len() / SECTOR_BYTES) as u32;
    Case { operation: Operation::Recover, allowance: u64::MAX, records, image }
}

/// The answer: whether both recoveries leave the same image in all cases of the class.
pub fn compare(total: u64, seed: u64) -> bool {
    let (mut alike, mut same_steps) = (0, 0);
    let mut outside = BTreeMap::new();
    for place in 0..total {
        let case = after_cut(&mut Random::of_case(seed, place));
        let outcome = match recovers_alike(&case) {
            Ok(outcome) => outcome,
            Err(reason) => {
                *outside.entry(reason).or_insert(0) += 1;
                continue;
            }
        };
        let of_crate = run(Operation::Recover, &case.image, u64::MAX, false);
        if of_crate.end != End::Done || of_crate.image != outcome.image {
            println!("seed {seed}, case {place}: the images differ");
            return false;
        }
        alike += 1;
        same_steps += u64::from(words::count(&outcome.list, outcome.steps) == Some(of_crate.steps.len()));
    }
    println!("reclaims cut after any step, then recovered, seed {seed}: {alike} of {alike} same image,");
    println!("  {same_steps} by the same number of steps, marks counted by words; {} of {total} outside the class:", total - alike);
    outside.iter().for_each(|(reason, count)| println!("  {count:>6} {reason}"));
    true
}

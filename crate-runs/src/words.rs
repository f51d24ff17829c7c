//! The crate marks an item by the words that cover it; document 02, No. 4, marks one entry a step. So the model's marks of one
//! copy or erasure in one word are one step of the crate, and a stop among them is none that the crate can make.

use model::protocol::Case;
use model::steps::{Outcome, Step, TaggedStep};

/// Whether the crate makes both in one step: marks of one item in one word. Marks of two items never are, nor is the
/// state Full, which is no mark of an entry.
fn in_one_step(last: &TaggedStep, next: &TaggedStep) -> bool {
    last.marks_same_item(next) && last.marked_word() == next.marked_word()
}

/// After how many of the model's steps the crate has made 0, 1, 2 and so on of its own. The last is the whole list.
pub fn ends(list: &[TaggedStep]) -> Vec<usize> {
    let inside =
        |place: &usize| *place > 0 && *place < list.len() && in_one_step(&list[place - 1], &list[*place]);
    (0..=list.len()).filter(|place| !inside(place)).collect()
}

/// So many of the model's steps in the crate's count; None where they end inside a word of an item's marks.
pub fn count(list: &[TaggedStep], steps: usize) -> Option<usize> {
    ends(list).binary_search(&steps).ok()
}

/// The model's list, of each step of the crate's the last.
pub fn by_words(list: &[TaggedStep]) -> Vec<Step> {
    ends(list).into_iter().filter_map(|end| Some(list[end.checked_sub(1)?].step)).collect()
}

/// The allowance with which the crate is to come as far as the model, and with as much to spare. None where the model
/// stops inside a word of an item's marks.
pub fn allowance(case: &Case, outcome: &Outcome) -> Option<u64> {
    let spare = case.allowance - outcome.steps as u64;
    Some(count(&outcome.list, outcome.steps)? as u64 + spare)
}

#[cfg(test)]
mod tests {
    use model::generate::case_of;
    use model::protocol::Operation;
    use model::slip::{with_slip, Slip};

    use super::*;
    use crate::class::model_outcome;

    /// Counted by words a list is as long as by document 01's covering words: it saves the steps that the model saves
    /// with copies marked so, and those that it saves with erasures marked so.
    #[test]
    fn by_words_is_by_covering_words() {
        for number in 0..4000 {
            let drawn = case_of(1, number, &[Operation::Recover, Operation::Reclaim]);
            let case = Case { allowance: u64::MAX, ..drawn };
            let list = model_outcome(&case).list;
            let saved = |slip| list.len() - with_slip(slip, || model_outcome(&case)).list.len();
            let all_saved = saved(Slip::CopyByWords) + saved(Slip::ErasureByWords);
            assert_eq!(by_words(&list).len(), list.len() - all_saved);
        }
    }

    /// Each stop that is at an end of the crate's steps has a count, and no other has.
    #[test]
    fn stops_have_a_count_at_ends_alone() {
        for number in 0..400 {
            let case = case_of(1, number, &[Operation::Reclaim]);
            let list = model_outcome(&case).list;
            let counted = (0..=list.len()).filter_map(|steps| count(&list, steps));
            assert!(counted.eq(0..=by_words(&list).len()));
        }
    }
}

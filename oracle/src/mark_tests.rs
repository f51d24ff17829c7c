//! Document 02, No. 4: "Mark entry states one entry a step, ascending, and erase them one a step, descending, each
//! clearing only that entry's own bits."

use crate::generate::case_of;
use crate::named::{chunk_to_erase, item_to_copy};
use crate::protocol::{Case, Operation};
use crate::reclaim::reclaim;
use crate::recover::recover;
use crate::sector::{entry_state, EntryState};
use crate::slip::{with_slip, Slip};
use crate::steps::{sector_of, Outcome, Step, TaggedStep, PAIRS_OF_WORD};

fn states(sector: &[u8]) -> Vec<EntryState> {
    (0..126).map(|entry| entry_state(sector, entry)).collect()
}

/// Mark Freeing, eight words of the header, 17 entries of eight words; then each step marks the next entry, the
/// header first.
#[test]
fn a_copy_is_marked_upwards() {
    let before = 1 + 8 + 17 * 8;
    for marked in 0..=17 {
        let outcome = reclaim(&item_to_copy(), before + marked as u64);
        let states = states(sector_of(&outcome.image, 1));
        assert!(states[..marked].iter().all(|state| *state == EntryState::Written));
        assert!(states[marked..].iter().all(|state| *state == EntryState::Empty));
    }
    assert_eq!(reclaim(&item_to_copy(), u64::MAX).steps, before as usize + 17 + 1);
}

/// Entries 10 to 29, between numbers: each step erases the entry before the last one, the header at the end.
#[test]
fn an_erasure_goes_downwards() {
    let beside = |states: &[EntryState]| states.iter().all(|state| *state == EntryState::Written);
    for erased in 0..=20 {
        let outcome = recover(&chunk_to_erase(), erased as u64, &mut [None; 2]);
        let states = states(sector_of(&outcome.image, 0));
        assert!(beside(&states[..30 - erased]) && beside(&states[30..32]));
        assert!(states[30 - erased..30].iter().all(|state| *state == EntryState::Erased));
    }
    assert_eq!(recover(&chunk_to_erase(), u64::MAX, &mut [None; 2]).steps, 20);
}

/// The entry that a mark is of, and its state. It has one pair that is not all ones.
fn entry_of(mark: &TaggedStep) -> (usize, u32) {
    let Step::Program { word, value, .. } = mark.step else { panic!("a mark programs a word") };
    let pair = (!value).trailing_zeros() as usize / 2;
    let bits = value >> (2 * pair) & 3;
    assert_eq!(value, !(3 << (2 * pair)) | bits << (2 * pair));
    (PAIRS_OF_WORD * (word - 8) + pair, bits)
}

/// Each mark is of one entry, Written or Erased; those of an item follow each other, up by one where they are
/// Written and down by one where they are Erased.
#[test]
fn marks_follow_each_other() {
    for number in 0..2000 {
        let list = outcome_of(&case_of(1, number, &[Operation::Recover, Operation::Reclaim])).list;
        let marks: Vec<_> = list.iter().map(|step| step.marked_word().map(|_| entry_of(step))).collect();
        assert!(marks.iter().flatten().all(|(_, bits)| [0, 2].contains(bits)));
        for place in (1..list.len()).filter(|place| list[place - 1].marks_same_item(&list[*place])) {
            let ((last, bits), (next, _)) = (marks[place - 1].unwrap(), marks[place].unwrap());
            assert_eq!(next, if bits == 2 { last + 1 } else { last - 1 });
        }
    }
}

fn outcome_of(case: &Case) -> Outcome {
    match case.operation {
        Operation::Recover => recover(&case.image, u64::MAX, &mut [None; 16]),
        _ => reclaim(&case.image, u64::MAX),
    }
}

/// Beside covering words a list is never shorter and leaves the same image. (It does not always grow: an item of
/// one entry takes the same step.)
#[test]
fn never_shorter_and_the_same_image() {
    let mut unlike = 0;
    for number in 0..2000 {
        let case = case_of(1, number, &[Operation::Recover, Operation::Reclaim]);
        let by_entries = outcome_of(&case);
        for slip in [Slip::CopyByWords, Slip::ErasureByWords] {
            let by_words = with_slip(slip, || outcome_of(&case));
            assert!(by_words.image == by_entries.image && by_words.steps <= by_entries.steps);
            unlike += usize::from(by_words.steps < by_entries.steps);
        }
    }
    assert!(unlike > 0);
}

//! The model as a stand-in for the library, and mutants of it: slips that the check has to see.

use oracle::blobs::{blobs, versions};
use oracle::finish::is_copy;
use oracle::items::items;
use oracle::reclaim::reclaim;
use oracle::recover::recover;
use oracle::scan::{found, scan, Lists};
use oracle::sector::{entry_state, EntryState, State, ENTRIES};
use oracle::slip::{with_slip, Slip};
use oracle::steps::{apply, call, Outcome, Run, Stage, Step, TaggedStep};

use crate::calls::{Answer, Call, Calls, ENDED, STOPPED};

/// What a call's rules give for an image: a result number for the end or a refusal, and the steps.
#[derive(Clone)]
struct Listed {
    result: u8,
    steps: Vec<Step>,
}

impl From<Outcome> for Listed {
    fn from(outcome: Outcome) -> Listed {
        let steps = outcome.list.into_iter().map(|tagged| tagged.step).collect();
        Listed { result: outcome.result, steps }
    }
}

type Rules = fn(&[u8]) -> Listed;

/// Calls from lists of steps. The last list is kept: a trial cuts one call on one image at each of its steps.
pub struct StandIn {
    reclaim: Rules,
    recover: Rules,
    last: Option<(Call, Vec<u8>, Listed)>,
}

impl StandIn {
    fn new(reclaim: Rules, recover: Rules) -> StandIn {
        StandIn { reclaim, recover, last: None }
    }

    fn listed(&mut self, call: Call, image: &[u8]) -> &Listed {
        let kept = self.last.as_ref().is_some_and(|(made, on, _)| *made == call && on == image);
        if !kept {
            let rules = if call == Call::Reclaim { self.reclaim } else { self.recover };
            self.last = Some((call, image.to_vec(), rules(image)));
        }
        &self.last.as_ref().expect("set above").2
    }
}

impl Calls for StandIn {
    fn make(&mut self, call: Call, image: &mut [u8], allowance: u64) -> Answer {
        let Listed { result, steps } = self.listed(call, image);
        let made = steps.len().min(usize::try_from(allowance).unwrap_or(usize::MAX));
        steps[..made].iter().for_each(|step| apply(image, *step));
        let number = if *result == ENDED && made < steps.len() { STOPPED } else { *result };
        Answer { number, steps: made as u64 }
    }
}

fn model_reclaim(image: &[u8]) -> Listed {
    reclaim(image, u64::MAX).into()
}

fn model_recover(image: &[u8]) -> Listed {
    recover(image, u64::MAX, &mut [None; 16]).into()
}

/// Mutant: the source is erased before the copy's last step.
fn reclaim_erases_early(image: &[u8]) -> Listed {
    let mut listed = model_reclaim(image);
    if let [.., last_of_copy, erasure] = &mut listed.steps[..] {
        std::mem::swap(last_of_copy, erasure);
    }
    listed
}

/// Mutant: a copy's entry states are marked from the highest entry down.
fn reclaim_marks_downwards(image: &[u8]) -> Listed {
    let mut listed = model_reclaim(image);
    let marks = |step: &Step| matches!(step, Step::Program { word: 8..=15, .. });
    for marked in listed.steps.chunk_by_mut(|one, next| marks(one) == marks(next)) {
        if marks(&marked[0]) {
            marked.reverse();
        }
    }
    listed
}

/// Document 01's covering words, as before No. 4 of document 02: marks of one item in one word are one step.
fn by_words(outcome: Outcome) -> Listed {
    let in_one_step = |one: &TaggedStep, next: &TaggedStep| {
        one.marks_same_item(next) && one.marked_word() == next.marked_word()
    };
    let steps = outcome.list.chunk_by(in_one_step).map(joined).collect();
    Listed { result: outcome.result, steps }
}

/// One step that clears the bits that these clear, of one word each.
fn joined(marks: &[TaggedStep]) -> Step {
    let values = marks.iter().filter_map(|mark| match mark.step {
        Step::Program { value, .. } => Some(value),
        Step::Erase { .. } => None,
    });
    let all = values.fold(u32::MAX, |all, value| all & value);
    match marks[0].step {
        Step::Program { sector, word, .. } => Step::Program { sector, word, value: all },
        erase => erase,
    }
}

/// Mutant: reclaim marks a copy by the words that cover its items.
fn reclaim_marks_by_words(image: &[u8]) -> Listed {
    by_words(reclaim(image, u64::MAX))
}

/// Mutant: recovery marks copies and erasures by the words that cover them.
fn recover_marks_by_words(image: &[u8]) -> Listed {
    by_words(recover(image, u64::MAX, &mut [None; 16]))
}

/// The rules before recovery's own, and then those on the image that they left.
fn before_recovery(image: &[u8], rules: impl FnOnce(&mut Run)) -> Listed {
    let first = call(image, u64::MAX, Stage::ActiveOrder, |run| {
        rules(run);
        Ok(())
    });
    let rest = model_recover(&first.image);
    let mut listed = Listed::from(first);
    listed.steps.extend(rest.steps);
    Listed { result: rest.result, ..listed }
}

/// Mutant: blobs are judged before the finish stage.
fn recover_judges_blobs_first(image: &[u8]) -> Listed {
    before_recovery(image, |run| {
        let found = found(&run.image, &scan(&run.image).pages);
        blobs(run, &found);
    })
}

/// Mutant: a partial copy is resumed in place, from its first Empty entry on.
fn recover_resumes(image: &[u8]) -> Listed {
    before_recovery(image, |run| {
        if let Some((source, copy)) = source_and_copy(run, &scan(image)) {
            resume(run, source, copy);
        }
    })
}

/// The sectors of a Freeing page and of an Active page that is a copy of it.
fn source_and_copy(run: &Run, lists: &Lists) -> Option<(usize, usize)> {
    let first = |state| lists.pages.iter().find(|page| page.state == state).map(|page| page.sector);
    let (source, copy) = (first(State::Freeing)?, first(State::Active)?);
    is_copy(&items(run.sector(copy)), &items(run.sector(source))).then_some((source, copy))
}

fn resume(run: &mut Run, source: usize, copy: usize) {
    let there = items(run.sector(copy));
    let empty = |entry: &usize| entry_state(run.sector(copy), *entry) == EntryState::Empty;
    let mut next = (0..ENTRIES).find(empty).unwrap_or(ENTRIES);
    for item in items(run.sector(source)) {
        let is_there = there.iter().any(|copied| copied.header == item.header);
        if !is_there && next + item.span() <= ENTRIES {
            run.copy_item(source, &item, copy, next);
            next += item.span();
        }
    }
    run.erase(source);
}

/// Mutant: an erasure marks its entry states from the lowest entry up, so that the header goes first.
fn recover_erases_upwards(image: &[u8]) -> Listed {
    with_slip(Slip::ErasureStatesAscending, || model_recover(image))
}

/// Recovery's steps up to the end of the finish stage, and on the image that they left the rules before its own.
fn after_finish(image: &[u8], rules: impl FnOnce(&mut Run)) -> Listed {
    let finishing = |stage| matches!(stage, Stage::ActiveOrder | Stage::Finish { .. });
    let list = recover(image, u64::MAX, &mut [None; 16]).list;
    let mut steps: Vec<Step> =
        list.iter().filter(|tagged| finishing(tagged.stage)).map(|tagged| tagged.step).collect();
    let mut finished = image.to_vec();
    steps.iter().for_each(|step| apply(&mut finished, *step));
    let rest = before_recovery(&finished, rules);
    steps.extend(rest.steps);
    Listed { steps, ..rest }
}

/// Mutant: of an unsound version the chunks are erased first and then the index.
fn recover_erases_chunks_first(image: &[u8]) -> Listed {
    after_finish(image, |run| {
        let found = found(&run.image, &scan(&run.image).pages);
        for version in versions(&found).values().filter(|version| !version.sound()) {
            for part in version.chunks.iter().copied().chain(version.index()) {
                run.erase_entries(part.sector, part.item.entry, part.item.span());
            }
        }
    })
}

/// Mutant: versions are judged by count and size alone, as before No. 2 of document 02: those stay whose chunk indices
/// alone are wrong.
fn recover_counts_and_sums(image: &[u8]) -> Listed {
    with_slip(Slip::CountAndSizeAlone, || model_recover(image))
}

/// The names under which they can be run, the model first; the last three mutants go wrong on unsettled stores alone.
pub const NAMES: [&str; 10] = [
    "model",
    "early-erasure",
    "downward-marks",
    "reclaim-by-words",
    "recovery-by-words",
    "blobs-first",
    "resumed-copy",
    "upward-erasure",
    "chunks-first",
    "count-and-size",
];

pub fn stand_in(name: &str) -> Option<StandIn> {
    let (reclaim, recover): (Rules, Rules) = match name {
        "model" => (model_reclaim, model_recover),
        "early-erasure" => (reclaim_erases_early, model_recover),
        "downward-marks" => (reclaim_marks_downwards, model_recover),
        "reclaim-by-words" => (reclaim_marks_by_words, model_recover),
        "recovery-by-words" => (model_reclaim, recover_marks_by_words),
        "blobs-first" => (model_reclaim, recover_judges_blobs_first),
        "resumed-copy" => (model_reclaim, recover_resumes),
        "upward-erasure" => (model_reclaim, recover_erases_upwards),
        "chunks-first" => (model_reclaim, recover_erases_chunks_first),
        "count-and-size" => (model_reclaim, recover_counts_and_sums),
        _ => return None,
    };
    Some(StandIn::new(reclaim, recover))
}

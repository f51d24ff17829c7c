//! Recovery, stage 2.

use crate::branch::Branch;
use crate::items::{items, Item};
use crate::notes;
use crate::other_way;
use crate::scan::{greatest, Lists, Page};
use crate::sector::{state, State};
use crate::slip::{slipped, Slip};
use crate::steps::{Run, Stage};

fn compared(item: &&Item) -> bool {
    item.namespace() != 0 || !slipped(Slip::Namespace0NotCompared)
}

/// "when each item header on it equals, in all 32 bytes, some item header on the source"
pub fn is_copy(on_active: &[Item], on_source: &[Item]) -> bool {
    if slipped(Slip::ActiveWithoutItemsKept) && on_active.is_empty() {
        return false;
    }
    let on_source_too = |copy: &Item| on_source.iter().any(|original| original.header == copy.header);
    on_active.iter().filter(compared).all(on_source_too)
}

/// "the newest page (greatest sequence, last among equals)": the last greatest is what max_by_key gives.
fn newest_page(pages: &[Page]) -> Option<Page> {
    pages.iter().max_by_key(|page| page.sequence).copied()
}

/// "holds an item of the same namespace, key and chunk index for each source item"
pub fn holds_each(on_page: &[Item], on_source: &[Item]) -> bool {
    let name = |item: &Item| (item.namespace(), item.key(), item.chunk_index());
    on_source.iter().filter(compared).all(|source| on_page.iter().any(|held| name(held) == name(source)))
}

/// "when the newest page [..] is newer than the source and holds an item [..] for each source item"
pub fn newest_has_it_all(run: &Run, pages: &[Page], source: &Page) -> bool {
    newest_page(pages).is_some_and(|newest| {
        let on_newest = items(run.sector(newest.sector));
        let equal_too = slipped(Slip::EqualSequenceIsNewer) && newest.sequence == source.sequence;
        let newer = newest.sequence > source.sequence || equal_too;
        newer && holds_each(&on_newest, &items(run.sector(source.sector)))
    })
}

/// "If there is an Active page, the first: when each item header on it equals [..] some item header on the
/// source, it is taken out the same way and erased." The answer: the erased copy.
fn judge_active(run: &mut Run, lists: &mut Lists, active: usize, source: &Page) -> Option<Page> {
    let on_active = items(run.sector(lists.pages[active].sector));
    let on_source = items(run.sector(source.sector));
    notes::active_beside_source(run, &lists.pages, &on_active, &on_source);
    if !is_copy(&on_active, &on_source) {
        return None;
    }
    let copy = lists.pages.swap_remove(active);
    notes::copy_to_erase(run, lists, active, &copy, source);
    if slipped(Slip::CopyErasureNamesCopy) {
        run.stage = Stage::Finish { source: copy.sector };
    }
    run.erase(copy.sector);
    run.stage = Stage::Finish { source: source.sector };
    join_free(lists, copy.sector);
    Some(copy)
}

/// "an erased sector joins at the end" of the free list.
fn join_free(lists: &mut Lists, sector: usize) {
    lists.free.push(sector);
    if slipped(Slip::ErasedJoinsInOrder) {
        lists.free.sort();
    }
}

/// Of the free list "the last is taken first".
fn take_free(lists: &mut Lists, erased_copy: Option<Page>) -> Option<usize> {
    if slipped(Slip::NoFreeJudgedBeforeErasure) && erased_copy.is_some() && lists.free.len() == 1 {
        return None;
    }
    if slipped(Slip::FinishTakesFirstFree) && !lists.free.is_empty() {
        return Some(lists.free.remove(0));
    }
    lists.free.pop()
}

/// "Otherwise initialise a free sector with sequence one above the greatest among the list and the source,
/// copy the source's items in walk order, append the target, erase the source."
fn copy_afresh(run: &mut Run, lists: &mut Lists, source: Page, erased_copy: Option<Page>, target: usize) {
    let counts_too = erased_copy.filter(|_| slipped(Slip::ErasedCopyCounts));
    let pages = lists.pages.iter().chain([&source]).chain(&counts_too);
    // Result 6 was judged before: there is a sequence above the greatest.
    let sequence = greatest(pages).expect("the source") + 1;
    run.initialise(target, sequence);
    notes::copied_afresh(run, lists, &source, target);
    run.copy_items(source.sector, target);
    let state = state(run.sector(target));
    lists.pages.push(Page { sector: target, state, sequence });
    notes::target_appended(run, &lists.pages);
    erase_source(run, lists, source);
}

pub fn erase_source(run: &mut Run, lists: &mut Lists, source: Page) {
    notes::source_to_erase(run, &lists.pages);
    run.erase(source.sector);
    join_free(lists, source.sector);
}

/// "If there is an Active page, the first": its place in the list.
fn active_place(run: &Run, pages: &[Page], source: &Page) -> Option<usize> {
    if slipped(Slip::EveryActiveJudged) {
        return other_way::any_copy(run, pages, source);
    }
    pages.iter().position(|page| page.state == State::Active)
}

/// "Take out the first Freeing page (the last of the list takes its place)." That is swap_remove.
fn round(run: &mut Run, lists: &mut Lists, freeing: usize) {
    notes::source_taken(run, &lists.pages, freeing);
    let source = lists.pages.swap_remove(freeing);
    run.stage = Stage::Finish { source: source.sector };
    if slipped(Slip::PartialCopyResumed) && other_way::resume_copy(run, lists, &source) {
        return;
    }
    let active = active_place(run, &lists.pages, &source);
    let erased_copy = active.and_then(|active| judge_active(run, lists, active, &source));
    // "If there was no Active page": judged before the copy was erased.
    let mut was_active = active;
    if slipped(Slip::NewestAskedAfterCopy) {
        was_active = active_place(run, &lists.pages, &source);
    }
    if was_active.is_none() {
        notes::newest_beside_source(run, &lists.pages, &source);
        if newest_has_it_all(run, &lists.pages, &source) {
            return erase_source(run, lists, source);
        }
    }
    match take_free(lists, erased_copy) {
        Some(target) => copy_afresh(run, lists, source, erased_copy, target),
        // "With no free sector the source goes to the front and counts as Full for the rest of this stage,
        // its flash still Freeing."
        None => {
            run.met(Branch::FinishNoFreeSector);
            lists.pages.insert(0, Page { state: State::Full, ..source });
        }
    }
}

/// "Repeat until no page counts as Freeing". The answer: whether there was one.
pub fn finish(run: &mut Run, lists: &mut Lists) -> bool {
    let mut rounds = 0;
    while let Some(freeing) = lists.pages.iter().position(|page| page.state == State::Freeing) {
        round(run, lists, freeing);
        rounds += 1;
        if slipped(Slip::ScanBetweenRounds) {
            other_way::scan_again(run, lists);
        }
    }
    run.met(match rounds {
        0 => Branch::FinishNoFreeing,
        1 => Branch::FinishOneRound,
        _ => Branch::FinishSecondRound,
    });
    if slipped(Slip::NoOrderWithoutStep) {
        return other_way::finish_made_a_step(run);
    }
    rounds > 0
}

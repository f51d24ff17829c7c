//! What the coverage table wants to know of a rule beyond the way that it took: most of all, where another
//! reading of its sentence would decide otherwise. Nothing here changes a step.

use std::collections::{BTreeMap, BTreeSet};

use crate::active_order::kept_place;
use crate::blobs::{Version, Versions};
use crate::branch::Branch;
use crate::duplicates::chunks_of;
use crate::finish::{holds_each, is_copy, newest_has_it_all};
use crate::items::{items, unread, Item, Key};
use crate::other_way;
use crate::reclaim::{most_points, Candidate};
use crate::recover::{freeing_pages, judge_items, sequences_run_out};
use crate::scan::{greatest, Found, Lists, Page};
use crate::sector::{state, total, EntryState, State, ENTRIES};
use crate::steps::{state_word, Run, Stage};

/// The state words that some entries have their pairs in.
fn words_of(entry: usize, span: usize) -> usize {
    let word = |entry| state_word(entry, EntryState::Written).0;
    word(entry + span - 1) - word(entry) + 1
}

/// A copy that was made, from entry `next` on.
pub fn copy(run: &mut Run, next: usize, span: usize) {
    let words = words_of(next, span);
    let conditions = [
        (next + span == ENTRIES, Branch::CopyUsesLastEntry),
        (span > 1 && words == 1, Branch::CopyInOneWord),
        (words > 1, Branch::CopyOverSeveralWords),
        (words > 2, Branch::CopyOverWholeWord),
    ];
    run.met_each(&conditions);
}

/// An erasure that was made. `moves_no_bit`: one of the entries was Erased before.
pub fn erasure(run: &mut Run, entry: usize, span: usize, moves_no_bit: bool) {
    let words = words_of(entry, span);
    let conditions = [
        (span > 1 && words == 1, Branch::EraseInOneWord),
        (words > 1, Branch::EraseOverSeveralWords),
        (words > 2, Branch::EraseOverWholeWord),
        (moves_no_bit, Branch::EraseMovesNoBit),
    ];
    run.met_each(&conditions);
}

/// Recovery's result 6 at its edges, and result 2 before it.
pub fn sequences(run: &mut Run, lists: &Lists, too_few_records: bool) {
    let freeing = freeing_pages(lists);
    let sum = greatest(&lists.pages).map_or(0, |greatest| u64::from(greatest) + u64::from(freeing));
    run.met_if(too_few_records && sequences_run_out(lists), Branch::RecoveryResult2Before6);
    run.met_if(!too_few_records && freeing == 0 && sum == 0xFFFF_FFFF, Branch::RecoveryTopWithoutFreeing);
    run.met_if(!too_few_records && freeing > 1 && sum == 0xFFFF_FFFE, Branch::RecoveryJustEnough);
    run.met_if(!too_few_records && freeing > 1 && sum == 0xFFFF_FFFF, Branch::RecoveryJustTooMany);
}

/// The page that stage 1 keeps.
pub fn kept(run: &mut Run, pages: &[Page]) {
    let Some(kept) = kept_place(pages) else {
        return run.met(Branch::OrderNoActive);
    };
    let equal = |page: &&Page| page.state == State::Active && page.sequence == pages[kept].sequence;
    run.met_if(pages.iter().filter(equal).count() > 1, Branch::OrderEqualSequences);
    let is_last = kept + 1 == pages.len();
    run.met(if is_last { Branch::OrderKeptIsLast } else { Branch::OrderChangesPlaces });
}

pub fn kept_to_mark(run: &mut Run, sector: usize) {
    let illegal = total(run.sector(sector), EntryState::Illegal);
    run.met(Branch::OrderMarksKept);
    run.met_if(illegal > 0, Branch::OrderMarksKeptIllegal);
}

/// Stage 1 done again: where stage 2 made no step, whether the later stages go by the new list.
pub fn order_again(run: &mut Run, finished: &[Page], again: &[Page]) {
    let freeing = again.iter().any(|page| state(run.sector(page.sector)) == State::Freeing);
    run.met_if(freeing, Branch::FinishLeavesFreeing);
    let finish_made_none = !run.list.iter().any(|tagged| matches!(tagged.stage, Stage::Finish { .. }));
    if finish_made_none {
        let list_by = |pages: &[Page]| {
            let mut run = run.clone();
            judge_items(&mut run, pages);
            run.list
        };
        let unlike = list_by(finished) != list_by(again);
        run.met_if(unlike, Branch::OrderAgainWithoutStep);
    }
}

pub fn source_taken(run: &mut Run, pages: &[Page], freeing: usize) {
    let counts = |page: &&Page| page.state == State::Freeing;
    let lowest = pages.iter().filter(counts).map(|page| page.sector).min();
    run.met_if(freeing + 1 < pages.len(), Branch::FinishLastTakesPlace);
    run.met_if(lowest != Some(pages[freeing].sector), Branch::FinishSourceOutOfOrder);
}

fn without_namespace_0(items: &[Item]) -> Vec<Item> {
    items.iter().filter(|item| item.namespace() != 0).copied().collect()
}

/// The Active page that is looked at beside a source.
pub fn active_beside_source(run: &mut Run, pages: &[Page], on_active: &[Item], on_source: &[Item]) {
    let copy = is_copy(on_active, on_source);
    let last = pages.iter().rfind(|page| page.state == State::Active).expect("an Active page");
    let last_is_copy = is_copy(&items(run.sector(last.sector)), on_source);
    let conditions = [
        (copy != last_is_copy, Branch::FinishFirstActiveDecides),
        (!copy, Branch::FinishActiveNoCopy),
        (!copy && is_copy(&without_namespace_0(on_active), on_source), Branch::FinishNamespace0Decides),
        (!copy && holds_each(on_source, on_active), Branch::FinishNamesAlike),
        (copy && on_active.is_empty(), Branch::FinishCopyWithoutItem),
        (copy && !on_active.is_empty() && on_active.len() < on_source.len(), Branch::FinishCopyPartial),
        (copy && !on_active.is_empty() && on_active.len() == on_source.len(), Branch::FinishCopyComplete),
        (copy && on_active.len() > on_source.len(), Branch::FinishCopyWithMore),
    ];
    run.met_each(&conditions);
}

/// A copy just taken out of the list at this place, about to be erased.
pub fn copy_to_erase(run: &mut Run, lists: &Lists, place: usize, copy: &Page, source: &Page) {
    let mut in_old_order = lists.pages.clone();
    if place < in_old_order.len() {
        in_old_order[place..].rotate_left(1);
    }
    let first_freeing = |pages: &[Page]| pages.iter().find(|page| page.state == State::Freeing).copied();
    let greatest_left = greatest(lists.pages.iter().chain([source]));
    let no_other_active = lists.pages.iter().all(|page| page.state != State::Active);
    let conditions = [
        (greatest_left < Some(copy.sequence), Branch::FinishCopyHadGreatest),
        (lists.free.is_empty(), Branch::FinishOnlyCopyIsFree),
        (first_freeing(&in_old_order) != first_freeing(&lists.pages), Branch::FinishCopyPlaceTaken),
        (
            no_other_active && newest_has_it_all(run, &lists.pages, source),
            Branch::FinishNewestNotAskedAfterCopy,
        ),
    ];
    run.met_each(&conditions);
}

/// The newest page beside a source, where no page is Active.
pub fn newest_beside_source(run: &mut Run, pages: &[Page], source: &Page) {
    let Some(sequence) = greatest(pages) else {
        return run.met(Branch::NewestNoPage);
    };
    let equals: Vec<&Page> = pages.iter().filter(|page| page.sequence == sequence).collect();
    let (first, newest) = (equals[0], equals[equals.len() - 1]);
    let on_source = items(run.sector(source.sector));
    let holds = |page: &Page| holds_each(&items(run.sector(page.sector)), &on_source);
    let newer = sequence > source.sequence;
    let freeing = state(run.sector(newest.sector)) == State::Freeing;
    let conditions = [
        (!newer, Branch::NewestNotNewer),
        (sequence == source.sequence && holds(newest), Branch::NewestEqualHoldsAll),
        (newer && holds(first) != holds(newest), Branch::NewestLastAmongEqualsDecides),
        (newer && holds(newest) && newest.state == State::Freeing, Branch::NewestIsFreeing),
        (newer && freeing && newest.state == State::Full, Branch::NewestCountsAsFull),
        (newer && holds(newest) && on_source.is_empty(), Branch::NewestHoldsNoItem),
        (newer && holds(newest) && !on_source.is_empty(), Branch::NewestHoldsAll),
        (newer && !holds(newest), Branch::NewestLacksItem),
    ];
    let on_newest = items(run.sector(newest.sector));
    run.met_each(&conditions);
    if newer {
        names_held(run, &on_newest, &on_source);
    }
}

/// Where more or less of an item's name would decide otherwise.
fn names_held(run: &mut Run, on_newest: &[Item], on_source: &[Item]) {
    let holds = holds_each(on_newest, on_source);
    let held_by = |alike: &dyn Fn(&Item, &Item) -> bool| {
        on_source.iter().all(|source| on_newest.iter().any(|held| alike(held, source)))
    };
    let of_type = held_by(&|held, source| holds_each(&[*held], &[*source]) && held.kind() == source.kind());
    let of_key = held_by(&|a, b| (a.namespace(), a.key()) == (b.namespace(), b.key()));
    let conditions = [
        (!holds && holds_each(on_newest, &without_namespace_0(on_source)), Branch::NewestNamespace0Decides),
        (!holds && of_key, Branch::NewestChunkIndexDecides),
        (holds && !of_type, Branch::NewestHoldsOtherType),
    ];
    run.met_each(&conditions);
}

pub fn copied_afresh(run: &mut Run, lists: &Lists, source: &Page, target: usize) {
    let of_list = greatest(&lists.pages);
    let conditions = [
        (true, Branch::FinishCopiedAfresh),
        (of_list.is_some() && of_list < Some(source.sequence), Branch::FinishSourceHasGreatest),
        (lists.free.iter().any(|free| *free > target), Branch::FinishTargetOutOfOrder),
    ];
    run.met_each(&conditions);
}

/// A source about to be erased, where one before it was left for want of a free sector.
pub fn source_to_erase(run: &mut Run, pages: &[Page]) {
    let left = |page: &Page| page.state == State::Full && state(run.sector(page.sector)) == State::Freeing;
    let some_left = pages.iter().any(left);
    run.met_if(some_left, Branch::FinishAfterLeftSource);
}

/// A target just appended, last of the list. Where it is Full and holds all of the next source, it is the
/// newest page that the next round asks.
pub fn target_appended(run: &mut Run, pages: &[Page]) {
    let target = pages.last().expect("just appended");
    let on_target = items(run.sector(target.sector));
    let holds = |source: &Page| holds_each(&on_target, &items(run.sector(source.sector)));
    let next_source = pages.iter().find(|page| page.state == State::Freeing);
    let no_active = pages.iter().all(|page| page.state != State::Active);
    let asked = target.state == State::Full && no_active && next_source.is_some_and(holds);
    run.met_if(asked, Branch::FinishFullTargetHoldsNext);
}

fn branch_of_soundness(version: &Version) -> Branch {
    let Some(index) = version.index() else {
        return Branch::BlobNoIndex;
    };
    let count_alike = version.chunks.len() == index.item.chunk_count();
    let size_alike = version.summed_sizes() == index.item.blob_size();
    match (count_alike, size_alike, version.chunks.len()) {
        (true, true, _) if !version.exact(index) => Branch::BlobNumbersUnlike,
        (true, true, 0) => Branch::BlobSoundEmpty,
        (true, true, 1) => Branch::BlobSoundOneChunk,
        (true, true, _) => Branch::BlobSoundSeveralChunks,
        (false, true, _) => Branch::BlobCountUnlike,
        (true, false, _) => Branch::BlobSizeUnlike,
        (false, false, _) => Branch::BlobBothUnlike,
    }
}

/// Sound versions that stay, for their keys have no other.
pub fn sound_versions(run: &mut Run, sound: &Versions) {
    for ((namespace, start, key), version) in sound {
        if sound.contains_key(&(*namespace, start ^ 0x80, *key)) {
            continue;
        }
        let conditions = [
            (true, branch_of_soundness(version)),
            (*namespace == 0, Branch::BlobNamespace0),
            (version.summed_sizes() > 0xFFFF, Branch::BlobSoundPast16Bits),
        ];
        run.met_each(&conditions);
        exact_numbers(run, version, *start);
        several_indices(run, version);
    }
}

/// Document 02, No. 2: where more than its sentence would be asked of a sound version.
fn exact_numbers(run: &mut Run, version: &Version, start: u8) {
    let chunks = version.chunks.len();
    let byte = version.index().map(|index| index.item.header[29]);
    let in_list: Vec<u8> = version.chunks.iter().map(|chunk| chunk.item.chunk_index()).collect();
    let conditions = [
        (chunks > 0 && start == 0x80, Branch::BlobSoundStart80),
        (chunks > 0 && byte != Some(start), Branch::BlobSoundOtherByte),
        (!in_list.is_sorted(), Branch::BlobSoundOutOfOrder),
        (chunks == 128 && start == 0x80, Branch::BlobSound128),
    ];
    run.met_each(&conditions);
}

/// Where less than that would find an unsound version sound.
fn wrong_numbers(run: &mut Run, version: &Version) {
    let Some(index) = version.index() else { return };
    let (start, count) = (usize::from(index.item.start()), index.item.chunk_count());
    let byte = usize::from(index.item.header[29]);
    let there = version.chunk_indices();
    let distinct: BTreeSet<usize> = there.iter().copied().collect();
    let size_alike = version.summed_sizes() == index.item.blob_size();
    let fits = size_alike && there.len() == count && !version.exact(index);
    let each_once = fits && distinct.len() == there.len();
    let from_start = there.first() == Some(&start);
    let no_gap = there.windows(2).all(|two| two[0] + 1 == two[1]);
    let second_copy = there.len() > count && distinct.into_iter().eq(start..start + count);
    let (first, _) = other_way::copies(version);
    let without_copies = Version { indices: version.indices.clone(), chunks: first };
    let conditions = [
        (fits && !each_once, Branch::BlobNumberTwice),
        (each_once && from_start, Branch::BlobGap),
        (each_once && no_gap, Branch::BlobShifted),
        (fits && there.iter().copied().eq(byte..byte + count), Branch::BlobFromStartByte),
        (each_once && there.last() == Some(&(start + count)), Branch::BlobUpToCount),
        (fits && from_start && there.last() == Some(&(start + count - 1)), Branch::BlobFirstAndLast),
        (fits && there == other_way::numbers_again(start, count), Branch::BlobNumbersAgain),
        (fits && index.item.namespace() == 0, Branch::BlobNumbersNamespace0),
        (size_alike && there.iter().copied().eq(start..=start + count), Branch::BlobOneTooMany),
        (size_alike && second_copy, Branch::BlobCopyOfSizeOfAll),
        (second_copy && without_copies.sound(), Branch::BlobCopyOfSizeOfOne),
    ];
    run.met_each(&conditions);
}

fn several_indices(run: &mut Run, version: &Version) {
    let Some(index) = version.index() else { return };
    let others = || version.indices.iter().filter(|&&other| other != index);
    let alone = |index| Version { indices: vec![index], chunks: version.chunks.clone() };
    let last = version.indices[version.indices.len() - 1];
    run.met_if(alone(last).sound() != version.sound(), Branch::BlobLastIndexWouldDecide);
    run.met_if(others().next().is_some(), Branch::BlobSeveralIndices);
    run.met_if(others().any(|other| other.ties_with(index)), Branch::BlobIndicesTie);
}

/// A version that is about to be erased.
pub fn unsound_version(run: &mut Run, sound: &Versions, unsound: &Versions, name: &(u8, u8, Key)) {
    let (namespace, start, key) = name;
    let other_start = (*namespace, start ^ 0x80, *key);
    let only_of_key = !sound.contains_key(&other_start) && !unsound.contains_key(&other_start);
    let version = &unsound[name];
    let branch = branch_of_soundness(version);
    let before = unsound.range(..name).next_back();
    let greater_key_before = before.is_some_and(|((space, _, other), _)| space == namespace && other > key);
    let size = version.index().map_or(0, |index| index.item.blob_size());
    let low_bits_alike = size & 0xFFFF == version.summed_sizes() & 0xFFFF;
    let long_span = version.index().is_some_and(|index| index.item.span() > 1);
    let newness = |version: &Version| version.index().map(|index| index.newness());
    let newer_than_sound = sound.get(&other_start).is_some_and(|other| newness(other) < newness(version));
    let conditions = [
        (only_of_key, branch),
        (branch == Branch::BlobNumbersUnlike && newer_than_sound, Branch::BlobNumbersNewer),
        (branch == Branch::BlobSizeUnlike && low_bits_alike, Branch::BlobSizeUnlikePast16Bits),
        (version.indices.len() > 1, Branch::BlobOlderIndexStays),
        (long_span, Branch::BlobIndexOfLongSpan),
        (*namespace == 0, Branch::BlobNamespace0Erased),
    ];
    run.met_each(&conditions);
    if only_of_key {
        wrong_numbers(run, version);
    }
    several_indices(run, version);
    if greater_key_before {
        run.met_if_stopped_here(Branch::BlobStoppedStartBeforeKey);
    }
}

/// Two sound versions of a key, the first older and about to be erased.
pub fn older_of_two(run: &mut Run, unsound: &Versions, older: &Version, newer: &Version) {
    let (old, new) = (older.index().expect("sound"), newer.index().expect("sound"));
    let oldest = |version: &Version| version.indices.iter().map(|index| index.newness()).min();
    let first = |version: &Version| version.indices[0].newness();
    let conditions = [
        (old.item.start() == 0, Branch::BlobOlderStart0),
        (old.item.start() != 0, Branch::BlobOlderStart80),
        (old.ties_with(new), Branch::BlobOlderByList),
        (oldest(older) > oldest(newer) && first(older) > first(newer), Branch::BlobOlderByIndexThatCounts),
    ];
    run.met_each(&conditions);
    let second = (old.item.namespace(), 0x80, old.item.key());
    if unsound.range(second..).next().is_some() {
        run.met_if_stopped_here(Branch::BlobStoppedBeforeOlder);
    }
}

/// Items that no walk met as stage 3 began, where stage 4 finds another of their name.
pub fn uncovered(run: &mut Run, begun: &[Found], left: &[Found]) {
    let groups = crate::duplicates::groups(left);
    let in_company =
        |group: &Vec<&Found>| group.len() > 1 && group.iter().any(|item| !begun.contains(item));
    run.met_if(groups.values().any(in_company), Branch::DuplicateUncovered);
}

pub fn groups(run: &mut Run, groups: &BTreeMap<(u8, Key), Vec<&Found>>) {
    let up_to_zero = |key: &Key| key.iter().take_while(|byte| **byte != 0).copied().collect::<Vec<_>>();
    let names: Vec<_> = groups.keys().map(|(namespace, key)| (*namespace, up_to_zero(key))).collect();
    run.met_if(groups.values().all(|group| group.len() == 1), Branch::DuplicateNone);
    // Groups ascend, so names alike up to a zero byte are neighbours.
    run.met_if(names.windows(2).any(|pair| pair[0] == pair[1]), Branch::DuplicateKeysAlikeToZero);
}

/// An old item of a group and the kept one.
pub fn duplicate(run: &mut Run, found: &[Found], old: &Found, kept: &Found) {
    let tie = old.ties_with(kept);
    let conditions = [
        (old.sequence != kept.sequence, Branch::DuplicateBySequence),
        (old.sequence == kept.sequence && !tie, Branch::DuplicateByEntry),
        (tie, Branch::DuplicateByList),
        (tie && old.sector > kept.sector, Branch::DuplicateByListNotSectors),
        (old.item.kind() != kept.item.kind(), Branch::DuplicateTypesDiffer),
        (old.item.chunk_index() != kept.item.chunk_index(), Branch::DuplicateChunkIndicesDiffer),
    ];
    run.met_each(&conditions);
    if old.item.is_blob_index() {
        old_index(run, found, old, kept);
    }
}

fn old_index(run: &mut Run, found: &[Found], old: &Found, kept: &Found) {
    let chunks = chunks_of(found, old);
    let name = |part: &Found| (part.item.namespace(), part.item.key());
    let of_key = found.iter().filter(|part| part.item.is_chunk() && name(part) == name(old)).count();
    let kept_is_index = kept.item.is_blob_index();
    let same_start = kept_is_index && old.item.start() == kept.item.start();
    let some = !chunks.is_empty();
    let conditions = [
        (old.item.span() > 1, Branch::DuplicateIndexOfLongSpan),
        (!some, Branch::DuplicateIndexWithoutChunks),
        (some && same_start, Branch::DuplicateKeptIndexSameStart),
        (
            some && same_start && old.item.header[29] != kept.item.header[29],
            Branch::DuplicateStartsUnlikeBytes,
        ),
        (some && kept_is_index && !same_start, Branch::DuplicateKeptIndexOtherStart),
        (some && !kept_is_index, Branch::DuplicateKeptNoIndex),
        (kept_is_index && !same_start && of_key > chunks.len(), Branch::DuplicateOtherStartStays),
    ];
    run.met_each(&conditions);
}

/// Reclaim's result 6 at its edges, and result 5 before it.
pub fn last_sequences(run: &mut Run, greatest: u32, no_free_sector: bool) {
    run.met_if(no_free_sector && greatest > 0xFFFF_FFFD, Branch::ReclaimResult5Before6);
    run.met_if(!no_free_sector && greatest == 0xFFFF_FFFD, Branch::ReclaimJustEnough);
    run.met_if(!no_free_sector && greatest == 0xFFFF_FFFE, Branch::ReclaimJustTooMany);
}

/// The page that reclaim takes, once nothing refuses it.
pub fn choice(run: &mut Run, pages: &[Page], candidates: &[Candidate], chosen: &Page) {
    let most = candidates.iter().map(Candidate::points).max().unwrap_or(0);
    let equals: Vec<_> = candidates.iter().filter(|candidate| candidate.points() == most).collect();
    let tie = equals.len() > 1;
    let unlike = equals.iter().any(|candidate| candidate.page.sequence != chosen.sequence);
    let of = |candidate: &Candidate, state| total(run.sector(candidate.page.sector), state);
    let age = |candidate: &Candidate| candidate.next - u64::from(candidate.page.sequence);
    let other = |points: &dyn Fn(&Candidate) -> u64| most_points(candidates, points) != Some(*chosen);
    let with = |candidate: &Candidate, more: u32| {
        Candidate { erased: candidate.erased + more, ..*candidate }.points()
    };
    let with_illegal = |candidate: &Candidate| with(candidate, of(candidate, EntryState::Illegal));
    let with_unread = |candidate: &Candidate| with(candidate, unread(run.sector(candidate.page.sector)));
    let in_32_bits = |candidate: &Candidate| u64::from(candidate.points() as u32);
    let in_32_bit_next = |candidate: &Candidate| {
        let age = (candidate.next as u32).wrapping_sub(candidate.page.sequence);
        u64::from(candidate.erased.min(1)) * (10 * u64::from(candidate.erased) + u64::from(age))
    };
    let with_age = |candidate: &Candidate| 10 * u64::from(candidate.erased) + age(candidate);
    let conditions = [
        (most == 0, Branch::ReclaimNoPoints),
        (tie && most == 0, Branch::ReclaimTieOfNoPoints),
        (tie && most > 0 && !unlike, Branch::ReclaimTie),
        (tie && most > 0 && unlike, Branch::ReclaimTieOfUnlikeSequences),
        (candidates.len() < pages.len(), Branch::ReclaimSkipsWritten),
        (chosen.sector != candidates[0].page.sector, Branch::ReclaimNotTheFirst),
        (greatest(pages) == Some(u32::MAX), Branch::ReclaimNextPast32Bits),
        (other(&in_32_bit_next), Branch::ReclaimNextPast32BitsDecides),
        (other(&in_32_bits), Branch::ReclaimPointsPast32BitsDecide),
        (other(&with_illegal), Branch::ReclaimIllegalWouldDecide),
        (other(&with_unread), Branch::ReclaimUnreadWouldDecide),
        (other(&with_age), Branch::ReclaimAgeWouldDecide),
    ];
    run.met_each(&conditions);
}

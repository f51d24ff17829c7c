//! Recovery, stage 4.

use std::collections::{BTreeMap, BTreeSet};

use crate::branch::Branch;
use crate::items::{Item, Key};
use crate::notes;
use crate::other_way;
use crate::scan::{Found, Page};
use crate::sector::{state, total, EntryState, State};
use crate::slip::{slipped, Slip};
use crate::steps::{Run, Stage};

/// "Items left that are not chunks and not of namespace 0, grouped by namespace and key, groups ascending".
pub fn groups(found: &[Found]) -> BTreeMap<(u8, Key), Vec<&Found>> {
    let mut groups: BTreeMap<(u8, Key), Vec<&Found>> = BTreeMap::new();
    for item in found.iter().filter(|item| !item.item.is_chunk() && item.item.namespace() != 0) {
        groups.entry((item.item.namespace(), item.item.key())).or_default().push(item);
    }
    groups
}

/// The chunks of a blob index's version, in list order, then entry order.
pub fn chunks_of<'a>(found: &'a [Found], index: &Found) -> Vec<&'a Found> {
    let name = |part: &Found| (part.item.namespace(), part.item.key(), part.item.start());
    found.iter().filter(|part| part.item.is_chunk() && name(part) == name(index)).collect()
}

/// "no item is erased twice in a stage": two old indices of a version have the same chunks.
fn erase_chunks(run: &mut Run, chunks: &[&Found], erased: &mut BTreeSet<(usize, usize)>) {
    for chunk in chunks {
        if erased.insert((chunk.sector, chunk.item.entry)) {
            run.met(Branch::DuplicateIndexTakesChunks);
            run.erase_entries(chunk.sector, chunk.item.entry, chunk.item.span());
        } else {
            run.met(Branch::DuplicateChunkErasedBefore);
        }
    }
}

/// "all but the newest are erased, oldest first. A blob index takes its version's chunks with it, unless
/// the kept item is an index of the same start."
fn erase_old(run: &mut Run, found: &[Found], mut group: Vec<&Found>) {
    group.sort_by_key(|item| item.newness());
    let (kept, old) = group.split_last().expect("a group has an item");
    run.met_if(old.len() > 1, Branch::DuplicateSeveralOld);
    let mut erased = BTreeSet::new();
    let mut put_off = Vec::new();
    for old in old {
        if !erased.is_empty() {
            run.met_if_stopped_here(Branch::DuplicateStoppedAfterChunks);
        }
        notes::duplicate(run, found, old, kept);
        let one_entry = slipped(Slip::OldIndexErasedByOneEntry) && old.item.is_blob_index();
        run.erase_entries(old.sector, old.item.entry, if one_entry { 1 } else { old.item.span() });
        let by_byte = slipped(Slip::SameStartByByte);
        let start = |item: &Item| if by_byte { item.header[29] } else { item.start() };
        let kept_has_same_start = kept.item.is_blob_index() && start(&kept.item) == start(&old.item);
        if old.item.is_blob_index() && !kept_has_same_start {
            let chunks = chunks_of(found, old);
            if slipped(Slip::ChunksAfterAllOld) {
                put_off.extend(chunks);
            } else {
                erase_chunks(run, &chunks, &mut erased);
            }
        }
    }
    erase_chunks(run, &put_off, &mut erased);
}

/// "Last step of this stage: an Active page that now has no Empty entry is marked Full."
pub fn mark_filled(run: &mut Run, pages: &[Page]) {
    let in_this_stage = run.list.iter().any(|tagged| tagged.stage == Stage::Duplicates);
    for page in pages {
        let sector = run.sector(page.sector);
        if state(sector) == State::Active && total(sector, EntryState::Empty) == 0 {
            run.met(if in_this_stage { Branch::DuplicateFull } else { Branch::DuplicateFullAfterBlobs });
            run.mark_full(page.sector);
        }
    }
}

pub fn duplicates(run: &mut Run, found: &[Found], pages: &[Page]) {
    run.stage = Stage::Duplicates;
    let groups = groups(found);
    notes::groups(run, &groups);
    for group in groups.into_values().flat_map(other_way::parted) {
        erase_old(run, found, group);
    }
    mark_filled(run, pages);
}

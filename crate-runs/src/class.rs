//! The class of cases on which the crate and document 01 must agree, as a test. README.md states it in words.

use std::collections::{BTreeMap, BTreeSet};

use model::blobs::{versions as blob_versions, Version};
use model::branch::Branch;
use model::items::{entry_crc, items, walk, Item, Met, KNOWN_TYPES};
use model::protocol::{Case, Operation};
use model::reclaim::reclaim;
use model::recover::recover;
use model::scan::{found, scan, whole_sectors};
use model::sector::{
    entry_state, free, header_crc_right, number, state, state_of_word, total, version_known, EntryState,
    State, ENTRIES, ENTRY_BYTES, SECTOR_BYTES,
};
use model::steps::{apply, sector_of, Outcome, Stage, Step};

use crate::words;

/// Why a case is outside.
pub type Outside = &'static str;

type Judged = Result<(), Outside>;

fn unless(condition: bool, reason: Outside) -> Judged {
    if condition {
        Err(reason)
    } else {
        Ok(())
    }
}

/// The model's answer, with its whole list of steps.
pub fn model_outcome(case: &Case) -> Outcome {
    match case.operation {
        Operation::Recover => recover(&case.image, case.allowance, &mut vec![None; case.records as usize]),
        _ => reclaim(&case.image, case.allowance),
    }
}

/// Whether the case is in the class. The answer is the model's.
pub fn in_class(case: &Case) -> Result<Outcome, Outside> {
    unless(whole_sectors(&case.image).is_none(), "length")?;
    case.image.chunks(SECTOR_BYTES).try_for_each(clean)?;
    let outcome = model_outcome(case);
    unless(!matches!(outcome.result, 0 | 4 | 7), "document 01 refuses")?;
    match case.operation {
        Operation::Recover => recovery_agrees(&case.image, &outcome)?,
        _ => reclaim_agrees(&case.image)?,
    }
    cut_agrees(&outcome)?;
    Ok(outcome)
}

/// Whether both recoveries leave the same image, if not by the same steps: as the class, but the Active page that
/// the finish stage erases as a partial copy may be torn. The crate's scan repairs it first.
pub fn recovers_alike(case: &Case) -> Result<Outcome, Outside> {
    let image = &case.image;
    unless(whole_sectors(image).is_none(), "length")?;
    let outcome = model_outcome(case);
    unless(outcome.result != 0, "document 01 refuses")?;
    let erased = erased_copy(image, &outcome);
    let several_freeing = scan(image).pages.iter().filter(|page| page.state == State::Freeing).count() > 1;
    for (place, sector) in image.chunks(SECTOR_BYTES).enumerate() {
        match erased {
            Some((copy, source)) if copy == place => {
                let torn = || torn_copy(sector, &items(sector_of(image, source)), several_freeing);
                clean(sector).or_else(|_| torn())?
            }
            _ => clean(sector)?,
        }
    }
    recovery_agrees(image, &outcome)?;
    Ok(outcome)
}

/// The partial copy that the finish stage erases as its first step, and its source.
fn erased_copy(image: &[u8], outcome: &Outcome) -> Option<(usize, usize)> {
    let mut finishing = outcome.list.iter().filter_map(|tagged| match tagged.stage {
        Stage::Finish { source } => Some((tagged.step, source)),
        _ => None,
    });
    match finishing.next()? {
        (Step::Erase { sector }, source) if state(sector_of(image, sector)) == State::Active => {
            Some((sector, source))
        }
        _ => None,
    }
}

/// All on the copy that the crate could take for an item is one of the source, and nothing reaches entry 125: a
/// repair would leave no Empty entry, and Active order would mark the copy Full. An item whose marks were cut is erased
/// by the crate's scan: beside several Freeing pages the page may then be taken for the copy of another.
fn torn_copy(sector: &[u8], on_source: &[Item], several_freeing: bool) -> Judged {
    let unmarked = |entry| entry_state(sector, entry) != EntryState::Written;
    let half_marked = items(sector).iter().any(|item| (item.entry..item.end()).any(unmarked));
    unless(half_marked && several_freeing, "torn copy, half marked, and several Freeing pages")?;
    let last = &sector[64 + ENTRY_BYTES * (ENTRIES - 1)..];
    let last_used =
        entry_state(sector, ENTRIES - 1) != EntryState::Empty || last.iter().any(|byte| *byte != 0xFF);
    unless(last_used, "torn copy that uses entry 125")?;
    for (entry, bytes) in sector[64..].chunks(ENTRY_BYTES).enumerate() {
        let mut header: [u8; ENTRY_BYTES] = bytes.try_into().expect("32 bytes");
        if !KNOWN_TYPES.contains(&header[1]) {
            header[1] = 0xFF;
        }
        if number(&header, 4) == entry_crc(&header) {
            let copied = on_source.iter().any(|item| item.header[..] == *bytes);
            unless(!copied, "torn copy with an item of its own")?;
            unless(entry + header[2] as usize >= ENTRIES, "torn copy that reaches entry 125")?;
        }
    }
    Ok(())
}

/// The sector gives the crate's scan nothing to repair, and both walks meet the same items.
fn clean(sector: &[u8]) -> Judged {
    if free(state(sector)) {
        let page_but_for_version = state_of_word(number(sector, 0)).is_some() && header_crc_right(sector);
        return unless(page_but_for_version && !version_known(sector), "version byte");
    }
    for met in walk(sector) {
        match met {
            Met::Item(item) => {
                let written = |entry| entry_state(sector, entry) == EntryState::Written;
                unless(!(item.entry..item.entry + item.span()).all(written), "payload not all Written")?;
                unless(item.namespace() == 0 && item.span() > 1, "namespace 0 item of span above 1")?;
            }
            Met::NotWritten(_) => {}
            _ => return Err("Written entry that is no item"),
        }
    }
    blank_tail(sector)
}

/// From the first Empty entry on all are Empty, with no byte programmed.
fn blank_tail(sector: &[u8]) -> Judged {
    let empty = |entry: &usize| entry_state(sector, *entry) == EntryState::Empty;
    let first = (0..ENTRIES).find(empty).unwrap_or(ENTRIES);
    unless(!(first..ENTRIES).all(|entry| empty(&entry)), "Empty entry before a used one")?;
    let tail = &sector[64 + ENTRY_BYTES * first..];
    unless(tail.iter().any(|byte| *byte != 0xFF), "bytes under an Empty entry")
}

/// "Reclaim" of both: the same choice, and a target whose old entry states do not matter.
fn reclaim_agrees(image: &[u8]) -> Judged {
    let lists = scan(image);
    let sectors = || lists.pages.iter().map(|page| sector_of(image, page.sector));
    let illegal = sectors().any(|sector| total(sector, EntryState::Illegal) > 0);
    unless(illegal, "Illegal entry")?;
    let sequences = || lists.pages.iter().map(|page| u64::from(page.sequence));
    let (least, greatest) = (sequences().min().unwrap_or(0), sequences().max().unwrap_or(0));
    let most = 10 * ENTRIES as u64 + greatest + 1 - least;
    unless(most > u64::from(u32::MAX), "points past 32 bits")?;
    let stale = |sector: &[u8]| {
        sector[..32].iter().any(|byte| *byte != 0xFF) && sector[32..64].iter().any(|byte| *byte != 0xFF)
    };
    let target = lists.free.last().map(|target| sector_of(image, *target));
    unless(target.is_some_and(stale), "Corrupt target with a header and used entry states")
}

fn recovery_agrees(image: &[u8], outcome: &Outcome) -> Judged {
    let by_namespace_0 = [Branch::FinishNamespace0Decides, Branch::NewestNamespace0Decides];
    // A stopped call's branches end at the stop: those of the whole list count.
    let whole = recover(image, u64::MAX, &mut [None; 16]);
    let decided = by_namespace_0.iter().any(|branch| whole.branches.contains(branch));
    unless(decided, "a namespace 0 item decides in the finish stage")?;
    let mut begun = image.to_vec();
    for tagged in outcome.list.iter().take_while(|tagged| early(tagged.stage)) {
        apply(&mut begun, tagged.step);
    }
    settles_alike(&begun)
}

/// Stages 1 and 2.
fn early(stage: Stage) -> bool {
    matches!(stage, Stage::ActiveOrder | Stage::Finish { .. })
}

/// What stages 3 and 4 begin with.
fn settles_alike(image: &[u8]) -> Judged {
    let pages = scan(image).pages;
    let sequences: BTreeSet<u32> = pages.iter().map(|page| page.sequence).collect();
    unless(sequences.len() < pages.len(), "equal sequences")?;
    let mut versions = BTreeSet::new();
    let mut chunk_bytes = BTreeMap::new();
    let found = found(image, &pages);
    for item in found.iter().map(|found| found.item) {
        let part = item.is_chunk() || item.is_blob_index();
        unless(part && item.namespace() == 0, "blob part in namespace 0")?;
        if item.is_blob_index() {
            unless(item.span() > 1, "index of span above 1")?;
            let version = (item.namespace(), item.key(), item.start());
            unless(!versions.insert(version), "two indices of a version")?;
        }
        if item.namespace() > 0 && !item.is_chunk() {
            let byte = *chunk_bytes.entry((item.namespace(), item.key())).or_insert(item.chunk_index());
            unless(byte != item.chunk_index(), "unlike chunk index bytes of a key")?;
        }
    }
    let unlike = blob_versions(&found).values().any(indices_alone_wrong);
    unless(unlike, "chunk indices that alone are wrong")
}

/// Document 02, No. 2: the crate compares a count and a size, so it leaves such a version.
fn indices_alone_wrong(version: &Version) -> bool {
    version.index().is_some_and(|index| {
        let fits = version.chunks.len() == index.item.chunk_count()
            && version.summed_sizes() == index.item.blob_size();
        fits && !version.exact(index)
    })
}

/// Document 02, No. 4: a stop that the crate, which marks by words, cannot make.
pub const INSIDE_A_MARKING: Outside = "stopped inside a word of an item's marks";

/// A stopped call agrees where both have made the same steps: in stages 1 and 2 and in reclaim, but not among
/// the eight header words, whose order is not the crate's, and not inside a word of an item's marks.
fn cut_agrees(outcome: &Outcome) -> Judged {
    let Some(stage) = outcome.stopped_in() else { return Ok(()) };
    unless(!early(stage) && stage != Stage::Reclaim, "stopped in stage 3 or 4")?;
    let header_word = |step: Step| matches!(step, Step::Program { word: 1..=7, .. });
    let before = outcome.steps.checked_sub(1).map(|last| outcome.list[last].step);
    unless(before.is_some_and(header_word), "stopped among the header words")?;
    unless(words::count(&outcome.list, outcome.steps).is_none(), INSIDE_A_MARKING)
}

/// The items of an image, without their places, in order: what a store holds.
pub fn held(image: &[u8]) -> Vec<[u8; ENTRY_BYTES]> {
    let mut headers: Vec<_> = image.chunks(SECTOR_BYTES).flat_map(items).map(|item| item.header).collect();
    headers.sort_unstable();
    headers
}

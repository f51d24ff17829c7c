//! What a slip does where the rule's own line cannot say it. No rule needs anything of this.

use std::cmp::Reverse;
use std::collections::{BTreeMap, BTreeSet};

use crate::active_order::kept_place;
use crate::blobs::{sound_pairs, Version, Versions};
use crate::finish::{erase_source, is_copy};
use crate::items::{self, items, walk, Item, Key};
use crate::record::Record;
use crate::recover::stages;
use crate::scan::{scan, Found, Lists, Page};
use crate::sector::{entry_state, free, number, state, total, EntryState, State, ENTRIES, SECTOR_BYTES};
use crate::slip::{slipped, switched_on, Slip};
use crate::steps::{sector_of, Run, Stage, Step};

/// Blank by less than all bytes; not without these slips.
pub fn blank(sector: &[u8]) -> bool {
    let ones = |bytes: &[u8]| bytes.iter().all(|&byte| byte == 0xFF);
    let but_for_pairs = || ones(&sector[..63]) && ones(&[sector[63] | 0xF0]) && ones(&sector[64..]);
    slipped(Slip::BlankByStateWord) && number(sector, 0) == u32::MAX
        || slipped(Slip::BlankWithoutLastPairs) && but_for_pairs()
        || slipped(Slip::BlankByNines) && sector.chunks(9).all(|nine| ones(&nine[..nine.len().min(8)]))
        || slipped(Slip::BlankWithoutLastGroup) && ones(&sector[..SECTOR_BYTES - 8])
}

/// Zero bytes from the first zero byte on.
pub fn key_up_to_zero(mut key: Key) -> Key {
    let end = key.iter().position(|&byte| byte == 0).unwrap_or(key.len());
    key[end..].fill(0);
    key
}

/// The sum that service staff make: Written entries less those that the items take by their spans. Below 0 where
/// items have payload that is not Written.
pub fn written_less_spans(sector: &[u8]) -> i64 {
    let spans: usize = items(sector).iter().map(Item::span).sum();
    i64::from(total(sector, EntryState::Written)) - spans as i64
}

/// Unread entries by another count; `count` without these slips.
pub fn unread(sector: &[u8], count: u32) -> u32 {
    if free(state(sector)) {
        let walked = || walk(sector).iter().filter(|met| met.is_unread()).count() as u32;
        return if slipped(Slip::FreeSectorUnread) { walked() } else { count };
    }
    let written = |entry: &usize| entry_state(sector, *entry) == EntryState::Written;
    let payload = |item: &Item| (item.entry + 1..item.end()).filter(written).count() as u32;
    if slipped(Slip::PayloadUnread) {
        return count + items(sector).iter().map(payload).sum::<u32>();
    }
    if slipped(Slip::SparePairsUnread) && items(sector).iter().any(|item| item.end() == ENTRIES) {
        return count + (ENTRIES..ENTRIES + 2).filter(written).count() as u32;
    }
    if slipped(Slip::WrittenLessSpans) {
        return written_less_spans(sector).max(0) as u32;
    }
    count
}

/// The counts of the image after the steps, in the order that stage 1 gives the pages.
fn unread_in_list_order(after: &[u8]) -> Vec<u32> {
    let mut pages = scan(after).pages;
    if let (Some(kept), Some(last)) = (kept_place(&pages), pages.len().checked_sub(1)) {
        pages.swap(kept, last);
    }
    pages.iter().map(|page| items::unread(sector_of(after, page.sector))).collect()
}

/// Each page's count with those of the pages before it, or of another page, or of the image before the steps; as
/// they are without these slips.
pub fn count_unread(before: &[u8], after: &[u8], records: &mut [Option<Record>]) {
    let mut kept = 0;
    for (sector, record) in
        records.iter_mut().flatten().enumerate().filter(|(_, record)| !free(record.state))
    {
        if slipped(Slip::UnreadKept) {
            record.unread += kept;
            kept = record.unread;
        }
        if slipped(Slip::UnreadByListPlace) {
            record.unread = unread_in_list_order(after).get(sector).copied().unwrap_or(0);
        }
        if slipped(Slip::UnreadBeforeSteps) {
            record.unread = items::unread(sector_of(before, sector));
        }
    }
}

/// The first Active page that is a copy of the source, else the first Active page.
pub fn any_copy(run: &Run, pages: &[Page], source: &Page) -> Option<usize> {
    let on = |page: &Page| items(run.sector(page.sector));
    let active = |page: &Page| page.state == State::Active;
    let copy = pages.iter().position(|page| active(page) && is_copy(&on(page), &on(source)));
    copy.or(pages.iter().position(active))
}

/// Copies the source's items that a copy lacks behind those that it has. The answer: whether there is one.
pub fn resume_copy(run: &mut Run, lists: &mut Lists, source: &Page) -> bool {
    let Some(active) = lists.pages.iter_mut().find(|page| page.state == State::Active) else {
        return false;
    };
    let target = active.sector;
    let (there, wanted) = (items(run.sector(target)), items(run.sector(source.sector)));
    if !is_copy(&there, &wanted) {
        return false;
    }
    let mut next = there.last().map_or(0, Item::end);
    for item in wanted.iter().skip(there.len()) {
        if next + item.span() <= ENTRIES {
            run.copy_item(source.sector, item, target, next);
            next += item.span();
        }
    }
    active.state = state(run.sector(target));
    erase_source(run, lists, *source);
    true
}

/// Both lists anew, but that a source which counts as Full still does.
pub fn scan_again(run: &Run, lists: &mut Lists) {
    let full: Vec<usize> =
        lists.pages.iter().filter(|page| page.state == State::Full).map(|page| page.sector).collect();
    *lists = scan(&run.image);
    for page in lists.pages.iter_mut().filter(|page| full.contains(&page.sector)) {
        page.state = State::Full;
    }
}

pub fn finish_made_a_step(run: &Run) -> bool {
    run.list.iter().any(|tagged| matches!(tagged.stage, Stage::Finish { .. }))
}

/// Whether recovery would initialise a page.
pub fn takes_sequence(run: &Run) -> bool {
    let mut run = run.clone();
    stages(&mut run);
    run.list.iter().any(|tagged| matches!(tagged.step, Step::Program { word: 1, .. }))
}

/// The chunk indices of a version judged by another rule; None without these slips.
pub fn exact(version: &Version, index: &Found) -> Option<bool> {
    let slip = switched_on()?;
    let (start, count) = (usize::from(index.item.start()), index.item.chunk_count());
    let byte = usize::from(index.item.header[29]);
    let there = version.chunk_indices();
    let distinct: BTreeSet<usize> = there.iter().copied().collect();
    let counted = there.len() == count;
    let differ = counted && distinct.len() == count;
    let ends = || there.first() == Some(&start) && there.last() == Some(&(start + count - 1));
    let in_order = || version.chunks.iter().map(|chunk| usize::from(chunk.item.chunk_index()));
    Some(match slip {
        Slip::CountAndSizeAlone => counted,
        Slip::ExactButNamespace0 if index.item.namespace() == 0 => counted,
        Slip::ChunksFromStartByte => there.into_iter().eq(byte..byte + count),
        Slip::CountIncluded => there.into_iter().eq(start..=start + count),
        Slip::NoneAboveCount => differ && there.iter().all(|number| *number <= start + count),
        Slip::EachOnceIsEnough => differ,
        Slip::FirstAndLastAreEnough => counted && (count == 0 || ends()),
        Slip::DistinctChunksCounted => distinct.into_iter().eq(start..start + count),
        Slip::ChunksInOrder => in_order().eq(start..start + count),
        Slip::NumbersAgainAfter128 => there == numbers_again(start, count),
        Slip::NoneAt256 => version.exact(index) && start + count < 256,
        _ => return None,
    })
}

/// So many chunk indices, from the start again after 128 of them, ascending.
pub fn numbers_again(start: usize, count: usize) -> Vec<usize> {
    let mut numbers: Vec<usize> = (0..count).map(|chunk| start + chunk % 128).collect();
    numbers.sort();
    numbers
}

/// The first chunk of each chunk index, and the others.
pub fn copies<'a>(version: &Version<'a>) -> (Vec<&'a Found>, Vec<&'a Found>) {
    let mut seen = BTreeSet::new();
    version.chunks.iter().partition(|chunk| seen.insert(chunk.item.chunk_index()))
}

/// Erases the second copies of chunks, where that leaves a sound version. The answer: whether it does.
pub fn drop_second_copies(run: &mut Run, version: &Version) -> bool {
    let (first, second) = copies(version);
    let saved = Version { indices: version.indices.clone(), chunks: first }.sound();
    for chunk in second.iter().filter(|_| saved) {
        run.erase_entries(chunk.sector, chunk.item.entry, chunk.item.span());
    }
    saved
}

/// The older of two by the oldest index of each, or the one whose sector comes later.
pub fn sort_pair(pair: &mut [&Version; 2]) {
    let oldest = |version: &Version| version.indices.iter().map(|index| index.newness()).min();
    let sector = |version: &Version| version.index().map(|index| (Reverse(index.sector), index.newness()));
    if slipped(Slip::OlderByOldestIndex) {
        pair.sort_by_key(|version| oldest(version));
    }
    if slipped(Slip::BlobOfFirstSectorKept) {
        pair.sort_by_key(|version| sector(version));
    }
}

/// All that stage 3 is to erase, by the key before the start or with the older of two among the others.
pub fn erase_in_other_order(run: &mut Run, sound: &Versions, unsound: &Versions) {
    let mut first: Vec<&Version> = unsound.values().collect();
    let mut second: Vec<&Version> = sound_pairs(sound).into_iter().map(|[older, _]| older).collect();
    if slipped(Slip::OlderOfTwoInOnePass) {
        first.append(&mut second);
    }
    first.sort_by_key(|version| {
        let item = version.indices.iter().chain(&version.chunks).next().expect("a version has a part").item;
        let start = if slipped(Slip::KeyBeforeStart) { 0 } else { item.start() };
        (item.namespace(), start, item.key(), item.start())
    });
    first.iter().chain(&second).for_each(|version| version.erase(run));
}

/// Of some items those whose header is still Written.
pub fn still_written(run: &Run, found: &[Found]) -> Vec<Found> {
    let written = |of: &&Found| entry_state(run.sector(of.sector), of.item.entry) == EntryState::Written;
    found.iter().filter(written).copied().collect()
}

/// A group of namespace and key parted by type or by chunk index; as it is without these slips.
pub fn parted(group: Vec<&Found>) -> Vec<Vec<&Found>> {
    let mut parts: BTreeMap<(u8, u8), Vec<&Found>> = BTreeMap::new();
    for found in group {
        let kind = if slipped(Slip::GroupedByType) { found.item.kind() } else { 0 };
        let index = if slipped(Slip::GroupedByChunkIndex) { found.item.chunk_index() } else { 0 };
        parts.entry((kind, index)).or_default().push(found);
    }
    parts.into_values().collect()
}

/// Entries that count as Erased in the points, besides those that are; 0 without these slips.
pub fn taken_for_erased(sector: &[u8]) -> u32 {
    if slipped(Slip::IllegalCountsAsErased) {
        return total(sector, EntryState::Illegal);
    }
    if slipped(Slip::UnreadableCountsAsErased) {
        return items::unread(sector);
    }
    0
}

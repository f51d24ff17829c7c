//! The premises of the demand and of its general form, each by the model's reading.

use std::collections::BTreeSet;

use oracle::blobs::versions;
use oracle::duplicates::groups;
use oracle::items::Item;
use oracle::recover::recover;
use oracle::scan::{found, scan, Found, Lists};
use oracle::sector::{total, EntryState, State, ENTRIES};
use oracle::steps::sector_of;

use crate::kind::Kind;

type Premise = (&'static str, bool);

fn no_active_or_freeing(lists: &Lists) -> bool {
    lists.pages.iter().all(|page| page.state == State::Full)
}

fn page_below_126(image: &[u8], lists: &Lists) -> bool {
    let written = |sector| total(sector_of(image, sector), EntryState::Written);
    lists.pages.iter().any(|page| written(page.sector) < ENTRIES as u32)
}

fn sequences(lists: &Lists) -> bool {
    let distinct: BTreeSet<u32> = lists.pages.iter().map(|page| page.sequence).collect();
    distinct.len() == lists.pages.len() && distinct.iter().all(|sequence| *sequence < 0xFFFF_FFF0)
}

fn no_shared_name(found: &[Found]) -> bool {
    let name = |item: &Item| (item.namespace(), item.key(), item.chunk_index());
    let names: BTreeSet<_> = found.iter().map(|found| name(&found.item)).collect();
    names.len() == found.len()
}

fn no_blob_part_in_namespace_0(found: &[Found]) -> bool {
    let blob_part = |item: &Item| item.is_chunk() || item.is_blob_index();
    !found.iter().any(|found| found.item.namespace() == 0 && blob_part(&found.item))
}

/// Stage 4's groups are of such items.
fn no_shared_key(found: &[Found]) -> bool {
    groups(found).values().all(|group| group.len() == 1)
}

fn unsound_indices_of_span_1(found: &[Found]) -> bool {
    let of_span_1 = |index: &&Found| index.item.span() == 1;
    versions(found).values().all(|version| version.sound() || version.indices.iter().all(of_span_1))
}

/// "a store that recovery accepts and leaves unchanged"
fn settled(image: &[u8]) -> Premise {
    let outcome = recover(image, u64::MAX, &mut [None; 16]);
    let unchanged = outcome.list.is_empty() && outcome.image == image;
    ("recovery accepts it and leaves it unchanged", outcome.result == 0 && unchanged)
}

/// No premise of the general form but what tells the kinds apart.
fn unsettled(image: &[u8]) -> Premise {
    let outcome = recover(image, u64::MAX, &mut [None; 16]);
    ("recovery accepts it and has steps to make", outcome.result == 0 && !outcome.list.is_empty())
}

fn premises_of(kind: Kind, image: &[u8], found: &[Found]) -> Vec<Premise> {
    match kind {
        Kind::Settled => vec![settled(image)],
        Kind::Unsettled => vec![
            ("no two items but chunks share a namespace above 0 and a key", no_shared_key(found)),
            ("indices of unsound versions of span 1", unsound_indices_of_span_1(found)),
            unsettled(image),
        ],
    }
}

/// The first premise that does not hold.
pub fn first_failing(kind: Kind, image: &[u8]) -> Option<&'static str> {
    let lists = scan(image);
    let found = found(image, &lists.pages);
    let of_both = [
        ("no Active or Freeing page", no_active_or_freeing(&lists)),
        ("a free sector", !lists.free.is_empty()),
        ("a page with fewer than 126 Written entries", page_below_126(image, &lists)),
        ("page sequences distinct and below 0xFFFFFFF0", sequences(&lists)),
        ("no blob part in namespace 0", no_blob_part_in_namespace_0(&found)),
        ("no two items share namespace, key and chunk index", no_shared_name(&found)),
    ];
    let premises = of_both.into_iter().chain(premises_of(kind, image, &found));
    premises.into_iter().find(|(_, holds)| !holds).map(|(name, _)| name)
}

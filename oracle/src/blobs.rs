//! Recovery, stage 3.

use std::collections::BTreeMap;

use crate::items::Key;
use crate::notes;
use crate::other_way;
use crate::scan::Found;
use crate::slip::{slipped, Slip};
use crate::steps::{Run, Stage};

/// The indices and the chunks of a version, in list order, then entry order.
#[derive(Default)]
pub struct Version<'a> {
    pub indices: Vec<&'a Found>,
    pub chunks: Vec<&'a Found>,
}

impl<'a> Version<'a> {
    /// "Of several indices of a version the newest counts."
    pub fn index(&self) -> Option<&'a Found> {
        if slipped(Slip::LastIndexCounts) {
            return self.indices.last().copied();
        }
        self.indices.iter().copied().max_by_key(|index| index.newness())
    }

    pub fn summed_sizes(&self) -> u64 {
        let sum: u64 = self.chunks.iter().map(|chunk| chunk.item.chunk_size()).sum();
        if slipped(Slip::SizesWrapAt16Bits) {
            return sum & 0xFFFF;
        }
        sum
    }

    /// The chunk indices, ascending.
    pub fn chunk_indices(&self) -> Vec<usize> {
        let mut indices: Vec<usize> =
            self.chunks.iter().map(|chunk| chunk.item.chunk_index().into()).collect();
        indices.sort();
        indices
    }

    /// Document 02, No. 2: "its chunk indices are exactly start, start + 1 and so on up to the count, each once".
    /// Start is the version's, 0 or 0x80, whatever the index's byte is. In whole numbers: more than 128 chunks
    /// never are.
    pub fn exact(&self, index: &Found) -> bool {
        let start = usize::from(index.item.start());
        self.chunk_indices().into_iter().eq(start..start + index.item.chunk_count())
    }

    /// "No index: its chunks are erased." Document 02, No. 2: "a version is sound only if its chunk indices are
    /// exactly [..], besides the size sum".
    pub fn sound(&self) -> bool {
        let Some(index) = self.index() else {
            return false;
        };
        if slipped(Slip::IndexAloneIsUnsound) && self.chunks.is_empty() {
            return false;
        }
        let exact = other_way::exact(self, index).unwrap_or_else(|| self.exact(index));
        exact && (slipped(Slip::SizesNotSummed) || self.summed_sizes() == index.item.blob_size())
    }

    /// "No index: its chunks are erased." Else "the index entry (one entry) is erased, then its chunks".
    pub fn erase(&self, run: &mut Run) {
        let all = slipped(Slip::OlderIndicesErased);
        for index in if all { self.indices.clone() } else { Vec::from_iter(self.index()) } {
            let entries = if slipped(Slip::IndexErasedByItsSpan) { index.item.span() } else { 1 };
            run.erase_entries(index.sector, index.item.entry, entries);
        }
        for chunk in &self.chunks {
            run.erase_entries(chunk.sector, chunk.item.entry, chunk.item.span());
        }
    }
}

/// "A version is (namespace, key, start) [..] Versions are taken in ascending (namespace, start, key)".
pub type Versions<'a> = BTreeMap<(u8, u8, Key), Version<'a>>;

pub fn versions(found: &[Found]) -> Versions<'_> {
    let mut versions = Versions::new();
    for part in found.iter().filter(|part| part.item.is_chunk() || part.item.is_blob_index()) {
        if slipped(Slip::Namespace0BlobsKept) && part.item.namespace() == 0 {
            continue;
        }
        let name = (part.item.namespace(), part.item.start(), part.item.key());
        let version = versions.entry(name).or_default();
        if part.item.is_chunk() {
            version.chunks.push(part);
        } else {
            version.indices.push(part);
        }
    }
    versions
}

/// The two sound versions of each key that has two, the older first, in "ascending (namespace, key)".
pub fn sound_pairs<'a, 'b>(sound: &'b Versions<'a>) -> Vec<[&'b Version<'a>; 2]> {
    let mut pairs = Vec::new();
    for ((namespace, start, key), version) in sound {
        if let (0, Some(other)) = (start, sound.get(&(*namespace, 0x80, *key))) {
            let mut pair = [version, other];
            pair.sort_by_key(|version| version.index().expect("sound").newness());
            other_way::sort_pair(&mut pair);
            pairs.push(pair);
        }
    }
    pairs
}

/// "Of two sound versions of a key the older goes the same way [..] the older-of-two after all others".
pub fn blobs(run: &mut Run, found: &[Found]) {
    run.stage = Stage::Blobs;
    let (sound, unsound): (Versions, Versions) =
        versions(found).into_iter().partition(|(_, version)| version.sound());
    notes::sound_versions(run, &sound);
    if slipped(Slip::KeyBeforeStart) || slipped(Slip::OlderOfTwoInOnePass) {
        return other_way::erase_in_other_order(run, &sound, &unsound);
    }
    for (name, version) in &unsound {
        notes::unsound_version(run, &sound, &unsound, name);
        if slipped(Slip::SecondCopyDropped) && other_way::drop_second_copies(run, version) {
            continue;
        }
        version.erase(run);
    }
    for [older, newer] in sound_pairs(&sound) {
        notes::older_of_two(run, &unsound, older, newer);
        older.erase(run);
    }
}

//! What is odd about the versions that recovery erases, by the model's reading.

use std::collections::BTreeSet;

use oracle::blobs::{Version, Versions};
use oracle::scan::Found;

pub fn parts<'a>(version: &Version<'a>) -> Vec<&'a Found> {
    version.indices.iter().chain(&version.chunks).copied().collect()
}

pub fn has_part_on(version: &Version, sector: usize) -> bool {
    parts(version).iter().any(|part| part.sector == sector)
}

pub fn pages(version: &Version) -> usize {
    parts(version).iter().map(|part| part.sector).collect::<BTreeSet<_>>().len()
}

/// Some number between the least chunk index and the greatest that no chunk has.
fn has_gap(version: &Version) -> bool {
    let indices: BTreeSet<u8> = version.chunks.iter().map(|chunk| chunk.item.chunk_index()).collect();
    match (indices.first(), indices.last()) {
        (Some(first), Some(last)) => indices.len() <= usize::from(last - first),
        _ => false,
    }
}

/// Whether it has an index for which this holds: of its count and the chunks', of its size and the chunks' sum.
fn compared(version: &Version, holds: fn((usize, usize), (u64, u64)) -> bool) -> bool {
    version.index().is_some_and(|index| {
        let counts = (index.item.chunk_count(), version.chunks.len());
        holds(counts, (index.item.blob_size(), version.summed_sizes()))
    })
}

/// Count and size fit the index, so it is the chunk indices: they are not start, start + 1 and so on.
fn indices_alone_wrong(version: &Version) -> bool {
    compared(version, |(count, chunks), (size, sum)| count == chunks && size == sum)
}

/// Whether the index fits what is left once some of the chunks are erased: so it has to go before them.
fn fits_on_the_way(version: &Version) -> bool {
    let left = |erased: usize| Version {
        indices: version.indices.clone(),
        chunks: version.chunks[erased..].to_vec(),
    };
    (1..=version.chunks.len()).any(|erased| left(erased).sound())
}

type OfVersion = fn(&Version) -> bool;

pub const OF_VERSION: &[(&str, OfVersion)] = &[
    ("of any kind", |_| true),
    ("without an index", |version| version.indices.is_empty()),
    ("with an index, without chunks", |version| version.chunks.is_empty()),
    ("with fewer chunks than counted", |version| compared(version, |(count, chunks), _| chunks < count)),
    ("with more chunks than counted", |version| compared(version, |(count, chunks), _| chunks > count)),
    ("whose count alone is wrong", |version| {
        compared(version, |(count, chunks), (size, sum)| count != chunks && size == sum)
    }),
    ("whose size alone is wrong", |version| version.index().is_some_and(|index| version.exact(index))),
    ("whose chunk indices alone are wrong", indices_alone_wrong),
    ("such a one with a gap", |version| indices_alone_wrong(version) && has_gap(version)),
    ("such a one without a gap", |version| indices_alone_wrong(version) && !has_gap(version)),
    ("that fits its index once some chunks are erased", fits_on_the_way),
    ("with a gap in the chunk indices", has_gap),
    ("over two pages or more", |version| pages(version) > 1),
];

/// Whether the versions of some key, of the two starts, are such.
pub fn some_key(versions: &Versions, holds: fn(&Version, &Version) -> bool) -> bool {
    versions.iter().any(|((namespace, start, key), version)| {
        versions.get(&(*namespace, start ^ 0x80, *key)).is_some_and(|other| holds(version, other))
    })
}

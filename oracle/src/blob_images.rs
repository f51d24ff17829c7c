//! Blobs built by hand for No. 2 of document 02: chunk indices that are start, start + 1 and so on up to the count,
//! each once, and some that are not. Their sizes add up, but where it is said.

use crate::items::{BLOB_INDEX, CHUNK};
use crate::named::{number_item, page};
use crate::protocol::Operation;
use crate::sector::{ACTIVE_WORD, ENTRIES, FULL_WORD};
use crate::writing::{blank_sector, chunk_data, index_data, Fields};

const CHUNK_BYTES: u16 = 5;

/// Chunks of these chunk indices as they lie on flash, then an index of their size with this count and start byte.
pub fn blob(key: &str, chunk_indices: &[u8], count: u8, start_byte: u8) -> Vec<Fields> {
    let item = number_item(key, 0);
    let chunk = |chunk_index: &u8| Fields {
        kind: CHUNK,
        chunk_index: *chunk_index,
        data: chunk_data(CHUNK_BYTES),
        ..item
    };
    let size = u32::from(CHUNK_BYTES) * chunk_indices.len() as u32;
    let index = Fields { kind: BLOB_INDEX, data: index_data(size, count, start_byte), ..item };
    chunk_indices.iter().map(chunk).chain([index]).collect()
}

/// "A bench image had a blob index of two chunks, and on flash chunk 0 twice and chunk 1 never. Sizes added up".
/// A number and a sound blob are beside it.
pub fn bench_image() -> Vec<u8> {
    let items =
        [vec![number_item("a", 1)], blob("profile", &[0, 0], 2, 0), blob("upload", &[0, 1], 2, 0)].concat();
    [page(ACTIVE_WORD, 7, &items), blank_sector()].concat()
}

/// Count 0 and no chunk; the numbers in another order on flash; start 0x80; start bytes other than the version's
/// start; the older version of a key whose newer one is unsound.
pub fn sound_blobs() -> Vec<Vec<Fields>> {
    vec![
        blob("none", &[], 0, 0),
        blob("order", &[2, 0, 1], 3, 0),
        blob("start 80", &[0x80, 0x81], 2, 0x80),
        blob("byte 3", &[0, 1], 2, 3),
        blob("byte 83", &[0x80, 0x81], 2, 0x83),
        blob("two starts", &[0], 1, 0),
    ]
}

/// The index's size is that of one copy of each chunk.
fn size_of_one_copy() -> Vec<Fields> {
    let mut parts = blob("one copy", &[0, 1, 1], 2, 0);
    parts[3].data = index_data(2 * u32::from(CHUNK_BYTES), 2, 0);
    parts
}

fn in_namespace_0(parts: Vec<Fields>) -> Vec<Fields> {
    parts.into_iter().map(|part| Fields { namespace: 0, ..part }).collect()
}

/// Gaps; one up; from the index's own start byte; of the other start; one chunk too many at the count's own number;
/// the first and the last right with one twice between them; a second copy of a chunk in a blob else whole.
pub fn unsound_blobs() -> Vec<Vec<Fields>> {
    vec![
        blob("0 and 2", &[0, 2], 2, 0),
        blob("0 and 5", &[0, 5], 2, 0),
        blob("80 and 82", &[0x80, 0x82], 2, 0x80),
        blob("1 and 2", &[1, 2], 2, 0),
        blob("3 and 4", &[3, 4], 2, 3),
        blob("other start", &[0x80, 0x81], 2, 0),
        blob("one too many", &[0, 1, 2], 2, 0),
        blob("0, 0 and 2", &[0, 0, 2], 3, 0),
        blob("0, 1 and 1", &[0, 1, 1], 2, 0),
        size_of_one_copy(),
        in_namespace_0(blob("namespace 0", &[0, 2], 2, 0)),
        blob("two starts", &[0x81], 1, 0x80),
    ]
}

/// A blob of so many chunks. A version can have 128: those beyond have numbers that others have.
pub fn long_blob(key: &str, count: u8, start: u8) -> Vec<Fields> {
    let numbers: Vec<u8> = (0..count).map(|chunk| start + chunk % 128).collect();
    blob(key, &numbers, count, start)
}

/// Full pages with these items of one entry.
pub fn full_pages(items: &[Fields]) -> Vec<u8> {
    let pages = items.chunks(ENTRIES).zip(5..);
    pages.flat_map(|(items, sequence)| page(FULL_WORD, sequence, items)).collect()
}

pub fn blob_images(operation: Operation) -> Vec<Vec<u8>> {
    let sound = || page(FULL_WORD, 6, &sound_blobs().concat());
    let unsound = || page(ACTIVE_WORD, 7, &unsound_blobs().concat());
    let long = || full_pages(&[long_blob("128", 128, 0x80), long_blob("129", 129, 0)].concat());
    match operation {
        Operation::Recover => vec![bench_image(), [sound(), unsound()].concat(), long()],
        Operation::Listing => vec![bench_image()],
        Operation::Reclaim | Operation::ItemReader => Vec::new(),
    }
}

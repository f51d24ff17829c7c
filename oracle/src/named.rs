//! The cases that documents 01 and 02 name, each built by hand.

use crate::blob_images::blob_images;
use crate::items::{BLOB_INDEX, CHUNK};
use crate::protocol::{Case, Operation};
use crate::sector::{EntryState, ACTIVE_WORD, ENTRIES, ENTRY_BYTES, FREEING_WORD, FULL_WORD, SECTOR_BYTES};
use crate::writing::{
    blank_sector, chunk_data, empty_page, index_data, key_of, set_entry, set_entry_state, Fields,
};

/// A one-entry item of namespace 1 and type 0x01.
pub fn number_item(key: &str, value: u8) -> Fields {
    let data = [value, 0xFF, 0xFF, 0xFF, 0xFF, 0xFF, 0xFF, 0xFF];
    Fields { namespace: 1, kind: 0x01, span: 1, chunk_index: 0xFF, key: key_of(key), data }
}

/// A page with these one-entry items from entry 0 on.
pub fn page(state_word: u32, sequence: u32, items: &[Fields]) -> Vec<u8> {
    let mut sector = empty_page(state_word, sequence, 0xFE);
    for (entry, fields) in items.iter().enumerate() {
        set_entry(&mut sector, entry, &fields.header());
        set_entry_state(&mut sector, entry, EntryState::Written);
    }
    sector
}

/// "sector 0 Blank and sector 1 Full, sequence 7, three readable one-entry items of namespace 1, type 0x01
/// and different keys, and two Erased entries"
pub fn listing_example() -> Vec<u8> {
    let items = [number_item("a", 1), number_item("b", 2), number_item("c", 3)];
    let mut full = page(FULL_WORD, 7, &items);
    set_entry_state(&mut full, 3, EntryState::Erased);
    set_entry_state(&mut full, 4, EntryState::Erased);
    [blank_sector(), full].concat()
}

/// Two Active pages of one sequence: the first is kept. The duplicate at one entry of both: the page later
/// in the list after the change of places has the newer.
pub fn equal_sequences() -> Vec<u8> {
    let first = page(ACTIVE_WORD, 5, &[number_item("a", 1), number_item("b", 1)]);
    let second = page(ACTIVE_WORD, 5, &[number_item("a", 2)]);
    [first, second].concat()
}

/// Two Freeing pages and one free sector: the second is copied into what the first left.
pub fn two_freeing_pages() -> Vec<u8> {
    let first = page(FREEING_WORD, 3, &[number_item("a", 1)]);
    let second = page(FREEING_WORD, 4, &[number_item("b", 2), number_item("c", 3)]);
    [first, second, blank_sector()].concat()
}

/// An Active page that has an item the Freeing page has not: it stays.
pub fn active_non_copy_beside_freeing() -> Vec<u8> {
    let freeing = page(FREEING_WORD, 3, &[number_item("a", 1)]);
    let active = page(ACTIVE_WORD, 4, &[number_item("a", 1), number_item("b", 2)]);
    [freeing, active, blank_sector()].concat()
}

/// An image that is refused for its length, with a page in it where one fits.
fn of_length(length: usize) -> Vec<u8> {
    let mut image = page(FULL_WORD, 7, &[number_item("a", 1)]);
    image.resize(length, 0xFF);
    image
}

/// Entries that the walk cannot take as an item at entry 1, each by one cause: the CRC wrong, the type not known,
/// span 0, the span past the page by one.
fn unread_entries() -> [[u8; ENTRY_BYTES]; 4] {
    let fields = number_item("unread", 9);
    let mut wrong_crc = fields.header();
    wrong_crc[24] ^= 1;
    let unknown_type = Fields { kind: 0x03, ..fields }.header();
    let span_zero = Fields { span: 0, ..fields }.header();
    let past_page = Fields { span: ENTRIES as u8, ..fields }.header();
    [wrong_crc, unknown_type, span_zero, past_page]
}

/// A page with one unread entry, between two items.
fn page_with_unread(
    state_word: u32,
    sequence: u32,
    keys: [&str; 2],
    unread: &[u8; ENTRY_BYTES],
) -> Vec<u8> {
    let [first, last] = keys.map(|key| number_item(key, 1));
    let mut sector = page(state_word, sequence, &[first, first, last]);
    set_entry(&mut sector, 1, unread);
    sector
}

/// Each cause alone on its page. Of the first two stage 1 marks one Full; the third is left Freeing beside the
/// fourth, for no sector is free.
pub fn lone_unread() -> [Vec<u8>; 4] {
    let [wrong_crc, unknown_type, span_zero, past_page] = unread_entries();
    [
        page_with_unread(ACTIVE_WORD, 3, ["a", "b"], &wrong_crc),
        page_with_unread(ACTIVE_WORD, 4, ["c", "d"], &unknown_type),
        page_with_unread(FREEING_WORD, 3, ["a", "b"], &span_zero),
        page_with_unread(ACTIVE_WORD, 4, ["c", "d"], &past_page),
    ]
}

/// A Freeing page and its copy, whose second item was torn; each has an unread entry. Recovery erases the copy, and
/// the next one in its place has none.
fn torn_copy() -> Vec<u8> {
    let [wrong_crc, unknown_type, ..] = unread_entries();
    let freeing = page_with_unread(FREEING_WORD, 3, ["a", "b"], &unknown_type);
    let mut copy = page(ACTIVE_WORD, 4, &[number_item("a", 1); 2]);
    set_entry(&mut copy, 1, &wrong_crc);
    [freeing, copy].concat()
}

/// Both pairs past entry 125 Written, behind an item that ends with entry 125. The entry before it is unread.
pub fn spare_pairs_behind_item() -> Vec<u8> {
    let item = Fields { kind: 0x21, span: ENTRIES as u8 - 1, ..number_item("a", 1) };
    let mut sector = page(FULL_WORD, 5, &[item; 2]);
    set_entry(&mut sector, 0, &unread_entries()[0]);
    (2..ENTRIES + 2).for_each(|entry| set_entry_state(&mut sector, entry, EntryState::Written));
    sector
}

/// Corrupt by its header CRC, with Written entries of which one would be unread on a page.
pub fn corrupt_with_written() -> Vec<u8> {
    let mut sector = lone_unread()[0].clone();
    sector[28] ^= 1;
    sector
}

/// An item of which one payload entry is Written and two are not, an Illegal entry, and three unread entries: one
/// before the item, two behind it. Written less the spans is 1.
pub fn unmarked_payload() -> Vec<u8> {
    let [wrong_crc, unknown_type, span_zero, _] = unread_entries();
    let item = Fields { kind: 0x21, span: 4, ..number_item("e", 1) };
    let mut sector = page(ACTIVE_WORD, 6, &[item; 9]);
    let others = [(0, wrong_crc), (6, unknown_type), (7, span_zero), (8, number_item("f", 1).header())];
    for (entry, header) in others {
        set_entry(&mut sector, entry, &header);
    }
    for (entry, state) in [(3, EntryState::Empty), (4, EntryState::Erased), (5, EntryState::Illegal)] {
        set_entry_state(&mut sector, entry, state);
    }
    sector
}

/// A blob index of two entries without its chunk: stage 3 erases the first of them, and the second, till then
/// payload, is unread.
pub fn unread_uncovered() -> Vec<u8> {
    let index = Fields { kind: BLOB_INDEX, span: 2, data: index_data(5, 1, 0), ..number_item("a", 0) };
    let mut sector = page(FULL_WORD, 7, &[index, index, number_item("b", 1)]);
    set_entry(&mut sector, 1, &[0; ENTRY_BYTES]);
    sector
}

/// "Run: lengths 0, 4,095, 4,096, 8,192, 65,536, 69,632; equal sequences; two Freeing pages; an Active
/// non-copy beside a Freeing page", and the listing example. Recovery is run at
/// all these lengths (65,536 is that of a generated case, see sample.rs), the others at one wrong length each, to
/// keep the sample small.
fn named_images(operation: Operation) -> Vec<Vec<u8>> {
    match operation {
        Operation::Recover => vec![
            of_length(0),
            of_length(4095),
            of_length(4096),
            listing_example(),
            equal_sequences(),
            two_freeing_pages(),
            active_non_copy_beside_freeing(),
            of_length(69632),
        ],
        Operation::Reclaim => vec![of_length(4096)],
        Operation::ItemReader => vec![of_length(0), of_length(4095)],
        Operation::Listing => vec![of_length(4095), listing_example()],
    }
}

/// Document 02, No. 7: "the count of Written entries that the walk reached and could not take as an item".
fn unread_images(operation: Operation) -> Vec<Vec<u8>> {
    let [wrong_crc, unknown_type, span_zero, past_page] = lone_unread();
    match operation {
        Operation::Recover => vec![
            [wrong_crc, unknown_type].concat(),
            [span_zero, past_page].concat(),
            [corrupt_with_written(), spare_pairs_behind_item()].concat(),
            [unmarked_payload(), unread_uncovered()].concat(),
            torn_copy(),
        ],
        Operation::ItemReader => vec![
            wrong_crc,
            unknown_type,
            span_zero,
            past_page,
            spare_pairs_behind_item(),
            corrupt_with_written(),
            unmarked_payload(),
        ],
        Operation::Listing => vec![[unmarked_payload(), spare_pairs_behind_item()].concat()],
        Operation::Reclaim => Vec::new(),
    }
}

/// A header of these entries and after it payload that reads as items.
fn payload_like_items(header: Fields) -> impl Iterator<Item = Fields> {
    let payload = (1..header.span).map(|value| number_item("p", value));
    std::iter::once(header).chain(payload)
}

/// A Full page with an item of 17 entries, so with states in two words; and an Erased entry. A free sector.
pub fn item_to_copy() -> Vec<u8> {
    let header = Fields { kind: 0x21, span: 17, ..number_item("a", 1) };
    let mut full = page(FULL_WORD, 7, &payload_like_items(header).collect::<Vec<_>>());
    set_entry_state(&mut full, 17, EntryState::Erased);
    [full, blank_sector()].concat()
}

/// A Full page with a chunk without an index, entries 10 to 29, among numbers. A free sector.
pub fn chunk_to_erase() -> Vec<u8> {
    let chunk =
        Fields { kind: CHUNK, span: 20, chunk_index: 0, data: chunk_data(600), ..number_item("c", 0) };
    let numbers = |keys: &'static str| keys.chars().map(|key| number_item(&key.to_string(), 1));
    let items = numbers("0123456789").chain(payload_like_items(chunk)).chain(numbers("ab"));
    [page(FULL_WORD, 7, &items.collect::<Vec<_>>()), blank_sector()].concat()
}

/// Document 02, No. 4: "one entry a step". A copy and an erasure, each stopped between its two state words: each entry
/// of one word is marked, none of the other.
fn mark_cases(operation: Operation) -> Vec<Case> {
    let case = |allowance, image| Case { operation, allowance, records: 16, image };
    let marked_and_initialised = 1 + 8;
    match operation {
        Operation::Reclaim => vec![case(marked_and_initialised + 17 * 8 + 16, item_to_copy())],
        Operation::Recover => vec![case(30 - 16, chunk_to_erase())],
        Operation::ItemReader | Operation::Listing => Vec::new(),
    }
}

pub fn named_cases(operation: Operation) -> Vec<Case> {
    let case = |image| Case { operation, allowance: u64::MAX, records: 16, image };
    let images = [named_images(operation), unread_images(operation), blob_images(operation)];
    images.into_iter().flatten().map(case).chain(mark_cases(operation)).collect()
}

/// Two sectors that are Blank but for one byte: the first behind the eight first, and the last of all.
fn nearly_blank() -> Vec<u8> {
    let (mut first, mut second) = (blank_sector(), blank_sector());
    first[8] = 0xFE;
    second[SECTOR_BYTES - 1] = 0x7F;
    [first, second].concat()
}

/// Cases for slips that the generated cases show seldom (slip.rs): sectors that are Corrupt by one byte alone, and a
/// recovery stopped before it erases a copy.
pub fn slip_cases(operation: Operation) -> Vec<Case> {
    let case = |allowance, image| Case { operation, allowance, records: 16, image };
    match operation {
        Operation::Recover => vec![case(u64::MAX, nearly_blank()), case(0, torn_copy())],
        _ => Vec::new(),
    }
}

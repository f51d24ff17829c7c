//! Recovery, stages 3 and 4.

use model::crc::crc;
use model::sector::{EntryState, ACTIVE_WORD};
use model::writing::{index_data, key_of, Fields};

use super::{recover, Named};
use crate::page::{fields, image, value, Page, CHUNK, INDEX, NUMBER};

const PAYLOAD: [u8; 20] = [6; 20];

fn sound(page: Page, start: u8) -> Page {
    page.chunk("k", start, &PAYLOAD).index("k", 20, 1, start)
}

/// A number, a blob of two chunks of these chunk indices, whose count and size its index has, and a sound blob.
fn two_chunks(name: &'static str, chunk_indices: [u8; 2]) -> Named {
    let [one, other] = chunk_indices;
    let page = Page::full(5).number("n", 1).chunk("b", one, &PAYLOAD).chunk("b", other, &PAYLOAD);
    recover(name, image(&[&sound(page.index("b", 40, 2, 0), 0), &Page::blank()]))
}

/// Document 02, No. 2: the crate leaves both, for count and size are right.
pub fn numbers() -> Vec<Named> {
    vec![two_chunks("one-chunk-twice", [0, 0]), two_chunks("chunks-0-and-2", [0, 2])]
}

pub fn blobs() -> Vec<Named> {
    let blank = Page::blank();
    let (new, old) = (sound(Page::full(9), 0), Page::full(5).index("k", 99, 3, 0));
    let of_namespace_0 = Fields { namespace: 0, chunk_index: 0, ..fields(CHUNK, key_of("k"), value(0)) };
    let inner = fields(NUMBER, key_of("x"), value(1)).header();
    let wide_index = Fields { span: 2, ..fields(INDEX, key_of("k"), index_data(20, 1, 0)) };
    let indexed = |start| Page::full(5).index("k", 20, 1, start).chunk("k", start, &PAYLOAD);
    let all_kinds = sound(sound(Page::full(5), 0), 0x80).chunk("c", 0, &PAYLOAD).index("d", 20, 1, 0);
    let later = sound(Page::full(5).numbers_to(10, "n"), 0);
    vec![
        recover("newest-index-in-lower-sector", image(&[&new, &old, &blank])),
        recover("newest-index-in-higher-sector", image(&[&old, &new, &blank])),
        recover(
            "index-on-page-of-equal-sequence",
            image(&[&Page::full(5).number("keep", 1), &Page::full(5).index("k", 20, 1, 0)]),
        ),
        recover("versions-of-equal-age", image(&[&indexed(0x80), &indexed(0)])),
        recover("chunk-of-namespace-0", image(&[&Page::full(5).put(of_namespace_0, &[]), &blank])),
        recover("index-of-span-2", image(&[&Page::full(5).put(wide_index, &inner).number("x", 2), &blank])),
        recover("blobs-of-all-kinds", image(&[&all_kinds, &blank])),
        recover("age-by-sequence-first", image(&[&later, &sound(Page::full(6), 0x80), &blank])),
        recover(
            "older-index-left",
            image(&[&Page::full(5).index("k", 20, 1, 0).index("k", 20, 2, 0), &blank]),
        ),
    ]
}

/// Two keys in order whose hashes are not.
fn keys_against_hashes() -> (String, String) {
    let hash = |key: &str| {
        let mut bytes = vec![1];
        bytes.extend(key_of(key));
        bytes.push(0xFF);
        crc(&bytes).to_le_bytes()[..3].to_vec()
    };
    let keys: Vec<String> = (b'a'..=b'z').map(|letter| (letter as char).to_string()).collect();
    let pair = keys.windows(2).find(|pair| hash(&pair[0]) > hash(&pair[1])).expect("some pair of 25");
    (pair[0].clone(), pair[1].clone())
}

pub fn duplicates() -> Vec<Named> {
    let blank = Page::blank();
    let byte_0 = Fields { chunk_index: 0, ..fields(NUMBER, key_of("k"), value(1)) };
    let (low, high) = keys_against_hashes();
    // The older ones lie under different words of entry states, so that the order shows.
    let new = Page::full(5).number(&low, 1).erased(19).number(&low, 2).number(&high, 2);
    let old = Page::full(4).erased(16).number(&high, 0);
    let text = Page::new(ACTIVE_WORD, 5).numbers_to(123, "n").text("t", &[0x55; 40]);
    let open = text.states(124, 2, EntryState::Empty);
    vec![
        recover(
            "older-index-of-same-version",
            image(&[&Page::full(5).index("k", 20, 1, 0), &sound(Page::full(6), 0)]),
        ),
        recover(
            "unlike-chunk-index-bytes",
            image(&[&Page::full(5).put(byte_0, &[]).number("k", 2), &blank]),
        ),
        recover("order-of-groups", image(&[&new, &old])),
        recover("full-mark-at-the-end", image(&[&open, &Page::full(6).number("t", 1)])),
        recover("blob-replaced-by-number", image(&[&sound(Page::full(5), 0).number("k", 3), &blank])),
    ]
}

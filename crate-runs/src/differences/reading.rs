//! Reading a page, the flash model, Active order.

use model::sector::{EntryState, ACTIVE_WORD, FREEING_WORD, FULL_WORD};
use model::writing::{empty_page, key_of, Fields};

use super::{reclaim, recover, Named};
use crate::page::{fields, image, value, with_payload, Page, NUMBER, TEXT};

const PAYLOAD: [u8; 40] = [0x55; 40];

fn beside_blank(page: Page) -> Vec<u8> {
    image(&[&page, &Page::blank()])
}

/// What the crate's scan marks, and document 01's leaves.
pub fn repairs() -> Vec<Named> {
    use EntryState::{Empty, Erased, Written};
    let active = || Page::new(ACTIVE_WORD, 7);
    let number = fields(NUMBER, key_of("b"), value(2)).header();
    let text = with_payload(TEXT, "t", &PAYLOAD);
    let too_long = Fields { span: 126, ..fields(TEXT, key_of("b"), value(0)) };
    let unlike_type = |kind| Page::full(7).put(fields(kind, key_of("a"), value(1)), &[]);
    let cases = vec![
        ("torn-word-under-empty", Page::full(7).number("a", 1).bytes_at(1, &[1, 4, 1, 0xFF])),
        ("whole-number-under-empty", active().number("a", 1).bytes_at(1, &number)),
        ("whole-text-under-empty", active().bytes_at(0, &text.header()).bytes_at(1, &PAYLOAD)),
        ("torn-text-under-empty", active().bytes_at(0, &text.header()).bytes_at(1, &PAYLOAD[..20])),
        (
            "number-of-span-2-under-empty",
            active().bytes_at(0, &Fields { span: 2, ..fields(NUMBER, key_of("a"), value(1)) }.header()),
        ),
        ("written-with-wrong-crc", Page::full(7).number("a", 1).flip(64 + 24)),
        (
            "written-with-span-0",
            Page::full(7).put(Fields { span: 0, ..fields(NUMBER, key_of("a"), value(1)) }, &[]),
        ),
        (
            "written-with-span-126-at-1",
            Page::full(7).number("a", 1).bytes_at(1, &too_long.header()).states(1, 1, Written),
        ),
        ("written-with-unknown-type", unlike_type(0x33)),
        ("payload-empty", Page::full(7).text("t", &PAYLOAD).states(1, 2, Empty)),
        ("payload-erased", Page::full(7).text("t", &PAYLOAD).states(2, 1, Erased)),
        ("gap", Page::full(7).number("a", 1).skip(1).number("b", 1)),
        (
            "empty-header-erased-payload",
            active().text("t", &PAYLOAD).states(0, 1, Empty).states(1, 2, Erased),
        ),
        ("active-full-after-repair", Page::new(ACTIVE_WORD, 5).numbers_to(125, "k").bytes_at(125, &[0])),
    ];
    cases.into_iter().map(|(name, page)| recover(name, beside_blank(page))).collect()
}

/// Page states and types.
pub fn pages() -> Vec<Named> {
    let version_0 = Page { bytes: empty_page(FULL_WORD, 7, 0), next: 0 }.number("a", 1).erased(1);
    let type_ff = || Page::full(7).put(fields(0xFF, key_of("a"), value(1)), &[]);
    let mut disguised = fields(0xFF, key_of("a"), value(1)).header();
    disguised[1] = 0x33;
    let full = Page::full(8).number("b", 1).erased(1);
    let word_0 = Page::new(0, 7).number("a", 1);
    vec![
        recover("version-0-recover", beside_blank(version_0.clone())),
        reclaim("version-0-reclaim", beside_blank(version_0)),
        recover("type-ff-alone", beside_blank(type_ff())),
        reclaim("type-ff-copied", beside_blank(type_ff().number("b", 1).erased(1))),
        recover("type-ff-is-older", beside_blank(type_ff().number("a", 1))),
        reclaim(
            "unknown-type-with-crc-of-type-ff",
            beside_blank(
                Page::full(7).bytes_at(0, &disguised).states(0, 1, EntryState::Written).skip(1).erased(1),
            ),
        ),
        recover("state-word-0", image(&[&word_0, &full])),
        recover("blank-header-byte-behind", image(&[&Page::blank().flip(100), &full])),
        reclaim("blank-header-target", image(&[&Page::blank().flip(100), &full])),
        recover("namespace-entry-alone", beside_blank(Page::full(7).namespace("space"))),
        recover(
            "illegal-entry",
            beside_blank(Page::full(7).number("a", 1).states(1, 1, EntryState::Illegal)),
        ),
    ]
}

/// Items of namespace 0 with a payload: the crate goes on by one, and counts their entries twice.
pub fn namespace_0() -> Vec<Named> {
    let long = Fields { namespace: 0, ..with_payload(TEXT, "ns", &PAYLOAD[..32]) };
    let mut nested = Page::full(7);
    for (entry, span) in [(0, 126), (1, 125), (2, 124)] {
        let name = format!("n{entry}");
        let fields = Fields { namespace: 0, span, ..fields(TEXT, key_of(&name), value(0)) };
        nested = nested.put(fields, &[]);
        nested.next = entry + 1;
    }
    vec![
        recover("namespace-0-span-2", beside_blank(Page::full(7).put(long, &PAYLOAD[..32]))),
        recover(
            "namespace-0-counted-twice",
            beside_blank(Page::new(ACTIVE_WORD, 7).put(long, &PAYLOAD[..32]).numbers_to(125, "k")),
        ),
        recover("namespace-0-nested", beside_blank(nested)),
    ]
}

/// The order of words, and Active order, where both do the same.
pub fn flash_and_order() -> Vec<Named> {
    let active = |sequence, key| Page::new(ACTIVE_WORD, sequence).number(key, 1);
    let freeing = Page::new(FREEING_WORD, 5).number("a", 1).erased(1).number("b", 1);
    let long_chunk = Page::full(5).numbers_to(10, "k").chunk("b", 0, &[6; 600]);
    vec![
        recover("order-of-header-words", beside_blank(freeing)),
        recover("order-of-erasure-words", beside_blank(long_chunk)),
        recover("three-active", image(&[&active(5, "a"), &active(6, "b"), &active(6, "c")])),
        recover("active-without-empty-entry", beside_blank(Page::new(ACTIVE_WORD, 5).numbers_to(126, "k"))),
    ]
}

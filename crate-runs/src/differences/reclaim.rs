//! Reclaim.

use model::sector::{EntryState, ACTIVE_WORD, FREEING_WORD};

use super::{reclaim, Named};
use crate::page::{image, Page};

pub fn refusals() -> Vec<Named> {
    let blank = Page::blank();
    let full = Page::full(5).number("a", 1).erased(3);
    let active = Page::new(ACTIVE_WORD, 6).number("b", 1);
    let last = |sequence| image(&[&Page::full(sequence).number("a", 1).erased(1), &Page::blank()]);
    let written = Page::full(5).numbers_to(126, "k");
    vec![
        reclaim("active-stands", image(&[&full, &active, &blank])),
        reclaim("active-has-most-points", image(&[&full, &active.erased(9), &blank])),
        reclaim("no-free-sector-for-the-copy", image(&[&full, &Page::full(6).number("c", 1).erased(1)])),
        reclaim("reclaim-sequence-limit", last(0xFFFF_FFFE)),
        reclaim("reclaim-last-sequence", last(0xFFFF_FFFD)),
        reclaim("all-written", image(&[&written, &blank])),
        reclaim("all-written-one-unreadable", image(&[&written.flip(64 + 24), &blank])),
    ]
}

pub fn choices() -> Vec<Named> {
    let blank = Page::blank();
    let one_erased = |sequence, key| Page::full(sequence).number(key, 1).erased(1);
    let two = Page::full(5).number("a", 1).number("b", 1).erased(1);
    let stale = Page::full(9).erased(126).flip(28);
    let illegal = Page::full(5).number("a", 1).states(1, 1, EntryState::Illegal);
    let nearly = Page::full(5).erased(125).states(125, 1, EntryState::Illegal);
    let freeing = Page::new(FREEING_WORD, 2).number("a", 1).erased(3);
    let store = Page::full(5).namespace("space").text("t", &[7; 40]).erased(2);
    let p7 = [
        Page::full(2).number("a", 1).erased(3),
        Page::full(12).number("b", 1).erased(4),
        Page::full(19).number("c", 1),
    ];
    vec![
        reclaim(
            "points-past-32-bits",
            image(&[&one_erased(0, "a"), &one_erased(0xFFFF_FFF7, "b"), &blank]),
        ),
        reclaim("corrupt-target-with-used-states", image(&[&two, &stale])),
        reclaim("corrupt-target-with-blank-states", image(&[&two, &Page::full(9).flip(28)])),
        reclaim("illegal-counts-as-erased", image(&[&illegal, &one_erased(6, "b"), &blank])),
        reclaim("illegal-among-126", image(&[&nearly, &blank])),
        reclaim("all-erased", image(&[&Page::full(5).erased(126), &blank])),
        reclaim("plain-reclaim", image(&[&store.chunk("b", 0, &[6; 20]).index("b", 20, 1, 0), &blank])),
        reclaim("equal-points", image(&[&p7[0], &p7[1], &p7[2], &blank])),
        reclaim("freeing-is-chosen", image(&[&freeing, &blank])),
        reclaim("two-free-sectors", image(&[&blank, &two, &blank])),
    ]
}

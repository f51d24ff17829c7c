//! Recovery, stage 2.

use model::sector::{EntryState, ACTIVE_WORD, ENTRY_BYTES, FREEING_WORD};
use model::writing::empty_page;

use super::{recover, Named};
use crate::page::{image, Page};

fn freeing(sequence: u32) -> Page {
    Page::new(FREEING_WORD, sequence)
}

fn active(sequence: u32) -> Page {
    Page::new(ACTIVE_WORD, sequence)
}

/// Partial and finished copies, and namespace 0.
pub fn copies() -> Vec<Named> {
    let (blank, one) = (Page::blank(), freeing(5).number("a", 1));
    let newer = Page::full(6).number("a", 2);
    let lone = freeing(5).namespace("space").erased(3);
    vec![
        recover("active-holds-only-a-namespace", image(&[&one, &active(6).namespace("space"), &blank])),
        recover(
            "namespace-not-on-newest-page",
            image(&[&freeing(5).namespace("space").number("a", 1), &newer, &blank]),
        ),
        recover("lone-namespace-on-source", image(&[&lone, &newer, &blank])),
        recover("active-is-no-copy", image(&[&one, &active(6).number("a", 2), &blank])),
        recover("newest-of-equal-sequence", image(&[&one, &Page::full(5).number("a", 2), &blank])),
        recover("newest-holds-all", image(&[&one, &newer, &blank])),
        recover("copy-without-item", image(&[&one, &active(6), &blank])),
    ]
}

/// Which sector, which sequence, which page first.
pub fn choices() -> Vec<Named> {
    let source = freeing(5).number("a", 1).erased(1).number("b", 1);
    let blank = Page::blank();
    let corrupt = Page::new(0, 1);
    let left = [Page::full(9).number("a", 2), freeing(9).number("p", 1), freeing(5).number("a", 1)];
    vec![
        recover("three-free-sectors", image(&[&blank, &source, &blank, &blank])),
        recover("corrupt-sector-is-last", image(&[&source, &blank, &corrupt])),
        recover("finish-sequence-limit", image(&[&freeing(0xFFFF_FFFE).number("a", 1), &blank])),
        recover("finish-last-sequence", image(&[&freeing(0xFFFF_FFFF).number("a", 1), &blank])),
        recover("two-freeing", image(&[&source, &freeing(6).number("c", 1), &blank])),
        recover("no-free-sector", image(&[&source, &active(6).number("z", 2)])),
        recover("source-goes-to-the-front", image(&[&left[0], &left[1], &left[2]])),
    ]
}

/// A page with the bytes of another under the header of a new Active one.
fn copy_of(source: &Page) -> Page {
    let mut copy = source.clone();
    copy.bytes[..32].copy_from_slice(&empty_page(ACTIVE_WORD, 6, 0xFE)[..32]);
    copy
}

/// Copies that were cut.
pub fn torn() -> Vec<Named> {
    let source = freeing(5).number("a", 1).erased(1).number("b", 1);
    let second = &source.bytes[64 + 2 * ENTRY_BYTES..64 + 3 * ENTRY_BYTES];
    let partial = active(6).number("a", 1);
    let whole = freeing(5).numbers_to(126, "k");
    let wide = freeing(5).text("t", &[0x55; 4000]);
    let begun = active(6).bytes_at(0, &wide.bytes[64..64 + 2 * ENTRY_BYTES]);
    let missing_state = copy_of(&whole).states(125, 1, EntryState::Empty);
    vec![
        recover("partial-copy-torn", image(&[&source, &partial.clone().bytes_at(1, &second[..12])])),
        recover("partial-copy-unmarked", image(&[&source, &partial.bytes_at(1, second)])),
        recover("copy-lacks-last-state", image(&[&whole, &missing_state])),
        recover("copy-lacks-full-mark", image(&[&whole, &copy_of(&whole)])),
        recover("torn-copy-reaches-125", image(&[&wide, &begun])),
        recover("torn-copy-reaches-125-one-free", image(&[&wide, &begun, &Page::blank()])),
    ]
}

/// Copies that were cut inside the marks of an item: the header is Written and the last payload entry is not.
pub fn half_marked() -> Vec<Named> {
    let source = freeing(6).text("t", &[0x55; 64]);
    let copy = active(7).text("t", &[0x55; 64]).states(2, 1, EntryState::Empty);
    let other = freeing(5).number("a", 1);
    vec![
        recover("half-marked-copy", image(&[&source, &copy])),
        recover("half-marked-copy-two-freeing", image(&[&other, &source, &copy])),
    ]
}

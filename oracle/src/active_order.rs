//! Recovery, stage 1.

use crate::branch::Branch;
use crate::notes;
use crate::scan::{greatest, Page};
use crate::sector::{total, EntryState, State};
use crate::slip::{slipped, Slip};
use crate::steps::{Run, Stage};

/// "The Active page of greatest sequence, the first among equals": its place in the list.
pub fn kept_place(pages: &[Page]) -> Option<usize> {
    let sequence = greatest(pages.iter().filter(|page| page.state == State::Active))?;
    pages.iter().position(|page| page.state == State::Active && page.sequence == sequence)
}

/// "Active order. The Active page of greatest sequence, the first among equals, changes places with the
/// last of the list. Other Active pages are marked Full in list order. If the kept one has no Empty entry
/// it is marked Full."
pub fn active_order(run: &mut Run, pages: &mut [Page]) {
    run.stage = Stage::ActiveOrder;
    notes::kept(run, pages);
    let Some(kept) = kept_place(pages) else { return };
    let last = pages.len() - 1;
    pages.swap(kept, last);
    let mut others: Vec<&mut Page> = pages[..last].iter_mut().collect();
    if slipped(Slip::MarkedInOldOrder) && kept < last {
        others[kept..].rotate_left(1);
    }
    for page in others {
        if page.state == State::Active {
            run.met(Branch::OrderMarksOther);
            run.mark_full(page.sector);
            page.state = State::Full;
        }
    }
    let kept = &mut pages[last];
    if total(run.sector(kept.sector), EntryState::Empty) == 0 {
        notes::kept_to_mark(run, kept.sector);
        run.mark_full(kept.sector);
        kept.state = State::Full;
    }
    if slipped(Slip::ChangeOfPlacesForgotten) {
        pages.sort_by_key(|page| page.sector);
    }
}

//! Reclaim.

use crate::branch::Branch;
use crate::notes;
use crate::other_way::taken_for_erased;
use crate::scan::{greatest, scan, whole_sectors, Lists, Page};
use crate::sector::{total, EntryState, State, ENTRIES};
use crate::slip::{slipped, Slip};
use crate::steps::{call, Outcome, Run, Stage};

/// A page with fewer than 126 Written entries.
#[derive(Clone, Copy)]
pub struct Candidate {
    pub page: Page,
    pub erased: u32,
    pub next: u64,
}

impl Candidate {
    /// "0 if none is Erased, else 10 x Erased + (next - sequence), next one above the greatest sequence, in
    /// whole numbers that do not wrap."
    pub fn points(&self) -> u64 {
        if self.erased == 0 {
            return 0;
        }
        let age = self.next - u64::from(self.page.sequence);
        10 * u64::from(self.erased) + if slipped(Slip::NextWraps) { age & 0xFFFF_FFFF } else { age }
    }
}

/// "Points of a page with fewer than 126 Written entries".
fn candidates(run: &Run, pages: &[Page]) -> Vec<Candidate> {
    let next = greatest(pages).map_or(0, |greatest| u64::from(greatest) + 1);
    let of = |page: &Page, state| total(run.sector(page.sector), state);
    let left_out = |page: &Page| slipped(Slip::FreeingNotChosen) && page.state == State::Freeing;
    let unfilled = |page: &&Page| of(page, EntryState::Written) < ENTRIES as u32 && !left_out(page);
    let erased = |page: &Page| of(page, EntryState::Erased) + taken_for_erased(run.sector(page.sector));
    let candidate = |page: &Page| Candidate { page: *page, erased: erased(page), next };
    pages.iter().filter(unfilled).map(candidate).collect()
}

/// "Most points win, the last in the list among equals." The last greatest is what max_by_key gives.
pub fn most_points(candidates: &[Candidate], points: impl Fn(&Candidate) -> u64) -> Option<Page> {
    candidates.iter().max_by_key(|candidate| points(candidate)).map(|candidate| candidate.page)
}

/// What frees the chosen page.
enum Way {
    Erase,
    CopyTo { target: usize, sequence: u32 },
}

/// "If all 126 are Erased it is erased. Otherwise [..] a free sector with next": a copy is needed. The
/// refusals come before the first step, in the order "5, 6".
fn way(run: &mut Run, lists: &Lists, chosen: &Page) -> Result<Way, u8> {
    if total(run.sector(chosen.sector), EntryState::Erased) == ENTRIES as u32 {
        return Ok(Way::Erase);
    }
    let greatest = greatest(&lists.pages).expect("a page was chosen");
    notes::last_sequences(run, greatest, lists.free.is_empty());
    let first = slipped(Slip::ReclaimTakesFirstFree);
    let Some(&target) = (if first { lists.free.first() } else { lists.free.last() }) else {
        return Err(5);
    };
    if greatest > 0xFFFF_FFFD {
        return Err(6);
    }
    run.met_if(lists.free.len() > 1, Branch::ReclaimTakesLastFree);
    Ok(Way::CopyTo { target, sequence: greatest + 1 })
}

/// "Otherwise mark it Freeing, initialise a free sector with next, copy, erase."
fn free_page(run: &mut Run, chosen: &Page, way: Way) {
    match way {
        Way::Erase => run.met(Branch::ReclaimAllErased),
        Way::CopyTo { target, sequence } => {
            run.met(Branch::ReclaimCopies);
            run.met_if(chosen.state == State::Freeing, Branch::ReclaimMarksAgain);
            if !(slipped(Slip::FreeingNotMarkedAgain) && chosen.state == State::Freeing) {
                run.mark_freeing(chosen.sector);
            }
            run.initialise(target, sequence);
            run.copy_items(chosen.sector, target);
        }
    }
    run.erase(chosen.sector);
}

/// "Order: [..] reclaim 1, 3, 4, [..] 5, 6; then steps." "Scan; no Active order." Document 02, No. 12, took the 8 out
/// of this order: "The number 8 is not used again."
fn rules(run: &mut Run) -> Result<(), u8> {
    if whole_sectors(&run.image).is_none() {
        return Err(1);
    }
    let lists = scan(&run.image);
    let candidates = candidates(run, &lists.pages);
    if lists.pages.iter().any(|page| page.state == State::Active) {
        run.met_if(candidates.is_empty(), Branch::ReclaimResult3Before4);
        return Err(3);
    }
    let Some(chosen) = most_points(&candidates, Candidate::points) else {
        run.met(if lists.pages.is_empty() { Branch::ReclaimNoPage } else { Branch::ReclaimAllWritten });
        return Err(4);
    };
    // "the chosen page is always Full or Freeing once result 3 has been passed": asked of every case that is run.
    assert!(matches!(chosen.state, State::Full | State::Freeing), "chosen: neither Full nor Freeing");
    let way = way(run, &lists, &chosen)?;
    notes::choice(run, &lists.pages, &candidates, &chosen);
    free_page(run, &chosen, way);
    Ok(())
}

pub fn reclaim(image: &[u8], allowance: u64) -> Outcome {
    call(image, allowance, Stage::Reclaim, rules)
}

//! Recovery: the stages in order, the refusals, the records.

use crate::active_order::active_order;
use crate::blobs::blobs;
use crate::branch::Branch;
use crate::duplicates::{duplicates, mark_filled};
use crate::finish::finish;
use crate::notes;
use crate::other_way;
use crate::record::{record, Record};
use crate::scan::{found, greatest, scan, whole_sectors, Lists, Page};
use crate::sector::{State, SECTOR_BYTES};
use crate::slip::{slipped, Slip};
use crate::steps::{call, Outcome, Run, Stage};

pub fn freeing_pages(lists: &Lists) -> u32 {
    lists.pages.iter().filter(|page| page.state == State::Freeing).count() as u32
}

/// "recovery: k Freeing pages, k above 0, greatest sequence above 0xFFFFFFFE - k"
pub fn sequences_run_out(lists: &Lists) -> bool {
    let freeing = freeing_pages(lists);
    freeing > 0 && greatest(&lists.pages).is_some_and(|greatest| greatest > 0xFFFF_FFFE - freeing)
}

/// "Order: recovery 1, 2, 6"
fn refusal(run: &mut Run, lent_records: usize) -> Option<u8> {
    let Some(sectors) = whole_sectors(&run.image) else {
        return Some(1);
    };
    let lists = scan(&run.image);
    notes::sequences(run, &lists, lent_records < sectors);
    if lent_records < sectors {
        return Some(2);
    }
    if slipped(Slip::RefusedWhereSequenceNeeded) && !other_way::takes_sequence(run) {
        return None;
    }
    sequences_run_out(&lists).then_some(6)
}

/// "Recovery, in order". "Repeat until no page counts as Freeing; if there was one, scan again and do 1
/// again."
pub fn stages(run: &mut Run) {
    let mut lists = scan(&run.image);
    active_order(run, &mut lists.pages);
    if slipped(Slip::BlobsBeforeFinish) {
        blobs(run, &found(&run.image, &lists.pages));
    }
    if finish(run, &mut lists) {
        let finished = lists.pages;
        lists = scan(&run.image);
        run.met(Branch::OrderAgain);
        active_order(run, &mut lists.pages);
        notes::order_again(run, &finished, &lists.pages);
    }
    judge_items(run, &lists.pages);
    run.met_if(run.list.is_empty(), Branch::RecoveryWithoutStep);
}

/// "This stage and the next each judge by the items found as they begin".
pub fn judge_items(run: &mut Run, pages: &[Page]) {
    let begun = found(&run.image, pages);
    if !slipped(Slip::BlobsBeforeFinish) {
        blobs(run, &begun);
    }
    if slipped(Slip::FilledPageMarkedByBlobs) {
        mark_filled(run, pages);
    }
    let mut left = found(&run.image, pages);
    if slipped(Slip::NotWalkedAnew) {
        left = other_way::still_written(run, &begun);
    }
    notes::uncovered(run, &begun, &left);
    duplicates(run, &left, pages);
}

/// The records stay as they are unless the list of steps ended: "recovery fills the records", "one a
/// sector, in sector order, after recovery's last step", "Records past the sectors stay unchanged."
pub fn recover(image: &[u8], allowance: u64, records: &mut [Option<Record>]) -> Outcome {
    let lent_records = records.len();
    let rules = |run: &mut Run| {
        if let Some(result) = refusal(run, lent_records) {
            return Err(result);
        }
        stages(run);
        Ok(())
    };
    let outcome = call(image, allowance, Stage::ActiveOrder, rules);
    if outcome.result == 0 {
        let read = if slipped(Slip::RecordsBeforeSteps) { image } else { &outcome.image };
        for (place, sector) in records.iter_mut().zip(read.chunks(SECTOR_BYTES)) {
            *place = Some(record(sector));
        }
        other_way::count_unread(image, &outcome.image, records);
    }
    outcome
}

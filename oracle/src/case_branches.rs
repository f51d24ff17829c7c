//! The branches that a case meets: those that the model noted, and those that its bytes and its answer show.

use std::collections::BTreeSet;

use crate::active_order::kept_place;
use crate::branch::Branch;
use crate::items::{read_items, unread, walk, Item, Met, KNOWN_TYPES};
use crate::listing::listing;
use crate::other_way::written_less_spans;
use crate::protocol::{Case, Operation};
use crate::reclaim::reclaim;
use crate::record::{record, Record};
use crate::recover::recover;
use crate::scan::scan;
use crate::sector::{
    blank, entry_state, free, header_crc_right, number, state, state_of_word, version, version_known,
    EntryState, State, ENTRIES, ENTRY_BYTES, SECTOR_BYTES,
};
use crate::steps::{Outcome, Stage, Step, TaggedStep};

type Branches = BTreeSet<Branch>;

/// Every branch that a case meets.
pub fn branches_of(case: &Case) -> Branches {
    match case.operation {
        Operation::Recover => branches_of_recovery(case),
        Operation::Reclaim => branches_of_reclaim(case),
        Operation::ItemReader => branches_of_reader(case),
        Operation::Listing => branches_of_listing(case),
    }
}

fn sectors(image: &[u8]) -> impl Iterator<Item = &[u8]> {
    image.chunks_exact(SECTOR_BYTES)
}

fn branches_of_sector(sector: &[u8]) -> Branches {
    let mut met = Branches::new();
    met.insert(match state(sector) {
        State::Blank => Branch::StateBlank,
        State::Corrupt => Branch::StateCorrupt,
        State::Active => Branch::StateActive,
        State::Full => Branch::StateFull,
        State::Freeing => Branch::StateFreeing,
    });
    match state(sector) {
        State::Blank => {}
        State::Corrupt => met.extend(branch_of_corrupt(sector)),
        _ => met.extend(branches_of_page(sector)),
    }
    met
}

/// What alone makes the sector Corrupt, where one thing alone does.
fn branch_of_corrupt(sector: &[u8]) -> Option<Branch> {
    let mut without_pairs = sector.to_vec();
    without_pairs[63] |= 0xF0;
    if blank(&without_pairs) {
        return Some(Branch::CorruptByPairsPast125);
    }
    let word_known = state_of_word(number(sector, 0)).is_some();
    match (word_known, version_known(sector), header_crc_right(sector)) {
        (false, true, true) => Some(Branch::CorruptByWordAlone),
        (true, false, true) => Some(Branch::CorruptByVersionAlone),
        (true, true, false) => Some(Branch::CorruptByCrcAlone),
        _ => None,
    }
}

fn branches_of_page(sector: &[u8]) -> Branches {
    let Record { written, erased, empty, illegal, .. } = record(sector);
    let all = ENTRIES as u32;
    let mut met = BTreeSet::from([match version(sector) {
        0xFE => Branch::VersionFe,
        _ => Branch::VersionFf,
    }]);
    let conditions = [
        (sector[63] & 0xF0 != 0xF0, Branch::PagePairsPast125),
        (written == all, Branch::PageAllWritten),
        (erased == all, Branch::PageAllErased),
        (empty == all, Branch::PageAllEmpty),
        (illegal > 0, Branch::PageSomeIllegal),
    ];
    met.extend(held(&conditions));
    met.extend(branches_of_walk(sector));
    met
}

fn branches_of_walk(sector: &[u8]) -> Branches {
    let mut met = Branches::new();
    let mut unknown_until = 0;
    let mut entry = 0;
    for here in walk(sector) {
        let span = sector[64 + ENTRY_BYTES * entry + 2] as usize;
        let too_long_before = met.contains(&Branch::WalkSpanTooLong);
        match here {
            Met::NotWritten(EntryState::Erased) => met.extend([Branch::WalkErased]),
            Met::NotWritten(EntryState::Illegal) => met.extend([Branch::WalkIllegal]),
            Met::NotWritten(_) => met.extend([Branch::WalkEmpty]),
            Met::WrongCrc => met.extend([Branch::WalkWrongCrc]),
            Met::UnknownType => {
                met.extend([Branch::WalkUnknownType]);
                unknown_until = entry + span;
            }
            Met::SpanZero => met.extend([Branch::WalkSpanZero]),
            Met::SpanTooLong => {
                met.extend([Branch::WalkSpanTooLong]);
                met.extend((entry + span == ENTRIES + 1).then_some(Branch::WalkSpanJustTooLong));
            }
            Met::Item(item) => {
                met.extend(branches_of_item(sector, &item));
                met.extend((entry < unknown_until).then_some(Branch::WalkItemInUnknownSpan));
                met.extend(too_long_before.then_some(Branch::WalkItemAfterSpanTooLong));
                entry += item.span() - 1;
            }
        }
        entry += 1;
    }
    met
}

fn held(conditions: &[(bool, Branch)]) -> Branches {
    conditions.iter().filter(|(holds, _)| *holds).map(|(_, branch)| *branch).collect()
}

/// In the order of KNOWN_TYPES.
const TYPE_BRANCHES: [Branch; 12] = [
    Branch::Type01,
    Branch::Type02,
    Branch::Type04,
    Branch::Type08,
    Branch::Type11,
    Branch::Type12,
    Branch::Type14,
    Branch::Type18,
    Branch::Type21,
    Branch::Type41,
    Branch::Type42,
    Branch::Type48,
];

fn branches_of_item(sector: &[u8], item: &Item) -> Branches {
    let unmarked = (item.entry..item.end()).any(|entry| entry_state(sector, entry) != EntryState::Written);
    let conditions = [
        (item.end() == ENTRIES, Branch::WalkSpanToLastEntry),
        (item.span() == ENTRIES, Branch::WalkSpan126),
        (unmarked, Branch::WalkPayloadNotWritten),
        (item.namespace() == 0, Branch::WalkNamespace0),
    ];
    let mut met = held(&conditions);
    let types = KNOWN_TYPES.iter().zip(TYPE_BRANCHES);
    met.extend(types.filter(|(kind, _)| **kind == item.kind()).map(|(_, branch)| branch));
    met
}

/// What a sector's count of unread entries shows, in the order of `branches_of_unread`, by who tells it.
const UNREAD_OF_READER: [Branch; 7] = [
    Branch::ReaderLoneWrongCrc,
    Branch::ReaderLoneUnknownType,
    Branch::ReaderLoneSpanZero,
    Branch::ReaderLoneSpanTooLong,
    Branch::ReaderSparePairs,
    Branch::ReaderUnlikeSpans,
    Branch::ReaderFreeWritten,
];
const UNREAD_OF_RECORD: [Branch; 7] = [
    Branch::RecordLoneWrongCrc,
    Branch::RecordLoneUnknownType,
    Branch::RecordLoneSpanZero,
    Branch::RecordLoneSpanTooLong,
    Branch::RecordSparePairs,
    Branch::RecordUnlikeSpans,
    Branch::RecordFreeWritten,
];

fn branches_of_unread(sector: &[u8], branches: [Branch; 7]) -> Branches {
    let met = walk(sector);
    let passed: Vec<Met> = met.iter().filter(|met| met.is_unread()).copied().collect();
    let page = !free(state(sector));
    let lone = |cause| page && passed == [cause];
    let spare_written = (ENTRIES..ENTRIES + 2).any(|pair| entry_state(sector, pair) == EntryState::Written);
    let holds = [
        lone(Met::WrongCrc),
        lone(Met::UnknownType),
        lone(Met::SpanZero),
        lone(Met::SpanTooLong),
        page && spare_written && matches!(met.last(), Some(Met::Item(_))),
        page && written_less_spans(sector) != passed.len() as i64,
        !page && !passed.is_empty(),
    ];
    held(&std::array::from_fn::<_, 7, _>(|row| (holds[row], branches[row])))
}

/// The counts in the records of a recovery that ended.
fn branches_of_records(before: &[u8], after: &[u8]) -> Branches {
    let page = |sector: &&[u8]| !free(state(sector));
    let changed =
        |(before, after): (&[u8], &[u8])| page(&before) && page(&after) && unread(before) != unread(after);
    let counts: BTreeSet<u32> = sectors(after).map(unread).filter(|count| *count > 0).collect();
    let mut met = held(&[
        (sectors(before).zip(sectors(after)).any(changed), Branch::RecordUnreadChanged),
        (counts.len() > 1, Branch::RecordsUnreadUnlike),
    ]);
    met.extend(sectors(after).flat_map(|sector| branches_of_unread(sector, UNREAD_OF_RECORD)));
    met
}

fn branches_of_recovery(case: &Case) -> Branches {
    let outcome = recover(&case.image, case.allowance, &mut vec![None; case.records as usize]);
    let ended = outcome.result == 0;
    let conditions = [
        (ended, Branch::RecoveryResult0),
        (outcome.result == 1, Branch::RecoveryResult1),
        (outcome.result == 2, Branch::RecoveryResult2),
        (outcome.result == 6, Branch::RecoveryResult6),
        (outcome.result == 7, Branch::RecoveryResult7),
        (ended && outcome.steps > 0 && fits(&outcome, case), Branch::RecoveryFitsExactly),
        (ended && case.allowance == 0, Branch::RecoveryAllowance0),
        (ended && case.records as usize > sectors(&case.image).count(), Branch::RecoveryRecordsPast),
    ];
    let mut met = held(&conditions);
    if outcome.result == 7 {
        met.extend(branches_of_stage(&outcome));
        met.extend(branches_of_stop(case, &outcome));
    }
    if ended {
        met.extend(branches_of_records(&case.image, &outcome.image));
    }
    if !matches!(outcome.result, 1 | 2) {
        met.extend(sectors(&case.image).flat_map(branches_of_sector));
    }
    &met | &outcome.branches
}

/// The stage in which a recovery stopped.
fn branches_of_stage(outcome: &Outcome) -> Branches {
    let made = &outcome.list[..outcome.steps];
    let finish_begun = made.iter().any(|tagged| matches!(tagged.stage, Stage::Finish { .. }));
    BTreeSet::from([match outcome.stopped_in() {
        Some(Stage::ActiveOrder) if finish_begun => Branch::RecoveryStopped1Again,
        Some(Stage::ActiveOrder) => Branch::RecoveryStopped1,
        Some(Stage::Finish { .. }) => Branch::RecoveryStopped2,
        Some(Stage::Blobs) => Branch::RecoveryStopped3,
        _ => Branch::RecoveryStopped4,
    }])
}

/// Between which two steps a call stopped: this alone shows their order.
fn branches_of_stop(case: &Case, outcome: &Outcome) -> Branches {
    let next = outcome.list[outcome.steps];
    let Some(last) = outcome.steps.checked_sub(1).map(|place| outcome.list[place]) else {
        return Branches::new();
    };
    let (Step::Program { sector, word, .. }, Step::Program { sector: next_sector, word: next_word, .. }) =
        (last.step, next.step)
    else {
        return Branches::new();
    };
    let of_stage = |wanted: Stage| last.stage == wanted && next.stage == wanted;
    let inside = last.marks_same_item(&next);
    let pages = scan(&case.image).pages;
    let keeps = kept_place(&pages).is_some_and(|kept| pages[kept].sector == next_sector);
    let marks = of_stage(Stage::ActiveOrder);
    let met = held(&[
        ((1..8).contains(&word), Branch::InitialiseStoppedInside),
        (word >= 16 && next_word >= 16, Branch::CopyStoppedInside),
        (word >= 16 && next_word < 16, Branch::CopyStoppedBeforeStates),
        (marks && !keeps && sector > next_sector, Branch::RecoveryStoppedAmongMarks),
        (marks && keeps, Branch::RecoveryStoppedBeforeKept),
        (of_stage(Stage::Blobs) && !inside, Branch::RecoveryStoppedBetween3),
        (of_stage(Stage::Duplicates) && !inside, Branch::RecoveryStoppedBetween4),
        (last.stage == Stage::Blobs && next_word == 0, Branch::RecoveryStoppedBeforeFull),
    ]);
    &met | &branches_of_marks(&last, &next)
}

/// A stop behind a mark of a copy or an erasure.
fn branches_of_marks(last: &TaggedStep, next: &TaggedStep) -> Branches {
    let copies = |step: &TaggedStep| matches!(step.stage, Stage::Finish { .. } | Stage::Reclaim);
    let (copy, reclaim) = (copies(last) && last.marked_word().is_some(), last.stage == Stage::Reclaim);
    let inside = last.marks_same_item(next);
    let one_word = inside && last.marked_word() == next.marked_word();
    let full = matches!(next.step, Step::Program { word: 0, .. });
    held(&[
        (inside && copy && !reclaim, Branch::RecoveryStoppedInCopy),
        (one_word && last.stage == Stage::Blobs, Branch::RecoveryStoppedInErasure3),
        (one_word && last.stage == Stage::Duplicates, Branch::RecoveryStoppedInErasure4),
        (inside && !one_word && !copy, Branch::RecoveryStoppedBetweenWords),
        (one_word && copy, Branch::CopyStoppedInWord),
        (inside && !one_word && copy, Branch::CopyStoppedBetweenWords),
        (copy && !inside && !full, Branch::CopyStoppedBeforeNext),
        (copy && full, Branch::CopyStoppedBeforeFull),
    ])
}

fn fits(outcome: &Outcome, case: &Case) -> bool {
    outcome.steps as u64 == case.allowance
}

fn branches_of_reclaim(case: &Case) -> Branches {
    let outcome = reclaim(&case.image, case.allowance);
    let ended = outcome.result == 0;
    let conditions = [
        (ended, Branch::ReclaimResult0),
        (outcome.result == 1, Branch::ReclaimResult1),
        (outcome.result == 3, Branch::ReclaimResult3),
        (outcome.result == 4, Branch::ReclaimResult4),
        (outcome.result == 5, Branch::ReclaimResult5),
        (outcome.result == 6, Branch::ReclaimResult6),
        (outcome.result == 7, Branch::ReclaimResult7),
        (ended && fits(&outcome, case), Branch::ReclaimFitsExactly),
    ];
    let mut met = held(&conditions);
    if outcome.result == 7 {
        met.extend(branches_of_stop(case, &outcome));
    }
    if outcome.result != 1 {
        met.extend(sectors(&case.image).flat_map(branches_of_sector));
    }
    &met | &outcome.branches
}

fn branches_of_reader(case: &Case) -> Branches {
    let Ok((items, _)) = read_items(&case.image) else {
        return BTreeSet::from([Branch::ReaderResult1]);
    };
    let conditions = [
        (true, Branch::ReaderResult0),
        (items.is_empty(), Branch::ReaderNoItem),
        (free(state(&case.image)), Branch::ReaderFreeSector),
    ];
    let met = &held(&conditions) | &branches_of_sector(&case.image);
    &met | &branches_of_unread(&case.image, UNREAD_OF_READER)
}

fn branches_of_listing(case: &Case) -> Branches {
    let (outcome, text) = listing(&case.image);
    let shows = |word: &str| text.split_ascii_whitespace().any(|shown| shown == word);
    let counts = || text.lines().filter_map(|line| line.split_once("unread ").map(|(_, count)| count));
    let made = |of: &[Branch]| of.iter().any(|branch| outcome.branches.contains(branch));
    let conditions = [
        (outcome.result == 0, Branch::ListingResult0),
        (outcome.result == 1, Branch::ListingResult1),
        (outcome.result == 6, Branch::ListingResult6),
        (shows("active"), Branch::ListingActive),
        (shows("full"), Branch::ListingFull),
        (shows("freeing"), Branch::ListingFreeing),
        (shows("blank"), Branch::ListingBlank),
        (shows("corrupt"), Branch::ListingCorrupt),
        (counts().any(|count| count == "0"), Branch::ListingUnreadNone),
        (counts().any(|count| count != "0"), Branch::ListingUnread),
        (made(&[Branch::BlobNumbersUnlike]), Branch::ListingNumbersUnlike),
        (made(&[Branch::CopyInOneWord, Branch::CopyOverSeveralWords]), Branch::ListingCopyOfSeveral),
        (made(&[Branch::EraseInOneWord, Branch::EraseOverSeveralWords]), Branch::ListingErasureOfSeveral),
    ];
    let mut met = &outcome.branches | &held(&conditions);
    if outcome.result == 0 {
        // What a sector was shows in the listing only where recovery left it as it was.
        let pairs = sectors(&case.image).zip(sectors(&outcome.image));
        let unchanged = pairs.filter(|(before, after)| before == after);
        met.extend(unchanged.flat_map(|(sector, _)| branches_of_sector(sector)));
    }
    met
}

//! Page records.

use crate::items::unread;
use crate::sector::{free, sequence, state, total, EntryState, State};
use crate::slip::{slipped, Slip};

/// "state, sequence (0 if free), Written, Erased, Empty, Illegal (all 0 if free)". Document 02, No. 7: "Add to each
/// page record the count of Written entries that the walk reached and could not take as an item. It is 0 for free
/// sectors."
#[derive(Clone, Copy, PartialEq, Eq, Debug)]
pub struct Record {
    pub state: State,
    pub sequence: u32,
    pub written: u32,
    pub erased: u32,
    pub empty: u32,
    pub illegal: u32,
    pub unread: u32,
}

pub fn record(sector: &[u8]) -> Record {
    let state = state(sector);
    let unread = unread(sector);
    if free(state) {
        return Record { state, sequence: 0, written: 0, erased: 0, empty: 0, illegal: 0, unread };
    }
    let says_full = slipped(Slip::LeftSourceRecordedFull) && state == State::Freeing;
    Record {
        state: if says_full { State::Full } else { state },
        sequence: sequence(sector),
        written: total(sector, EntryState::Written),
        erased: total(sector, EntryState::Erased),
        empty: total(sector, EntryState::Empty),
        illegal: total(sector, EntryState::Illegal),
        unread,
    }
}

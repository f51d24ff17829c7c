//! The crate's recovery and reclaim on an image.

use std::panic::{catch_unwind, AssertUnwindSafe};

use esp_nvs::error::Error;
use esp_nvs::Nvs;
use model::protocol::Operation;
use model::scan::whole_sectors;
use model::sector::{FREEING_WORD, SECTOR_BYTES};
use model::steps::Step;

use crate::flash::{Flash, Recorder};

/// How a call of the crate ended.
#[derive(Clone, Copy, PartialEq, Eq, Debug)]
pub enum End {
    Done,
    Cut,
    /// `Error::FlashFull`. The crate gives it in two places: where no page can be chosen, and, after the mark
    /// Freeing, where no sector is free.
    Full {
        marked: bool,
    },
    OtherError,
    Panicked,
    /// The length is refused here, not by the crate: its `Nvs::new` is not given.
    NotSectors,
}

impl End {
    /// Document 01's number where it has one for what happened; others are 0xE0 and 0xE1.
    pub fn number(self) -> u8 {
        match self {
            End::Done => 0,
            End::NotSectors => 1,
            End::Full { marked: false } => 4,
            End::Full { marked: true } => 5,
            End::Cut => 7,
            End::Panicked => 0xE0,
            End::OtherError => 0xE1,
        }
    }
}

/// Of a page of the crate's list: sector, entries counted as used, entries counted as erased.
pub type Counted = (usize, u8, u8);

pub struct CrateOutcome {
    pub end: End,
    pub steps: Vec<Step>,
    pub image: Vec<u8>,
    pub counted: Vec<Counted>,
}

fn end_of(error: Error, recorder: &Recorder) -> End {
    let marked = matches!(recorder.steps.last(), Some(Step::Program { word: 0, value: FREEING_WORD, .. }));
    match error {
        Error::FlashError if recorder.cut => End::Cut,
        Error::FlashFull => End::Full { marked },
        _ => End::OtherError,
    }
}

fn call(
    flash: Flash<&mut Recorder>,
    operation: Operation,
    ordered: bool,
) -> (Result<(), Error>, Vec<Counted>) {
    let sectors = (flash.image.len() / SECTOR_BYTES) as u16;
    let mut nvs = Nvs::unread(flash, sectors, ordered);
    let result = match operation {
        Operation::Recover => nvs.run_recovery(),
        _ => nvs.run_scan().and_then(|()| nvs.run_reclaim()),
    };
    (result, nvs.counted())
}

/// Runs the crate. `ordered` takes the heap for its free list, see the stand-in nvs.rs.
pub fn run(operation: Operation, image: &[u8], allowance: u64, ordered: bool) -> CrateOutcome {
    let mut image = image.to_vec();
    if whole_sectors(&image).is_none() {
        return CrateOutcome { end: End::NotSectors, steps: Vec::new(), image, counted: Vec::new() };
    }
    let mut recorder = Recorder::new(allowance);
    let flash = Flash { image: &mut image, meter: &mut recorder };
    let (end, counted) = match catch_unwind(AssertUnwindSafe(|| call(flash, operation, ordered))) {
        Err(_) => (End::Panicked, Vec::new()),
        Ok((Ok(()), counted)) => (End::Done, counted),
        Ok((Err(error), counted)) => (end_of(error, &recorder), counted),
    };
    CrateOutcome { end, steps: recorder.steps, image, counted }
}

//! The flash model: steps, the list that a call's rules give, and the allowance.

use std::collections::{BTreeMap, BTreeSet};
use std::ops::Range;

use crate::branch::Branch;
use crate::items::{items, Item};
use crate::notes;
use crate::other_marks;
use crate::sector::{
    blank, entry_state, number, page_header, EntryState, ACTIVE_WORD, ENTRIES, ENTRY_BYTES, FREEING_WORD,
    FULL_WORD, SECTOR_BYTES,
};
use crate::slip::{slipped, Slip};

const WORD_BYTES: usize = 4;
const HEADER_WORDS: usize = 8;
const STATE_WORDS: Range<usize> = 8..16;
const WORDS_OF_ENTRY: usize = ENTRY_BYTES / WORD_BYTES;
const FIRST_ENTRY_WORD: usize = 16;
pub const PAIRS_OF_WORD: usize = 16;

#[derive(Clone, Copy, PartialEq, Eq, Debug)]
pub enum Step {
    Program { sector: usize, word: usize, value: u32 },
    Erase { sector: usize },
}

/// "A stopped call says in which stage, and for the finish stage which source sector. [..] stage 1 done
/// again is still stage 1, and reclaim is one stage."
#[derive(Clone, Copy, PartialEq, Eq, Debug)]
pub enum Stage {
    ActiveOrder,
    Finish { source: usize },
    Blobs,
    Duplicates,
    Reclaim,
}

#[derive(Clone, Copy, PartialEq, Eq, Debug)]
pub struct TaggedStep {
    pub stage: Stage,
    /// Which copy or erasure of an item it belongs to, by their numbers in the list; None where it belongs to none.
    pub of_item: Option<usize>,
    pub step: Step,
}

impl TaggedStep {
    /// The sector and the word of a mark: an entry-state word programmed.
    pub fn marked_word(&self) -> Option<(usize, usize)> {
        match self.step {
            Step::Program { sector, word, .. } if STATE_WORDS.contains(&word) => Some((sector, word)),
            _ => None,
        }
    }

    /// Whether both are marks of one copy or erasure.
    pub fn marks_same_item(&self, other: &TaggedStep) -> bool {
        let marks = self.marked_word().is_some() && other.marked_word().is_some();
        marks && self.of_item == other.of_item
    }
}

/// "Programming a word replaces it by its AND with the new word. Erasing sets a sector to 0xFF."
pub fn apply(image: &mut [u8], step: Step) {
    match step {
        Step::Program { sector, word, value } => {
            let place = SECTOR_BYTES * sector + WORD_BYTES * word;
            for (byte, new) in image[place..place + WORD_BYTES].iter_mut().zip(value.to_le_bytes()) {
                *byte &= new;
            }
        }
        Step::Erase { sector } => sector_of_mut(image, sector).fill(0xFF),
    }
}

pub fn sector_of(image: &[u8], sector: usize) -> &[u8] {
    &image[SECTOR_BYTES * sector..SECTOR_BYTES * (sector + 1)]
}

pub fn sector_of_mut(image: &mut [u8], sector: usize) -> &mut [u8] {
    &mut image[SECTOR_BYTES * sector..SECTOR_BYTES * (sector + 1)]
}

/// Document 02, No. 4: "one entry a step, [..] each clearing only that entry's own bits". The number of the word and
/// a value that has `state` in the entry's pair and ones elsewhere.
pub fn state_word(entry: usize, state: EntryState) -> (usize, u32) {
    let shift = 2 * (entry % PAIRS_OF_WORD);
    (STATE_WORDS.start + entry / PAIRS_OF_WORD, !(3 << shift) | (state as u32) << shift)
}

/// The list of steps under way, on a scratch copy of the image: each rule reads the image that the steps
/// before it left.
#[derive(Clone)]
pub struct Run {
    pub image: Vec<u8>,
    pub list: Vec<TaggedStep>,
    pub stage: Stage,
    /// The copies and erasures of items so far.
    items: usize,
    /// The one that is under way.
    of_item: Option<usize>,
    /// Each branch met, with the number of steps before it.
    branches: BTreeMap<Branch, usize>,
    /// Branches that only a call which stops there meets, with the number of steps before.
    stops: Vec<(Branch, usize)>,
}

impl Run {
    pub fn sector(&self, sector: usize) -> &[u8] {
        sector_of(&self.image, sector)
    }

    pub fn met(&mut self, branch: Branch) {
        self.branches.entry(branch).or_insert(self.list.len());
    }

    pub fn met_if(&mut self, condition: bool, branch: Branch) {
        if condition {
            self.met(branch);
        }
    }

    pub fn met_if_stopped_here(&mut self, branch: Branch) {
        self.stops.push((branch, self.list.len()));
    }

    pub fn met_each(&mut self, conditions: &[(bool, Branch)]) {
        for (condition, branch) in conditions {
            self.met_if(*condition, *branch);
        }
    }

    /// "Each is one step, counted even if no bit moves."
    fn step(&mut self, step: Step) {
        apply(&mut self.image, step);
        self.list.push(TaggedStep { stage: self.stage, of_item: self.of_item, step });
    }

    fn program(&mut self, sector: usize, word: usize, value: u32) {
        if slipped(Slip::WordsOfOnesSkipped) && value == u32::MAX {
            return;
        }
        self.step(Step::Program { sector, word, value });
    }

    pub fn erase(&mut self, sector: usize) {
        self.step(Step::Erase { sector });
    }

    /// "Mark: program the state word."
    pub fn mark_full(&mut self, sector: usize) {
        self.program(sector, 0, FULL_WORD);
    }

    pub fn mark_freeing(&mut self, sector: usize) {
        self.program(sector, 0, FREEING_WORD);
    }

    /// "Initialise a sector: erase it if not Blank; program words 1 to 7 ascending, then word 0 as Active.
    /// Version 0xFE."
    pub fn initialise(&mut self, sector: usize, sequence: u32) {
        if blank(self.sector(sector)) {
            self.met(Branch::InitialiseBlank);
        } else {
            self.met(Branch::InitialiseCorrupt);
            self.erase(sector);
        }
        let header = page_header(ACTIVE_WORD, sequence, 0xFE);
        for word in 1..HEADER_WORDS {
            self.program(sector, word, number(&header, WORD_BYTES * word));
        }
        self.program(sector, 0, ACTIVE_WORD);
    }

    /// The steps of one copy or erasure of an item.
    fn program_item(&mut self, sector: usize, words: Vec<(usize, u32)>) {
        self.of_item = Some(self.items);
        words.into_iter().for_each(|(word, value)| self.program(sector, word, value));
        self.of_item = None;
        self.items += 1;
    }

    /// "An item is copied into a part of the target sector that starts at the next entry. All its words,
    /// ascending; then" its entry states, set Written: document 02, No. 4: "Mark entry states one entry a step,
    /// ascending". "If entry 125 is now used, program the state Full."
    pub fn copy_item(&mut self, source: usize, item: &Item, target: usize, next: usize) {
        let words = WORDS_OF_ENTRY * item.span();
        let from = FIRST_ENTRY_WORD + WORDS_OF_ENTRY * item.entry;
        let to = FIRST_ENTRY_WORD + WORDS_OF_ENTRY * next;
        let value_of = |word: usize| number(self.sector(source), WORD_BYTES * (from + word));
        let bytes: Vec<(usize, u32)> = (0..words).map(|word| (to + word, value_of(word))).collect();
        let end = next + item.span();
        let marks = (next..end).map(|entry| state_word(entry, EntryState::Written)).collect();
        let marks = other_marks::of_copy(self.sector(source), item, next, marks);
        let full = if end == ENTRIES { vec![(0, FULL_WORD)] } else { Vec::new() };
        self.program_item(target, other_marks::order_of_copy(bytes, marks, full));
        notes::copy(self, next, item.span());
    }

    /// "copy the source's items in walk order"
    pub fn copy_items(&mut self, source: usize, target: usize) {
        let items = items(self.sector(source));
        self.met_if(items.is_empty(), Branch::CopyOfNoItem);
        let mut next = 0;
        for item in items {
            self.copy_item(source, &item, target, next);
            next += item.span();
        }
    }

    /// Erase an item, "set Erased, so the header's [..] is last". Document 02, No. 4: "erase them one a step,
    /// descending".
    pub fn erase_entries(&mut self, sector: usize, entry: usize, span: usize) {
        let marks =
            (entry..entry + span).rev().map(|entry| state_word(entry, EntryState::Erased)).collect();
        let marks = other_marks::of_erasure(self.sector(sector), entry, span, marks);
        let erased = |entry| entry_state(self.sector(sector), entry) == EntryState::Erased;
        let moves_no_bit = (entry..entry + span).any(erased);
        self.program_item(sector, marks);
        notes::erasure(self, entry, span, moves_no_bit);
    }
}

/// What a call of recovery or reclaim gives.
pub struct Outcome {
    pub result: u8,
    /// The whole list, also where the allowance ended before it; empty where the call was refused.
    pub list: Vec<TaggedStep>,
    pub steps: usize,
    pub image: Vec<u8>,
    /// The branches that the call came to: those after which it made a step, all of them if it ended.
    pub branches: BTreeSet<Branch>,
}

impl Outcome {
    /// "It is the stage of the first step not made".
    pub fn stopped_in(&self) -> Option<Stage> {
        self.list.get(self.steps).map(|tagged| tagged.stage)
    }
}

/// "A call has an allowance; it makes the first so many steps of the list that the rules give for the
/// image it began with, and reports how many it made. If the list fits the allowance exactly, the call has
/// ended." `rules` writes the list, or refuses by a result number before the first step.
pub fn call(
    image: &[u8],
    allowance: u64,
    stage: Stage,
    rules: impl FnOnce(&mut Run) -> Result<(), u8>,
) -> Outcome {
    let mut run = Run {
        image: image.to_vec(),
        list: Vec::new(),
        stage,
        items: 0,
        of_item: None,
        branches: BTreeMap::new(),
        stops: Vec::new(),
    };
    let refusal = rules(&mut run).err();
    let steps = run.list.len().min(usize::try_from(allowance).unwrap_or(usize::MAX));
    let mut image = image.to_vec();
    for tagged in &run.list[..steps] {
        apply(&mut image, tagged.step);
    }
    let ended = steps == run.list.len();
    let come_to = run.branches.into_iter().filter(|(_, before)| ended || *before < steps);
    let stopped_at = run.stops.into_iter().filter(|(_, before)| !ended && *before == steps);
    let branches = come_to.chain(stopped_at).map(|(branch, _)| branch).collect();
    let result = refusal.unwrap_or(if ended { 0 } else { 7 });
    Outcome { result, list: run.list, steps, image, branches }
}

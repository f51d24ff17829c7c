//! What a slip does to the marks of a copy or an erasure (document 02, No. 4). No rule needs anything of this.

use crate::items::Item;
use crate::sector::{entry_state, EntryState};
use crate::slip::{switched_on, Slip};
use crate::steps::{state_word, PAIRS_OF_WORD};

/// The number of a word and the value that it is programmed with.
type Word = (usize, u32);

const PAIRS_OF_BYTE: usize = 4;
const WORDS_OF_ENTRY: usize = 8;

/// The marks of these entries, those of one word in one step: document 01's covering words, ascending.
fn covering_words(entries: impl Iterator<Item = usize>, state: EntryState) -> Vec<Word> {
    let marks: Vec<Word> = entries.map(|entry| state_word(entry, state)).collect();
    words_of(&marks).map(joined).collect()
}

/// The marks of each word, in their order.
fn words_of(marks: &[Word]) -> impl DoubleEndedIterator<Item = &[Word]> {
    marks.chunk_by(|one, next| one.0 == next.0)
}

/// Marks of one word in one step.
fn joined(marks: &[Word]) -> Word {
    (marks[0].0, marks.iter().fold(u32::MAX, |value, mark| value & mark.1))
}

fn two_entries_a_step(marks: &[Word]) -> Vec<Word> {
    words_of(marks).flat_map(|word| word.chunks(2)).map(joined).collect()
}

fn turned(mut marks: Vec<Word>) -> Vec<Word> {
    marks.reverse();
    marks
}

fn turned_in_each_word(marks: &[Word]) -> Vec<Word> {
    words_of(marks).flat_map(|word| turned(word.to_vec())).collect()
}

fn words_turned(marks: &[Word]) -> Vec<Word> {
    words_of(marks).rev().flatten().copied().collect()
}

/// The mark of this place marks the entry behind the span too, where that has its pair in the same word.
fn with_entry_behind(mut marks: Vec<Word>, place: usize, end: usize, state: EntryState) -> Vec<Word> {
    let (word, value) = state_word(end, state);
    if end % PAIRS_OF_WORD > 0 && marks[place].0 == word {
        marks[place].1 &= value;
    }
    marks
}

/// Each mark sets all four pairs of its byte.
fn by_bytes(marks: &[Word], state: EntryState) -> Vec<Word> {
    let byte_of = |&(word, value): &Word| {
        let pair = (!value).trailing_zeros() as usize / 2;
        let first = pair / PAIRS_OF_BYTE * PAIRS_OF_BYTE;
        let pairs = first..first + PAIRS_OF_BYTE;
        (word, pairs.fold(u32::MAX, |value, pair| value & state_word(pair, state).1))
    };
    marks.iter().map(byte_of).collect()
}

/// The marks of a copy from entry `next` on; as they are without these slips.
pub fn of_copy(source: &[u8], item: &Item, next: usize, marks: Vec<Word>) -> Vec<Word> {
    let (span, end) = (item.span(), next + item.span());
    let state_of_source = |place| state_word(next + place, entry_state(source, item.entry + place));
    match switched_on() {
        Some(Slip::CopyKeepsPayloadStates) => (0..span).map(state_of_source).collect(),
        Some(Slip::CopyStatesDescending) => turned(marks),
        Some(Slip::CopyByWords) => covering_words(next..end, EntryState::Written),
        Some(Slip::CopyByTwoEntries) => two_entries_a_step(&marks),
        Some(Slip::CopyOneEntryShort) if span > 1 => marks[..span - 1].to_vec(),
        Some(Slip::CopyDescendsInWords) => turned_in_each_word(&marks),
        Some(Slip::CopyWordsDescend) => words_turned(&marks),
        Some(Slip::CopyMarksEntryBehind) => with_entry_behind(marks, span - 1, end, EntryState::Written),
        Some(Slip::MarkedByBytes) => by_bytes(&marks, EntryState::Written),
        _ => marks,
    }
}

/// The steps of a copy: its words, its marks, and Full where entry 125 is used; in this order without these slips.
pub fn order_of_copy(bytes: Vec<Word>, mut marks: Vec<Word>, full: Vec<Word>) -> Vec<Word> {
    match switched_on() {
        Some(Slip::CopyStatesBeforeBytes) => [marks, bytes, full].concat(),
        Some(Slip::MarkAfterEachEntry) => {
            let entries = bytes.chunks(WORDS_OF_ENTRY).zip(&marks);
            entries.flat_map(|(words, mark)| [words, &[*mark]].concat()).chain(full).collect()
        }
        Some(Slip::FullBeforeMarks) => [bytes, full, marks].concat(),
        Some(Slip::FullBeforeLastMark) => {
            let last = marks.split_off(marks.len() - 1);
            [bytes, marks, full, last].concat()
        }
        _ => [bytes, marks, full].concat(),
    }
}

/// The marks of an erasure; as they are without these slips.
pub fn of_erasure(sector: &[u8], entry: usize, span: usize, marks: Vec<Word>) -> Vec<Word> {
    let entries = || entry..entry + span;
    let erased = |entry: &usize| entry_state(sector, *entry) == EntryState::Erased;
    let mark = |entry| state_word(entry, EntryState::Erased);
    match switched_on() {
        Some(Slip::ErasureStatesAscending) => turned(marks),
        Some(Slip::ErasureByWords) => turned(covering_words(entries(), EntryState::Erased)),
        Some(Slip::ErasureByTwoEntries) => two_entries_a_step(&marks),
        Some(Slip::ErasureOneEntryShort) if span > 1 => marks[1..].to_vec(),
        Some(Slip::ErasureAscendsInWords) => turned_in_each_word(&marks),
        Some(Slip::ErasureWordsAscend) => words_turned(&marks),
        Some(Slip::ErasureTakesEntryBehind) => {
            with_entry_behind(marks, 0, entry + span, EntryState::Erased)
        }
        Some(Slip::MarkedByBytes) => by_bytes(&marks, EntryState::Erased),
        Some(Slip::ErasedEntriesPassed) => {
            entries().rev().filter(|entry| !erased(entry)).map(mark).collect()
        }
        _ => marks,
    }
}

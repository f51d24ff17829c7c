//! A store's trial: reclaim cut at every step, and from each image so reached recovery cut at every step, until
//! no new image is reached. Each recovery is also run to its end, and what is then there is checked.

use std::collections::{HashSet, VecDeque};
use std::hash::{BuildHasherDefault, Hasher};
use std::rc::Rc;

use oracle::items::{items, Item};
use oracle::reclaim::reclaim;
use oracle::recover::recover;
use oracle::sector::{number, SECTOR_BYTES};
use oracle::steps::{sector_of, Outcome};

use crate::calls::{Answer, Call, Calls, ENDED, STOPPED};
use crate::contents::{contents, demanded, Contents};
use crate::oddities::state_words;

/// No list is as long: a page has 1,008 words of entries. A call that has not ended by then never ends.
const TOO_LONG: u64 = 20_000;

/// The std hasher takes longer on an image than the call does. Four sums side by side, since one would wait for
/// each product.
#[derive(Default)]
struct WordHasher {
    sums: [u64; 4],
}

impl Hasher for WordHasher {
    fn write(&mut self, bytes: &[u8]) {
        for words in bytes.chunks_exact(32) {
            for (sum, word) in self.sums.iter_mut().zip(words.chunks_exact(8)) {
                let word = u64::from_le_bytes(word.try_into().expect("8 bytes"));
                *sum = (sum.rotate_left(23) ^ word).wrapping_mul(0x9E37_79B9_7F4A_7C15);
            }
        }
    }

    fn finish(&self) -> u64 {
        let mixed = self.sums.iter().fold(0, |mixed: u64, sum| mixed.rotate_left(17) ^ sum ^ (sum >> 32));
        mixed.wrapping_mul(0x9E37_79B9_7F4A_7C15)
    }
}

/// By their bytes: the hash only finds the place.
type Images = HashSet<Rc<[u8]>, BuildHasherDefault<WordHasher>>;

/// An image that cuts lead to: the allowance of reclaim, then those of the recoveries.
#[derive(Clone)]
struct Reached {
    image: Rc<[u8]>,
    cuts: Vec<u64>,
}

pub struct Failure {
    pub what: String,
    pub cuts: Vec<u64>,
    pub image: Vec<u8>,
}

/// Items by the marks that a copy or an erasure of them takes.
#[derive(Default)]
pub struct Spans {
    /// Of several entries.
    pub several: u64,
    /// Whose entries have their states in several words, and in three or more.
    pub over_words: u64,
    pub over_whole_word: u64,
}

impl Spans {
    fn of(store: &[u8]) -> Spans {
        let items: Vec<Item> = store.chunks(SECTOR_BYTES).flat_map(items).collect();
        let count = |is: fn(&Item) -> bool| items.iter().filter(|item| is(item)).count() as u64;
        Spans {
            several: count(|item| item.span() > 1),
            over_words: count(|item| state_words(item) > 1),
            over_whole_word: count(|item| state_words(item) > 2),
        }
    }

    fn add(&mut self, other: &Spans) {
        self.several += other.several;
        self.over_words += other.over_words;
        self.over_whole_word += other.over_whole_word;
    }
}

#[derive(Default)]
pub struct Figures {
    pub reclaims: u64,
    pub recoveries: u64,
    /// Images by the number of cuts that lead to them: one of reclaim, then those of recovery.
    pub images: Vec<u64>,
    /// Images that a recovery left at its end.
    pub ends: u64,
    /// Items of the stores, and those that recovery leaves of them.
    pub items: u64,
    pub left: u64,
    pub spans: Spans,
}

impl Figures {
    pub fn add(&mut self, other: &Figures) {
        self.reclaims += other.reclaims;
        self.recoveries += other.recoveries;
        self.ends += other.ends;
        self.items += other.items;
        self.left += other.left;
        self.spans.add(&other.spans);
        for (cuts, count) in other.images.iter().enumerate() {
            self.count_images(cuts + 1, *count);
        }
    }

    fn count_images(&mut self, cuts: usize, count: u64) {
        self.images.resize(self.images.len().max(cuts), 0);
        self.images[cuts - 1] += count;
    }
}

/// The places of the parts of that size that are not alike.
fn unlike(before: &[u8], after: &[u8], size: usize) -> Vec<usize> {
    let parts = before.chunks(size).zip(after.chunks(size)).enumerate();
    parts.filter(|(_, (before, after))| before != after).map(|(place, _)| place).collect()
}

/// "A step is one 4-byte word programmed or one sector erased": whether one step can make `after` of `before`.
/// A step may move no bit.
fn is_one_step(before: &[u8], after: &[u8]) -> bool {
    match unlike(before, after, SECTOR_BYTES)[..] {
        [] => true,
        [sector] => {
            let (before, after) = (sector_of(before, sector), sector_of(after, sector));
            after.iter().all(|byte| *byte == 0xFF) || is_one_word(before, after)
        }
        _ => false,
    }
}

/// Whether two sectors differ in one word, and that only by bits cleared; in an entry-state word by those of one
/// entry. By lines first: most are alike.
fn is_one_word(before: &[u8], after: &[u8]) -> bool {
    const LINE: usize = 128;
    const WORDS_OF_LINE: usize = LINE / 4;
    let line_of = |line: usize| LINE * line..LINE * (line + 1);
    let words_of = |line: usize| {
        let words = unlike(&before[line_of(line)], &after[line_of(line)], 4);
        words.into_iter().map(move |word| WORDS_OF_LINE * line + word)
    };
    let words: Vec<usize> = unlike(before, after, LINE).into_iter().flat_map(words_of).collect();
    let [word] = words[..] else { return false };
    let (old, new) = (number(before, 4 * word), number(after, 4 * word));
    old & new == new && (!(8..16).contains(&word) || is_one_entry(old & !new))
}

/// Document 02, No. 4: "each clearing only that entry's own bits".
fn is_one_entry(cleared: u32) -> bool {
    let pair = cleared.trailing_zeros() / 2;
    cleared & !(3 << (2 * pair)) == 0
}

struct Trial<'a> {
    calls: &'a mut dyn Calls,
    demanded: Contents,
    met: Images,
    ends: Images,
    waiting: VecDeque<Reached>,
    figures: Figures,
}

impl Trial<'_> {
    fn make(&mut self, call: Call, image: &mut [u8], allowance: u64) -> Answer {
        match call {
            Call::Reclaim => self.figures.reclaims += 1,
            Call::Recover => self.figures.recoveries += 1,
        }
        self.calls.make(call, image, allowance)
    }

    fn meet(&mut self, image: &[u8], cuts: &[u64]) {
        if !self.met.contains(image) {
            let image: Rc<[u8]> = image.into();
            self.met.insert(image.clone());
            self.figures.count_images(cuts.len(), 1);
            self.waiting.push_back(Reached { image, cuts: cuts.to_vec() });
        }
    }

    /// Cuts one call at every step, from allowance 0 until it ends.
    fn cut_everywhere(&mut self, call: Call, from: &Reached) -> Result<(), Failure> {
        let mut cuts = from.cuts.clone();
        cuts.push(0);
        let mut last = from.image.to_vec();
        let mut image = last.clone();
        for allowance in 0..TOO_LONG {
            *cuts.last_mut().expect("pushed above") = allowance;
            image.copy_from_slice(&from.image);
            let answer = self.make(call, &mut image, allowance);
            if let Some(what) = fault_of_cut(answer, allowance, &last, &image) {
                return Err(Failure { what: format!("{call:?}: {what}"), cuts, image });
            }
            self.meet(&image, &cuts);
            if answer.number == ENDED {
                return self.run_to_end(call, from, answer, &image, cuts);
            }
            std::mem::swap(&mut last, &mut image);
        }
        Err(Failure { what: format!("{call:?} does not end"), cuts, image })
    }

    /// Without a limit the call has to do as it did with just enough; and after a recovery the conclusion holds.
    fn run_to_end(
        &mut self,
        call: Call,
        from: &Reached,
        exact: Answer,
        end: &[u8],
        cuts: Vec<u64>,
    ) -> Result<(), Failure> {
        let mut image = from.image.to_vec();
        let answer = self.make(call, &mut image, u64::MAX);
        let fault = if answer != exact || image != end {
            Some(format!("{call:?}: without a limit {answer:?}, with just enough {exact:?}"))
        } else if call == Call::Recover && self.ends.insert(end.into()) {
            self.figures.ends += 1;
            self.demanded.fault(&contents(end))
        } else {
            None
        };
        fault.map_or(Ok(()), |what| Err(Failure { what, cuts, image }))
    }

    /// The calls under trial have to recover and to reclaim the store itself as the model does: a settled one is
    /// recovered by no step.
    fn does_as(&mut self, call: Call, model: &Outcome, store: &[u8]) -> Result<(), Failure> {
        let mut image = store.to_vec();
        let answer = self.make(call, &mut image, u64::MAX);
        let wanted = Answer { number: model.result, steps: model.steps as u64 };
        if answer == wanted && image == model.image {
            return Ok(());
        }
        let alike = if image == model.image { "the same image" } else { "another image" };
        let what = format!("{call:?} of the store itself: {answer:?}, by the model {wanted:?} and {alike}");
        Err(Failure { what, cuts: Vec::new(), image })
    }
}

/// A cut call has to say 7, or 0 where the steps were just enough; it makes as many steps as it may, one more than
/// with one step fewer allowed; and it is never refused.
fn fault_of_cut(answer: Answer, allowance: u64, last: &[u8], image: &[u8]) -> Option<String> {
    if answer.number != ENDED && answer.number != STOPPED {
        return Some(format!("result {}", answer.number));
    }
    if answer.steps != allowance {
        return Some(format!("{} steps, {allowance} allowed", answer.steps));
    }
    let as_told = if allowance == 0 { last == image } else { is_one_step(last, image) };
    (!as_told).then(|| format!("step {allowance} is not one step"))
}

/// Tries one store within the premises.
pub fn try_store(calls: &mut dyn Calls, store: &[u8]) -> Result<Figures, Failure> {
    let model = recover(store, u64::MAX, &mut [None; 16]);
    let demanded = demanded(store, &model.image);
    let (items, left) = (contents(store).items() as u64, demanded.items() as u64);
    let figures = Figures { items, left, spans: Spans::of(store), ..Figures::default() };
    let (met, ends, waiting) = (Images::default(), Images::default(), VecDeque::new());
    let mut trial = Trial { calls, demanded, met, ends, waiting, figures };
    trial.does_as(Call::Recover, &model, store)?;
    trial.does_as(Call::Reclaim, &reclaim(store, u64::MAX), store)?;
    let start = Reached { image: store.into(), cuts: Vec::new() };
    trial.cut_everywhere(Call::Reclaim, &start)?;
    while let Some(reached) = trial.waiting.pop_front() {
        trial.cut_everywhere(Call::Recover, &reached)?;
    }
    Ok(trial.figures)
}

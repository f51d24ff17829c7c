//! Draws cases of the class: stores with whole items, what a store leaves behind, and what a cut leaves. The rest is
//! the class test's: a drawn case outside the class is drawn again.

use model::items::Key;
use model::protocol::{Case, Operation};
use model::random::Random;
use model::reclaim::reclaim;
use model::recover::recover;
use model::sector::{EntryState, ACTIVE_WORD, ENTRIES, FREEING_WORD, FULL_WORD, SECTOR_BYTES};
use model::steps::{Outcome, Step};
use model::writing::{index_data, key_of, Fields};

use crate::class::{in_class, INSIDE_A_MARKING};
use crate::page::{fields, value, with_payload, Page, CHUNK, INDEX};

const NUMBERS: [u8; 8] = [0x01, 0x02, 0x04, 0x08, 0x11, 0x12, 0x14, 0x18];

/// An item with its payload.
type Piece = (Fields, Vec<u8>);

fn draw_key(random: &mut Random) -> Key {
    key_of(random.choose(&["a", "a\0b", "b", "c", "quarter", "hour", "tariff", "k0"]))
}

/// Now and then ten times as long, so that the item's entry states are in several words.
fn draw_payload(random: &mut Random, most: usize) -> Vec<u8> {
    let most = if random.once_in(8) { 10 * most } else { most };
    let mut payload = vec![0; random.below(most + 1)];
    random.fill(&mut payload);
    payload
}

/// A key with any number behind it, so that few items are duplicates.
fn draw_name(random: &mut Random) -> String {
    format!("q{}", random.below(4096))
}

fn draw_plain(random: &mut Random) -> Piece {
    let kind = random.choose(&NUMBERS);
    let namespace = 1 + random.below(3) as u8;
    match random.below(10) {
        0 => (
            Fields { namespace: 0, ..fields(0x01, draw_key(random), value(random.next() as u32)) },
            Vec::new(),
        ),
        1 | 2 => {
            let payload = draw_payload(random, 200);
            let kind = random.choose(&[0x21, 0x21, 0x41]);
            (Fields { namespace, ..with_payload(kind, &draw_name(random), &payload) }, payload)
        }
        3 => (
            Fields { namespace, ..fields(kind, draw_key(random), value(random.next() as u32)) },
            Vec::new(),
        ),
        _ => {
            let key = key_of(&draw_name(random));
            (Fields { namespace, ..fields(kind, key, value(random.next() as u32)) }, Vec::new())
        }
    }
}

/// The chunks of a version and the sum of their sizes. A size is now and then greater than the payload: nobody asks.
fn draw_chunks(random: &mut Random, named: Fields, start: u8, count: usize) -> (Vec<Piece>, u32) {
    let mut size = 0;
    let mut chunks = Vec::new();
    for chunk in 0..count as u8 {
        let payload = draw_payload(random, 100);
        let Fields { span, mut data, .. } = with_payload(CHUNK, "", &payload);
        if random.once_in(16) {
            data[1] = random.byte();
        }
        size += u32::from(u16::from_le_bytes([data[0], data[1]]));
        chunks.push((Fields { kind: CHUNK, span, data, chunk_index: start + chunk, ..named }, payload));
    }
    (chunks, size)
}

/// One chunk index twice, or a gap. Where nothing else is wrong the store is outside the class.
fn draw_wrong_indices(random: &mut Random, chunks: &mut [Piece]) {
    let Some((last, before)) = chunks.split_last_mut() else { return };
    last.0.chunk_index = match before.first() {
        Some(first) if random.once_in(2) => first.0.chunk_index,
        _ => last.0.chunk_index + 1,
    };
}

/// A blob of one start: chunks and an index, sound or with one thing wrong.
fn draw_version(random: &mut Random, named: Fields, start: u8) -> Vec<Piece> {
    let count = random.below(4);
    let (mut pieces, mut size) = draw_chunks(random, named, start, count);
    if random.once_in(16) {
        draw_wrong_indices(random, &mut pieces);
    }
    let mut told = count as u8;
    match random.below(10) {
        0 => told += 1,
        1 => size += 1,
        2 => size += 0x1_0000,
        _ => {}
    }
    pieces.push((Fields { kind: INDEX, data: index_data(size, told, start), ..named }, Vec::new()));
    match random.below(8) {
        0 => pieces.truncate(count),
        1 => drop(pieces.remove(0)),
        _ => {}
    }
    pieces
}

/// One or both versions of a blob.
fn draw_blob(random: &mut Random) -> Vec<Piece> {
    let named =
        Fields { namespace: 1 + random.below(2) as u8, ..fields(INDEX, draw_key(random), value(0)) };
    let starts: &[u8] = random.choose(&[&[0], &[0x80], &[0, 0x80], &[0x80, 0]]);
    starts.iter().flat_map(|start| draw_version(random, named, *start)).collect()
}

/// Lays a piece on the page if it fits, now and then beside Erased entries.
fn lay(random: &mut Random, page: Page, piece: &Piece) -> Page {
    let erased = if random.once_in(6) { 1 + random.below(4) } else { 0 };
    let page = if page.next + erased <= ENTRIES { page.erased(erased) } else { page };
    if page.next + piece.0.span as usize > ENTRIES {
        return page;
    }
    page.put(piece.0, &piece.1)
}

/// What is laid on the pages, in order.
fn draw_pieces(random: &mut Random) -> Vec<Piece> {
    let most = random.choose(&[3, 10, 40, 150, 400]);
    let mut pieces = Vec::new();
    for _ in 0..random.below(most + 1) {
        if random.once_in(12) {
            pieces.extend(draw_blob(random));
        } else {
            pieces.push(draw_plain(random));
        }
    }
    for _ in 0..random.choose(&[0, 0, 1, 2]) {
        pieces.extend(draw_again(random, &pieces));
    }
    pieces
}

/// A second value of a key: the power went before the older was erased.
fn draw_again(random: &mut Random, pieces: &[Piece]) -> Option<Piece> {
    if pieces.is_empty() {
        return None;
    }
    let Fields { namespace, kind, key, chunk_index, .. } = pieces[random.below(pieces.len())].0;
    if kind == CHUNK || kind == INDEX {
        return None;
    }
    let number = fields(0x04, key, value(random.next() as u32));
    Some((Fields { namespace, chunk_index, ..number }, Vec::new()))
}

/// A free sector: mostly Blank, else torn in its header or behind it.
fn draw_free(random: &mut Random) -> Page {
    match random.below(8) {
        0 => Page::new(FULL_WORD, random.next() as u32).flip(4 + random.below(24)),
        1 => Page::blank().flip(64 + random.below(4032)),
        2 => Page::new(0xFFFF_FFF0, 3),
        _ => Page::blank(),
    }
}

/// How a page ends: with Empty entries, Erased or Illegal ones, or items up to its last entry.
fn draw_end(random: &mut Random, page: Page) -> Page {
    let (begin, left) = (page.next, ENTRIES - page.next);
    match random.below(8) {
        0 => page.erased(left),
        1 => page.erased(random.below(left + 1)),
        2 => page.states(begin, random.below(left + 1), EntryState::Illegal),
        3 => page.numbers_to(ENTRIES, &format!("end{}", random.below(99))),
        4 => page.numbers_to(ENTRIES - 1, &format!("end{}", random.below(99))).erased(left.min(1)),
        _ => page,
    }
}

fn draw_state_word(random: &mut Random, operation: Operation) -> u32 {
    match operation {
        Operation::Reclaim => random.choose(&[FULL_WORD, FULL_WORD, FULL_WORD, FREEING_WORD]),
        _ => random.choose(&[FULL_WORD, FULL_WORD, FULL_WORD, ACTIVE_WORD, FREEING_WORD]),
    }
}

/// Different sequences, near each other or not; now and then equal ones.
fn draw_sequences(random: &mut Random, pages: usize) -> Vec<u32> {
    let base = random.choose(&[0, 1, 7, 0x1234_5678, u32::MAX - 20, u32::MAX - pages as u32]);
    let gap = if base < u32::MAX / 2 { 1 + random.below(30) as u32 } else { 1 };
    let mut sequences: Vec<u32> = (0..pages as u32).map(|page| base + page * gap).collect();
    random.shuffle(&mut sequences);
    if random.once_in(20) {
        sequences.iter_mut().for_each(|sequence| *sequence /= 2);
    }
    sequences
}

/// A store without a cut.
pub fn draw_store(random: &mut Random, operation: Operation) -> Vec<u8> {
    let sectors = random.choose(&[2, 2, 2, 2, 3, 3, 3, 4, 4, 5, 6, 8, 16]);
    let free = random.below(sectors).min(1 + random.below(3));
    let sequences = draw_sequences(random, sectors - free);
    let mut pages: Vec<Page> =
        sequences.iter().map(|sequence| Page::new(draw_state_word(random, operation), *sequence)).collect();
    for piece in draw_pieces(random) {
        let place = random.below(pages.len());
        let page = pages[place].clone();
        pages[place] = lay(random, page, &piece);
    }
    pages = pages.into_iter().map(|page| draw_end(random, page)).collect();
    pages.extend((0..free).map(|_| draw_free(random)));
    random.shuffle(&mut pages);
    pages.into_iter().flat_map(|page| page.bytes).collect()
}

/// The step after which the power goes: any, but most often one that ends something, the last mark of an item too, so
/// that little is torn.
fn draw_cut(random: &mut Random, outcome: &Outcome) -> usize {
    let last_mark = |place: usize| {
        let goes_on = |next| outcome.list[place].marks_same_item(next);
        outcome.list[place].marked_word().is_some() && !outcome.list.get(place + 1).is_some_and(goes_on)
    };
    let ends = |place: &usize| match outcome.list[*place].step {
        Step::Erase { .. } | Step::Program { word: 0, .. } => true,
        _ => last_mark(*place),
    };
    let ended: Vec<usize> = (0..outcome.list.len()).filter(ends).collect();
    if ended.is_empty() || random.once_in(4) {
        return random.below(outcome.list.len() + 1);
    }
    random.choose(&ended) + 1
}

/// The image that a call of document 01 leaves where the power goes.
fn draw_after_cut(random: &mut Random, image: &[u8]) -> Vec<u8> {
    let reclaims = random.once_in(2);
    let call = |allowance| match reclaims {
        true => reclaim(image, allowance),
        false => recover(image, allowance, &mut [None; 16]),
    };
    let steps = draw_cut(random, &call(u64::MAX));
    call(steps as u64).image
}

fn draw_case(random: &mut Random, operation: Operation) -> Case {
    let mut image = draw_store(random, operation);
    for _ in 0..random.choose(&[0, 0, 0, 1, 1, 2]) {
        image = draw_after_cut(random, &image);
    }
    let records = (image.len() / SECTOR_BYTES) as u32;
    let whole = Case { operation, allowance: u64::MAX, records, image };
    if !random.once_in(3) {
        return whole;
    }
    let steps = draw_cut(random, &crate::class::model_outcome(&whole));
    Case { allowance: steps as u64, ..whole }
}

/// A case of the class.
pub struct Drawn {
    pub case: Case,
    /// The model's answer.
    pub outcome: Outcome,
    /// How many were drawn before it that are outside for one thing alone: they stop inside a word of an item's marks.
    pub inside_marking: u64,
}

/// The case of a number: it depends on nothing but the operation, the seed and the number.
pub fn case_of(operation: Operation, seed: u64, number: u64) -> Drawn {
    let mut random = Random::of_case(seed, number);
    let mut inside_marking = 0;
    loop {
        let case = draw_case(&mut random, operation);
        match in_class(&case) {
            Ok(outcome) => return Drawn { case, outcome, inside_marking },
            Err(reason) => inside_marking += u64::from(reason == INSIDE_A_MARKING),
        }
    }
}

//! Draws an image: the states of its sectors, their sequences, the pieces on them.

use crate::blob_images::{full_pages, long_blob};
use crate::draw_page::{draw_corrupt, draw_draft, Draft};
use crate::draw_pieces::{draw_pieces, Piece};
use crate::items::{items, Item};
use crate::mishaps::{cut, flip_bits};
use crate::random::Random;
use crate::sector::{free, sequence, state, EntryState, State, ENTRIES, ENTRY_BYTES, SECTOR_BYTES};
use crate::steps::{sector_of, sector_of_mut};
use crate::writing::blank_sector;

/// Mostly small, so that many cases are quick.
fn draw_sector_count(random: &mut Random) -> usize {
    match random.below(64) {
        0 => 16,
        1 => 7 + random.below(9),
        2..=22 => 2,
        23..=44 => 3,
        45..=55 => 4,
        56..=60 => 5,
        _ => 6,
    }
}

/// The states of the sectors, by the kind of store that the image is.
fn draw_states(random: &mut Random, sectors: usize, without_active: bool) -> Vec<State> {
    use State::{Active, Blank, Corrupt, Freeing, Full};
    let (must, may): (&[State], &[State]) = match random.below(if without_active { 5 } else { 12 }) {
        0 | 1 => (&[Blank], &[Full, Full, Full, Blank, Corrupt]),
        2 => (&[Corrupt], &[Full, Full, Freeing, Corrupt]),
        3 => (&[], &[Full, Freeing]),
        4 => (&[Freeing], &[Full, Freeing, Blank, Corrupt]),
        5 => (&[], &[Blank, Corrupt, Active, Full, Full, Freeing]),
        6 => (&[Active, Blank], &[Full, Full, Blank]),
        7 => (&[Active, Freeing], &[Full, Full, Blank, Corrupt]),
        8 => (&[Active, Active], &[Active, Full, Freeing, Blank]),
        9 => (&[Freeing, Freeing], &[Full, Active, Freeing, Blank]),
        10 => (&[Active], &[Active, Active, Full, Freeing]),
        _ => (&[Full, Full], &[Full, Active, Blank]),
    };
    let mut states = must.to_vec();
    while states.len() < sectors {
        states.push(random.choose(may));
    }
    random.shuffle(&mut states);
    states
}

/// Distinct ones near a base, equal ones, extremes, any.
fn draw_sequences(random: &mut Random, sectors: usize) -> Vec<u32> {
    let base = random.choose(&[0, 1, 2, 7, 0x1000, 0xFFFF_FFE0]);
    let mode = random.below(14);
    let mut sequences: Vec<u32> = (0..sectors as u32).map(|sector| base + sector).collect();
    random.shuffle(&mut sequences);
    for sequence in &mut sequences {
        match mode {
            0..=3 => *sequence = base + random.below(3) as u32,
            4 => *sequence = random.choose(&[0, 1, 0xFFFF_FFEF, 0xFFFF_FFFD, u32::MAX - 1, u32::MAX]),
            5 => *sequence = u32::MAX - random.below(7) as u32,
            6 => *sequence = random.next() as u32,
            7 => *sequence = random.choose(&[0, 1, 0xFFFF_FFFB, 0xFFFF_FFFC, 0xFFFF_FFFD]),
            _ => {}
        }
    }
    sequences
}

/// Lays each piece on some page with room, now and then after a gap.
fn place_pieces(random: &mut Random, drafts: &mut [Draft], pieces: &[Piece]) {
    for piece in pieces {
        let draft = random.below(drafts.len());
        if random.once_in(8) {
            let state = random.choose(&[EntryState::Empty, EntryState::Erased, EntryState::Illegal]);
            drafts[draft].leave(1 + random.below(3), state);
        }
        drafts[draft].place(random, piece);
    }
}

/// The items of a page, whole.
fn pieces_of(page: &[u8]) -> Vec<Piece> {
    let whole = |item: Item| {
        let payload = 64 + ENTRY_BYTES * (item.entry + 1);
        let end = payload + ENTRY_BYTES * (item.span() - 1);
        Piece { header: item.header, payload: page[payload..end].to_vec() }
    };
    items(page).into_iter().map(whole).collect()
}

/// Makes a page from another: often one beside a Freeing source, of a sequence near to it.
fn draw_twin(random: &mut Random, source: &mut Draft, twin: &mut Draft) {
    if random.once_in(2) {
        let old = sequence(&source.sector);
        let new = random.choose(&[old, old.saturating_add(1), sequence(&twin.sector)]);
        source.take_header(State::Freeing, old);
        twin.take_header(random.choose(&[State::Active, State::Active, State::Full, State::Freeing]), new);
    } else {
        twin.take_header(state(&twin.sector), sequence(&source.sector));
    }
    place_twin(random, &source.sector, twin);
}

/// Lays on a page the items of another: all, some, one changed, one more, one twice, of the other start, in
/// any order.
fn place_twin(random: &mut Random, source: &[u8], twin: &mut Draft) {
    let mut pieces = pieces_of(source);
    match random.below(9) {
        0 => random.shuffle(&mut pieces),
        1 | 2 => pieces.truncate(random.below(pieces.len() + 1)),
        3 => pieces.extend(draw_pieces(random, 1)),
        4 if !pieces.is_empty() => pieces[0].change(|header| header[24] ^= 1),
        5 if !pieces.is_empty() => pieces.push(pieces[0].clone()),
        6 | 7 => pieces.iter_mut().for_each(Piece::take_other_start),
        _ => {}
    }
    for piece in &pieces {
        twin.place(random, piece);
    }
}

/// The pages of an image, in sector order; now and then the last one is drawn from another.
fn draw_pages(random: &mut Random, states: &[State], sequences: &[u32]) -> Vec<Draft> {
    let pages = states.iter().zip(sequences).filter(|(state, _)| !free(**state));
    let mut drafts: Vec<Draft> =
        pages.map(|(state, sequence)| draw_draft(random, *state, *sequence)).collect();
    let twins = drafts.len() >= 2 && random.once_in(3);
    let laid = drafts.len() - usize::from(twins);
    if laid > 0 {
        let pieces = draw_pieces(random, 3 + 3 * laid.min(5));
        place_pieces(random, &mut drafts[..laid], &pieces);
    }
    if twins {
        let (sources, twin) = drafts.split_at_mut(laid);
        let source = random.below(laid);
        draw_twin(random, &mut sources[source], &mut twin[0]);
    }
    drafts
}

/// Equal points on all pages: ten newer for each entry more that is Erased.
fn even_points(random: &mut Random, drafts: &mut [Draft]) {
    for draft in drafts {
        let tens = random.below(3);
        draft.take_header(state(&draft.sector), 2 + 10 * tens as u32);
        draft.have_erased(3 + tens);
    }
}

/// Pages to be erased whole, as old and as new as can be: points at the edge of 32 bits.
fn extreme_points(random: &mut Random, drafts: &mut [Draft]) {
    for draft in drafts {
        let sequence = random.choose(&[0, 0, 0x8000_0000, u32::MAX]);
        draft.take_header(state(&draft.sector), sequence);
        draft.have_all(EntryState::Erased);
    }
}

fn draw_sectors(random: &mut Random, states: &[State], sequences: &[u32]) -> Vec<u8> {
    let mut drafts = draw_pages(random, states, sequences);
    drafts.iter_mut().for_each(|draft| draft.draw_rest(random));
    match random.below(32) {
        0 => even_points(random, &mut drafts),
        1 => drafts.iter_mut().for_each(|draft| draft.have_all(EntryState::Written)),
        2 => extreme_points(random, &mut drafts),
        _ => {}
    }
    let mut drafts = drafts.into_iter();
    let mut image = Vec::new();
    for (state, sequence) in states.iter().zip(sequences) {
        image.extend(match state {
            State::Blank => blank_sector(),
            State::Corrupt => draw_corrupt(random, *sequence),
            _ => drafts.next().expect("a draft for each page").sector,
        });
    }
    image
}

/// A version of about 128 chunks and its index, in any order and nothing torn: one piece lost of so many is the
/// usual thing.
fn draw_long_version(random: &mut Random) -> Vec<u8> {
    let count = 127 + random.below(3) as u8;
    let mut items = long_blob("a", count, random.choose(&[0x00, 0x80]));
    random.shuffle(&mut items);
    full_pages(&items)
}

/// An image of 2 to 16 whole sectors. `without_active` leans to images that reclaim does not refuse.
pub fn draw_image(random: &mut Random, without_active: bool) -> Vec<u8> {
    let sectors = draw_sector_count(random);
    if random.once_in(100) {
        return vec![0xFF; SECTOR_BYTES * sectors];
    }
    if random.once_in(200) {
        return draw_long_version(random);
    }
    let states = draw_states(random, sectors, without_active);
    let sequences = draw_sequences(random, sectors);
    let mut image = draw_sectors(random, &states, &sequences);
    let cuts = random.choose(&[0, 0, 0, 0, 1, 1, 2, 3]);
    for _ in 0..cuts {
        image = cut(random, &image);
    }
    if random.once_in(16) {
        flip_bits(random, &mut image);
    }
    if random.once_in(64) {
        let sector = random.below(sectors);
        random.fill(sector_of_mut(&mut image, sector));
    }
    image
}

/// One sector of a drawn image, or a page with pieces up to its end.
pub fn draw_one_sector(random: &mut Random) -> Vec<u8> {
    if random.once_in(3) {
        let image = draw_image(random, false);
        let sector = random.below(image.len() / SECTOR_BYTES);
        return sector_of(&image, sector).to_vec();
    }
    let state = random.choose(&[State::Active, State::Full, State::Freeing]);
    let sequence = random.next() as u32;
    let mut draft = draw_draft(random, state, sequence);
    let at_most = random.choose(&[4, 10, 30, ENTRIES]);
    let pieces = draw_pieces(random, at_most);
    place_pieces(random, std::slice::from_mut(&mut draft), &pieces);
    draft.draw_rest(random);
    draft.sector
}

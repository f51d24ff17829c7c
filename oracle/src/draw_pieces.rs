//! Draws the items of an image: few names, so that duplicates and blobs of one key meet often.

use crate::items::{start_of_byte, Key, BLOB_INDEX, CHUNK, KNOWN_TYPES};
use crate::random::Random;
use crate::sector::{ENTRIES, ENTRY_BYTES};
use crate::writing::{chunk_data, index_data, key_of, mend_crc, Fields};

/// An item, or something near one, with the entries that it takes on a page.
#[derive(Clone)]
pub struct Piece {
    pub header: [u8; ENTRY_BYTES],
    pub payload: Vec<u8>,
}

impl Piece {
    pub fn entries(&self) -> usize {
        1 + self.payload.len() / ENTRY_BYTES
    }

    /// Changes the header and mends its CRC.
    pub fn change(&mut self, how: impl FnOnce(&mut [u8; ENTRY_BYTES])) {
        how(&mut self.header);
        mend_crc(&mut self.header);
    }

    /// A part of a blob becomes one of the other start.
    pub fn take_other_start(&mut self) {
        match self.header[1] {
            CHUNK => self.change(|header| header[3] ^= 0x80),
            BLOB_INDEX => self.change(|header| header[29] ^= 0x80),
            _ => {}
        }
    }
}

/// The names that an image draws from.
struct Names {
    namespaces: Vec<u8>,
    keys: Vec<Key>,
}

fn draw_names(random: &mut Random) -> Names {
    // Alike up to a zero byte, alike up to the last byte, without a zero byte, above 0x7F.
    let mut keys = vec![key_of("a"), key_of("b"), key_of("a\0x"), key_of("tariff.register")];
    keys.extend([*b"sixteen bytes, a", *b"sixteen bytes, b", [0x80; 16]]);
    random.shuffle(&mut keys);
    keys.truncate(1 + random.below(4));
    let namespaces = match random.below(6) {
        0 => vec![0, 1],
        1 => vec![0, 1, 2, 255],
        2 => vec![1, 2],
        3 => vec![2, 10],
        _ => vec![1],
    };
    Names { namespaces, keys }
}

fn draw_span(random: &mut Random) -> u8 {
    match random.below(40) {
        0 | 1 => 126,
        2 => 125,
        3 => 1 + random.below(126) as u8,
        4 => 1 + random.below(40) as u8,
        5..=12 => 2 + random.below(4) as u8,
        _ => 1,
    }
}

fn draw_plain(random: &mut Random, names: &Names) -> Fields {
    let kind = random.choose(&KNOWN_TYPES[..10]);
    let mut data = [0xFF; 8];
    random.fill(&mut data[..4]);
    Fields {
        namespace: random.choose(&names.namespaces),
        kind,
        span: draw_span(random),
        chunk_index: if random.once_in(6) { random.byte() } else { 0xFF },
        key: random.choose(&names.keys),
        data,
    }
}

/// Payload that now and then reads as items, should a header before it go alone.
fn draw_payload(random: &mut Random, names: &Names, span: u8) -> Vec<u8> {
    let mut payload = vec![0xFF; ENTRY_BYTES * (span as usize).saturating_sub(1)];
    match random.below(4) {
        0 => {
            for entry in payload.chunks_mut(ENTRY_BYTES) {
                let plain = draw_plain(random, names);
                let chunk = draw_chunk(random, plain.namespace, plain.key, 0);
                let fields = if random.once_in(4) { chunk } else { plain };
                entry.copy_from_slice(&Fields { span: 1, ..fields }.header());
            }
        }
        1 => {}
        _ => random.fill(&mut payload),
    }
    payload
}

fn piece_of(random: &mut Random, names: &Names, fields: Fields) -> Piece {
    Piece { header: fields.header(), payload: draw_payload(random, names, fields.span) }
}

fn draw_chunk(random: &mut Random, namespace: u8, key: Key, chunk_index: u8) -> Fields {
    let span = if random.once_in(12) { draw_span(random) } else { 1 + random.below(3) as u8 };
    let size = match random.below(6) {
        0 => 0xFFFF,
        1 => 0,
        _ => random.below(1 + ENTRY_BYTES * (span as usize - 1)) as u16,
    };
    Fields { namespace, kind: CHUNK, span, chunk_index, key, data: chunk_data(size) }
}

/// Chunk indices that are not start, start + 1 and so on, with the count and the sizes as they were: one twice in
/// the place of another, a gap, all one up, from the index's own start byte, of the other start, any.
fn draw_wrong_numbers(random: &mut Random, chunks: &mut [Fields], start_byte: u8) {
    if chunks.is_empty() {
        return;
    }
    let up = |chunk: &mut Fields, by: u8| {
        let number = chunk.chunk_index.wrapping_add(by) & 0x7F;
        chunk.chunk_index = start_of_byte(chunk.chunk_index) | number;
    };
    let (one, middle) = (random.below(chunks.len()), chunks.len() / 2);
    let next = |chunk: usize| (chunk + 1) % chunks.len();
    match random.below(8) {
        0 => chunks[one].chunk_index = chunks[next(one)].chunk_index,
        1 => chunks[middle].chunk_index = chunks[next(middle)].chunk_index,
        2 | 3 => chunks[one..].iter_mut().for_each(|chunk| up(chunk, 1)),
        4 => chunks.iter_mut().for_each(|chunk| up(chunk, 1)),
        5 => chunks.iter_mut().for_each(|chunk| up(chunk, start_byte)),
        6 => chunks.iter_mut().for_each(|chunk| chunk.chunk_index ^= 0x80),
        _ => up(&mut chunks[one], random.byte()),
    }
}

fn size_of(chunk: &Fields) -> u32 {
    u16::from_le_bytes([chunk.data[0], chunk.data[1]]).into()
}

/// A version of a blob: chunks and the index that fits them, then perhaps a fault.
fn draw_version(random: &mut Random, names: &Names, name: (u8, Key), start: u8) -> Vec<Piece> {
    let (namespace, key) = name;
    let count = random.choose(&[0, 0, 1, 1, 1, 2, 2, 3, 3]);
    let mut parts = Vec::new();
    for chunk in 0..count {
        parts.push(draw_chunk(random, namespace, key, start_of_byte(start) + chunk));
    }
    let size = parts.iter().map(size_of).sum();
    let span = if random.once_in(5) { 2 + random.below(2) as u8 } else { 1 };
    let data = index_data(size, count, start);
    let index = Fields { namespace, kind: BLOB_INDEX, span, chunk_index: 0xFF, key, data };
    if random.once_in(3) {
        draw_wrong_numbers(random, &mut parts, start);
    }
    draw_blob_fault(random, &mut parts, index);
    parts.into_iter().map(|fields| piece_of(random, names, fields)).collect()
}

fn draw_blob_fault(random: &mut Random, parts: &mut Vec<Fields>, mut index: Fields) {
    let [a, b, c, d, count, start, ..] = index.data;
    let size = u32::from_le_bytes([a, b, c, d]);
    match random.below(22) {
        0 => return,
        1 => index.data = index_data(size, count.wrapping_sub(1), start),
        2 => index.data = index_data(size, count + 1, start),
        3 => index.data = index_data(size.wrapping_add(1), count, start),
        4 => index.data = index_data(size & 0xFFFF, count, start),
        5 => index.data = index_data(size.wrapping_add(7), count + 1, start),
        6 | 7 => parts.push(index),
        8 => parts.push(Fields { data: index_data(random.next() as u32, random.byte(), start), ..index }),
        9 if !parts.is_empty() => parts.push(random.choose(parts)),
        10 if !parts.is_empty() => {
            let copy = random.choose(parts);
            parts.push(copy);
            index.data = index_data(size + size_of(&copy), count, start);
        }
        _ => {}
    }
    parts.push(index);
}

fn draw_blob(random: &mut Random, names: &Names) -> Vec<Piece> {
    let name = (random.choose(&names.namespaces), random.choose(&names.keys));
    let start = random.choose(&[0, 0, 0, 0x80, 0x80, 0x80, 1, 3, 0x7F, 0x81, 0xFF]);
    let mut pieces = draw_version(random, names, name, start);
    if !random.once_in(3) {
        pieces.extend(draw_version(random, names, name, start ^ 0x80));
    }
    pieces
}

/// The same name again, with another type, other data or other chunk index, or all alike.
fn draw_again(random: &mut Random, piece: &Piece) -> Piece {
    let mut again = piece.clone();
    again.change(|header| match random.below(4) {
        0 => header[1] = random.choose(&KNOWN_TYPES),
        1 => header[24 + random.below(8)] = random.byte(),
        2 => header[3] = random.byte(),
        _ => {}
    });
    again
}

/// Makes a piece that is no item: wrong CRC, unknown type, span 0, span too long.
fn spoil(random: &mut Random, piece: &mut Piece) {
    match random.below(5) {
        0 => piece.header[4 + random.below(4)] ^= 1 << random.below(8),
        1 => piece.header[random.below(ENTRY_BYTES)] ^= 1 << random.below(8),
        2 => {
            let unknown = random.choose(&[0x00, 0x03, 0x09, 0x10, 0x22, 0x40, 0x43, 0x49, 0xFF]);
            piece.change(|header| header[1] = unknown);
        }
        3 => piece.change(|header| header[2] = 0),
        _ => piece.change(|header| header[2] = (ENTRIES + random.below(130)) as u8),
    }
}

/// All pieces of an image, in the order in which they are placed.
pub fn draw_pieces(random: &mut Random, at_most: usize) -> Vec<Piece> {
    let names = draw_names(random);
    let wanted = random.below(at_most + 1);
    let mut pieces: Vec<Piece> = Vec::new();
    while pieces.len() < wanted {
        match random.below(8) {
            0..=2 => {
                let fields = draw_plain(random, &names);
                pieces.push(piece_of(random, &names, fields));
            }
            3..=5 => pieces.extend(draw_blob(random, &names)),
            _ if pieces.is_empty() => {}
            _ => {
                let place = random.below(pieces.len());
                let again = draw_again(random, &pieces[place]);
                pieces.push(again);
            }
        }
    }
    // Half of the images are left sound, so that whole blobs are not rare.
    if random.once_in(2) {
        for piece in &mut pieces {
            if random.once_in(8) {
                spoil(random, piece);
            }
        }
    }
    random.shuffle(&mut pieces);
    pieces
}

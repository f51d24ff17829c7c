//! Draws items whose names are given once, and sound blobs.

use std::collections::BTreeSet;

use oracle::draw_pieces::Piece;
use oracle::items::{Key, BLOB_INDEX, CHUNK, KNOWN_TYPES};
use oracle::random::Random;
use oracle::sector::ENTRY_BYTES;
use oracle::writing::{chunk_data, index_data, key_of, Fields};

/// All but 0, in which no blob part may be.
pub const NAMESPACES: [u8; 5] = [1, 1, 2, 10, 255];

/// The names that were given.
#[derive(Default)]
pub struct Names {
    given: BTreeSet<(u8, Key)>,
}

/// Keys that are alike up to a zero byte, up to the last byte, without a zero byte, or above 0x7F.
fn key_of_number(number: usize) -> Key {
    let byte = number as u8;
    match number % 4 {
        0 => key_of(&format!("q{number:07}")),
        1 => key_of(&format!("a\0{number}")),
        2 => std::array::from_fn(|place| if place == 15 { byte } else { b'z' }),
        _ => std::array::from_fn(|place| if place == 0 { 0x80 } else { byte }),
    }
}

impl Names {
    /// A name that no item has; the number of names to choose from grows, so that there is one.
    pub fn give(&mut self, random: &mut Random, namespaces: &[u8]) -> (u8, Key) {
        loop {
            let namespace = random.choose(namespaces);
            let name = (namespace, key_of_number(random.below(8 + 2 * self.given.len())));
            if self.given.insert(name) {
                return name;
            }
        }
    }
}

/// Mostly short; one in sixteen is sure to have its entry states in two words or more, where there is room.
pub fn draw_span(random: &mut Random, room: usize) -> u8 {
    let span = match random.below(16) {
        0 => room,
        1 | 2 => 1 + random.below(room),
        3 => 17 + random.below(24),
        4..=8 => 2 + random.below(5),
        _ => 1,
    };
    span.min(room) as u8
}

/// Any bytes, ones, or headers that would be read as items, should the header before them go alone.
fn draw_payload(random: &mut Random, fields: &Fields) -> Vec<u8> {
    let mut payload = vec![0xFF; ENTRY_BYTES * (fields.span as usize - 1)];
    match random.below(3) {
        0 => random.fill(&mut payload),
        1 => {
            for entry in payload.chunks_mut(ENTRY_BYTES) {
                let kind = random.choose(&KNOWN_TYPES);
                let inner = Fields { kind, span: 1, chunk_index: random.byte(), ..*fields };
                entry.copy_from_slice(&inner.header());
            }
        }
        _ => {}
    }
    payload
}

fn piece_of(random: &mut Random, fields: Fields) -> Piece {
    Piece { header: fields.header(), payload: draw_payload(random, &fields) }
}

pub fn pieces_of(random: &mut Random, group: Vec<Fields>) -> Vec<Piece> {
    group.into_iter().map(|fields| piece_of(random, fields)).collect()
}

fn draw_plain(random: &mut Random, name: (u8, Key), room: usize) -> Fields {
    let (namespace, key) = name;
    let chunk_index = if random.once_in(6) { random.byte() } else { 0xFF };
    let mut data = [0xFF; 8];
    random.fill(&mut data[..4]);
    let kind = random.choose(&KNOWN_TYPES[..10]);
    Fields { namespace, kind, span: draw_span(random, room), chunk_index, key, data }
}

/// Items of namespace 0: stage 4 leaves those that share a key, so they may, with other chunk indices.
fn draw_namespace_0(random: &mut Random, names: &mut Names, room: usize) -> Vec<Fields> {
    let name = names.give(random, &[0]);
    let first = draw_plain(random, name, room);
    let mut group = vec![first];
    if random.once_in(2) {
        let chunk_index = first.chunk_index.wrapping_add(1 + random.below(255) as u8);
        group.push(Fields { chunk_index, ..draw_plain(random, name, room) });
    }
    group
}

/// The chunks of a version, start, start + 1 and so on, and the index that fits them.
pub fn draw_blob(random: &mut Random, name: (u8, Key), room: usize) -> Vec<Fields> {
    let (namespace, key) = name;
    let start_byte = random.choose(&[0, 0, 0x80, 0x80, 1, 0x7F, 0x81, 0xFF]);
    let start = start_byte & 0x80;
    let count = random.choose(&[0, 1, 1, 2, 2, 3, 5]);
    let mut group = Vec::new();
    let mut size = 0u32;
    for chunk in 0..count {
        let span = if random.once_in(8) {
            draw_span(random, room)
        } else {
            (1 + random.below(4).min(room - 1)) as u8
        };
        let bytes = random.choose(&[0, 0xFFFF, 32 * (u16::from(span) - 1), 1, 31]);
        size += u32::from(bytes);
        let (chunk_index, data) = (start + chunk, chunk_data(bytes));
        group.push(Fields { namespace, kind: CHUNK, span, chunk_index, key, data });
    }
    let span = if random.once_in(6) { (2 + random.below(2)).min(room) as u8 } else { 1 };
    let data = index_data(size, count, start_byte);
    group.push(Fields { namespace, kind: BLOB_INDEX, span, chunk_index: 0xFF, key, data });
    random.shuffle(&mut group);
    group
}

/// One item that is no part of a blob, of so many entries.
pub fn draw_plain_of(random: &mut Random, names: &mut Names, entries: usize) -> Piece {
    let name = names.give(random, &[1, 2]);
    let fields = Fields { span: entries as u8, ..draw_plain(random, name, entries) };
    piece_of(random, fields)
}

/// One or more items that belong together, none of more entries than `room`.
pub fn draw_group(random: &mut Random, names: &mut Names, room: usize) -> Vec<Piece> {
    let group = match random.below(8) {
        0 => draw_namespace_0(random, names, room),
        1..=3 => {
            let name = names.give(random, &NAMESPACES);
            draw_blob(random, name, room)
        }
        _ => {
            let name = names.give(random, &NAMESPACES);
            vec![draw_plain(random, name, room)]
        }
    };
    pieces_of(random, group)
}

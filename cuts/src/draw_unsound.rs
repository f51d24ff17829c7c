//! Draws blobs of which recovery has something to erase: sound ones that are then spoiled.

use std::collections::BTreeSet;

use oracle::draw_pieces::Piece;
use oracle::items::{Key, BLOB_INDEX, CHUNK};
use oracle::random::Random;
use oracle::writing::{chunk_data, Fields};

use crate::draw_items::{draw_blob, draw_span, pieces_of, Names, NAMESPACES};

struct Blob {
    name: (u8, Key),
    parts: Vec<Fields>,
    /// No part may take more entries.
    room: usize,
}

impl Blob {
    /// The index, where it is not lost.
    fn index(&mut self) -> Option<&mut Fields> {
        self.parts.iter_mut().find(|part| part.kind == BLOB_INDEX)
    }

    fn change_index(&mut self, how: impl FnOnce(&mut [u8; 8])) {
        if let Some(index) = self.index() {
            how(&mut index.data);
        }
    }

    fn start(&mut self) -> u8 {
        self.index().map_or(0, |index| index.data[5] & 0x80)
    }

    /// A chunk index of that start that no part has.
    fn unused(&self, random: &mut Random, start: u8) -> u8 {
        loop {
            let chunk_index = start + random.below(0x7F) as u8;
            if self.parts.iter().all(|part| part.chunk_index != chunk_index) {
                return chunk_index;
            }
        }
    }

    fn add_chunks(&mut self, random: &mut Random, start: u8) {
        let (namespace, key) = self.name;
        for _ in 0..random.choose(&[1, 1, 1, 2, 3]) {
            let chunk_index = self.unused(random, start);
            let span = draw_span(random, self.room);
            let data = chunk_data(random.choose(&[0, 0, 1, 31, 32, 0xFFFF]));
            self.parts.push(Fields { namespace, kind: CHUNK, span, chunk_index, key, data });
        }
    }

    fn lose_a_chunk(&mut self, random: &mut Random) {
        let chunks: Vec<usize> =
            (0..self.parts.len()).filter(|part| self.parts[*part].kind == CHUNK).collect();
        if !chunks.is_empty() {
            self.parts.remove(random.choose(&chunks));
        }
    }

    /// All chunk indices from some chunk on so much higher: mostly a gap, else none that begins at the start. Each is
    /// still there once, and count and size fit.
    fn move_up(&mut self, random: &mut Random) {
        let chunks = self.parts.iter().filter(|part| part.kind == CHUNK);
        let indices: BTreeSet<u8> = chunks.map(|part| part.chunk_index).collect();
        let by = random.choose(&[1, 1, 1, 2, 20]);
        if indices.is_empty() || indices.iter().any(|index| index % 0x80 + by >= 0x80) {
            return;
        }
        let lowest = indices.len() == 1 || random.once_in(4);
        let place = if lowest { 0 } else { 1 + random.below(indices.len() - 1) };
        let first = *indices.iter().nth(place).expect("below the length");
        for part in self.parts.iter_mut().filter(|part| part.kind == CHUNK && part.chunk_index >= first) {
            part.chunk_index += by;
        }
    }

    /// In one way. Two come three times as often: chunks beyond those that the index counts, which, erased before the
    /// others, would leave a sound version; and chunk indices that alone are wrong.
    fn spoil(&mut self, random: &mut Random) {
        match random.below(12) {
            0 => self.parts.retain(|part| part.kind == CHUNK),
            1 => self.parts.retain(|part| part.kind == BLOB_INDEX),
            2 => self.lose_a_chunk(random),
            3 => self.change_index(|data| data[4] = data[4].wrapping_add(random.choose(&[1, 2, 0xFF]))),
            4 => self.change_index(|data| data[random.below(4)] ^= 1 << random.below(8)),
            5 => self.change_index(|data| data[5] ^= 0x80),
            6..=8 => self.move_up(random),
            _ => {
                let start = self.start();
                self.add_chunks(random, start);
            }
        }
    }
}

/// The parts of one key. Now and then the index keeps its sound version, beside chunks of the other start.
pub fn draw_unsound(random: &mut Random, names: &mut Names, room: usize) -> Vec<Piece> {
    let name = names.give(random, &NAMESPACES);
    let mut blob = Blob { name, parts: draw_blob(random, name, room), room };
    let start = blob.start();
    let keeps_version = random.once_in(5);
    if keeps_version || random.once_in(3) {
        blob.add_chunks(random, start ^ 0x80);
    }
    if !keeps_version {
        blob.index().expect("drawn with it").span = 1;
        (0..1 + random.below(2)).for_each(|_| blob.spoil(random));
    }
    random.shuffle(&mut blob.parts);
    pieces_of(random, blob.parts)
}

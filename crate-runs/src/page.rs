//! Pages written by hand, entry after entry.

use model::items::Key;
use model::sector::{EntryState, ENTRIES, ENTRY_BYTES, FULL_WORD};
use model::writing::{blank_sector, empty_page, index_data, key_of, set_entry, set_entry_state, Fields};

pub const TEXT: u8 = 0x21;
pub const NUMBER: u8 = 0x04;
pub const CHUNK: u8 = 0x42;
pub const INDEX: u8 = 0x48;

/// A sector and the entry at which the next piece is laid.
#[derive(Clone)]
pub struct Page {
    pub bytes: Vec<u8>,
    pub next: usize,
}

/// The data of a number.
pub fn value(number: u32) -> [u8; 8] {
    let [a, b, c, d] = number.to_le_bytes();
    [a, b, c, d, 0xFF, 0xFF, 0xFF, 0xFF]
}

/// The CRC that the crate keeps of an item's payload: that of document 01.
fn sized(payload: &[u8]) -> [u8; 8] {
    let [a, b, ..] = (payload.len() as u32).to_le_bytes();
    let [e, f, g, h] = model::crc::crc(payload).to_le_bytes();
    [a, b, 0xFF, 0xFF, e, f, g, h]
}

pub fn fields(kind: u8, key: Key, data: [u8; 8]) -> Fields {
    Fields { namespace: 1, kind, span: 1, chunk_index: 0xFF, key, data }
}

/// The header of an item with that payload.
pub fn with_payload(kind: u8, key: &str, payload: &[u8]) -> Fields {
    let span = 1 + payload.len().div_ceil(ENTRY_BYTES) as u8;
    Fields { span, ..fields(kind, key_of(key), sized(payload)) }
}

impl Page {
    pub fn new(state_word: u32, sequence: u32) -> Page {
        Page { bytes: empty_page(state_word, sequence, 0xFE), next: 0 }
    }

    pub fn full(sequence: u32) -> Page {
        Page::new(FULL_WORD, sequence)
    }

    pub fn blank() -> Page {
        Page { bytes: blank_sector(), next: 0 }
    }

    /// Header and payload, all entries of the span Written.
    pub fn put(mut self, fields: Fields, payload: &[u8]) -> Page {
        let span = (fields.span.max(1) as usize).min(ENTRIES - self.next);
        let begin = self.next;
        self = self.bytes_at(begin, &fields.header()).bytes_at(begin + 1, payload);
        self.states(begin, span, EntryState::Written).skip(span)
    }

    /// The next piece is laid further on.
    pub fn skip(mut self, entries: usize) -> Page {
        self.next += entries;
        self
    }

    /// Bytes from an entry on; no state changes.
    pub fn bytes_at(mut self, entry: usize, bytes: &[u8]) -> Page {
        if !bytes.is_empty() {
            set_entry(&mut self.bytes, entry, bytes);
        }
        self
    }

    pub fn states(mut self, entry: usize, count: usize, state: EntryState) -> Page {
        (entry..entry + count).for_each(|entry| set_entry_state(&mut self.bytes, entry, state));
        self
    }

    pub fn erased(self, count: usize) -> Page {
        let begin = self.next;
        self.states(begin, count, EntryState::Erased).skip(count)
    }

    pub fn number(self, key: &str, number: u32) -> Page {
        self.put(fields(NUMBER, key_of(key), value(number)), &[])
    }

    /// Numbers of different keys up to an entry.
    pub fn numbers_to(mut self, end: usize, prefix: &str) -> Page {
        while self.next < end {
            let key = format!("{prefix}{}", self.next);
            self = self.number(&key, 1);
        }
        self
    }

    pub fn namespace(self, name: &str) -> Page {
        self.put(Fields { namespace: 0, ..fields(0x01, key_of(name), value(0xFFFF_FF01)) }, &[])
    }

    pub fn text(self, key: &str, payload: &[u8]) -> Page {
        self.put(with_payload(TEXT, key, payload), payload)
    }

    pub fn chunk(self, key: &str, chunk_index: u8, payload: &[u8]) -> Page {
        self.put(Fields { chunk_index, ..with_payload(CHUNK, key, payload) }, payload)
    }

    pub fn index(self, key: &str, size: u32, count: u8, start: u8) -> Page {
        self.put(fields(INDEX, key_of(key), index_data(size, count, start)), &[])
    }

    /// A byte of the sector changed in its lowest bit.
    pub fn flip(mut self, byte: usize) -> Page {
        self.bytes[byte] ^= 1;
        self
    }
}

pub fn image(pages: &[&Page]) -> Vec<u8> {
    pages.iter().flat_map(|page| page.bytes.iter().copied()).collect()
}

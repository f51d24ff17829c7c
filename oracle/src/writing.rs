//! Writing of headers and entry states: what generated and named images are made with.

use crate::items::{entry_crc, Key};
use crate::sector::{page_header, EntryState, ENTRY_BYTES, SECTOR_BYTES};

/// The fields of an entry before its CRC is known.
#[derive(Clone, Copy)]
pub struct Fields {
    pub namespace: u8,
    pub kind: u8,
    pub span: u8,
    pub chunk_index: u8,
    pub key: Key,
    pub data: [u8; 8],
}

impl Fields {
    pub fn header(&self) -> [u8; ENTRY_BYTES] {
        let mut header = [0; ENTRY_BYTES];
        header[0..4].copy_from_slice(&[self.namespace, self.kind, self.span, self.chunk_index]);
        header[8..24].copy_from_slice(&self.key);
        header[24..32].copy_from_slice(&self.data);
        mend_crc(&mut header);
        header
    }
}

pub fn mend_crc(header: &mut [u8; ENTRY_BYTES]) {
    let crc = entry_crc(header);
    header[4..8].copy_from_slice(&crc.to_le_bytes());
}

/// A key of text, with zero bytes after it.
pub fn key_of(text: &str) -> Key {
    let mut key = [0; 16];
    key[..text.len()].copy_from_slice(text.as_bytes());
    key
}

pub fn index_data(size: u32, count: u8, start: u8) -> [u8; 8] {
    let [a, b, c, d] = size.to_le_bytes();
    [a, b, c, d, count, start, 0xFF, 0xFF]
}

pub fn chunk_data(size: u16) -> [u8; 8] {
    let [a, b] = size.to_le_bytes();
    [a, b, 0xFF, 0xFF, 0, 0, 0, 0]
}

pub fn blank_sector() -> Vec<u8> {
    vec![0xFF; SECTOR_BYTES]
}

/// A page without an entry.
pub fn empty_page(state_word: u32, sequence: u32, version: u8) -> Vec<u8> {
    let mut sector = blank_sector();
    sector[..32].copy_from_slice(&page_header(state_word, sequence, version));
    sector
}

pub fn set_entry_state(sector: &mut [u8], entry: usize, state: EntryState) {
    let shift = 2 * (entry % 4);
    let byte = &mut sector[32 + entry / 4];
    *byte = *byte & !(3 << shift) | (state as u8) << shift;
}

/// The bytes of an entry; its state stays.
pub fn set_entry(sector: &mut [u8], entry: usize, bytes: &[u8]) {
    let place = 64 + ENTRY_BYTES * entry;
    sector[place..place + bytes.len()].copy_from_slice(bytes);
}

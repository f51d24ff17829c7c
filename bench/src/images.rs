//! The images that are timed.
use crate::crc::{crc, entry_crc, header_crc};

pub const SECTOR: usize = 4096;
pub const ENTRIES: usize = 126;
pub const FULL: u32 = 0xFFFF_FFFC;
pub const ACTIVE: u32 = 0xFFFF_FFFE;

pub const NUMBER: u8 = 0x08;
const TEXT: u8 = 0x21;
pub const CHUNK: u8 = 0x42;
pub const INDEX: u8 = 0x48;

/// A page and the entry at which the next item is laid. Keys are numbered through the image, so that no two are alike; on a
/// stirred page they stand in no order.
pub struct Page {
    bytes: Vec<u8>,
    pub next: usize,
    pub key: usize,
    pub stirred: bool,
}

impl Page {
    pub fn new(state: u32, sequence: u32) -> Page {
        let mut bytes = vec![0xFFu8; SECTOR];
        bytes[..4].copy_from_slice(&state.to_le_bytes());
        bytes[4..8].copy_from_slice(&sequence.to_le_bytes());
        bytes[8] = 0xFE;
        let crc = header_crc(&bytes);
        bytes[28..32].copy_from_slice(&crc.to_le_bytes());
        Page { bytes, next: 0, key: sequence as usize * 1000, stirred: false }
    }

    fn set_states(&mut self, count: usize, state: u8) {
        for entry in self.next..self.next + count {
            let shift = 2 * (entry % 4);
            let byte = &mut self.bytes[32 + entry / 4];
            *byte = *byte & !(3 << shift) | state << shift;
        }
        self.next += count;
    }

    fn erased(mut self, count: usize) -> Page {
        self.set_states(count, 0);
        self
    }

    /// An item with the number of its key, its payload behind it, all Written.
    pub fn item(&mut self, kind: u8, chunk: u8, data: [u8; 8], payload: &[u8]) {
        let span = 1 + payload.len().div_ceil(32);
        let at = 64 + 32 * self.next;
        let key = if self.stirred { stir(self.key) } else { self.key };
        self.bytes[at..at + 32].fill(0);
        self.bytes[at..at + 4].copy_from_slice(&[1, kind, span as u8, chunk]);
        put_name(key, &mut self.bytes[at + 8..at + 24]);
        self.bytes[at + 24..at + 32].copy_from_slice(&data);
        let crc = entry_crc(&self.bytes[at..at + 32]);
        self.bytes[at + 4..at + 8].copy_from_slice(&crc.to_le_bytes());
        self.bytes[at + 32..at + 32 + payload.len()].copy_from_slice(payload);
        self.set_states(span, 2);
    }

    /// One-entry items up to an entry.
    pub fn numbers_to(mut self, end: usize) -> Page {
        while self.next < end {
            self.key += 1;
            self.item(NUMBER, 0xFF, (self.next as u64 * 977).to_le_bytes(), &[]);
        }
        self
    }

    /// A blob of one chunk, whose index tells so many bytes more than the chunk has.
    pub fn blob(&mut self, payload: &[u8], more: u8) {
        self.key += 1;
        self.item(CHUNK, 0, sized(payload), payload);
        self.item(INDEX, 0xFF, [payload.len() as u8 + more, 0, 0, 0, 1, 0, 0xFF, 0xFF], &[]);
    }

    /// A number, a text, a sound blob of one chunk, and Erased entries, again and again while they fit.
    fn mixed_to(mut self, end: usize) -> Page {
        let payload = [0x55u8; 200];
        while self.next + 20 <= end {
            let next = self.next;
            self = self.numbers_to(next + 3);
            self.key += 1;
            self.item(TEXT, 0xFF, sized(&payload[..90]), &payload[..90]);
            self.blob(&payload, 0);
            self = self.erased(4);
        }
        self
    }
}

/// The key of a number, as text: a letter and eight digits.
pub fn put_name(key: usize, out: &mut [u8]) {
    out[0] = b'q';
    let mut rest = key;
    for digit in out[1..9].iter_mut().rev() {
        *digit = b'0' + (rest % 10) as u8;
        rest /= 10;
    }
}

/// Another number for each, in no order.
fn stir(key: usize) -> usize {
    ((key as u64).wrapping_mul(0x9E37_79B9_7F4A_7C15) >> 20) as usize % 100_000_000
}

/// The data of an item with a payload: its size and its CRC.
pub fn sized(payload: &[u8]) -> [u8; 8] {
    let [a, b, ..] = (payload.len() as u32).to_le_bytes();
    let [e, f, g, h] = crc(payload).to_le_bytes();
    [a, b, 0xFF, 0xFF, e, f, g, h]
}

pub fn image(pages: Vec<Page>, blank: usize) -> Vec<u8> {
    let mut bytes: Vec<u8> = pages.into_iter().flat_map(|page| page.bytes).collect();
    bytes.resize(bytes.len() + SECTOR * blank, 0xFF);
    bytes
}

fn full(sequence: u32) -> Page {
    Page::new(FULL, sequence).numbers_to(ENTRIES)
}

/// A Full page of 126 one-entry items.
pub fn sector(sequence: u32) -> Vec<u8> {
    full(sequence).bytes
}

/// Full pages of one-entry items, then one of 100 items and 26 Erased entries, then a blank sector.
pub fn to_reclaim(full_pages: u32) -> Vec<u8> {
    let mut pages: Vec<Page> = (1..=full_pages).map(full).collect();
    pages.push(Page::new(FULL, full_pages + 1).numbers_to(100).erased(26));
    image(pages, 1)
}

/// A Full page of three texts of 40 entries and 6 Erased entries, and a blank sector.
pub fn texts_to_reclaim() -> Vec<u8> {
    let payload = [0x55u8; 39 * 32];
    let mut page = Page::new(FULL, 1);
    for _ in 0..3 {
        page.key += 1;
        page.item(TEXT, 0xFF, sized(&payload), &payload);
    }
    image(vec![page.erased(6)], 1)
}

/// 15 Full pages and an Active one of 10 items: 1,900 one-entry items.
pub fn settled_16() -> Vec<u8> {
    let mut pages: Vec<Page> = (1..16).map(full).collect();
    pages.push(Page::new(ACTIVE, 16).numbers_to(10));
    image(pages, 0)
}

/// Three Full pages and an Active one: 475 one-entry items, a quarter of those of `settled_16`.
pub fn settled_475() -> Vec<u8> {
    let mut pages: Vec<Page> = (1..4).map(full).collect();
    pages.push(Page::new(ACTIVE, 4).numbers_to(97));
    image(pages, 0)
}

/// Three Full pages and a blank sector: 378 one-entry items.
pub fn settled_4() -> Vec<u8> {
    image((1..4).map(full).collect(), 1)
}

/// 14 Full pages and an Active one of numbers, texts, blobs and Erased entries, and a blank sector.
pub fn settled_mixed() -> Vec<u8> {
    let mut pages: Vec<Page> = (1..15).map(|sequence| Page::new(FULL, sequence).mixed_to(ENTRIES)).collect();
    pages.push(Page::new(ACTIVE, 15).mixed_to(60));
    image(pages, 1)
}

/// 16 Blank sectors: a meter before its first start.
pub fn blank_16() -> Vec<u8> {
    image(Vec::new(), 16)
}

/// An Active page of 10 items and 15 Blank sectors: a young meter.
pub fn blank_15() -> Vec<u8> {
    image(vec![Page::new(ACTIVE, 1).numbers_to(10)], 15)
}

/// Where an item begins on a sector: Written entries of a page, payloads passed over. For images made here alone.
pub fn items(sector: &[u8]) -> Vec<&[u8]> {
    let mut found = Vec::new();
    let mut entry = 0;
    while entry < ENTRIES {
        if sector[32 + entry / 4] >> (2 * (entry % 4)) & 3 == 2 {
            let item = &sector[64 + 32 * entry..96 + 32 * entry];
            found.push(item);
            entry += item[2] as usize;
        } else {
            entry += 1;
        }
    }
    found
}

//! Entries, the item walk and the item reader.

use crate::crc::crc;
use crate::other_way;
use crate::sector::{entry_state, free, number, state, EntryState, ENTRIES, ENTRY_BYTES, SECTOR_BYTES};
use crate::slip::{slipped, Slip};

pub const CHUNK: u8 = 0x42;
pub const BLOB_INDEX: u8 = 0x48;

/// "A type byte is judged by its value: 0x01, 0x02, 0x04, 0x08, 0x11, 0x12, 0x14, 0x18, 0x21, 0x41, 0x42
/// (chunk), 0x48 (blob index); others are not known."
pub const KNOWN_TYPES: [u8; 12] =
    [0x01, 0x02, 0x04, 0x08, 0x11, 0x12, 0x14, 0x18, 0x21, 0x41, CHUNK, BLOB_INDEX];

pub type Key = [u8; 16];

/// "Entry: byte 0 namespace, 1 type, 2 span, 3 chunk index, 4-7 CRC of bytes 0-3 and 8-31, 8-23 key,
/// 24-31 data."
#[derive(Clone, Copy, PartialEq, Eq, Debug)]
pub struct Item {
    pub entry: usize,
    pub header: [u8; ENTRY_BYTES],
}

impl Item {
    pub fn namespace(&self) -> u8 {
        self.header[0]
    }

    pub fn kind(&self) -> u8 {
        self.header[1]
    }

    pub fn span(&self) -> usize {
        self.header[2] as usize
    }

    /// The entry at which the walk goes on.
    pub fn end(&self) -> usize {
        self.entry + self.span()
    }

    pub fn chunk_index(&self) -> u8 {
        self.header[3]
    }

    pub fn key(&self) -> Key {
        let key = self.header[8..24].try_into().expect("16 bytes");
        if slipped(Slip::KeyEndsAtZeroByte) {
            return other_way::key_up_to_zero(key);
        }
        key
    }

    pub fn is_chunk(&self) -> bool {
        self.kind() == CHUNK
    }

    pub fn is_blob_index(&self) -> bool {
        self.kind() == BLOB_INDEX
    }

    /// "A chunk's data begins with its size in 2 bytes."
    pub fn chunk_size(&self) -> u64 {
        u16::from_le_bytes([self.header[24], self.header[25]]) as u64
    }

    /// "A blob index has size in 4 bytes, chunk count in 1, chunk start in 1."
    pub fn blob_size(&self) -> u64 {
        number(&self.header, 24) as u64
    }

    pub fn chunk_count(&self) -> usize {
        self.header[28] as usize
    }

    /// "start 0 for a byte below 0x80, else 0x80; a chunk's chunk index is judged alike"
    pub fn start(&self) -> u8 {
        start_of_byte(if self.is_chunk() { self.chunk_index() } else { self.header[29] })
    }
}

pub fn start_of_byte(byte: u8) -> u8 {
    if byte < 0x80 {
        0
    } else {
        0x80
    }
}

/// The CRC that an entry of these bytes has to carry.
pub fn entry_crc(header: &[u8; ENTRY_BYTES]) -> u32 {
    crc(header[0..4].iter().chain(&header[8..32]))
}

/// What the walk meets at an entry that it reaches.
#[derive(Clone, Copy, PartialEq, Eq, Debug)]
pub enum Met {
    NotWritten(EntryState),
    WrongCrc,
    UnknownType,
    SpanZero,
    SpanTooLong,
    Item(Item),
}

impl Met {
    /// Document 02, No. 7: "Written entries that the walk reached and could not take as an item".
    pub fn is_unread(&self) -> bool {
        match self {
            Met::Item(_) => false,
            Met::NotWritten(state) => slipped(Slip::IllegalUnread) && *state == EntryState::Illegal,
            Met::WrongCrc => true,
            Met::UnknownType => !slipped(Slip::UnknownTypeNotUnread),
            Met::SpanZero | Met::SpanTooLong => !slipped(Slip::WrongSpanNotUnread),
        }
    }
}

/// "an entry is a readable item if Written, its CRC right, its type known. Where the entry is no readable
/// item the walk goes on by one; so too where span is 0 or index + span exceeds 126. Otherwise it is an
/// item and the walk goes on by its span."
fn meet(sector: &[u8], entry: usize) -> Met {
    let state = entry_state(sector, entry);
    if state != EntryState::Written {
        return Met::NotWritten(state);
    }
    let place = 64 + ENTRY_BYTES * entry;
    let header = sector[place..place + ENTRY_BYTES].try_into().expect("32 bytes");
    let item = Item { entry, header };
    if number(&header, 4) != entry_crc(&header) {
        Met::WrongCrc
    } else if !KNOWN_TYPES.contains(&item.kind()) {
        Met::UnknownType
    } else if item.span() == 0 {
        Met::SpanZero
    } else if entry + item.span() > ENTRIES {
        Met::SpanTooLong
    } else {
        Met::Item(item)
    }
}

/// "Item walk, from entry 0". All that it meets, in order.
pub fn walk(sector: &[u8]) -> Vec<Met> {
    let mut met = Vec::new();
    let mut entry = 0;
    while entry < ENTRIES {
        let here = meet(sector, entry);
        entry += match here {
            Met::Item(item) => item.span(),
            _ => 1,
        };
        met.push(here);
    }
    met
}

/// "A Blank or Corrupt sector has none." Namespace 0 entries are items too.
pub fn items(sector: &[u8]) -> Vec<Item> {
    if free(state(sector)) {
        return Vec::new();
    }
    let item_of = |met| match met {
        Met::Item(item) => Some(item),
        _ => None,
    };
    walk(sector).into_iter().filter_map(item_of).collect()
}

/// "the count of Written entries that the walk reached and could not take as an item. It is 0 for free
/// sectors."
pub fn unread(sector: &[u8]) -> u32 {
    let met = if free(state(sector)) { Vec::new() } else { walk(sector) };
    let count = met.iter().filter(|met| met.is_unread()).count();
    other_way::unread(sector, count as u32)
}

/// "An item reader keeps the lent sector and its place on it, and hands out the next item until none is
/// left." It counts the unread entries that it passes.
pub struct ItemReader<'a> {
    sector: &'a [u8],
    entry: usize,
    unread: u32,
}

impl<'a> ItemReader<'a> {
    /// "A Blank or Corrupt sector has none. A length other than 4,096 is result 1."
    pub fn new(sector: &'a [u8]) -> Result<ItemReader<'a>, u8> {
        if sector.len() != SECTOR_BYTES {
            return Err(1);
        }
        let entry = if free(state(sector)) { ENTRIES } else { 0 };
        Ok(ItemReader { sector, entry, unread: 0 })
    }
}

impl Iterator for ItemReader<'_> {
    type Item = Item;

    fn next(&mut self) -> Option<Item> {
        while self.entry < ENTRIES {
            let here = meet(self.sector, self.entry);
            if let Met::Item(item) = here {
                self.entry += item.span();
                if slipped(Slip::ReaderCountsFromItem) {
                    self.unread = 0;
                }
                return Some(item);
            }
            self.unread += u32::from(here.is_unread());
            self.entry += 1;
        }
        None
    }
}

/// All items that a reader hands out, and what it has counted when none is left. "Recovery, the item reader
/// and the listing must agree on it": this count is the record's.
pub fn read_items(sector: &[u8]) -> Result<(Vec<Item>, u32), u8> {
    let mut reader = ItemReader::new(sector)?;
    let items = reader.by_ref().collect();
    let unread = if slipped(Slip::ReaderCountsNone) { 0 } else { reader.unread };
    Ok((items, other_way::unread(sector, unread)))
}

//! Sector layout and page states.

use crate::crc::crc;
use crate::other_way;
use crate::slip::{slipped, Slip};

pub const SECTOR_BYTES: usize = 4096;
pub const ENTRIES: usize = 126;
pub const ENTRY_BYTES: usize = 32;

pub const ACTIVE_WORD: u32 = 0xFFFF_FFFE;
pub const FULL_WORD: u32 = 0xFFFF_FFFC;
pub const FREEING_WORD: u32 = 0xFFFF_FFF8;

#[derive(Clone, Copy, PartialEq, Eq, Debug)]
pub enum State {
    Blank,
    Corrupt,
    Active,
    Full,
    Freeing,
}

/// The pair's value is the number.
#[derive(Clone, Copy, PartialEq, Eq, Debug)]
pub enum EntryState {
    Erased = 0,
    Illegal = 1,
    Written = 2,
    Empty = 3,
}

/// "numbers little-endian": the four bytes from `at` on.
pub fn number(bytes: &[u8], at: usize) -> u32 {
    u32::from_le_bytes([bytes[at], bytes[at + 1], bytes[at + 2], bytes[at + 3]])
}

/// "Bytes 0-3 state, 4-7 sequence, 8 version, 9-27 0xFF, 28-31 CRC of bytes 4-27".
pub fn page_header(state_word: u32, sequence: u32, version: u8) -> [u8; 32] {
    let mut header = [0xFF; 32];
    header[0..4].copy_from_slice(&state_word.to_le_bytes());
    header[4..8].copy_from_slice(&sequence.to_le_bytes());
    header[8] = version;
    let crc = crc(&header[4..28]);
    header[28..32].copy_from_slice(&crc.to_le_bytes());
    header
}

pub fn sequence(sector: &[u8]) -> u32 {
    number(sector, 4)
}

pub fn version(sector: &[u8]) -> u8 {
    sector[8]
}

pub fn header_crc_right(sector: &[u8]) -> bool {
    if slipped(Slip::HeaderRestTested) && sector[9..28].iter().any(|&byte| byte != 0xFF) {
        return false;
    }
    number(sector, 28) == crc(&sector[4..28])
}

/// "State words: Active 0xFFFFFFFE, Full 0xFFFFFFFC, Freeing 0xFFFFFFF8."
pub fn state_of_word(word: u32) -> Option<State> {
    match word {
        ACTIVE_WORD => Some(State::Active),
        FULL_WORD => Some(State::Full),
        FREEING_WORD => Some(State::Freeing),
        _ => None,
    }
}

/// "version 0xFE or 0xFF"
pub fn version_known(sector: &[u8]) -> bool {
    matches!(version(sector), 0xFE | 0xFF)
}

/// "All bytes 0xFF: Blank."
pub fn blank(sector: &[u8]) -> bool {
    sector.iter().all(|&byte| byte == 0xFF) || other_way::blank(sector)
}

/// "All bytes 0xFF: Blank. State one of the three words, version 0xFE or 0xFF, header CRC right: that
/// state. Anything else: Corrupt."
pub fn state(sector: &[u8]) -> State {
    if blank(sector) {
        return State::Blank;
    }
    match state_of_word(number(sector, 0)) {
        Some(state) if version_known(sector) && header_crc_right(sector) => state,
        _ => State::Corrupt,
    }
}

/// "Blank and Corrupt sectors are free."
pub fn free(state: State) -> bool {
    matches!(state, State::Blank | State::Corrupt)
}

/// "Entry i has two bits in byte 32 + i/4, shifted by 2 x (i mod 4): 3 Empty, 2 Written, 0 Erased, 1
/// Illegal."
pub fn entry_state(sector: &[u8], entry: usize) -> EntryState {
    match (sector[32 + entry / 4] >> (2 * (entry % 4))) & 3 {
        0 => EntryState::Erased,
        1 => EntryState::Illegal,
        2 => EntryState::Written,
        _ => EntryState::Empty,
    }
}

/// "The two pairs past entry 125 never count." Counted entry by entry: the four 64-bit words only say
/// how a fast program counts.
pub fn total(sector: &[u8], wanted: EntryState) -> u32 {
    let count = (0..ENTRIES).filter(|&entry| entry_state(sector, entry) == wanted).count();
    count as u32
}

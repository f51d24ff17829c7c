//! Draws one sector: a free one, or a page and how its entries are used.

use crate::crc::crc;
use crate::draw_pieces::Piece;
use crate::items::CHUNK;
use crate::random::Random;
use crate::sector::{
    blank, page_header, state, version, EntryState, State, ACTIVE_WORD, ENTRIES, FREEING_WORD, FULL_WORD,
    SECTOR_BYTES,
};
use crate::writing::{blank_sector, chunk_data, empty_page, key_of, set_entry, set_entry_state, Fields};

const ENTRY_STATES: [EntryState; 4] =
    [EntryState::Erased, EntryState::Illegal, EntryState::Written, EntryState::Empty];

/// A page under way: pieces are placed from the next entry on.
pub struct Draft {
    pub sector: Vec<u8>,
    next: usize,
}

fn state_word(state: State) -> u32 {
    match state {
        State::Active => ACTIVE_WORD,
        State::Full => FULL_WORD,
        _ => FREEING_WORD,
    }
}

/// A page's header: now and then version 0xFF, other bytes than 0xFF in 9-27, or marked pairs past 125.
pub fn draw_draft(random: &mut Random, state: State, sequence: u32) -> Draft {
    let version = if random.once_in(4) { 0xFF } else { 0xFE };
    let mut sector = empty_page(state_word(state), sequence, version);
    if random.once_in(16) {
        random.fill(&mut sector[9..28]);
        let crc = crc(&sector[4..28]);
        sector[28..32].copy_from_slice(&crc.to_le_bytes());
    }
    if random.once_in(12) {
        sector[63] &= random.byte() | 0x0F;
    }
    Draft { sector, next: 0 }
}

/// A Corrupt sector: half initialised, wrong in one of the three conditions, nearly Blank, or anything.
pub fn draw_corrupt(random: &mut Random, sequence: u32) -> Vec<u8> {
    let word = random.choose(&[ACTIVE_WORD, FULL_WORD, FREEING_WORD]);
    let mut sector = empty_page(word, sequence, 0xFE);
    match random.below(8) {
        0 => {
            sector[..4].fill(0xFF);
            sector[4 * (2 + random.below(7))..].fill(0xFF);
        }
        1 => sector[..4].fill(0xFF),
        2 => sector[..4].copy_from_slice(&random.choose(&[0xFFFF_FFF0u32, 0, 0xFFFF_FFFA]).to_le_bytes()),
        3 => {
            let version = random.choose(&[0xFD, 0x00, 0xFC, 0x7F]);
            sector[..32].copy_from_slice(&page_header(word, sequence, version));
        }
        4 => sector[4 + random.below(28)] ^= 1 << random.below(8),
        5 => {
            sector = blank_sector();
            sector[63] = random.choose(&[0x7F, 0xEF, 0x0F, 0xBF]);
        }
        6 => {
            sector = blank_sector();
            sector[random.below(SECTOR_BYTES)] = random.byte();
        }
        _ => random.fill(&mut sector),
    }
    // Anything beyond the header, and a sector that was drawn Blank after all.
    if random.once_in(4) || blank(&sector) {
        sector[SECTOR_BYTES - 1] = random.byte() & 0x7F;
    }
    sector
}

impl Draft {
    pub fn take_header(&mut self, state: State, sequence: u32) {
        let header = page_header(state_word(state), sequence, version(&self.sector));
        self.sector[..32].copy_from_slice(&header);
    }

    /// All 126 in one state, whatever lies there.
    pub fn have_all(&mut self, state: EntryState) {
        self.next = 0;
        self.leave(ENTRIES, state);
    }

    /// Exactly so many Erased entries, then a Written one, the rest Empty.
    pub fn have_erased(&mut self, count: usize) {
        self.have_all(EntryState::Empty);
        self.next = 0;
        self.leave(count, EntryState::Erased);
        self.leave(1, EntryState::Written);
    }

    /// Leaves the piece out where there is no room.
    pub fn place(&mut self, random: &mut Random, piece: &Piece) {
        let end = self.next + piece.entries();
        if end > ENTRIES {
            return;
        }
        set_entry(&mut self.sector, self.next, &piece.header);
        set_entry(&mut self.sector, self.next + 1, &piece.payload);
        for entry in self.next..end {
            set_entry_state(&mut self.sector, entry, EntryState::Written);
        }
        self.disturb_states(random, self.next, end);
        self.next = end;
    }

    /// Torn states: a copy or an erasure that power cut short, or worse.
    fn disturb_states(&mut self, random: &mut Random, header: usize, end: usize) {
        let (first, state) = match random.below(40) {
            0 => (header, EntryState::Erased),
            1 => (header, EntryState::Empty),
            2 => (header, EntryState::Illegal),
            3 | 4 => (header + 1, EntryState::Empty),
            5 => (header + 1, EntryState::Erased),
            6 => (header + 1, random.choose(&ENTRY_STATES)),
            _ => return,
        };
        for entry in first..end {
            set_entry_state(&mut self.sector, entry, state);
        }
    }

    /// Entries that no piece uses, in one state.
    pub fn leave(&mut self, count: usize, state: EntryState) {
        let end = ENTRIES.min(self.next + count);
        for entry in self.next..end {
            set_entry_state(&mut self.sector, entry, state);
        }
        self.next = end;
    }

    /// How the rest of the page is used after the last piece.
    pub fn draw_rest(&mut self, random: &mut Random) {
        let rest = ENTRIES - self.next;
        if state(&self.sector) == State::Active && random.once_in(4) {
            return self.place_last(random, rest);
        }
        match random.below(16) {
            0..=2 => self.leave(1 + random.below(4), EntryState::Erased),
            3 => self.leave(rest, EntryState::Erased),
            4 | 5 => self.leave(rest, EntryState::Written),
            6 => self.leave(rest.saturating_sub(1 + random.below(3)), EntryState::Written),
            7 => self.leave(1 + random.below(3), EntryState::Illegal),
            8 => {
                self.leave(random.below(rest + 1), EntryState::Erased);
                self.leave(ENTRIES, EntryState::Written);
            }
            9 => self.place_last(random, rest),
            10 => self.have_all(EntryState::Erased),
            11 if random.once_in(4) => random.fill(&mut self.sector[32..64]),
            _ => {}
        }
    }

    /// An item to the end of the page with a payload that was never marked: once it is erased, the page has
    /// no Empty entry left. Now and then it is one entry too long.
    fn place_last(&mut self, random: &mut Random, rest: usize) {
        if rest < 2 {
            return;
        }
        let fields = Fields {
            namespace: random.choose(&[1, 1, 2]),
            kind: random.choose(&[CHUNK, CHUNK, 0x01, 0x21]),
            span: (rest + usize::from(random.once_in(5))) as u8,
            chunk_index: random.choose(&[0, 0x80, 0xFF]),
            key: random.choose(&[key_of("a"), key_of("b")]),
            data: chunk_data(random.below(3) as u16),
        };
        set_entry(&mut self.sector, self.next, &fields.header());
        set_entry_state(&mut self.sector, self.next, EntryState::Written);
        self.next = ENTRIES;
    }
}

//! An image for the listing program: the store of a meter whose flash is worn, as a service engineer reads it
//! back. Load profiles in chunks, display texts and quarter-hour registers; with flipped bits, an item of a type
//! that is not known, one that would reach past its page, and writes that power cut short.

use crate::crc::crc;
use crate::items::{BLOB_INDEX, CHUNK};
use crate::named::number_item;
use crate::sector::{EntryState, ACTIVE_WORD, ENTRY_BYTES, FULL_WORD};
use crate::writing::{blank_sector, empty_page, index_data, set_entry, set_entry_state, Fields};

const NUMBER_OF_64_BITS: u8 = 0x08;
const TEXT: u8 = 0x21;
const NOT_KNOWN: u8 = 0x22;

const NO_NAMESPACE: u8 = 0;
const METER: u8 = 1;
const DISPLAY: u8 = 2;
const PROFILE: u8 = 3;

/// Quarter hours go by their start in UTC seconds over 900: this is 2026-10-24T00:00:00Z.
const SATURDAY: u32 = 1_992_000;
const DAY: u32 = 96;
const WEEK: u32 = 7 * DAY;

const SUNDAY_NOTICE: &str =
    "Works on the grid on Sunday, 02:00 to 05:00. Supply may fail for some minutes.";
const MONDAY_NOTICE: &str = "Works on the grid on Monday, 22:00 to 24:00, in the whole district. \
                             Supply may fail for half an hour.";

/// The use of a quarter hour in Wh: more by day, with some scatter.
fn use_of(quarter: u32) -> u16 {
    let by_day = (24..88).contains(&(quarter % DAY));
    (if by_day { 210 } else { 60 } + quarter * 37 % 83) as u16
}

fn register(quarter: u32) -> Fields {
    let data = u64::from(use_of(quarter)).to_le_bytes();
    Fields { kind: NUMBER_OF_64_BITS, data, ..number_item(&quarter.to_string(), 0) }
}

/// A week's profile: 2 bytes for each quarter hour before this one.
fn profile(end: u32) -> Vec<u8> {
    (end - WEEK..end).flat_map(|quarter| use_of(quarter).to_le_bytes()).collect()
}

/// A page under way.
struct Draft {
    sector: Vec<u8>,
    next: usize,
}

impl Draft {
    fn new(state_word: u32, sequence: u32) -> Draft {
        Draft { sector: empty_page(state_word, sequence, 0xFE), next: 0 }
    }

    fn leave(&mut self, count: usize, state: EntryState) {
        (self.next..self.next + count).for_each(|entry| set_entry_state(&mut self.sector, entry, state));
        self.next += count;
    }

    fn lay(&mut self, fields: Fields) {
        set_entry(&mut self.sector, self.next, &fields.header());
        self.leave(1, EntryState::Written);
    }

    /// An item with a payload. Its data field: the payload's size and CRC.
    fn lay_bytes(&mut self, fields: Fields, bytes: &[u8]) {
        let entries = bytes.len().div_ceil(ENTRY_BYTES);
        let mut data = [0xFF; 8];
        data[..2].copy_from_slice(&(bytes.len() as u16).to_le_bytes());
        data[4..].copy_from_slice(&crc(bytes).to_le_bytes());
        self.lay(Fields { span: 1 + entries as u8, data, ..fields });
        set_entry(&mut self.sector, self.next, bytes);
        self.leave(entries, EntryState::Written);
    }

    fn lay_text(&mut self, kind: u8, key: &str, text: &str) {
        let fields = Fields { namespace: DISPLAY, kind, ..number_item(key, 0) };
        self.lay_bytes(fields, &[text.as_bytes(), &[0]].concat());
    }

    fn lay_chunk(&mut self, key: &str, chunk_index: u8, bytes: &[u8]) {
        let fields = Fields { namespace: PROFILE, kind: CHUNK, chunk_index, ..number_item(key, 0) };
        self.lay_bytes(fields, bytes);
    }

    fn lay_index(&mut self, key: &str, chunks: u8) {
        let data = index_data(2 * WEEK, chunks, 0);
        self.lay(Fields { namespace: PROFILE, kind: BLOB_INDEX, data, ..number_item(key, 0) });
    }

    fn lay_registers(&mut self, first: u32, count: u32) {
        (first..first + count).for_each(|quarter| self.lay(register(quarter)));
    }

    /// Flips a bit in the header of the entry before the last so many.
    fn flip_bit(&mut self, entries: usize) {
        self.sector[64 + ENTRY_BYTES * (self.next - entries) + 9] ^= 0x04;
    }
}

/// The names of the namespaces, texts and a day's registers. All of it is readable.
fn oldest_page() -> Vec<u8> {
    let mut page = Draft::new(FULL_WORD, 41);
    for (name, number) in [("meter", METER), ("display", DISPLAY), ("profile", PROFILE)] {
        page.lay(Fields { namespace: NO_NAMESPACE, ..number_item(name, number) });
    }
    page.lay_text(TEXT, "line1", "Active energy import, all tariffs: 1.8.0");
    page.lay_text(TEXT, "line2", "Active energy export, all tariffs: 2.8.0");
    page.lay_text(TEXT, "notice", SUNDAY_NOTICE);
    page.lay_registers(SATURDAY, DAY);
    page.leave(17, EntryState::Erased);
    page.sector
}

/// Two weeks' profiles, and up to the page's end the first chunk of a third one, with a flipped bit in its
/// header: the walk goes through its 30 entries one by one.
fn page_of_profiles() -> Vec<u8> {
    let mut page = Draft::new(FULL_WORD, 42);
    page.lay_chunk("lp.2026-10-10", 0, &profile(SATURDAY - 2 * WEEK));
    page.lay_index("lp.2026-10-10", 1);
    page.lay_chunk("lp.2026-10-17", 0, &profile(SATURDAY - WEEK)[..800]);
    page.lay_chunk("lp.2026-10-17", 1, &profile(SATURDAY - WEEK)[800..]);
    page.lay_index("lp.2026-10-17", 2);
    page.leave(7, EntryState::Erased);
    page.lay_chunk("lp.2026-10-24", 0, &profile(SATURDAY)[..928]);
    page.flip_bit(30);
    page.sector
}

/// A page that is Corrupt by one bit of its sequence: none of its entries counts.
fn spoilt_page() -> Vec<u8> {
    let mut page = Draft::new(FULL_WORD, 43);
    page.lay_registers(SATURDAY - DAY, 40);
    page.sector[5] ^= 0x10;
    page.sector
}

/// The rest of the third profile, which recovery erases for want of its first chunk; a text of which an older one
/// is left; an item of a type not known; registers; a text that would reach past the page; a text whose last two
/// entries were not marked when power failed; an Illegal entry.
fn newest_page() -> Vec<u8> {
    let mut page = Draft::new(ACTIVE_WORD, 44);
    page.lay_chunk("lp.2026-10-24", 1, &profile(SATURDAY)[928..]);
    page.lay_index("lp.2026-10-24", 2);
    page.lay_text(TEXT, "line1", "Active energy import, sum of tariffs: 1.8.0");
    page.lay_text(NOT_KNOWN, "icon", "arrow, two ways");
    page.lay_registers(SATURDAY + DAY, 24);
    page.lay(Fields { namespace: DISPLAY, kind: TEXT, span: 100, ..number_item("help", 0) });
    page.lay_text(TEXT, "notice2", MONDAY_NOTICE);
    page.next -= 2;
    page.leave(12, EntryState::Empty);
    page.leave(1, EntryState::Illegal);
    page.sector
}

pub fn worn_profile() -> Vec<u8> {
    [oldest_page(), page_of_profiles(), spoilt_page(), newest_page(), blank_sector()].concat()
}

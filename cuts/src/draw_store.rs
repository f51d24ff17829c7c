//! Draws stores that mostly lie within the premises: Full pages of distinct sequences, names that are given once,
//! sound blobs, in unsettled stores unsound ones too, a free sector.

use oracle::draw_page::{draw_corrupt, draw_draft};
use oracle::draw_pieces::Piece;
use oracle::random::Random;
use oracle::sector::{EntryState, State, ENTRIES};
use oracle::writing::{blank_sector, mend_crc, set_entry, set_entry_state};

use crate::draw_items::{draw_group, draw_plain_of, Names};
use crate::draw_unsound::draw_unsound;
use crate::kind::Kind;

const STATES: [EntryState; 4] =
    [EntryState::Erased, EntryState::Illegal, EntryState::Written, EntryState::Empty];

/// What may be odd about a store's pages: each in half of the stores or fewer, so that they also come alone.
#[derive(Default)]
struct Habits {
    /// Entries between the items that no item uses.
    gaps: bool,
    /// Payload entries that are not Written.
    torn: bool,
    /// Written entries that are no items.
    unreadable: bool,
    /// Blobs of which recovery has something to erase: in each unsettled store.
    unsound: bool,
}

/// A page under way: pieces are laid from the next entry on, up to the limit.
#[derive(Clone)]
struct Page {
    sector: Vec<u8>,
    next: usize,
    limit: usize,
}

impl Page {
    fn leave(&mut self, count: usize, state: EntryState) {
        let end = ENTRIES.min(self.next + count);
        (self.next..end).for_each(|entry| set_entry_state(&mut self.sector, entry, state));
        self.next = end;
    }

    /// Leaves entries out before the first piece, so that on small pages too an item lies over two state words.
    fn begin_late(&mut self, random: &mut Random, state: EntryState) {
        if self.limit > 0 && !random.once_in(3) {
            let count = 6 + random.below(10);
            self.leave(count, state);
            self.limit = ENTRIES.min(self.limit + count);
        }
    }

    fn has_room(&self, entries: usize) -> bool {
        self.next + entries <= self.limit
    }

    fn lay(&mut self, random: &mut Random, habits: &Habits, piece: &Piece) {
        if habits.gaps && random.once_in(6) {
            let count = (1 + random.below(3)).min(self.limit - self.next - piece.entries());
            self.leave(count, random.choose(&STATES));
        }
        let header = self.next;
        set_entry(&mut self.sector, header, &piece.header);
        set_entry(&mut self.sector, header + 1, &piece.payload);
        self.leave(piece.entries(), EntryState::Written);
        if habits.torn && random.once_in(3) {
            self.tear(random, header);
        }
    }

    /// The payload of the last piece in other states than Written, from some entry on or here and there.
    fn tear(&mut self, random: &mut Random, header: usize) {
        let state =
            random.choose(&[EntryState::Empty, EntryState::Empty, EntryState::Erased, EntryState::Illegal]);
        let mixed = random.once_in(4);
        let first = header + 1 + random.below(2);
        for entry in first..self.next {
            let state = if mixed { random.choose(&STATES) } else { state };
            set_entry_state(&mut self.sector, entry, state);
        }
    }

    /// What becomes of the entries after the last piece.
    fn use_rest(&mut self, random: &mut Random, habits: &Habits) {
        let rest = ENTRIES - self.next;
        match random.below(if habits.gaps { 10 } else { 6 }) {
            0 | 1 => self.leave(1 + random.below(6), EntryState::Erased),
            2 => self.leave(rest, EntryState::Erased),
            3 if habits.unreadable => self.leave(rest, EntryState::Written),
            4 if habits.unreadable => self.leave(random.below(rest + 1), EntryState::Written),
            6 => self.leave(1 + random.below(4), EntryState::Illegal),
            7 => self.leave(rest, EntryState::Illegal),
            8 => (0..rest).for_each(|_| self.leave(1, random.choose(&STATES))),
            _ => {}
        }
    }
}

/// Mostly small, since the calls go with the square of the entries that are copied. None is large in an unsettled
/// store, where a call takes longer.
fn draw_limit(random: &mut Random, kind: Kind) -> usize {
    match random.below(48) {
        0..=6 if kind == Kind::Unsettled => 32,
        0 => ENTRIES,
        1..=6 => 40 + random.below(40),
        7..=34 => 16 + random.below(24),
        _ => 2 + random.below(16),
    }
}

fn draw_sector_count(random: &mut Random) -> usize {
    match random.below(48) {
        0 => 16,
        1 => 7 + random.below(9),
        2..=11 => 2,
        12..=27 => 3,
        28..=39 => 4,
        _ => 5 + random.below(2),
    }
}

/// Distinct ones: near to each other or far, up to the greatest that the premises allow.
fn draw_sequences(random: &mut Random, pages: usize) -> Vec<u32> {
    let highest = 0xFFFF_FFEF - (pages as u32 - 1);
    let base = random.choose(&[0, 1, 7, 0x1000, 0x8000_0000, highest, highest]);
    let mut sequences: Vec<u32> = (0..pages as u32).map(|page| base + page).collect();
    if random.once_in(3) {
        sequences[0] = random.choose(&[0, 3, 0x7FFF_FFFF, 0xFFFF_FFEF]);
    }
    random.shuffle(&mut sequences);
    sequences
}

/// Lays a group on the pages, each piece on some page with room; not at all where one has none.
fn lay_group(random: &mut Random, habits: &Habits, pages: &mut [Page], group: &[Piece]) -> bool {
    let before = pages.to_vec();
    for piece in group {
        let roomy: Vec<usize> =
            (0..pages.len()).filter(|page| pages[*page].has_room(piece.entries())).collect();
        if roomy.is_empty() {
            pages.clone_from_slice(&before);
            return false;
        }
        pages[random.choose(&roomy)].lay(random, habits, piece);
    }
    true
}

/// A Written entry that is no item: wrong CRC, unknown type, span 0, span too long.
fn draw_unreadable(random: &mut Random, names: &mut Names) -> Vec<Piece> {
    let mut group = draw_group(random, names, 1);
    let piece = &mut group[0];
    piece.payload.clear();
    let mut change = |place: usize, byte: u8| {
        piece.header[place] = byte;
        mend_crc(&mut piece.header);
    };
    match random.below(4) {
        0 => change(1, random.choose(&[0x00, 0x03, 0x22, 0x43, 0x49, 0xFF])),
        1 => change(2, 0),
        2 => change(2, 127 + random.below(129) as u8),
        _ => piece.header[random.below(32)] ^= 1 << random.below(8),
    }
    group.truncate(1);
    group
}

/// Fills the pages until some groups in a row find no room.
fn lay_items(random: &mut Random, habits: &Habits, names: &mut Names, pages: &mut [Page]) {
    let mut refused = 0;
    let at_most = random.choose(&[2, 4, 8, 64, 1000]) * pages.len();
    for _ in 0..at_most {
        let room = pages.iter().map(|page| page.limit.saturating_sub(page.next)).max().unwrap_or(0);
        if room == 0 || refused == 4 {
            return;
        }
        let group = if habits.unreadable && random.once_in(5) {
            draw_unreadable(random, names)
        } else if habits.unsound && random.once_in(2) {
            draw_unsound(random, names, room)
        } else {
            draw_group(random, names, room)
        };
        if !lay_group(random, habits, pages, &group) {
            refused += 1;
        }
    }
}

/// Lays a last item to the end of each page with items, its payload not all Written: a copy of such a page may fill
/// its target, although the page has fewer than 126 Written entries.
fn fill_up(random: &mut Random, names: &mut Names, pages: &mut [Page]) {
    for page in pages.iter_mut().filter(|page| page.limit > 0 && page.next < ENTRIES) {
        let header = page.next;
        let piece = draw_plain_of(random, names, ENTRIES - header);
        page.lay(random, &Habits::default(), &piece);
        page.tear(random, header);
    }
}

/// A page for items, or now and then one without: with all 126 Erased, or with what the rest of a page may be.
fn draw_page(random: &mut Random, sequence: u32, limit: usize) -> Page {
    let sector = draw_draft(random, State::Full, sequence).sector;
    let mut page = Page { sector, next: 0, limit };
    match random.below(40) {
        0 => page.leave(ENTRIES, EntryState::Erased),
        1..=3 => page.limit = 0,
        _ => {}
    }
    page
}

fn draw_habits(random: &mut Random, kind: Kind) -> Habits {
    let (gaps, torn, unreadable) = (random.once_in(2), random.once_in(2), random.once_in(3));
    Habits { gaps, torn, unreadable, unsound: kind == Kind::Unsettled }
}

fn draw_pages(random: &mut Random, kind: Kind, count: usize) -> Vec<Page> {
    let limit = draw_limit(random, kind);
    let sequences = draw_sequences(random, count);
    let mut pages: Vec<Page> =
        sequences.into_iter().map(|sequence| draw_page(random, sequence, limit)).collect();
    let mut habits = draw_habits(random, kind);
    if habits.unsound {
        let state = random.choose(&STATES);
        pages.iter_mut().for_each(|page| page.begin_late(random, state));
    }
    let mut names = Names::default();
    let to_the_end = random.once_in(if kind == Kind::Settled { 20 } else { 60 });
    if to_the_end {
        habits = Habits { gaps: false, unreadable: false, ..habits };
    }
    lay_items(random, &habits, &mut names, &mut pages);
    if to_the_end {
        fill_up(random, &mut names, &mut pages);
    }
    pages.iter_mut().for_each(|page| page.use_rest(random, &habits));
    pages
}

/// A free sector, Blank or Corrupt.
fn draw_free(random: &mut Random) -> Vec<u8> {
    if random.once_in(2) {
        return blank_sector();
    }
    let sequence = random.choose(&[0, 5, 0xFFFF_FFFF]);
    draw_corrupt(random, sequence)
}

pub fn draw_store(random: &mut Random, kind: Kind) -> Vec<u8> {
    let sectors = draw_sector_count(random);
    let free = if random.once_in(2) { 1 } else { 1 + random.below(3.min(sectors - 1)) };
    let mut store: Vec<Vec<u8>> =
        draw_pages(random, kind, sectors - free).into_iter().map(|page| page.sector).collect();
    (0..free).for_each(|_| store.push(draw_free(random)));
    random.shuffle(&mut store);
    store.concat()
}

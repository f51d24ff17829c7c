//! What is odd about a store, read off its bytes: the figures say how many stores had it.

use std::collections::BTreeSet;

use oracle::blobs::{versions, Version, Versions};
use oracle::items::{items, walk, Item, Met};
use oracle::reclaim::reclaim;
use oracle::scan::{found, scan, Lists};
use oracle::sector::{
    entry_state, sequence, state, total, version, EntryState, State, ENTRIES, SECTOR_BYTES,
};
use oracle::steps::{sector_of, Step};

use crate::unsound::{has_part_on, pages, parts, some_key, OF_VERSION};

/// A page of the store with what the walk meets on it.
struct Page<'a> {
    sector: &'a [u8],
    met: Vec<Met>,
    items: Vec<Item>,
    /// Those of the items that are chunks of unsound versions.
    unsound_chunks: Vec<Item>,
}

impl Page<'_> {
    fn has_item(&self, is: impl Fn(&Item) -> bool) -> bool {
        self.items.iter().any(is)
    }

    fn meets(&self, is: impl Fn(&Met) -> bool) -> bool {
        self.met.iter().any(is)
    }

    fn total(&self, state: EntryState) -> usize {
        total(self.sector, state) as usize
    }

    fn has_payload_in(&self, state: EntryState) -> bool {
        self.has_item(|item| has_payload_entry(item, |entry| entry_state(self.sector, entry) == state))
    }

    fn has_unsound_chunk(&self, is: impl Fn(&Item) -> bool) -> bool {
        self.unsound_chunks.iter().any(is)
    }

    fn has_payload_as_item(&self, item: &Item) -> bool {
        has_payload_entry(item, |entry| reads_as_item(self.sector, entry))
    }

    fn spans(&self) -> usize {
        self.items.iter().map(Item::span).sum()
    }

    fn namespace_0_shares_key(&self) -> bool {
        let keys = || self.items.iter().filter(|item| item.namespace() == 0).map(Item::key);
        keys().collect::<BTreeSet<_>>().len() < keys().count()
    }
}

fn has_payload_entry(item: &Item, is: impl Fn(usize) -> bool) -> bool {
    (item.entry + 1..item.entry + item.span()).any(is)
}

/// The words that an item's entry states are in.
pub fn state_words(item: &Item) -> usize {
    (item.entry % 16 + item.span()).div_ceil(16)
}

fn over_state_words(item: &Item) -> bool {
    state_words(item) > 1
}

/// Whether the entry's bytes would be an item of one entry, were they reached.
fn reads_as_item(sector: &[u8], entry: usize) -> bool {
    let mut alone = sector.to_vec();
    alone[32..64].fill(0xFF);
    alone[32 + entry / 4] = !(1 << (2 * (entry % 4)));
    walk(&alone).iter().any(|met| matches!(met, Met::Item(_)))
}

type OfPage = fn(&Page) -> bool;

const OF_PAGE: &[(&str, OfPage)] = &[
    ("payload entry Empty", |page| page.has_payload_in(EntryState::Empty)),
    ("payload entry Erased", |page| page.has_payload_in(EntryState::Erased)),
    ("payload entry Illegal", |page| page.has_payload_in(EntryState::Illegal)),
    ("payload that reads as an item", |page| page.has_item(|item| page.has_payload_as_item(item))),
    ("Written, wrong CRC", |page| page.meets(|met| *met == Met::WrongCrc)),
    ("Written, type not known", |page| page.meets(|met| *met == Met::UnknownType)),
    ("Written, span 0", |page| page.meets(|met| *met == Met::SpanZero)),
    ("Written, span too long", |page| page.meets(|met| *met == Met::SpanTooLong)),
    ("Illegal entry", |page| page.meets(|met| *met == Met::NotWritten(EntryState::Illegal))),
    ("Erased entry before an item", |page| page.gap_before_item(EntryState::Erased)),
    ("Empty entry before an item", |page| page.gap_before_item(EntryState::Empty)),
    ("no Erased entry", |page| page.total(EntryState::Erased) == 0),
    ("all 126 Erased", |page| page.total(EntryState::Erased) == ENTRIES),
    ("no item, not all Erased", |page| page.items.is_empty() && page.total(EntryState::Erased) < ENTRIES),
    ("spans sum to 126, Written below", |page| {
        page.spans() == ENTRIES && page.total(EntryState::Written) < ENTRIES
    }),
    ("item of several entries in one state word", |page| {
        page.has_item(|item| item.span() > 1 && !over_state_words(item))
    }),
    ("item over several state words", |page| page.has_item(over_state_words)),
    ("item over a whole state word and others", |page| page.has_item(|item| state_words(item) > 2)),
    ("item of namespace 0", |page| page.has_item(|item| item.namespace() == 0)),
    ("items of namespace 0 with one key", |page| page.namespace_0_shares_key()),
    ("chunk", |page| page.has_item(Item::is_chunk)),
    ("blob index", |page| page.has_item(Item::is_blob_index)),
    ("blob index of no chunk", |page| {
        page.has_item(|item| item.is_blob_index() && item.chunk_count() == 0)
    }),
    ("blob index of span above 1", |page| page.has_item(|item| item.is_blob_index() && item.span() > 1)),
    ("unsound chunk", |page| page.has_unsound_chunk(|_| true)),
    ("unsound chunk of several entries", |page| page.has_unsound_chunk(|chunk| chunk.span() > 1)),
    ("unsound chunk over several state words", |page| page.has_unsound_chunk(over_state_words)),
    ("such a one whose payload reads as an item", |page| {
        page.has_unsound_chunk(|chunk| over_state_words(chunk) && page.has_payload_as_item(chunk))
    }),
    ("version 0xFF", |page| version(page.sector) == 0xFF),
    ("header bytes 9-27 not all ones", |page| page.sector[9..28] != [0xFF; 19]),
    ("marked pairs past entry 125", |page| page.sector[63] | 0x0F != 0xFF),
];

impl Page<'_> {
    /// An entry of that state that the walk meets before the last item.
    fn gap_before_item(&self, state: EntryState) -> bool {
        let last = self.met.iter().rposition(|met| matches!(met, Met::Item(_)));
        last.is_some_and(|last| self.met[..last].contains(&Met::NotWritten(state)))
    }
}

struct Store<'a> {
    image: &'a [u8],
    lists: Lists,
    chosen: usize,
    versions: &'a Versions<'a>,
}

impl<'a> Store<'a> {
    fn unsound(&self) -> impl Iterator<Item = &'a Version<'a>> {
        self.versions.values().filter(|version| !version.sound())
    }

    fn page(&self, number: usize) -> Page<'a> {
        let sector = sector_of(self.image, number);
        let parts = self.unsound().flat_map(parts).filter(|part| part.sector == number);
        let unsound_chunks = parts.map(|part| part.item).filter(Item::is_chunk).collect();
        Page { sector, met: walk(sector), items: items(sector), unsound_chunks }
    }

    /// The sector that reclaim takes, where it copies.
    fn target(&self) -> &[u8] {
        sector_of(self.image, *self.lists.free.last().expect("a premise"))
    }

    /// The sets of sectors over which the blobs lie.
    fn blobs(&self) -> Vec<BTreeSet<usize>> {
        let mut blobs = std::collections::BTreeMap::new();
        for (sector, bytes) in self.image.chunks(SECTOR_BYTES).enumerate() {
            for item in items(bytes).iter().filter(|item| item.is_chunk() || item.is_blob_index()) {
                let blob: &mut BTreeSet<usize> = blobs.entry((item.namespace(), item.key())).or_default();
                blob.insert(sector);
            }
        }
        blobs.into_values().collect()
    }

    fn greatest(&self) -> u32 {
        self.lists.pages.iter().map(|page| page.sequence).max().expect("a premise")
    }
}

type OfStore = fn(&Store) -> bool;

const OF_STORE: &[(&str, OfStore)] = &[
    ("Corrupt free sector", |store| {
        store.lists.free.iter().any(|free| state(sector_of(store.image, *free)) == State::Corrupt)
    }),
    ("Corrupt sector taken", |store| state(store.target()) == State::Corrupt),
    ("several free sectors", |store| store.lists.free.len() > 1),
    ("blob over two pages or more", |store| store.blobs().iter().any(|blob| blob.len() > 1)),
    ("blob over the reclaimed page and another", |store| {
        store.blobs().iter().any(|blob| blob.len() > 1 && blob.contains(&store.chosen))
    }),
    ("several unsound versions", |store| store.unsound().count() > 1),
    ("several unsound versions over two pages or more", |store| {
        store.unsound().filter(|version| pages(version) > 1).count() > 1
    }),
    ("unsound version beside a sound one of the key", |store| {
        some_key(store.versions, |version, other| version.sound() && !other.sound())
    }),
    ("index of one start, chunks of the other", |store| {
        some_key(store.versions, |version, other| version.chunks.is_empty() && other.indices.is_empty())
    }),
    ("the newest page is reclaimed", |store| {
        sequence(sector_of(store.image, store.chosen)) == store.greatest()
    }),
    ("greatest sequence 0xFFFFFFEF", |store| store.greatest() == 0xFFFF_FFEF),
    ("one page alone", |store| store.lists.pages.len() == 1),
    ("seven sectors or more", |store| store.image.len() >= 7 * SECTOR_BYTES),
];

/// The sector of the page that reclaim frees: its first step marks or erases it.
fn chosen(store: &[u8]) -> usize {
    match reclaim(store, 0).list.first().expect("the premises shut out a refusal").step {
        Step::Program { sector, .. } | Step::Erase { sector } => sector,
    }
}

/// Numbers of stores: with it on some page and with it on the reclaimed page, or with it as a whole.
pub struct Oddities {
    of_page: Vec<(u64, u64)>,
    of_version: Vec<(u64, u64)>,
    of_store: Vec<u64>,
}

fn print_rows<T>(rows: &[(&str, T)], counts: &[(u64, u64)]) {
    for ((name, _), (anywhere, there)) in rows.iter().zip(counts) {
        println!("{name:<50}{anywhere:>8}{there:>20}");
    }
}

impl Oddities {
    pub fn none() -> Oddities {
        let (of_page, of_version) = (vec![(0, 0); OF_PAGE.len()], vec![(0, 0); OF_VERSION.len()]);
        Oddities { of_page, of_version, of_store: vec![0; OF_STORE.len()] }
    }

    pub fn count(&mut self, image: &[u8]) {
        let lists = scan(image);
        let found = found(image, &lists.pages);
        let store = Store { image, lists, chosen: chosen(image), versions: &versions(&found) };
        let pages: Vec<Page> = store.lists.pages.iter().map(|page| store.page(page.sector)).collect();
        let reclaimed = store.page(store.chosen);
        for ((_, has), (anywhere, there)) in OF_PAGE.iter().zip(&mut self.of_page) {
            *anywhere += u64::from(pages.iter().any(has));
            *there += u64::from(has(&reclaimed));
        }
        for ((_, is), (anywhere, there)) in OF_VERSION.iter().zip(&mut self.of_version) {
            *anywhere += u64::from(store.unsound().any(is));
            let is_there = |version: &Version| is(version) && has_part_on(version, store.chosen);
            *there += u64::from(store.unsound().any(is_there));
        }
        for ((_, has), count) in OF_STORE.iter().zip(&mut self.of_store) {
            *count += u64::from(has(&store));
        }
    }

    pub fn print(&self) {
        println!("{:<50}{:>8}{:>20}", "Stores with it", "a page", "the reclaimed page");
        print_rows(OF_PAGE, &self.of_page);
        for ((name, _), count) in OF_STORE.iter().zip(&self.of_store) {
            println!("{name:<50}{count:>8}");
        }
        println!();
        println!("{:<50}{:>8}{:>20}", "Stores with an unsound version", "any", "partly reclaimed");
        print_rows(OF_VERSION, &self.of_version);
    }
}

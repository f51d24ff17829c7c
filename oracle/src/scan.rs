//! The scan: page list, free list, and the items found on the pages of a list.

use crate::items::{items, Item};
use crate::sector::{free, sequence, state, State, SECTOR_BYTES};
use crate::slip::{slipped, Slip};
use crate::steps::sector_of;

#[derive(Clone, Copy, PartialEq, Eq, Debug)]
pub struct Page {
    pub sector: usize,
    pub state: State,
    pub sequence: u32,
}

pub struct Lists {
    pub pages: Vec<Page>,
    pub free: Vec<usize>,
}

/// "image not 2 to 16 whole sectors"
pub fn whole_sectors(image: &[u8]) -> Option<usize> {
    let sectors = image.len() / SECTOR_BYTES;
    (image.len().is_multiple_of(SECTOR_BYTES) && (2..=16).contains(&sectors)).then_some(sectors)
}

/// "Page list: sectors ascending. Free list the same".
pub fn scan(image: &[u8]) -> Lists {
    let mut lists = Lists { pages: Vec::new(), free: Vec::new() };
    for (sector, bytes) in image.chunks(SECTOR_BYTES).enumerate() {
        let state = state(bytes);
        if free(state) {
            lists.free.push(sector);
        } else {
            lists.pages.push(Page { sector, state, sequence: sequence(bytes) });
        }
    }
    lists
}

/// The greatest sequence of some pages; none without a page.
pub fn greatest<'a>(pages: impl IntoIterator<Item = &'a Page>) -> Option<u32> {
    pages.into_iter().map(|page| page.sequence).max()
}

/// An item with the place that says how new it is.
#[derive(Clone, Copy, PartialEq, Eq, Debug)]
pub struct Found {
    pub sector: usize,
    pub sequence: u32,
    pub place_in_list: usize,
    pub item: Item,
}

impl Found {
    /// "Newer means greater (sequence, entry), then later in the list."
    pub fn newness(&self) -> (u32, usize, usize) {
        if slipped(Slip::EarlierInListIsNewer) {
            return (self.sequence, self.item.entry, usize::MAX - self.place_in_list);
        }
        (self.sequence, self.item.entry, self.place_in_list)
    }

    /// Whether only the place in the list tells which of the two is newer.
    pub fn ties_with(&self, other: &Found) -> bool {
        (self.sequence, self.item.entry) == (other.sequence, other.item.entry)
    }
}

/// "in list order, then entry order"
pub fn found(image: &[u8], pages: &[Page]) -> Vec<Found> {
    let mut all = Vec::new();
    for (place_in_list, page) in pages.iter().enumerate() {
        if slipped(Slip::LeftSourceNotJudged) && page.state == State::Freeing {
            continue;
        }
        for item in items(sector_of(image, page.sector)) {
            all.push(Found { sector: page.sector, sequence: page.sequence, place_in_list, item });
        }
    }
    all
}

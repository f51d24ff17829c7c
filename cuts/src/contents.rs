//! What a store holds, read by the model's walk and not by the library's.

use oracle::items::{items, Item};
use oracle::sector::{free, state, ENTRY_BYTES, SECTOR_BYTES};

pub struct Contents {
    /// The bytes of each item, header and payload; sorted, so that equal lists are equal multisets.
    items: Vec<Vec<u8>>,
    free_sectors: usize,
}

/// Header and payload, as far as the span goes.
fn bytes_of(sector: &[u8], item: &Item) -> Vec<u8> {
    let place = 64 + ENTRY_BYTES * item.entry;
    sector[place..place + ENTRY_BYTES * item.span()].to_vec()
}

pub fn contents(image: &[u8]) -> Contents {
    let sectors = || image.chunks(SECTOR_BYTES);
    let on_sector = |sector| items(sector).into_iter().map(move |item| bytes_of(sector, &item));
    let mut items: Vec<Vec<u8>> = sectors().flat_map(on_sector).collect();
    items.sort();
    let free_sectors = sectors().filter(|sector| free(state(sector))).count();
    Contents { items, free_sectors }
}

/// What has to be there at the end: "exactly the items that recovery leaves of the uncut store", which are all items
/// of a settled one, "each once, header and payload byte for byte, and no fewer free sectors".
pub fn demanded(store: &[u8], recovered: &[u8]) -> Contents {
    Contents { free_sectors: contents(store).free_sectors, ..contents(recovered) }
}

impl Contents {
    pub fn items(&self) -> usize {
        self.items.len()
    }

    /// What of the conclusion does not hold after the last recovery.
    pub fn fault(&self, after: &Contents) -> Option<String> {
        if after.items.windows(2).any(|pair| pair[0] == pair[1]) {
            return Some("an item is there twice".into());
        }
        if after.items != self.items {
            let lacks = |one: &Contents, other: &Contents| {
                one.items.iter().filter(|item| other.items.binary_search(item).is_err()).count()
            };
            let (lost, added) = (lacks(self, after), lacks(after, self));
            return Some(format!("{lost} items are not there that should be, {added} are that should not"));
        }
        let (before, after) = (self.free_sectors, after.free_sectors);
        (after < before).then(|| format!("{after} free sectors, {before} before"))
    }
}

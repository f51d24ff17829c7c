//! Stand-in for src/nvs.rs, which is not given: the struct with the fields that the given files name, the functions that
//! they call and that are not in the text, and the calls through which crate-runs reaches the crate's own functions.
//!
//! What this file decides, and by which sentence of document 01:
//! - `free_pages`: "Free list the same; the last is taken first, and an erased sector joins at the end." The given files
//!   push, pop and clear; a list does so in that order. `FreePages::Ordered` is the other type that fits the text.
//! - `get_next_sequence`: "next one above the greatest sequence".
//! - `delete_blob_data`: "chunks in list order, then entry order", "no item is erased twice in a stage".
use alloc::collections::{BTreeMap, BinaryHeap};
use alloc::vec::Vec;

use crate::Key;
use crate::blob::BlobIndex;
use crate::error::Error;
use crate::page::{LoadPageResult, ThinPage};
use crate::platform::Platform;
use crate::raw::{FLASH_SECTOR_SIZE, Item, ItemType};
use crate::types::{ChunkIndex, ItemIndex, PageIndex, VersionOffset};

/// The type of `free_pages` is not in the text given. `ThinPage` has an order that nothing else in the text uses: blank
/// before corrupt, then low address first. So a heap is as likely as a list.
pub(crate) enum FreePages {
    Listed(Vec<ThinPage>),
    Ordered(BinaryHeap<ThinPage>),
}

impl FreePages {
    pub(crate) fn push(&mut self, page: ThinPage) {
        match self {
            FreePages::Listed(list) => list.push(page),
            FreePages::Ordered(heap) => heap.push(page),
        }
    }

    pub(crate) fn pop(&mut self) -> Option<ThinPage> {
        match self {
            FreePages::Listed(list) => list.pop(),
            FreePages::Ordered(heap) => heap.pop(),
        }
    }

    pub(crate) fn clear(&mut self) {
        match self {
            FreePages::Listed(list) => list.clear(),
            FreePages::Ordered(heap) => heap.clear(),
        }
    }
}

/// The fields that init.rs and compaction.rs name.
pub struct Nvs<T> {
    pub(crate) hal: T,
    pub(crate) base_address: usize,
    pub(crate) sectors: u16,
    pub(crate) namespaces: BTreeMap<Key, u8>,
    pub(crate) pages: Vec<ThinPage>,
    pub(crate) free_pages: FreePages,
    pub(crate) legacy_blobs: Vec<(u8, Key)>,
}

impl<T: Platform> Nvs<T> {
    /// It saturates where document 01 refuses by 6: the crate's own way past the last sequence is not given.
    pub(crate) fn get_next_sequence(&self) -> u32 {
        self.pages
            .iter()
            .map(|page| page.header.sequence)
            .max()
            .map_or(0, |greatest| greatest.saturating_add(1))
    }

    pub(crate) fn delete_blob_data(
        &mut self,
        namespace: u8,
        key: &Key,
        start: VersionOffset,
    ) -> Result<(), Error> {
        for page in &mut self.pages {
            let mut chunks = Vec::new();
            for listed in &page.item_hash_list {
                let item = page.load_item(&mut self.hal, listed.index)?;
                let of_version = item.namespace_index == namespace
                    && item.key == *key
                    && VersionOffset::from(item.chunk_index) == start;
                if item.type_ == ItemType::BlobData && of_version {
                    chunks.push((listed.index, item.span));
                }
            }
            for (index, span) in chunks {
                page.erase_item::<T>(&mut self.hal, index, span)?;
            }
        }
        Ok(())
    }

    /// Only `migrate_legacy_blobs` calls it, which is not ported: by this answer the migration makes no step.
    pub(crate) fn load_item(
        &mut self,
        _namespace: u8,
        _chunk: ChunkIndex,
        _key: &Key,
    ) -> Result<(PageIndex, ItemIndex, Item), Error> {
        Err(Error::KeyNotFound)
    }

    /// Never reached, see `load_item`.
    pub fn get_blob(&mut self, _namespace: &Key, _key: &Key) -> Result<Vec<u8>, Error> {
        Err(Error::KeyNotFound)
    }

    /// Never reached, see `load_item`.
    pub fn set_blob(&mut self, _namespace: &Key, _key: Key, _data: &[u8]) -> Result<(), Error> {
        Err(Error::FlashFull)
    }

    /// An instance before anything is read. `ordered` takes the heap for `free_pages`.
    pub fn unread(hal: T, sectors: u16, ordered: bool) -> Self {
        let free_pages =
            if ordered { FreePages::Ordered(BinaryHeap::new()) } else { FreePages::Listed(Vec::new()) };
        Nvs {
            hal,
            base_address: 0,
            sectors,
            namespaces: BTreeMap::new(),
            pages: Vec::new(),
            free_pages,
            legacy_blobs: Vec::new(),
        }
    }

    /// The crate's recovery.
    pub fn run_recovery(&mut self) -> Result<(), Error> {
        self.load_sectors()
    }

    /// Document 01's "Scan; no Active order", by the crate's `load_sector`.
    pub fn run_scan(&mut self) -> Result<(), Error> {
        let mut blobs = BlobIndex::new();
        for sector in 0..self.sectors as usize {
            match self.load_sector(sector * FLASH_SECTOR_SIZE, &mut blobs)? {
                LoadPageResult::Empty(page) => self.free_pages.push(page),
                LoadPageResult::Used(page) => self.pages.push(page),
            }
        }
        Ok(())
    }

    /// The crate's reclaim.
    pub fn run_reclaim(&mut self) -> Result<(), Error> {
        self.defragment()
    }

    /// Of each page of the list: its sector and what the instance counts as used and as erased.
    pub fn counted(&self) -> Vec<(usize, u8, u8)> {
        let of = |page: &ThinPage| {
            (page.address / FLASH_SECTOR_SIZE, page.used_entry_count, page.erased_entry_count)
        };
        self.pages.iter().map(of).collect()
    }
}

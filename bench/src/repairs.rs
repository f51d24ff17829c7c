//! Stores with something to repair, on 16 and on 4 sectors, and the clean ones that they are held against.
use crate::images::*;

/// So many Full pages, and an Active one with so many items: 1,900 one-entry items on 16 sectors, 475 on 4.
#[derive(Clone, Copy)]
struct Size {
    full: u32,
    active: usize,
}

const SIXTEEN: Size = Size { full: 15, active: 10 };
const FOUR: Size = Size { full: 3, active: 97 };

fn page(state: u32, sequence: u32, stirred: bool) -> Page {
    let mut page = Page::new(state, sequence);
    page.stirred = stirred;
    page
}

/// So many Full pages, each filled while there is room for `room` entries more.
fn filled(pages: u32, stirred: bool, room: usize, mut fill: impl FnMut(&mut Page, u32)) -> Vec<Page> {
    let mut made = Vec::new();
    for sequence in 1..=pages {
        let mut page = page(FULL, sequence, stirred);
        while page.next + room <= ENTRIES {
            fill(&mut page, sequence);
        }
        made.push(page);
    }
    made
}

/// All but the last so many items of a store of one-entry items, and the page for these.
fn numbers(size: Size, stirred: bool, less: usize) -> (Vec<Page>, Page) {
    let pages = (1..=size.full).map(|sequence| page(FULL, sequence, stirred).numbers_to(ENTRIES)).collect();
    (pages, page(ACTIVE, size.full + 1, stirred).numbers_to(size.active - less))
}

fn clean(size: Size) -> Vec<u8> {
    let (mut pages, last) = numbers(size, true, 0);
    pages.push(last);
    image(pages, 0)
}

/// The last item has the key of the first.
fn one_twice(size: Size, stirred: bool) -> Vec<u8> {
    let (mut pages, mut last) = numbers(size, stirred, 1);
    last.key = 1000;
    pages.push(last.numbers_to(size.active));
    image(pages, 0)
}

/// The last two items are a chunk and its index, which tells another size.
fn one_unsound(size: Size) -> Vec<u8> {
    let (mut pages, mut last) = numbers(size, true, 2);
    last.blob(&[], 61);
    pages.push(last);
    image(pages, 0)
}

/// Pages of 63 blobs of one empty chunk and a blank sector; of the last page the last blob is unsound, if so wanted.
fn blobs(pages: u32, unsound: bool) -> Vec<u8> {
    let made = filled(pages, true, 2, |page, sequence| {
        let last = sequence == pages && page.next + 2 == ENTRIES;
        page.blob(&[], u8::from(unsound && last));
    });
    image(made, 1)
}

/// Full pages and as many newer ones with the same keys, an Active page and a blank sector.
fn twice(pages: u32, stirred: bool) -> Vec<u8> {
    let mut made: Vec<Page> = Vec::new();
    for sequence in 1..=2 * pages {
        let mut page = page(FULL, sequence, stirred);
        page.key = ((sequence - 1) % pages + 1) as usize * 1000;
        made.push(page.numbers_to(ENTRIES));
    }
    made.push(page(ACTIVE, 2 * pages + 1, stirred).numbers_to(10));
    image(made, 1)
}

/// Pages of 31 blobs with a size that the chunk does not have, and a blank sector.
fn unsound(pages: u32) -> Vec<u8> {
    image(filled(pages, false, 4, |page, _| page.blob(&[0x55; 60], 1)), 1)
}

/// Stores of both sizes, each with one thing to repair or with many, and the clean ones.
pub fn rows() -> Vec<(&'static str, Vec<u8>)> {
    vec![
        ("recovery: clean, 1,900, keys in no order", clean(SIXTEEN)),
        ("recovery: clean, 945 blobs", blobs(15, false)),
        ("recovery: one item of 1,900 twice", one_twice(SIXTEEN, false)),
        ("recovery: one item of 1,900 twice, no order", one_twice(SIXTEEN, true)),
        ("recovery: one unsound blob, 1,898 numbers", one_unsound(SIXTEEN)),
        ("recovery: one unsound blob of 945", blobs(15, true)),
        ("recovery: 882 items twice", twice(7, false)),
        ("recovery: 465 unsound blobs", unsound(15)),
        ("recovery: clean, 475, keys in no order", clean(FOUR)),
        ("recovery: clean, 189 blobs", blobs(3, false)),
        ("recovery: one item of 475 twice", one_twice(FOUR, false)),
        ("recovery: one item of 475 twice, no order", one_twice(FOUR, true)),
        ("recovery: one unsound blob, 473 numbers", one_unsound(FOUR)),
        ("recovery: one unsound blob of 189", blobs(3, true)),
        ("recovery: 126 items twice", twice(1, false)),
        ("recovery: 93 unsound blobs", unsound(3)),
    ]
}

/// 1,008 items twice; the copies stand in another order.
fn twice_most() -> Vec<u8> {
    let mut made = 0;
    let pages = filled(16, true, 1, |page, _| {
        page.key = 1 + if made < 1008 { made } else { (made - 1008) * 565 % 1008 };
        page.item(NUMBER, 0xFF, [0; 8], &[]);
        made += 1;
    });
    image(pages, 0)
}

/// 2,016 items of one key, of which those from the one number to the other are blob indices.
fn one_key(indices: std::ops::Range<usize>) -> Vec<u8> {
    let mut made = 0;
    let pages = filled(16, false, 1, |page, _| {
        page.key = 1;
        let kind = if indices.contains(&made) { INDEX } else { NUMBER };
        page.item(kind, 0xFF, [0, 0, 0, 0, 0, 0, 0xFF, 0xFF], &[]);
        made += 1;
    });
    image(pages, 0)
}

/// 672 blobs, each beside a newer number of its key.
fn covered() -> Vec<u8> {
    let pages = filled(16, true, 3, |page, _| {
        page.blob(&[], 0);
        page.item(NUMBER, 0xFF, [0; 8], &[]);
    });
    image(pages, 0)
}

/// Groups of two sound versions, one of each start, each with so many chunks (none or one).
fn both_starts(chunks: u8) -> Vec<u8> {
    let pages = filled(16, true, 1 + chunks as usize, |page, sequence| {
        if page.next == 0 {
            page.key = (sequence as usize - 1) % 8 * 1000;
        }
        let start = if sequence <= 8 { 0 } else { 0x80 };
        page.key += 1;
        for _ in 0..chunks {
            page.item(CHUNK, start, sized(&[]), &[]);
        }
        page.item(INDEX, 0xFF, [0, 0, 0, 0, chunks, start, 0xFF, 0xFF], &[]);
    });
    image(pages, 0)
}

/// A blob of 125 empty chunks on each page; of the last one chunk stands twice, and another never.
fn long_blobs() -> Vec<u8> {
    let pages = filled(16, true, ENTRIES, |page, sequence| {
        page.key += 1;
        for number in 0..125 {
            page.item(CHUNK, if sequence == 16 { number.max(1) } else { number }, sized(&[]), &[]);
        }
        page.item(INDEX, 0xFF, [0, 0, 0, 0, 125, 0, 0xFF, 0xFF], &[]);
    });
    image(pages, 0)
}

/// 2,016 chunks of as many keys without an index.
fn lone_chunks() -> Vec<u8> {
    let pages = filled(16, true, 1, |page, _| {
        page.key += 1;
        page.item(CHUNK, 0, sized(&[]), &[]);
    });
    image(pages, 0)
}

/// The slot at which the quick test begins to look for a name: `front` is what it puts in front of the key.
fn slot(front: u64, key: usize) -> usize {
    let mut bytes = [0u8; 16];
    put_name(key, &mut bytes);
    let [high, low] = [0, 8].map(|at| u64::from_be_bytes(bytes[at..at + 8].try_into().unwrap()));
    let both = high ^ low / 8;
    let halves = [(both >> 32) * 0x9E37_79B1, (both & 0xFFFF_FFFF) * 0x85EB_CA77];
    let mixed = halves[0] ^ halves[1] ^ front * 0x1656_67B1;
    ((mixed ^ mixed >> 32) >> 20 & 4095) as usize
}

/// What stands in front of the key for an item of namespace 1 that is no chunk.
const FRONT: u64 = 1;

/// 2,016 one-entry items, no two alike, whose names all begin at one slot.
fn one_slot() -> Vec<u8> {
    let mut keys = (1..).filter(|key| slot(FRONT, *key) == 77);
    let pages = filled(16, false, 1, |page, _| {
        page.key = keys.next().unwrap();
        page.item(NUMBER, 0xFF, [0; 8], &[]);
    });
    image(pages, 0)
}

/// 945 blobs, the last one unsound, whose indices' names begin at 16 slots, and with them those of their chunks at 16 others:
/// as many at each as the quick test looks through.
fn crowded() -> Vec<u8> {
    let mut taken = [0usize; 4096];
    let mut keys = (1..).filter(|key| {
        let at = slot(FRONT, *key);
        let free = at % 256 == 0 && taken[at] < 63;
        taken[at] += usize::from(free);
        free
    });
    let pages = filled(15, false, 2, |page, sequence| {
        page.key = keys.next().unwrap() - 1;
        page.blob(&[], u8::from(sequence == 15 && page.next + 2 == ENTRIES));
    });
    image(pages, 1)
}

/// The images of 16 sectors that were found to take the longest.
pub fn worst() -> Vec<(&'static str, Vec<u8>)> {
    vec![
        ("recovery: 882 items twice, in no order", twice(7, true)),
        ("recovery: 1,008 items twice, in no order", twice_most()),
        ("recovery: 1,008 unsound blobs", image(filled(16, true, 2, |page, _| page.blob(&[], 1)), 0)),
        ("recovery: 2,016 items of one key", one_key(0..0)),
        ("recovery: one key, numbers and indices", one_key(1000..2000)),
        ("recovery: 672 blobs under newer numbers", covered()),
        ("recovery: 1,008 groups, two indices each", both_starts(0)),
        ("recovery: 504 groups, two blobs each", both_starts(1)),
        ("recovery: 16 blobs of 125 chunks, one twice", long_blobs()),
        ("recovery: 2,016 chunks with no index", lone_chunks()),
        ("recovery: clean, 2,016 names of one slot", one_slot()),
        ("recovery: one unsound blob of 945, crowded", crowded()),
    ]
}

//! The model against cases worked by hand, and against recorded vectors where VECTORS names their folder.

use std::collections::BTreeSet;
use std::path::Path;

use crate::blob_images::{bench_image, blob, full_pages, long_blob, sound_blobs, unsound_blobs};
use crate::branch::Branch;
use crate::compare::{check, decode_all};
use crate::crc::crc;
use crate::generate::case_of;
use crate::items::{items, read_items, start_of_byte, unread, walk, Item, Met};
use crate::listing::listing;
use crate::mutants::{catches, files_of_gate, recorded};
use crate::named::{
    active_non_copy_beside_freeing, corrupt_with_written, equal_sequences, listing_example, lone_unread,
    number_item, page, spare_pairs_behind_item, two_freeing_pages, unmarked_payload, unread_uncovered,
};
use crate::protocol::Operation;
use crate::reclaim::{reclaim, Candidate};
use crate::record::record;
use crate::recover::recover;
use crate::sample::own_branches;
use crate::scan::Page;
use crate::sector::{
    entry_state, free, state, EntryState, State, ENTRY_BYTES, FREEING_WORD, FULL_WORD, SECTOR_BYTES,
};
use crate::slip::{with_slip, Slip};
use crate::steps::{apply, sector_of, Stage, Step};
use crate::worn_profile::worn_profile;
use crate::writing::{blank_sector, set_entry, set_entry_state, Fields};

fn states(image: &[u8]) -> Vec<State> {
    image.chunks(4096).map(state).collect()
}

fn entry_states(byte: u8) -> Vec<EntryState> {
    let mut sector = blank_sector();
    sector[32] = byte;
    (0..4).map(|entry| entry_state(&sector, entry)).collect()
}

#[test]
fn p1_and_p2_entry_states() {
    use EntryState::{Empty, Illegal, Written};
    assert_eq!(entry_states(0xFA), [Written, Written, Empty, Empty]);
    assert_eq!(entry_states(0xFD), [Illegal, Empty, Empty, Empty]);
}

#[test]
fn p3_crc() {
    assert_eq!(crc(&[]), 0xFFFF_FFFF);
    assert_eq!(crc(&[0]), 0xFFFF_FFFF);
}

/// A page whose one header, at this entry, has this span.
fn page_with_span(entry: usize, span: u8) -> Vec<u8> {
    let mut sector = page(FULL_WORD, 1, &[]);
    set_entry(&mut sector, entry, &Fields { span, ..number_item("a", 1) }.header());
    set_entry_state(&mut sector, entry, EntryState::Written);
    sector
}

#[test]
fn p4_p5_p6_spans() {
    assert_eq!(items(&page_with_span(0, 126)).len(), 1);
    assert_eq!(walk(&page_with_span(0, 126)).len(), 1);
    assert_eq!(items(&page_with_span(1, 126)), []);
    assert_eq!(walk(&page_with_span(1, 126))[1], Met::SpanTooLong);
    assert_eq!(walk(&page_with_span(0, 0)).len(), 126);
    assert_eq!(walk(&page_with_span(0, 0))[0], Met::SpanZero);
}

/// A Full page with one item and so many Erased entries after it.
fn page_with_erased(sequence: u32, erased: usize) -> Vec<u8> {
    let mut sector = page(FULL_WORD, sequence, &[number_item("a", sequence as u8)]);
    (1..=erased).for_each(|entry| set_entry_state(&mut sector, entry, EntryState::Erased));
    sector
}

fn points_of(erased: u32, sequence: u32, next: u64) -> u64 {
    let page = Page { sector: 0, state: State::Full, sequence };
    Candidate { page, erased, next }.points()
}

#[test]
fn p7_equal_points_the_later_wins() {
    assert_eq!((points_of(3, 2, 20), points_of(4, 12, 20)), (48, 48));
    let image = [page_with_erased(2, 3), page_with_erased(12, 4), page(FULL_WORD, 19, &[]), blank_sector()];
    let outcome = reclaim(&image.concat(), 1);
    assert_eq!(outcome.stopped_in(), Some(Stage::Reclaim));
    assert_eq!(states(&outcome.image)[..2], [State::Full, State::Freeing]);
}

#[test]
fn p8_no_points_without_an_erased_entry() {
    assert_eq!(points_of(0, 1, 9), 0);
}

#[test]
fn p9_programming_is_and() {
    let mut image = page(FULL_WORD, 1, &[]);
    apply(&mut image, Step::Program { sector: 0, word: 0, value: FREEING_WORD });
    assert_eq!(image[..4], FREEING_WORD.to_le_bytes());
}

#[test]
fn p10_starts() {
    assert_eq!((start_of_byte(0x7F), start_of_byte(0x80)), (0, 0x80));
}

#[test]
fn the_listing_example() {
    let (outcome, text) = listing(&listing_example());
    assert_eq!(outcome.list, []);
    assert_eq!(
        text,
        "sectors 2 result 0 steps 0\n0 blank\n1 full 7 written 3 erased 2 empty 121 illegal 0 unread 0\n"
    );
}

/// Each cause counts; payload, the pairs past entry 125, entries that are not Written and free sectors do not.
#[test]
fn unread_entries() {
    assert_eq!(lone_unread().map(|sector| unread(&sector)), [1; 4]);
    assert_eq!(unread(&spare_pairs_behind_item()), 1);
    assert_eq!(unread(&corrupt_with_written()), 0);
    assert_eq!(unread(&unmarked_payload()), 3);
}

/// A page's record is that of the image which the steps left.
#[test]
fn unread_after_the_steps() {
    assert_eq!(unread(&unread_uncovered()), 0);
    let mut records = [None; 2];
    recover(&[unread_uncovered(), blank_sector()].concat(), u64::MAX, &mut records);
    assert_eq!(records.map(|record| record.expect("filled").unread), [1, 0]);
}

/// Written is unread and what is Written of the items' entries; a free sector has neither.
#[test]
fn written_is_unread_or_inside_an_item() {
    for number in 0..2000 {
        for sector in case_of(1, number, &Operation::ALL).image.chunks_exact(SECTOR_BYTES) {
            let written = |entry: &usize| entry_state(sector, *entry) == EntryState::Written;
            let inside = |item: &Item| (item.entry..item.end()).filter(written).count() as u32;
            let record = record(sector);
            assert_eq!(record.written, record.unread + items(sector).iter().map(inside).sum::<u32>());
        }
    }
}

/// "Recovery, the item reader and the listing must agree on it."
#[test]
fn all_agree_on_unread() {
    for number in 0..2000 {
        let (outcome, text) = listing(&case_of(1, number, &[Operation::Listing]).image);
        for (sector, line) in outcome.image.chunks_exact(SECTOR_BYTES).zip(text.lines().skip(1)) {
            let read = read_items(sector).expect("a sector");
            assert_eq!(read, (items(sector), record(sector).unread));
            assert_eq!(line.ends_with(&format!(" unread {}", read.1)), !free(state(sector)));
        }
    }
}

/// The headers of these items, in any order.
fn headers_of<'a>(items: impl Iterator<Item = &'a Fields>) -> BTreeSet<[u8; ENTRY_BYTES]> {
    items.map(Fields::header).collect()
}

fn headers_left(image: &[u8]) -> BTreeSet<[u8; ENTRY_BYTES]> {
    image.chunks(SECTOR_BYTES).flat_map(items).map(|item| item.header).collect()
}

/// "chunk 0 twice and chunk 1 never": the index goes and then both chunks, a step each; the number and the sound
/// blob stay. Before No. 2 nothing went.
#[test]
fn the_bench_image() {
    let outcome = recover(&bench_image(), u64::MAX, &mut [None; 2]);
    assert_eq!((outcome.result, outcome.steps), (0, 3));
    let stays = [vec![number_item("a", 1)], blob("upload", &[0, 1], 2, 0)].concat();
    assert_eq!(headers_left(&outcome.image), headers_of(stays.iter()));
    let cut = recover(&bench_image(), 1, &mut [None; 2]);
    assert!(!headers_left(&cut.image).contains(&blob("profile", &[0, 0], 2, 0)[2].header()));
    let before = with_slip(Slip::CountAndSizeAlone, || recover(&bench_image(), u64::MAX, &mut [None; 2]));
    assert_eq!(before.list, []);
}

/// Each of them alone: a sound one stays as it is, of an unsound one nothing is left.
#[test]
fn blobs_by_their_chunk_indices() {
    let recovered = |parts: &[Fields]| recover(&full_pages(parts), u64::MAX, &mut [None; 2]);
    let beside = |parts: &[Fields]| [full_pages(parts), blank_sector()].concat();
    for parts in sound_blobs() {
        assert_eq!(recover(&beside(&parts), u64::MAX, &mut [None; 2]).list, []);
    }
    for parts in unsound_blobs() {
        let outcome = recover(&beside(&parts), u64::MAX, &mut [None; 2]);
        assert_eq!((outcome.steps, headers_left(&outcome.image)), (parts.len(), BTreeSet::new()));
    }
    assert_eq!(recovered(&long_blob("a", 128, 0x80)).list, []);
    assert_eq!(recovered(&long_blob("a", 129, 0)).steps, 130);
}

/// The listing program's image is the one that is made here. Its listing is worked out by hand: recovery erases an
/// index, a chunk of 14 entries and a text of 3.
#[test]
fn the_worn_profile() {
    let image = include_bytes!("../../crates/list/data/worn_profile.image");
    assert!(worn_profile() == image);
    let lines = [
        "sectors 5 result 0 steps 18",
        "0 full 41 written 106 erased 20 empty 0 illegal 0 unread 0",
        "1 full 42 written 119 erased 7 empty 0 illegal 0 unread 30",
        "2 corrupt",
        "3 active 44 written 33 erased 15 empty 77 illegal 1 unread 3",
        "4 blank",
    ];
    assert_eq!(listing(image).1.lines().collect::<Vec<_>>(), lines);
}

/// The image that the listing program was first delivered with: a reclaim cut in the middle. All its items are of one
/// entry, so that No. 4 of document 02 leaves the number of steps.
#[test]
fn the_cut_reclaim() {
    let (_, text) = listing(include_bytes!("../../crates/list/data/cut_reclaim.image"));
    assert_eq!(text.lines().next(), Some("sectors 5 result 0 steps 244"));
}

#[test]
fn lengths() {
    let result = |length: usize| recover(&vec![0xFF; length], 0, &mut [None; 32]).result;
    assert_eq!([0, 4095, 4096, 8192, 65536, 69632].map(result), [1, 1, 1, 0, 0, 1]);
    assert_eq!(recover(&[0xFF; 8192], 0, &mut [None; 1]).result, 2);
    assert_eq!(listing(&[0xFF; 69632]).1, "sectors 17 result 1 steps 0\n");
}

/// The first Active page is kept; its item is the newer of two equals, for it is now the last of the list.
#[test]
fn equal_sequences_keep_the_first() {
    let outcome = recover(&equal_sequences(), u64::MAX, &mut [None; 2]);
    assert_eq!((outcome.result, outcome.steps), (0, 2));
    assert_eq!(states(&outcome.image), [State::Active, State::Full]);
    assert_eq!(items(sector_of(&outcome.image, 0)).len(), 2);
    assert_eq!(items(sector_of(&outcome.image, 1)), []);
}

/// Each round: 8 steps initialise, 9 copy an item, 1 erases. The first target is Active and no copy of the
/// second source, so it stays; the second target is the greater, and stage 1 done again marks the first.
#[test]
fn two_freeing_pages_are_both_finished() {
    let outcome = recover(&two_freeing_pages(), u64::MAX, &mut [None; 3]);
    assert_eq!((outcome.result, outcome.steps), (0, (8 + 9 + 1) + (8 + 2 * 9 + 1) + 1));
    assert_eq!(states(&outcome.image), [State::Active, State::Blank, State::Full]);
    let cut = recover(&two_freeing_pages(), 18, &mut [None; 3]);
    assert_eq!((cut.result, cut.stopped_in()), (7, Some(Stage::Finish { source: 1 })));
}

/// The Active page stays, the source is copied to the free sector; of the two equal items the one on the
/// newer page is kept.
#[test]
fn an_active_page_that_is_no_copy_stays() {
    let outcome = recover(&active_non_copy_beside_freeing(), u64::MAX, &mut [None; 3]);
    assert_eq!(states(&outcome.image), [State::Blank, State::Full, State::Active]);
    assert_eq!(items(sector_of(&outcome.image, 1)).len(), 1);
    assert_eq!(items(sector_of(&outcome.image, 2)).len(), 1);
}

/// The generator gives the same bytes on any machine: their CRC is written down here.
#[test]
fn the_generator_is_fixed() {
    let mut bytes = Vec::new();
    (0..200).for_each(|number| case_of(1, number, &Operation::ALL).encode(&mut bytes));
    assert_eq!(crc(&bytes), 0x8B89_7962);
}

/// By the numbers of the operations.
const FILES: [&str; 4] = ["recover", "reclaim", "items", "listing"];

fn file_of(folder: &Path, name: &str, kind: &str) -> String {
    folder.join(format!("{name}.{kind}")).display().to_string()
}

fn check_folder(folder: &Path) {
    for name in FILES {
        let (input, output) = (file_of(folder, name, "in"), file_of(folder, name, "out"));
        assert!(check(&input, &output).expect("readable files"), "{name}");
    }
}

#[test]
fn the_vectors_agree() {
    match std::env::var_os("VECTORS") {
        Some(folder) => check_folder(Path::new(&folder)),
        None => println!("VECTORS names no folder: not run"),
    }
}

/// Each branch is met by the sample of its operation, and the recorded answers are the model's.
#[test]
fn the_recorded_sample_meets_every_branch() {
    let folder = Path::new(env!("CARGO_MANIFEST_DIR")).join("sample");
    check_folder(&folder);
    let mut unmet: BTreeSet<Branch> = Branch::ALL.iter().copied().collect();
    for name in FILES {
        let input = std::fs::read(file_of(&folder, name, "in")).expect("readable files");
        for case in decode_all(&input).expect("whole cases") {
            unmet = &unmet - &own_branches(&case);
        }
    }
    assert_eq!(unmet, BTreeSet::new());
}

/// Each slip gives another answer than the recorded one in some case that the gate runs.
#[test]
fn the_recorded_cases_catch_every_slip() {
    let cases = recorded(&files_of_gate()).expect("readable files with the model's answers");
    let catches = catches(cases.into_iter());
    let uncaught = Slip::ALL.iter().zip(&catches).filter(|(_, catch)| catch.count == 0);
    assert_eq!(uncaught.map(|(slip, _)| *slip).collect::<Vec<Slip>>(), []);
}

//! Times of the proved code beside those of the crate it is a port of, on the same images, in turn, in one run.
mod crc;
mod images;
mod repairs;
mod stack;

use crc::{crc, entry_crc, header_crc};
use images::*;
use std::hint::black_box;
use std::time::Instant;

extern "C" {
    fn timing_walk(sector: *const u8, length: usize) -> usize;
    fn timing_reader(sector: *const u8, length: usize) -> usize;
    fn timing_reclaim(image: *mut u8, length: usize, allowance: u64) -> u64;
    fn timing_recover(image: *mut u8, length: usize, allowance: u64) -> u64;
    fn bytewise_recover(image: *mut u8, length: usize, allowance: u64) -> u64;
}

type Call = fn(&mut [u8]) -> u64;

/// What a call may take of the stack.
const MOST_STACK: usize = 16 * 1024;

fn reclaim(image: &mut [u8]) -> u64 {
    unsafe { timing_reclaim(image.as_mut_ptr(), image.len(), u64::MAX) }
}

fn recover(image: &mut [u8]) -> u64 {
    unsafe { timing_recover(image.as_mut_ptr(), image.len(), u64::MAX) }
}

/// The same with the test for Blank going byte by byte.
fn recover_bytewise(image: &mut [u8]) -> u64 {
    unsafe { bytewise_recover(image.as_mut_ptr(), image.len(), u64::MAX) }
}

#[cfg(with_crate)]
mod of_crate {
    use super::Call;

    extern "C" {
        fn crate_reclaim(image: *mut u8, length: usize) -> u64;
        fn crate_defragment_time(image: *mut u8, length: usize) -> u64;
        fn crate_recover(image: *mut u8, length: usize) -> u64;
        fn crate_crc(bytes: *const u8, length: usize) -> u32;
    }

    pub const RECLAIM: Option<Call> = Some(|image| unsafe { crate_reclaim(image.as_mut_ptr(), image.len()) });
    pub const DEFRAGMENT_TIME: Option<Call> =
        Some(|image| unsafe { crate_defragment_time(image.as_mut_ptr(), image.len()) });
    pub const RECOVER: Option<Call> = Some(|image| unsafe { crate_recover(image.as_mut_ptr(), image.len()) });
    pub const CRC: Option<fn(&[u8]) -> u32> = Some(|bytes| unsafe { crate_crc(bytes.as_ptr(), bytes.len()) });
}

#[cfg(not(with_crate))]
mod of_crate {
    use super::Call;

    pub const RECLAIM: Option<Call> = None;
    pub const DEFRAGMENT_TIME: Option<Call> = None;
    pub const RECOVER: Option<Call> = None;
    pub const CRC: Option<fn(&[u8]) -> u32> = None;
}

/// The times of one piece of work, in microseconds.
#[derive(Default)]
struct Times(Vec<f64>);

impl Times {
    fn take<R>(&mut self, work: impl FnOnce() -> R) -> R {
        let begun = Instant::now();
        let result = black_box(work());
        self.0.push(begun.elapsed().as_nanos() as f64 / 1000.0);
        result
    }

    fn sorted(&self) -> Vec<f64> {
        let mut times = self.0.clone();
        times.sort_by(f64::total_cmp);
        times
    }

    /// None where nothing was timed.
    fn median(&self) -> Option<f64> {
        let sorted = self.sorted();
        sorted.get(sorted.len() / 2).copied()
    }

    fn least(&self) -> Option<f64> {
        self.sorted().first().copied()
    }
}

/// Turns until the time is up: what runs beside others on a machine is timed in turn, so that each meets the same.
fn turns(mut turn: impl FnMut()) {
    let begun = Instant::now();
    let mut made = 0;
    while made < 101 || begun.elapsed().as_millis() < 1500 {
        turn();
        made += 1;
    }
}

fn cell(time: Option<f64>, width: usize) -> String {
    time.map_or(format!("{:>width$}", "-"), |time| format!("{time:>width$.1}"))
}

fn ratio(one: Option<f64>, other: Option<f64>) -> String {
    match (one, other) {
        (Some(one), Some(other)) => format!("{:>12.2}", one / other),
        _ => format!("{:>12}", "-"),
    }
}

/// A line of the table: medians, the least of ours and of the crate's, and how ours compare.
fn print_line(what: &str, limit: &Times, ours: &Times, theirs: &Times) {
    println!(
        "{what:<46}{}{}{}{}{}{}{}",
        cell(limit.median(), 9),
        cell(ours.median(), 9),
        cell(ours.least(), 9),
        cell(theirs.median(), 9),
        cell(theirs.least(), 9),
        ratio(ours.median(), theirs.median()),
        ratio(ours.median(), limit.median()),
    );
}

/// Times calls of ours, each with a line of its own, and the crate's, if it is there. Each finds a fresh copy of the image in
/// the same place, and all have to make the same image; ours by the same number of steps (the crate marks entries by words, so
/// it takes fewer where items have several entries). `limit` reads the bytes that the rules make one read.
fn time_calls(image: &[u8], limit: impl Fn() -> u32, ours: &[(&'static str, Call)], theirs: Option<Call>) {
    let mut limits = Times::default();
    let mut calls: Vec<(Call, Times)> =
        ours.iter().map(|(_, call)| *call).chain(theirs).map(|call| (call, Times::default())).collect();
    let mut copy = image.to_vec();
    let mut made = None;
    turns(|| {
        limits.take(&limit);
        for (number, (call, times)) in calls.iter_mut().enumerate() {
            copy.copy_from_slice(image);
            let steps = times.take(|| call(&mut copy));
            let first = made.get_or_insert_with(|| (steps, copy.clone()));
            let of_ours = number < ours.len();
            assert!((first.0 == steps || !of_ours) && first.1 == copy, "{}: two answers", ours[0].0);
        }
    });
    let theirs = theirs.and_then(|_| calls.pop()).map(|(_, times)| times).unwrap_or_default();
    for ((what, _), (_, times)) in ours.iter().zip(calls) {
        print_line(what, &limits, &times, &theirs);
    }
}

/// The crate's defragment without its scan: an instance of it keeps what the scan found, where document 01 scans anew.
fn time_defragment(image: &[u8]) {
    let Some(nanoseconds) = of_crate::DEFRAGMENT_TIME else { return };
    let mut theirs = Times::default();
    turns(|| theirs.0.push(nanoseconds(&mut image.to_vec()) as f64 / 1000.0));
    print_line("  the crate's part after its scan", &Times::default(), &Times::default(), &theirs);
}

fn headers_of(image: &[u8]) -> u32 {
    image.chunks(SECTOR).map(header_crc).fold(0, |x, y| x ^ y)
}

fn entries_of(sectors: &[u8]) -> u32 {
    sectors.chunks(SECTOR).flat_map(items).map(entry_crc).fold(0, |x, y| x ^ y)
}

/// The stores that have something to repair, and the clean ones that they are held against.
fn to_repair() -> impl Iterator<Item = (&'static str, Vec<u8>)> {
    repairs::rows().into_iter().chain(repairs::worst())
}

/// The deepest stack of each call, beside the image.
fn measure_stacks() {
    println!("deepest stack of a call, in bytes");
    let repairs = to_repair().map(|(what, image)| (what, image, recover as Call));
    for (what, image, call) in repairs.chain([
        ("reclaim: 16 sectors, 100 items copied", to_reclaim(14), reclaim as Call),
        ("reclaim: 2 sectors, 3 texts of 40 entries", texts_to_reclaim(), reclaim),
        ("recovery: clean, 16 sectors, 1,900 items", settled_16(), recover),
        ("recovery: clean, 16 sectors, mixed", settled_mixed(), recover),
        ("recovery: 16 Blank sectors", blank_16(), recover),
        ("recovery: 16 sectors, a reclaim cut", half_reclaimed(), recover),
    ]) {
        let mut copy = image.to_vec();
        let bytes = stack::depth(|| {
            black_box(call(&mut copy));
        });
        println!("{what:<46}{bytes:>9}");
        assert!(bytes <= MOST_STACK, "{what}: more than {MOST_STACK} bytes of stack");
    }
}

/// A store whose reclaim was cut while it copied: recovery erases the partial copy and makes it anew.
fn half_reclaimed() -> Vec<u8> {
    let mut image = to_reclaim(14);
    unsafe { timing_reclaim(image.as_mut_ptr(), image.len(), 500) };
    image
}

fn time_reclaims() {
    for (what, image) in [
        ("reclaim: 16 sectors, 1,864 items, 100 copied", to_reclaim(14)),
        ("reclaim: 2 sectors, 100 items", to_reclaim(0)),
        ("reclaim: 2 sectors, 3 texts of 40 entries", texts_to_reclaim()),
    ] {
        let source = &image[image.len() - 2 * SECTOR..image.len() - SECTOR];
        let limit = || headers_of(&image) ^ entries_of(source);
        time_calls(&image, limit, &[(what, reclaim)], of_crate::RECLAIM);
        time_defragment(&image);
    }
}

fn time_recoveries() {
    for (what, image) in [
        ("recovery: clean, 16 sectors, 1,900 items", settled_16()),
        ("recovery: clean, 4 sectors, 475 items", settled_475()),
        ("recovery: clean, 4 sectors, 378 items", settled_4()),
        ("recovery: clean, 16 sectors, mixed", settled_mixed()),
    ] {
        let limit = || headers_of(&image) ^ entries_of(&image);
        time_calls(&image, limit, &[(what, recover)], of_crate::RECOVER);
    }
    // with something to repair: the crate's rules differ on these, so it is not run beside
    for (what, image) in to_repair() {
        let limit = || headers_of(&image) ^ entries_of(&image);
        time_calls(&image, limit, &[(what, recover)], None);
    }
}

/// One pass over the bytes, with no stop: what of each eight is 0xFF in all of them.
fn ones_of(sectors: &[u8]) -> u32 {
    let groups = sectors.chunks_exact(8).map(|group| u64::from_le_bytes(group.try_into().expect("eight bytes")));
    groups.fold(u64::MAX, |all, group| all & group) as u32
}

/// Stores that are Blank but for their first pages. What the rules make one read is every byte of a Blank sector once.
fn time_blanks() {
    for (what, image, pages) in
        [("recovery: 16 Blank sectors", blank_16(), 0), ("recovery: 16 sectors, 15 of them Blank", blank_15(), 1)]
    {
        let (used, blank) = image.split_at(pages * SECTOR);
        let limit = || headers_of(used) ^ entries_of(used) ^ ones_of(blank);
        let ours: [(&str, Call); 2] = [(what, recover), ("  ours with the test byte by byte", recover_bytewise)];
        time_calls(&image, limit, &ours, of_crate::RECOVER);
    }
}

fn time_readings() {
    let sectors: Vec<u8> = (1..17).flat_map(sector).collect();
    for (what, call) in [
        ("walk: 16 whole sectors, 2,016 items", timing_walk as unsafe extern "C" fn(*const u8, usize) -> usize),
        ("item reader, one item a call: the same", timing_reader),
    ] {
        let all = || sectors.chunks(SECTOR).map(|s| unsafe { call(s.as_ptr(), s.len()) }).sum::<usize>();
        assert_eq!(all(), 2016);
        let (mut limit, mut ours) = (Times::default(), Times::default());
        turns(|| {
            limit.take(|| entries_of(&sectors));
            ours.take(all);
        });
        print_line(what, &limit, &ours, &Times::default());
    }
}

/// Which CRC the crate ran with, and what it costs beside the table.
fn name_crc() {
    let Some(given) = of_crate::CRC else {
        println!("no SEEDS given: the crate's times are left out");
        return;
    };
    let bytes = vec![0x5Au8; 65536];
    assert_eq!(given(&bytes), crc(&bytes));
    let (mut table, mut theirs) = (Times::default(), Times::default());
    turns(|| {
        table.take(|| crc(&bytes));
        theirs.take(|| given(&bytes));
    });
    let times = (table.median().unwrap_or(0.0), theirs.median().unwrap_or(0.0));
    println!(
        "the crate runs with its own software_crc32, built for release: 65,536 bytes in {:.1} us, the table's {:.1} us",
        times.1, times.0
    );
}

fn main() {
    println!(
        "microseconds; limit: a plain table CRC over the page headers and item headers that the rules make one read, and a pass over the Blank sectors"
    );
    println!(
        "{:<46}{:>9}{:>9}{:>9}{:>9}{:>9}{:>12}{:>12}",
        "", "limit", "ours", "least", "crate", "least", "ours/crate", "ours/limit"
    );
    time_reclaims();
    time_blanks();
    time_recoveries();
    time_readings();
    name_crc();
    measure_stacks();
}

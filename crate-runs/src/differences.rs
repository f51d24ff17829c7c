//! The smallest images that show where the crate and document 01 differ, and some beside them on which they agree. Each has a
//! name, by which docs/DIFFERENCES.md cites it.

use model::protocol::{Case, Operation};
use model::record::record;
use model::sector::{free, SECTOR_BYTES};
use model::steps::{sector_of, Step};

use crate::class::{held, model_outcome};
use crate::crate_call::{run, CrateOutcome, End};
use crate::words;

mod finish;
mod reading;
mod reclaim;
mod settling;

/// An image with its name.
pub struct Named {
    pub name: &'static str,
    pub operation: Operation,
    pub image: Vec<u8>,
}

fn recover(name: &'static str, image: Vec<u8>) -> Named {
    Named { name, operation: Operation::Recover, image }
}

fn reclaim(name: &'static str, image: Vec<u8>) -> Named {
    Named { name, operation: Operation::Reclaim, image }
}

pub fn all() -> Vec<Named> {
    [reading::repairs(), reading::pages(), reading::namespace_0(), reading::flash_and_order()]
        .into_iter()
        .chain([
            finish::copies(),
            finish::choices(),
            finish::torn(),
            finish::half_marked(),
            settling::blobs(),
            settling::numbers(),
            settling::duplicates(),
        ])
        .chain([reclaim::refusals(), reclaim::choices()])
        .flatten()
        .collect()
}

pub fn case_of(named: &Named) -> Case {
    let records = (named.image.len() / SECTOR_BYTES) as u32;
    Case { operation: named.operation, allowance: u64::MAX, records, image: named.image.clone() }
}

/// Where each step acts: the crate programs a whole word of its entry states, other entries' bits too, so that values differ
/// where the flash does not.
fn places(steps: impl Iterator<Item = Step>) -> Vec<(usize, usize)> {
    let place = |step| match step {
        Step::Program { sector, word, .. } => (sector, word),
        Step::Erase { sector } => (sector, usize::MAX),
    };
    steps.map(place).collect()
}

fn ended(of_crate: &CrateOutcome) -> &'static str {
    match of_crate.end {
        End::Done => "done",
        End::Full { marked: false } => "FlashFull",
        End::Full { marked: true } => "FlashFull after the mark",
        End::Panicked => "panics",
        _ => "other",
    }
}

/// Where the crate's own counts, by which it chooses and judges, are not those of the entry states: document 01 counts the bits.
fn miscounts(of_crate: &CrateOutcome) -> String {
    let told = |&(sector, used, erased): &(usize, u8, u8)| {
        let record = record(sector_of(&of_crate.image, sector));
        let alike = (record.written, record.erased) == (u32::from(used), u32::from(erased));
        let page = if free(record.state) { ", no page" } else { "" };
        (!alike).then(|| {
            let (written, really) = (record.written, record.erased);
            format!("; it counts {used} used, {erased} erased where {written}, {really} are{page}")
        })
    };
    of_crate.counted.iter().filter_map(told).collect()
}

/// One line a case: what document 01 gives, what the crate does, what is alike. Where marks of one item in one word make
/// the number greater, it is told by words too; steps are then compared by words.
pub fn line(named: &Named) -> String {
    let outcome = model_outcome(&case_of(named));
    let of_crate = run(named.operation, &named.image, u64::MAX, false);
    let ordered = run(named.operation, &named.image, u64::MAX, true);
    let ours = places(words::by_words(&outcome.list).into_iter());
    let theirs = places(of_crate.steps.iter().copied());
    let alike = match (outcome.image == of_crate.image, ours == theirs) {
        (true, true) => "same steps",
        (true, false) if ours.len() == theirs.len() => "same image, steps in another order",
        (true, false) => "same image",
        (false, _) if held(&outcome.image) == held(&of_crate.image) => "another image, same items",
        (false, _) => "other items",
    };
    let free_list =
        if ordered.image == of_crate.image { "" } else { "; a heap for free_pages: another image" };
    let (result, steps) = (outcome.result, outcome.steps);
    let crate_steps = of_crate.steps.len();
    let by_words = if ours.len() == steps { String::new() } else { format!(" ({} by words)", ours.len()) };
    format!(
        "{:<34} document 01: result {result}, steps {steps}{by_words}; crate: {}, steps {crate_steps}; {alike}{free_list}{}",
        named.name,
        ended(&of_crate),
        miscounts(&of_crate)
    )
}

/// The lines of all cases, and of those named only.
pub fn print(names: &[String]) {
    // A panic of the crate is an answer here.
    std::panic::set_hook(Box::new(|_| {}));
    for named in
        all().iter().filter(|named| names.is_empty() || names.iter().any(|name| name == named.name))
    {
        println!("{}", line(named));
    }
}

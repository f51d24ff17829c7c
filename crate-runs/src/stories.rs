//! Where the crate loses or adds items: a store, a call cut after each number of steps, then a recovery.

use model::protocol::{Case, Operation};
use model::sector::ENTRY_BYTES;
use model::writing::key_of;

use crate::class::{held, model_outcome};
use crate::crate_call::run;
use crate::page::{fields, image, value, Page, NUMBER};

fn model_image(operation: Operation, image: &[u8], allowance: u64) -> Vec<u8> {
    model_outcome(&Case { operation, allowance, records: 16, image: image.to_vec() }).image
}

fn crate_image(operation: Operation, image: &[u8], allowance: u64) -> Vec<u8> {
    run(operation, image, allowance, false).image
}

/// The cuts of a call after which the next recovery does not leave what the store is to hold.
fn losing_cuts(
    operation: Operation,
    image: &[u8],
    steps: usize,
    call: impl Fn(Operation, &[u8], u64) -> Vec<u8>,
) -> Vec<usize> {
    let wanted = held(&model_image(Operation::Recover, image, u64::MAX));
    let after = |cut: usize| {
        let stopped = call(operation, image, cut as u64);
        call(Operation::Recover, &stopped, u64::MAX)
    };
    (0..=steps).filter(|cut| held(&after(*cut)) != wanted).collect()
}

fn tell(title: &str, operation: Operation, image: &[u8]) {
    let case = Case { operation, allowance: u64::MAX, records: 16, image: image.to_vec() };
    let steps = model_outcome(&case).list.len();
    let of_crate = run(operation, image, u64::MAX, false).steps.len();
    let lost = losing_cuts(operation, image, of_crate, crate_image);
    println!("{title}");
    println!("  crate, {of_crate} steps: items lost or added after cuts {lost:?}");
    println!(
        "  document 01, {steps} steps: after cuts {:?}",
        losing_cuts(operation, image, steps, model_image)
    );
}

/// A chunk without an index over two words of entry states, whose payload has an item's bytes under the second.
fn item_in_payload() -> Page {
    let mut payload = vec![6; 600];
    payload[5 * ENTRY_BYTES..6 * ENTRY_BYTES]
        .copy_from_slice(&fields(NUMBER, key_of("ghost"), value(1)).header());
    Page::full(5).numbers_to(10, "k").chunk("b", 0, &payload)
}

pub fn print() {
    let blank = Page::blank();
    let lone = Page::full(5).namespace("space").erased(3);
    let newer = Page::full(6).number("a", 1);
    let two = Page::full(5).number("a", 1).number("b", 1).erased(1);
    let stale = Page::full(9).erased(126).flip(28);
    let reclaim = Operation::Reclaim;
    tell(
        "a page whose only item is a namespace entry is reclaimed",
        reclaim,
        &image(&[&lone, &newer, &blank]),
    );
    tell("the free sector is a Corrupt page with used entry states", reclaim, &image(&[&two, &stale]));
    let ghost = image(&[&item_in_payload(), &blank]);
    tell("a chunk is erased whose payload has an item's bytes", Operation::Recover, &ghost);
    tell("a plain reclaim", reclaim, &image(&[&two, &blank]));
}

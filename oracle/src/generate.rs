//! The generator of cases.

use crate::draw_image::{draw_image, draw_one_sector};
use crate::mishaps::draw_allowance;
use crate::protocol::{Case, Operation};
use crate::random::Random;
use crate::reclaim::reclaim;
use crate::recover::recover;
use crate::sector::SECTOR_BYTES;

const ODD_LENGTHS: [usize; 11] = [0, 1, 4095, 4096, 4097, 8191, 8192, 65536, 65537, 69632, 131072];

/// Cuts the image short, or lengthens it by ones or by anything.
fn draw_length(random: &mut Random, image: &mut Vec<u8>) {
    let length = random.choose(&ODD_LENGTHS);
    let old = image.len();
    image.resize(length, 0xFF);
    if length > old && random.once_in(4) {
        random.fill(&mut image[old..]);
    }
}

/// About the number of sectors, or any number up to 32.
fn draw_records(random: &mut Random, sectors: usize) -> u32 {
    let records = match random.below(12) {
        0 => sectors.saturating_sub(1),
        1 => sectors + 1,
        2 => 0,
        3 => 32,
        4 => random.below(33),
        5 => 16,
        _ => sectors,
    };
    records.min(32) as u32
}

/// Recovery has most to be wrong about, then reclaim: they are drawn four times and twice as often.
fn draw_operation(random: &mut Random, operations: &[Operation]) -> Operation {
    let weight = |operation: &Operation| match operation {
        Operation::Recover => 4,
        Operation::Reclaim => 2,
        Operation::ItemReader | Operation::Listing => 1,
    };
    let weighted: Vec<Operation> =
        operations.iter().flat_map(|operation| vec![*operation; weight(operation)]).collect();
    random.choose(&weighted)
}

/// The case of a number: it depends on nothing but the seed, the number and the operations.
pub fn case_of(seed: u64, number: u64, operations: &[Operation]) -> Case {
    let mut random = Random::of_case(seed, number);
    let operation = draw_operation(&mut random, operations);
    let mut image = if operation == Operation::ItemReader {
        draw_one_sector(&mut random)
    } else {
        let without_active = operation == Operation::Reclaim && !random.once_in(5);
        draw_image(&mut random, without_active)
    };
    if random.once_in(48) {
        draw_length(&mut random, &mut image);
    }
    let records = draw_records(&mut random, image.len() / SECTOR_BYTES);
    let list = match operation {
        Operation::Recover => recover(&image, u64::MAX, &mut [None; 16]).list,
        Operation::Reclaim => reclaim(&image, u64::MAX).list,
        Operation::ItemReader | Operation::Listing => Vec::new(),
    };
    let allowance = draw_allowance(&mut random, &list);
    Case { operation, allowance, records, image }
}

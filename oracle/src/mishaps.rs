//! What befalls an image: power that fails in the middle of a call, and flipped bits.

use crate::random::Random;
use crate::reclaim::reclaim;
use crate::recover::recover;
use crate::sector::SECTOR_BYTES;
use crate::steps::{Stage, Step, TaggedStep};

/// A place about one of those after which something else begins; 0 where there is none.
fn about(random: &mut Random, list: &[TaggedStep], begins: impl Fn(usize) -> bool) -> u64 {
    let places: Vec<usize> = (1..list.len()).filter(|place| begins(*place)).collect();
    let place = if places.is_empty() { 0 } else { random.choose(&places) };
    (place + random.below(3)).saturating_sub(1) as u64
}

/// An allowance: past 32 bits, none, about the list's length, any; and most often about the steps that are
/// not the many of a copy: changes of stage, marks, erasures. Else about the first and the last mark of an item of
/// several entries, or about the first mark in another word.
pub fn draw_allowance(random: &mut Random, list: &[TaggedStep]) -> u64 {
    let length = list.len() as u64;
    let turns = |place: usize| {
        let copies = matches!(list[place].stage, Stage::Finish { .. } | Stage::Reclaim);
        let weighty = matches!(list[place].step, Step::Erase { .. } | Step::Program { word: 0, .. });
        !copies || weighty || list[place].stage != list[place - 1].stage
    };
    let inside =
        |place: usize| place > 0 && place < list.len() && list[place - 1].marks_same_item(&list[place]);
    let ends = |place: usize| inside(place) && !(inside(place - 1) && inside(place + 1));
    let changes_word =
        |place: usize| inside(place) && list[place - 1].marked_word() != list[place].marked_word();
    match random.below(16) {
        0..=3 => random.choose(&[u64::MAX, u64::MAX, 1 << 32, (1 << 32) + 1, 1 << 63]),
        4 => length,
        5 => length.saturating_sub(1),
        6 => random.choose(&[0, 1, length + 1]),
        7..=11 => about(random, list, turns),
        12 => about(random, list, ends),
        13 => about(random, list, changes_word),
        _ => random.below(list.len() + 1) as u64,
    }
}

/// The image that a reclaim or a recovery leaves where power fails.
pub fn cut(random: &mut Random, image: &[u8]) -> Vec<u8> {
    let reclaims = random.once_in(2);
    let call = |allowance| match reclaims {
        true => reclaim(image, allowance),
        false => recover(image, allowance, &mut [None; 16]),
    };
    let allowance = draw_allowance(random, &call(u64::MAX).list);
    call(allowance).image
}

pub fn flip_bits(random: &mut Random, image: &mut [u8]) {
    for _ in 0..1 + random.below(4) {
        let sector = SECTOR_BYTES * random.below(image.len() / SECTOR_BYTES);
        let byte = match random.below(3) {
            0 => random.below(32),
            1 => 32 + random.below(32),
            _ => random.below(SECTOR_BYTES),
        };
        image[sector + byte] ^= 1 << random.below(8);
    }
}

//! The listing program.

use crate::record::Record;
use crate::recover::recover;
use crate::sector::{State, SECTOR_BYTES};
use crate::steps::Outcome;

/// "Other pages read `active` or `freeing` in the place of `full`, a Corrupt sector `corrupt` alone". Document 02,
/// No. 7: "A page's listing line ends with ` unread` and that number."
fn line(sector: usize, record: &Record) -> String {
    let Record { state, sequence, written, erased, empty, illegal, unread } = record;
    let word = match state {
        State::Blank => return format!("{sector} blank\n"),
        State::Corrupt => return format!("{sector} corrupt\n"),
        State::Active => "active",
        State::Full => "full",
        State::Freeing => "freeing",
    };
    format!(
        "{sector} {word} {sequence} written {written} erased {erased} empty {empty} illegal {illegal} \
         unread {unread}\n"
    )
}

/// "The listing program recovers its image with an allowance that no list reaches, then lists the
/// records. [..] `sectors` is the length over 4,096 rounded down; a refused image gets the first line
/// only."
pub fn listing(image: &[u8]) -> (Outcome, String) {
    let sectors = image.len() / SECTOR_BYTES;
    let mut records = vec![None; sectors];
    let outcome = recover(image, u64::MAX, &mut records);
    let mut text = format!("sectors {sectors} result {} steps {}\n", outcome.result, outcome.steps);
    for (sector, record) in records.iter().enumerate() {
        text.extend(record.iter().map(|record| line(sector, record)));
    }
    (outcome, text)
}

//! Answers in words, for whoever looks at a difference.

use crate::protocol::Operation;
use crate::sector::{number, SECTOR_BYTES};

/// Takes an answer apart; None once its bytes have run out.
struct Parts<'a> {
    rest: &'a [u8],
}

impl<'a> Parts<'a> {
    fn bytes(&mut self, count: usize) -> Option<&'a [u8]> {
        let (taken, rest) = self.rest.split_at_checked(count)?;
        self.rest = rest;
        Some(taken)
    }

    fn byte(&mut self) -> Option<u8> {
        self.bytes(1).map(|bytes| bytes[0])
    }

    fn word(&mut self) -> Option<u32> {
        self.bytes(4).map(|bytes| number(bytes, 0))
    }

    fn long(&mut self) -> Option<u64> {
        Some(u64::from(self.word()?) | u64::from(self.word()?) << 32)
    }

    fn counted(&mut self) -> Option<&'a [u8]> {
        let count = self.word()? as usize;
        self.bytes(count)
    }
}

/// One line a fact. Ends early where the bytes end early.
pub fn describe(operation: Operation, answer: &[u8]) -> Vec<String> {
    let mut lines = Vec::new();
    let mut parts = Parts { rest: answer };
    let whole = match operation {
        Operation::Recover | Operation::Reclaim => describe_outcome(&mut parts, &mut lines),
        Operation::ItemReader => describe_items(&mut parts, &mut lines),
        Operation::Listing => describe_listing(&mut parts, &mut lines),
    };
    if whole.is_none() {
        lines.push(format!("the answer ends early, after {} bytes", answer.len()));
    }
    lines
}

fn describe_outcome(parts: &mut Parts, lines: &mut Vec<String>) -> Option<()> {
    let (result, steps) = (parts.byte()?, parts.long()?);
    let (stage, source) = (parts.byte()?, parts.word()?);
    lines.push(format!("result {result}, steps {steps}, stage {stage}, source {source:#X}"));
    lines.push(format!("image of {} bytes", parts.counted()?.len()));
    for record in 0..parts.word()? {
        let state = parts.byte()?;
        let (sequence, written, erased) = (parts.word()?, parts.word()?, parts.word()?);
        let (empty, illegal, unread) = (parts.word()?, parts.word()?, parts.word()?);
        lines.push(format!(
            "record {record}: state {state:#X}, sequence {sequence:#X}, written {written}, \
             erased {erased}, empty {empty}, illegal {illegal}, unread {unread}"
        ));
    }
    Some(())
}

fn describe_items(parts: &mut Parts, lines: &mut Vec<String>) -> Option<()> {
    let (result, count) = (parts.byte()?, parts.word()?);
    lines.push(format!("result {result}, {count} items"));
    for _ in 0..count {
        let entry = parts.word()?;
        lines.push(format!("entry {entry}: {:02X?}", parts.bytes(32)?));
    }
    lines.push(format!("unread {}", parts.word()?));
    Some(())
}

fn describe_listing(parts: &mut Parts, lines: &mut Vec<String>) -> Option<()> {
    let text = String::from_utf8_lossy(parts.counted()?);
    lines.extend(text.split_inclusive('\n').map(|line| format!("{line:?}")));
    Some(())
}

/// The image in an answer of recovery or reclaim.
fn image_of(answer: &[u8]) -> Option<&[u8]> {
    let mut parts = Parts { rest: answer };
    parts.bytes(14)?;
    parts.counted()
}

/// The words in which the images of two answers differ, the first few of them.
pub fn describe_images(model: &[u8], given: &[u8]) -> Vec<String> {
    const SHOWN: usize = 8;
    let (Some(model), Some(given)) = (image_of(model), image_of(given)) else {
        return Vec::new();
    };
    let words = model.chunks_exact(4).zip(given.chunks_exact(4)).enumerate();
    let unlike = words.filter(|(_, (model, given))| model != given);
    let line = |(word, (model, given)): (usize, (&[u8], &[u8]))| {
        let (sector, word) = (4 * word / SECTOR_BYTES, word % (SECTOR_BYTES / 4));
        let (model, given) = (number(model, 0), number(given, 0));
        format!("sector {sector} word {word}: model {model:#010X}, given {given:#010X}")
    };
    unlike.take(SHOWN).map(line).collect()
}

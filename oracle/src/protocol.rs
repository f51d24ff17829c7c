//! The batch protocol: cases in, answers out, all integers little-endian.

use std::io::{self, ErrorKind, Read};

use crate::items::{read_items, Item};
use crate::listing::listing;
use crate::reclaim::reclaim;
use crate::record::Record;
use crate::recover::recover;
use crate::sector::State;
use crate::steps::{Outcome, Stage};

#[derive(Clone, Copy, PartialEq, Eq, PartialOrd, Ord, Debug)]
pub enum Operation {
    Recover,
    Reclaim,
    ItemReader,
    Listing,
}

impl Operation {
    pub const ALL: [Operation; 4] =
        [Operation::Recover, Operation::Reclaim, Operation::ItemReader, Operation::Listing];

    pub fn of_number(number: u8) -> Option<Operation> {
        Operation::ALL.get(number as usize).copied()
    }
}

#[derive(Clone, PartialEq, Eq, Debug)]
pub struct Case {
    pub operation: Operation,
    pub allowance: u64,
    pub records: u32,
    pub image: Vec<u8>,
}

impl Case {
    pub fn encode(&self, to: &mut Vec<u8>) {
        to.push(self.operation as u8);
        to.extend(self.allowance.to_le_bytes());
        to.extend(self.records.to_le_bytes());
        put_counted(to, &self.image);
    }

    /// None where the input ends before or inside the case.
    pub fn decode(from: &mut impl Read) -> io::Result<Option<Case>> {
        let mut head = [0; 17];
        if !filled(from, &mut head)? {
            return Ok(None);
        }
        let unknown = || io::Error::new(ErrorKind::InvalidData, format!("no operation {}", head[0]));
        let operation = Operation::of_number(head[0]).ok_or_else(unknown)?;
        let allowance = u64::from_le_bytes(head[1..9].try_into().expect("8 bytes"));
        let records = u32::from_le_bytes(head[9..13].try_into().expect("4 bytes"));
        let length = u32::from_le_bytes(head[13..17].try_into().expect("4 bytes"));
        let mut image = vec![0; length as usize];
        Ok(filled(from, &mut image)?.then_some(Case { operation, allowance, records, image }))
    }
}

fn filled(from: &mut impl Read, buffer: &mut [u8]) -> io::Result<bool> {
    match from.read_exact(buffer) {
        Ok(()) => Ok(true),
        Err(error) if error.kind() == ErrorKind::UnexpectedEof => Ok(false),
        Err(error) => Err(error),
    }
}

fn put_counted(to: &mut Vec<u8>, bytes: &[u8]) {
    to.extend((bytes.len() as u32).to_le_bytes());
    to.extend(bytes);
}

/// The model's answer to a case.
pub fn answer(case: &Case) -> Vec<u8> {
    let mut to = Vec::new();
    match case.operation {
        Operation::Recover => {
            let mut records = vec![None; case.records as usize];
            let outcome = recover(&case.image, case.allowance, &mut records);
            put_outcome(&mut to, &outcome, &records);
        }
        Operation::Reclaim => put_outcome(&mut to, &reclaim(&case.image, case.allowance), &[]),
        Operation::ItemReader => put_items(&mut to, read_items(&case.image)),
        Operation::Listing => put_counted(&mut to, listing(&case.image).1.as_bytes()),
    }
    to
}

fn put_outcome(to: &mut Vec<u8>, outcome: &Outcome, records: &[Option<Record>]) {
    let (stage, source) = match outcome.stopped_in() {
        None => (0, u32::MAX),
        Some(Stage::ActiveOrder) => (1, u32::MAX),
        Some(Stage::Finish { source }) => (2, source as u32),
        Some(Stage::Blobs) => (3, u32::MAX),
        Some(Stage::Duplicates) => (4, u32::MAX),
        Some(Stage::Reclaim) => (5, u32::MAX),
    };
    to.push(outcome.result);
    to.extend((outcome.steps as u64).to_le_bytes());
    to.push(stage);
    to.extend(source.to_le_bytes());
    put_counted(to, &outcome.image);
    to.extend((records.len() as u32).to_le_bytes());
    for record in records {
        put_record(to, record);
    }
}

/// The bytes of a record.
pub const RECORD_BYTES: usize = 25;

/// A record that the call left unchanged is 0xEE in every byte.
fn put_record(to: &mut Vec<u8>, record: &Option<Record>) {
    let Some(Record { state, sequence, written, erased, empty, illegal, unread }) = *record else {
        to.extend([0xEE; RECORD_BYTES]);
        return;
    };
    to.push(match state {
        State::Blank => 0,
        State::Corrupt => 1,
        State::Active => 2,
        State::Full => 3,
        State::Freeing => 4,
    });
    for number in [sequence, written, erased, empty, illegal, unread] {
        to.extend(number.to_le_bytes());
    }
}

/// The items, then the reader's count; a refused reader has neither.
fn put_items(to: &mut Vec<u8>, read: Result<(Vec<Item>, u32), u8>) {
    to.push(read.as_ref().err().copied().unwrap_or(0));
    let (items, unread) = read.unwrap_or_default();
    to.extend((items.len() as u32).to_le_bytes());
    for item in items {
        to.extend((item.entry as u32).to_le_bytes());
        to.extend(item.header);
    }
    to.extend(unread.to_le_bytes());
}

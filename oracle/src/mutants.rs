//! The mutants: the model with one slip switched on, held against recorded answers and against the model's
//! own answers to generated cases.

use std::fs;
use std::io::{self, ErrorKind};

use crate::compare::{about, decode_all};
use crate::generate::case_of;
use crate::protocol::{answer, Case, Operation};
use crate::slip::{with_slip, Slip};

const GENERATED: u64 = 20_000;
const SEED: u64 = 1;

/// What catches a slip: in how many cases it gives another answer, and the first of them.
#[derive(Clone, Default)]
pub struct Catch {
    pub count: u64,
    pub first: Option<(u64, Operation)>,
}

/// The slips with which the answer is another one.
pub fn caught_by(case: &Case) -> Vec<Slip> {
    let right = answer(case);
    let caught = |slip: &&Slip| with_slip(**slip, || answer(case)) != right;
    Slip::ALL.iter().filter(caught).copied().collect()
}

/// The catches of each slip, in the order of `Slip::ALL`, among these cases.
pub fn catches(cases: impl Iterator<Item = Case>) -> Vec<Catch> {
    let mut catches = vec![Catch::default(); Slip::ALL.len()];
    for (place, case) in cases.enumerate() {
        for slip in caught_by(&case) {
            let catch = &mut catches[slip as usize];
            catch.count += 1;
            catch.first.get_or_insert((place as u64, case.operation));
        }
    }
    catches
}

/// Recorded cases. That their answers are the model's is checked first: a catch is then a difference from
/// the recorded answer.
pub fn recorded(files: &[(String, String)]) -> io::Result<Vec<Case>> {
    let (mut all, mut answers) = (Vec::new(), Vec::new());
    for (input, output) in files {
        all.extend(decode_all(&fs::read(input).map_err(about(input))?)?);
        answers.extend(fs::read(output).map_err(about(output))?);
    }
    if all.iter().flat_map(answer).ne(answers) {
        return Err(io::Error::new(ErrorKind::InvalidData, "the recorded answers are not the model's"));
    }
    Ok(all)
}

/// The cases that the gate runs.
pub fn files_of_gate() -> Vec<(String, String)> {
    let folder = concat!(env!("CARGO_MANIFEST_DIR"), "/../crates/replay");
    vec![(format!("{folder}/stdin"), format!("{folder}/stdout"))]
}

/// Prints a row for each slip. The answer: whether each has a recorded case that catches it.
pub fn mutants(files: &[(String, String)]) -> io::Result<bool> {
    let cases = recorded(files)?;
    println!("{} slips, {} recorded cases, {GENERATED} generated", Slip::ALL.len(), cases.len());
    let of_recorded = catches(cases.into_iter());
    let of_generated = catches((0..GENERATED).map(|number| case_of(SEED, number, &Operation::ALL)));
    println!("source | slip | recorded | the first, from 0 | generated");
    for ((slip, recorded), generated) in Slip::ALL.iter().zip(&of_recorded).zip(&of_generated) {
        let first = recorded.first.map_or("NOT CAUGHT".into(), |(place, of)| format!("{place}, {of:?}"));
        let (source, text) = (slip.source(), slip.text());
        println!("{source} | {text} | {} | {first} | {}", recorded.count, generated.count);
    }
    Ok(of_recorded.iter().all(|catch| catch.count > 0))
}

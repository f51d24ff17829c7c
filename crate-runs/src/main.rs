//! The crate's side of each comparison. README.md says how each command is used.

use std::error::Error;
use std::fs::{self, File};
use std::io::{self, Read, Write};
use std::process::ExitCode;

use crate_runs::class::in_class;
use crate_runs::compare::{check, compare};
use crate_runs::crate_call::run;
use crate_runs::{cuts, differences, draw, record, stories};
use model::protocol::{Case, Operation, RECORD_BYTES};

const USAGE: &str = "crate-runs answer < cases > answers
crate-runs select < cases > cases of the class
crate-runs draw 0|1 COUNT SEED > cases of the class
crate-runs compare 0|1 COUNT SEED [PROGRAM ARGUMENT..]
crate-runs cuts COUNT SEED
crate-runs check CASES ANSWERS
crate-runs cases [NAME..]
crate-runs image NAME > case
crate-runs stories
crate-runs record FOLDER SEED";

fn operation_of(number: &str) -> Result<Operation, Box<dyn Error>> {
    match number {
        "0" => Ok(Operation::Recover),
        "1" => Ok(Operation::Reclaim),
        _ => Err("the crate has operations 0 and 1 alone".into()),
    }
}

fn read_cases(mut from: impl Read) -> io::Result<Vec<Case>> {
    let mut input = Vec::new();
    from.read_to_end(&mut input)?;
    let (mut rest, mut cases) = (&input[..], Vec::new());
    while let Some(case) = Case::decode(&mut rest)? {
        cases.push(case);
    }
    Ok(cases)
}

fn write_cases(cases: impl Iterator<Item = Case>) -> io::Result<()> {
    let mut stdout = io::stdout().lock();
    for case in cases {
        let mut bytes = Vec::new();
        case.encode(&mut bytes);
        stdout.write_all(&bytes)?;
    }
    stdout.flush()
}

/// Result, steps and image. The stage is left out, and each record is given as unchanged: both are the port's own.
fn answer(case: &Case) -> Vec<u8> {
    let outcome = run(case.operation, &case.image, case.allowance, false);
    let records = if case.operation == Operation::Recover { case.records } else { 0 };
    let mut bytes = vec![outcome.end.number()];
    bytes.extend((outcome.steps.len() as u64).to_le_bytes());
    bytes.push(0);
    bytes.extend(u32::MAX.to_le_bytes());
    bytes.extend((outcome.image.len() as u32).to_le_bytes());
    bytes.extend(outcome.image);
    bytes.extend(records.to_le_bytes());
    bytes.resize(bytes.len() + RECORD_BYTES * records as usize, 0xEE);
    bytes
}

fn answer_all() -> io::Result<()> {
    let mut stdout = io::stdout().lock();
    for case in read_cases(io::stdin())? {
        stdout.write_all(&answer(&case))?;
    }
    stdout.flush()
}

/// The answer: whether what was to be compared agrees.
fn command(words: &[String]) -> Result<bool, Box<dyn Error>> {
    let words_of: Vec<&str> = words.iter().map(String::as_str).collect();
    match words_of[..] {
        ["answer"] => answer_all()?,
        ["select"] => {
            write_cases(read_cases(io::stdin())?.into_iter().filter(|case| in_class(case).is_ok()))?
        }
        ["draw", operation, count, seed] => {
            let (operation, count, seed) = (operation_of(operation)?, count.parse()?, seed.parse()?);
            write_cases((0..count).map(|number| draw::case_of(operation, seed, number).case))?;
        }
        ["compare", operation, count, seed, ref program @ ..] => {
            let (count, seed) = (count.parse()?, seed.parse()?);
            return Ok(compare(operation_of(operation)?, count, seed, program)?);
        }
        ["cuts", count, seed] => return Ok(cuts::compare(count.parse()?, seed.parse()?)),
        ["check", cases, answers] => {
            return Ok(check(&read_cases(File::open(cases)?)?, &fs::read(answers)?));
        }
        ["image", name] => {
            let named = differences::all().into_iter().filter(|named| named.name == name);
            write_cases(named.map(|named| differences::case_of(&named)))?;
        }
        ["cases", ..] => differences::print(&words[1..]),
        ["stories"] => stories::print(),
        ["record", folder, seed] => record::record(folder, seed.parse()?)?,
        _ => return Err(USAGE.into()),
    }
    Ok(true)
}

fn main() -> ExitCode {
    let words: Vec<String> = std::env::args().skip(1).collect();
    match command(&words) {
        Ok(true) => ExitCode::SUCCESS,
        Ok(false) => ExitCode::FAILURE,
        Err(error) => {
            eprintln!("{error}");
            ExitCode::from(2)
        }
    }
}

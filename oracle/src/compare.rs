//! Answers held against the model's, byte by byte: recorded ones, and those of a program.

use std::fs;
use std::io::{self, Read, Write};
use std::process::{Command, Stdio};
use std::thread;

use crate::describe::{describe, describe_images};
use crate::generate::case_of;
use crate::protocol::{answer, Case, Operation};

/// Cases that one start of the program answers.
const BATCH: u64 = 256;

/// The first case of some whose given answer is not the model's.
struct Difference<'a> {
    place: usize,
    case: &'a Case,
    model: Vec<u8>,
    given: &'a [u8],
}

/// How many bytes are given beyond the last answer, or the first difference.
fn hold_against_model<'a>(cases: &'a [Case], mut given: &'a [u8]) -> Result<usize, Difference<'a>> {
    for (place, case) in cases.iter().enumerate() {
        let model = answer(case);
        match given.strip_prefix(&model[..]) {
            Some(rest) => given = rest,
            None => return Err(Difference { place, case, model, given }),
        }
    }
    Ok(given.len())
}

fn print_difference(difference: &Difference) {
    let Difference { case, model, given, .. } = difference;
    let Case { operation, allowance, records, image } = case;
    let length = image.len();
    println!("operation {operation:?}, allowance {allowance}, records {records}, length {length}");
    for (whose, bytes) in [("model", &model[..]), ("given", given)] {
        println!("{whose}:");
        for line in describe(*operation, bytes) {
            println!("  {line}");
        }
    }
    if matches!(operation, Operation::Recover | Operation::Reclaim) {
        for line in describe_images(model, given) {
            println!("{line}");
        }
    }
}

pub fn decode_all(mut input: &[u8]) -> io::Result<Vec<Case>> {
    let mut cases = Vec::new();
    while let Some(case) = Case::decode(&mut input)? {
        cases.push(case);
    }
    Ok(cases)
}

/// The same error, with the name of what it is about.
pub fn about<'a>(name: &'a str) -> impl Fn(io::Error) -> io::Error + 'a {
    move |error| io::Error::new(error.kind(), format!("{name}: {error}"))
}

/// Recorded cases and answers. The answer: whether all are alike.
pub fn check(input: &str, output: &str) -> io::Result<bool> {
    let cases = decode_all(&fs::read(input).map_err(about(input))?)?;
    let given = fs::read(output).map_err(about(output))?;
    let count = cases.len();
    match hold_against_model(&cases, &given) {
        Ok(left_over) => {
            println!("{input}: {count} of {count} equal, {left_over} bytes left over");
            Ok(left_over == 0)
        }
        Err(difference) => {
            println!("{input}: case {} of {count} differs", difference.place);
            print_difference(&difference);
            Ok(false)
        }
    }
}

/// Feeds the input from a thread of its own: a program that answers before it has read all would
/// otherwise wait for us while we wait for it.
fn answers_of(program: &str, input: Vec<u8>) -> io::Result<(Vec<u8>, bool)> {
    let mut child = Command::new(program)
        .stdin(Stdio::piped())
        .stdout(Stdio::piped())
        .spawn()
        .map_err(about(program))?;
    let mut stdin = child.stdin.take().expect("piped");
    // A program that ends early closes its input: its answers show that, so the error is dropped here.
    let feeder = thread::spawn(move || stdin.write_all(&input).is_ok());
    let mut output = Vec::new();
    child.stdout.take().expect("piped").read_to_end(&mut output)?;
    let fed = feeder.join().expect("the feeder does not panic");
    Ok((output, child.wait()?.success() && fed))
}

fn report(difference: &Difference, first: u64, seed: u64) -> io::Result<()> {
    let number = first + difference.place as u64;
    let file = format!("{seed}-{number}.difference.in");
    let mut bytes = Vec::new();
    difference.case.encode(&mut bytes);
    fs::write(&file, bytes)?;
    println!("seed {seed}, case {number} differs; it is written to {file}");
    print_difference(difference);
    Ok(())
}

fn compare_batch(program: &str, cases: &[Case], first: u64, seed: u64) -> io::Result<bool> {
    let mut input = Vec::new();
    cases.iter().for_each(|case| case.encode(&mut input));
    let (given, ended_well) = answers_of(program, input)?;
    match hold_against_model(cases, &given) {
        Ok(0) if ended_well => Ok(true),
        Ok(left_over) => {
            println!("seed {seed}, {} cases from {first} on: answers equal, but", cases.len());
            println!("{left_over} bytes left over, the program ended well: {ended_well}");
            Ok(false)
        }
        Err(difference) => {
            report(&difference, first, seed)?;
            println!("the program ended well: {ended_well}");
            Ok(false)
        }
    }
}

/// Generated cases through a program. The answer: whether all answers are the model's.
pub fn compare(program: &str, count: u64, seed: u64, operations: &[Operation]) -> io::Result<bool> {
    let mut first = 0;
    while first < count {
        let end = count.min(first + BATCH);
        let cases: Vec<Case> = (first..end).map(|number| case_of(seed, number, operations)).collect();
        if !compare_batch(program, &cases, first, seed)? {
            return Ok(false);
        }
        first = end;
    }
    println!("{count} of {count} equal, seed {seed}");
    Ok(true)
}

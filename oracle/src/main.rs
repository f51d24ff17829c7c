//! The commands. README.md says how each is used.

use std::error::Error;
use std::io::{self, Read, Write};
use std::process::ExitCode;

use oracle::protocol::{self, Case, Operation};
use oracle::worn_profile::worn_profile;
use oracle::{compare, cover, generate, mutants, sample};

const USAGE: &str = "oracle answer < cases > answers
oracle check CASES ANSWERS
oracle generate COUNT SEED [--ops 0,1,2,3] > cases
oracle cover COUNT SEED [--ops 0,1,2,3]
oracle compare PROGRAM COUNT SEED [--ops 0,1,2,3]
oracle mutants [CASES ANSWERS]..
oracle image > image
oracle sample 0,1,2,3 > cases";

/// "0,2" and the like: the operations by their numbers in the batch protocol.
fn operations_of(text: &str) -> Result<Vec<Operation>, Box<dyn Error>> {
    let operation = |number: &str| {
        let unknown = || format!("no operation {number}");
        Operation::of_number(number.parse()?).ok_or_else(|| unknown().into())
    };
    text.split(',').map(operation).collect()
}

/// Takes `--ops LIST` out of the arguments; without it, all operations.
fn take_operations(arguments: &mut Vec<String>) -> Result<Vec<Operation>, Box<dyn Error>> {
    let Some(place) = arguments.iter().position(|argument| argument == "--ops") else {
        return Ok(Operation::ALL.to_vec());
    };
    let list = arguments.get(place + 1).ok_or("--ops wants a list")?;
    let operations = operations_of(list)?;
    arguments.drain(place..place + 2);
    Ok(operations)
}

fn write_cases(cases: impl Iterator<Item = Case>) -> io::Result<()> {
    let mut stdout = io::stdout().lock();
    for case in cases {
        let mut bytes = Vec::new();
        case.encode(&mut bytes);
        stdout.write_all(&bytes)?;
    }
    stdout.flush()
}

fn answer_all() -> io::Result<()> {
    let mut input = Vec::new();
    io::stdin().lock().read_to_end(&mut input)?;
    let mut stdout = io::stdout().lock();
    for case in compare::decode_all(&input)? {
        stdout.write_all(&protocol::answer(&case))?;
    }
    stdout.flush()
}

/// The answer: whether what was to be compared is alike.
fn run(mut arguments: Vec<String>) -> Result<bool, Box<dyn Error>> {
    let operations = take_operations(&mut arguments)?;
    let words: Vec<&str> = arguments.iter().map(String::as_str).collect();
    match words[..] {
        ["answer"] => answer_all()?,
        ["check", cases, answers] => return Ok(compare::check(cases, answers)?),
        ["generate", count, seed] => {
            let (count, seed) = (count.parse()?, seed.parse()?);
            write_cases((0..count).map(|number| generate::case_of(seed, number, &operations)))?;
        }
        ["cover", count, seed] => return Ok(cover::cover(count.parse()?, seed.parse()?, &operations)),
        ["compare", program, count, seed] => {
            return Ok(compare::compare(program, count.parse()?, seed.parse()?, &operations)?)
        }
        ["mutants"] => return Ok(mutants::mutants(&mutants::files_of_gate())?),
        ["mutants", ref files @ ..] if files.len() % 2 == 0 => {
            let pairs = files.chunks(2).map(|pair| (pair[0].to_string(), pair[1].to_string()));
            return Ok(mutants::mutants(&pairs.collect::<Vec<_>>())?);
        }
        ["image"] => io::stdout().write_all(&worn_profile())?,
        ["sample", list] => write_cases(operations_of(list)?.into_iter().flat_map(sample::sample))?,
        _ => return Err(USAGE.into()),
    }
    Ok(true)
}

fn main() -> ExitCode {
    match run(std::env::args().skip(1).collect()) {
        Ok(true) => ExitCode::SUCCESS,
        Ok(false) => ExitCode::FAILURE,
        Err(error) => {
            eprintln!("{error}");
            ExitCode::from(2)
        }
    }
}

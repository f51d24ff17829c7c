//! The crate beside the model of document 01, and beside a program that speaks the batch protocol, on drawn cases.

use std::io::{self, Read, Write};
use std::process::{Command, Stdio};
use std::thread;

use model::protocol::{Case, Operation, RECORD_BYTES};
use model::steps::Outcome;

use crate::class::model_outcome;
use crate::crate_call::{run, CrateOutcome};
use crate::draw::{case_of, Drawn};
use crate::words;

/// Cases that one start of the program answers.
const BATCH: u64 = 256;

/// What was compared.
#[derive(Default)]
struct Tally {
    cases: u64,
    with_steps: u64,
    stopped: u64,
    /// The model's, and how many the crate makes of them.
    steps: u64,
    steps_by_words: u64,
    /// Cases that have more steps than the crate makes of them.
    marked_by_entries: u64,
    /// Left out: drawn cases that stop inside a word of an item's marks.
    inside_marking: u64,
    /// How many cases agree with the other type of the free list too.
    ordered: u64,
}

/// The crate's run beside the model's answer. None where the crate cannot stop where the model does.
pub fn run_beside(case: &Case, outcome: &Outcome, ordered: bool) -> Option<CrateOutcome> {
    Some(run(case.operation, &case.image, words::allowance(case, outcome)?, ordered))
}

/// Result, number of steps in the crate's count, and image.
pub fn agree(outcome: &Outcome, of_crate: &CrateOutcome) -> bool {
    outcome.result == of_crate.end.number()
        && words::count(&outcome.list, outcome.steps) == Some(of_crate.steps.len())
        && outcome.image == of_crate.image
}

/// Result, steps and image.
type Answer<'a> = (u8, u64, &'a [u8]);

/// The answer at the front of some bytes, and the bytes after it: records and stage are the port's own.
fn take_answer(bytes: &[u8]) -> Option<(Answer<'_>, &[u8])> {
    let (head, rest) = bytes.split_at_checked(18)?;
    let steps = u64::from_le_bytes(head[1..9].try_into().ok()?);
    let length = u32::from_le_bytes(head[14..18].try_into().ok()?);
    let (image, rest) = rest.split_at_checked(length as usize)?;
    let (count, rest) = rest.split_at_checked(4)?;
    let records = u32::from_le_bytes(count.try_into().ok()?);
    let (_, rest) = rest.split_at_checked(RECORD_BYTES * records as usize)?;
    Some(((head[0], steps, image), rest))
}

/// Feeds the input from a thread of its own: a program may answer before it has read all.
fn answers_of(program: &[&str], input: Vec<u8>) -> io::Result<Vec<u8>> {
    let mut child = Command::new(program[0])
        .args(&program[1..])
        .stdin(Stdio::piped())
        .stdout(Stdio::piped())
        .spawn()?;
    let mut stdin = child.stdin.take().expect("piped");
    let feeder = thread::spawn(move || stdin.write_all(&input));
    let mut output = Vec::new();
    child.stdout.take().expect("piped").read_to_end(&mut output)?;
    feeder.join().expect("the feeder does not panic")?;
    child.wait()?;
    Ok(output)
}

/// The crate's result and image, and its number of steps in the model's count.
fn answer_of_crate(case: &Case) -> Option<(u8, u64, Vec<u8>)> {
    let outcome = model_outcome(case);
    let of_crate = run_beside(case, &outcome, false)?;
    let steps = *words::ends(&outcome.list).get(of_crate.steps.len())?;
    Some((of_crate.end.number(), steps as u64, of_crate.image))
}

/// The first of the cases whose given answer is not the crate's. Answers left over stand at the end.
fn first_unlike(cases: &[Case], mut given: &[u8]) -> Option<usize> {
    for (place, case) in cases.iter().enumerate() {
        match (answer_of_crate(case), take_answer(given)) {
            (Some((result, steps, image)), Some((answer, rest)))
                if answer == (result, steps, &image[..]) =>
            {
                given = rest
            }
            _ => return Some(place),
        }
    }
    (!given.is_empty()).then_some(cases.len())
}

/// Recorded answers. The answer: whether the crate gives them all.
pub fn check(cases: &[Case], given: &[u8]) -> bool {
    let unlike = first_unlike(cases, given);
    match unlike {
        Some(place) => println!("case {place} of {} differs", cases.len()),
        None => {
            println!("{0} of {0} recorded answers are the crate's in result, steps and image", cases.len())
        }
    }
    unlike.is_none()
}

/// The first of the cases that the program answers otherwise than the crate.
fn first_unlike_of(program: &[&str], cases: &[Case]) -> io::Result<Option<usize>> {
    if program.is_empty() {
        return Ok(None);
    }
    let mut input = Vec::new();
    cases.iter().for_each(|case| case.encode(&mut input));
    Ok(first_unlike(cases, &answers_of(program, input)?))
}

fn count(tally: &mut Tally, drawn: &Drawn, of_crate: &CrateOutcome) {
    let Drawn { case, outcome, inside_marking } = drawn;
    let ordered = run_beside(case, outcome, true);
    tally.cases += 1;
    tally.steps += outcome.steps as u64;
    tally.steps_by_words += of_crate.steps.len() as u64;
    tally.marked_by_entries += u64::from(outcome.steps > of_crate.steps.len());
    tally.with_steps += u64::from(outcome.steps > 0);
    tally.stopped += u64::from(outcome.result == 7);
    tally.ordered += u64::from(ordered.is_some_and(|ordered| agree(outcome, &ordered)));
    tally.inside_marking += inside_marking;
}

fn report(seed: u64, number: u64, case: &Case) -> io::Result<()> {
    let file = format!("{seed}-{number}.unlike.in");
    let mut bytes = Vec::new();
    case.encode(&mut bytes);
    std::fs::write(&file, bytes)?;
    println!("seed {seed}, case {number} ({:?}) differs; it is written to {file}", case.operation);
    Ok(())
}

fn tell(tally: &Tally, title: &str, beside_program: bool) {
    let Tally { cases, with_steps, stopped, steps, ordered, .. } = tally;
    let Tally { steps_by_words, marked_by_entries, inside_marking, .. } = tally;
    let beside = if beside_program { "the model and the program" } else { "the model" };
    println!("{title}: {cases} of {cases} cases agree with {beside} in result, steps and image;");
    println!("  {with_steps} with steps, {steps} in all, of which the crate makes {steps_by_words}, marking by words;");
    println!("  in {marked_by_entries} cases the two numbers differ; {stopped} stopped, besides {inside_marking}");
    println!(
        "  left out that stop inside a word of an item's marks; with the other free list {ordered} agree"
    );
}

/// Draws cases of the class and compares; `program` is a program with its arguments, or nothing. The answer:
/// whether all agree.
pub fn compare(operation: Operation, total: u64, seed: u64, program: &[&str]) -> io::Result<bool> {
    let mut tally = Tally::default();
    for first in (0..total).step_by(BATCH as usize) {
        let drawn: Vec<_> =
            (first..total.min(first + BATCH)).map(|number| case_of(operation, seed, number)).collect();
        for (place, drawn) in drawn.iter().enumerate() {
            let of_crate = run_beside(&drawn.case, &drawn.outcome, false);
            let Some(of_crate) = of_crate.filter(|of_crate| agree(&drawn.outcome, of_crate)) else {
                report(seed, first + place as u64, &drawn.case)?;
                return Ok(false);
            };
            count(&mut tally, drawn, &of_crate);
        }
        let cases: Vec<Case> = drawn.into_iter().map(|drawn| drawn.case).collect();
        if let Some(place) = first_unlike_of(program, &cases)? {
            println!("the program answers otherwise than the crate");
            report(seed, first + place as u64, &cases[place.min(cases.len() - 1)])?;
            return Ok(false);
        }
    }
    tell(&tally, &format!("{operation:?}, seed {seed}"), !program.is_empty());
    Ok(true)
}

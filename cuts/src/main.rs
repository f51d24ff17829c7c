//! Demand 3 and its general form run by brute force: on generated stores within their premises, reclaim and recovery
//! cut at every step.
//! README.md says how it is used.

mod calls;
mod contents;
mod draw_items;
mod draw_store;
mod draw_unsound;
mod explore;
mod kind;
mod oddities;
mod premises;
#[cfg(with_library)]
mod proved;
mod stand_ins;
#[cfg(test)]
mod tests;
mod unsound;

use std::collections::BTreeMap;
use std::error::Error;
use std::fs;
use std::process::ExitCode;

use calls::Calls;
use draw_store::draw_store;
use explore::{try_store, Failure, Figures, Spans};
use kind::Kind;
use oddities::Oddities;
use premises::first_failing;

/// Stores between two lines on standard error that say how far the run is.
const PROGRESS: u64 = 20;

fn store_of(kind: Kind, seed: u64, number: u64) -> Vec<u8> {
    draw_store(&mut kind.random(seed, number), kind)
}

fn calls_of(name: &str) -> Result<Box<dyn Calls>, Box<dyn Error>> {
    #[cfg(with_library)]
    if name == "library" {
        return Ok(Box::new(proved::Proved));
    }
    match stand_ins::stand_in(name) {
        Some(calls) => Ok(Box::new(calls)),
        None => {
            Err(format!("no calls {name}: library (built by cuts/run), {}", stand_ins::NAMES.join(", "))
                .into())
        }
    }
}

/// Stores by the first premise that they do not meet.
type ThrownAway = BTreeMap<&'static str, u64>;

#[derive(Default)]
struct Run {
    tried: u64,
    drawn: u64,
    thrown_away: ThrownAway,
    figures: Figures,
}

/// "reclaim 130, recovery 9, recovery 61": the steps of each call, the last one that at which it failed.
fn cuts_as_text(cuts: &[u64]) -> String {
    let names = std::iter::once("reclaim").chain(std::iter::repeat("recovery"));
    let texts: Vec<String> = names.zip(cuts).map(|(name, steps)| format!("{name} {steps}")).collect();
    texts.join(", ")
}

/// Prints a failure and writes what it leaves, so that it can be looked at.
fn report(failure: &Failure, kind: Kind, seed: u64, number: u64) -> std::io::Result<()> {
    let name = kind.name();
    println!("FAILURE: {}", failure.what);
    println!("seed {seed}, {name} store {number}, steps made: {}", cuts_as_text(&failure.cuts));
    let file = |what: &str| format!("{seed}-{name}-{number}.{what}.img");
    let (store, image) = (file("store"), file("failure"));
    fs::write(&store, store_of(kind, seed, number))?;
    fs::write(&image, &failure.image)?;
    println!("the store is written to {store}, the image after the last call to {image}");
    Ok(())
}

/// What was counted, or the number of the store that fails.
type Tried = Result<(Run, Oddities), (u64, Failure)>;

/// Tries so many stores of a kind in turn.
fn try_stores(calls: &mut dyn Calls, kind: Kind, stores: u64, seed: u64) -> Tried {
    let mut run = Run::default();
    let mut oddities = Oddities::none();
    while run.tried < stores {
        let number = run.drawn;
        let store = store_of(kind, seed, number);
        run.drawn += 1;
        if let Some(premise) = first_failing(kind, &store) {
            *run.thrown_away.entry(premise).or_default() += 1;
            continue;
        }
        run.figures.add(&try_store(calls, &store).map_err(|failure| (number, failure))?);
        oddities.count(&store);
        run.tried += 1;
        if run.tried % PROGRESS == 0 {
            let (name, recoveries) = (kind.name(), run.figures.recoveries);
            eprintln!("{} {name} stores, {recoveries} calls of recovery", run.tried);
        }
    }
    Ok((run, oddities))
}

fn print(run: &Run, oddities: &Oddities, kind: Kind, seed: u64) {
    let Run { tried, drawn, thrown_away, figures } = run;
    let (name, items, left) = (kind.name(), figures.items, figures.left);
    println!("seed {seed}: {tried} {name} stores; {drawn} were drawn");
    for (premise, count) in thrown_away {
        println!("  {count} thrown away: not '{premise}'");
    }
    println!("items: {items}, of which recovery leaves {left}");
    let Spans { several, over_words, over_whole_word } = figures.spans;
    println!("  {several} of several entries, {over_words} of them over several state words, {over_whole_word} over three or more");
    println!("calls: {} of reclaim, {} of recovery", figures.reclaims, figures.recoveries);
    println!("images reached: {}", figures.images.iter().sum::<u64>());
    for (recoveries, count) in figures.images.iter().enumerate() {
        println!("  {count} by reclaim cut and then {recoveries} recoveries cut");
    }
    println!("images that recovery left at its end: {}", figures.ends);
    println!();
    oddities.print();
    println!();
    println!("0 failures of {name} stores");
    println!();
}

fn run(arguments: Vec<String>) -> Result<bool, Box<dyn Error>> {
    let words: Vec<&str> = arguments.iter().map(String::as_str).collect();
    let (stores, seed, name) = match words[..] {
        [stores, seed] => (stores, seed, "library"),
        [stores, seed, name] => (stores, seed, name),
        _ => return Err("cuts STORES SEED [CALLS]".into()),
    };
    let (stores, seed) = (stores.parse()?, seed.parse()?);
    let mut calls = calls_of(name)?;
    let mut passed = true;
    for kind in Kind::ALL {
        match try_stores(&mut *calls, kind, stores, seed) {
            Ok((run, oddities)) => print(&run, &oddities, kind, seed),
            Err((number, failure)) => {
                report(&failure, kind, seed, number)?;
                passed = false;
            }
        }
    }
    Ok(passed)
}

fn main() -> ExitCode {
    match run(std::env::args().skip(1).collect()) {
        Ok(true) => ExitCode::SUCCESS,
        Ok(false) => ExitCode::FAILURE,
        Err(error) => {
            eprintln!("{error}");
            ExitCode::from(2)
        }
    }
}

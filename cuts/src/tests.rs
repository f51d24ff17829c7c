//! The check passes the model and sees each of its mutants, the last three on unsettled stores alone.

use crate::kind::Kind;
use crate::stand_ins::{stand_in, NAMES};
use crate::try_stores;

const STORES: u64 = 40;

/// Prints at which store it fails: README.md has the numbers.
fn passes(name: &str, kind: Kind) -> bool {
    let mut calls = stand_in(name).expect("a name");
    let fails = try_stores(&mut calls, kind, STORES, 1).err();
    if let Some((number, failure)) = &fails {
        println!("{name}: {} store {number}, {}", kind.name(), failure.what);
    }
    fails.is_none()
}

#[test]
fn the_model_passes() {
    for kind in Kind::ALL {
        assert!(passes(NAMES[0], kind), "{}", kind.name());
    }
}

#[test]
fn each_mutant_fails_on_unsettled_stores() {
    for name in &NAMES[1..] {
        assert!(!passes(name, Kind::Unsettled), "{name} passes");
    }
}

#[test]
fn all_but_the_last_three_fail_on_settled_stores() {
    for name in &NAMES[1..7] {
        assert!(!passes(name, Kind::Settled), "{name} passes");
    }
    for name in &NAMES[7..] {
        assert!(passes(name, Kind::Settled), "{name} fails");
    }
}

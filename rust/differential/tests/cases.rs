//! The cases of the test programs in `crates/test_*/stdin`, on both kits.

use differential::cases::{Program, run_all};
use differential::{Handwritten, Kit, Proved};

/// Runs a file with a kit; it has to have cases of just these kinds, and of each.
fn check<K: Kit>(program: Program, file: &str, kinds: &[&str]) {
    let counts = run_all::<K>(program, file).unwrap_or_else(|failed| panic!("with the {} kit\n{failed}", K::NAME));
    println!("{} cases with the {} kit: {counts:?}", counts.values().sum::<usize>(), K::NAME);
    assert!(counts.keys().eq(kinds), "{counts:?} in place of {kinds:?}");
}

fn check_both(program: Program, file: &str, kinds: &[&str]) {
    check::<Proved>(program, file, kinds);
    check::<Handwritten>(program, file, kinds);
}

#[test]
fn steps_and_runs() {
    check_both(Program::Step, include_str!("../../../crates/test_step/stdin"), &["run", "step"]);
}

#[test]
fn waits_and_regions() {
    check_both(Program::Meter, include_str!("../../../crates/test_meter/stdin"), &["region", "wait"]);
}

#[test]
fn reached_sets() {
    check_both(Program::Reach, include_str!("../../../crates/test_reach/stdin"), &["both", "reach", "region"]);
}

#[test]
fn lines() {
    check_both(Program::Listing, include_str!("../../../crates/test_listing/stdin"), &["assemble", "list"]);
}

#[test]
fn images() {
    check_both(Program::Image, include_str!("../../../crates/test_image/stdin"), &["load", "trip", "write"]);
}

#[test]
fn pairs() {
    check_both(Program::Pair, include_str!("../../../crates/test_pair/stdin"), &["load", "trip", "write"]);
}

//! Whether the comparer is content with a right machine, and finds every flaw.

use std::process::ExitCode;

use crate::compare::compare;
use crate::flaws::{self, Flaw};
use crate::generate::random_case;
use crate::known::Level;
use crate::rehearsal::Rehearsal;
use crate::report::shown_difference;

const SEED: u64 = 20;
const RIGHT_CASES: u64 = 3000;
const CASES_PER_FLAW: u64 = 3000;

/// Counting the weight anew is slow where much is held, so it is done at a run's first notes.
const WEIGHT_CHECKS: u32 = 1000;

/// The first case in which the comparer sees a difference.
fn first_difference(flaw: Option<Flaw>, cases: u64, weight_checks: u32) -> Option<(u64, String)> {
    let mut machine = Rehearsal::new(flaw, weight_checks);
    for number in 0..cases {
        let case = random_case(SEED, number, None, Level::Everything);
        if let Err(difference) = compare(&case, &mut machine, Level::Everything) {
            return Some((number, shown_difference(&case, &difference)));
        }
    }
    None
}

pub fn run() -> Result<ExitCode, String> {
    if let Some((number, shown)) = first_difference(None, RIGHT_CASES, WEIGHT_CHECKS) {
        println!("a right machine was found to be wrong in case {number}:\n{shown}");
        return Ok(ExitCode::FAILURE);
    }
    println!("a right machine is right in {RIGHT_CASES} cases");
    let mut missed = Vec::new();
    for flaw in flaws::ALL {
        match first_difference(Some(flaw), CASES_PER_FLAW, 0) {
            Some((number, shown)) => {
                let what = shown.lines().next().unwrap_or_default();
                println!("{flaw:?}: found in case {number}: {what}");
            }
            None => missed.push(flaw),
        }
    }
    if missed.is_empty() {
        println!("all {} flaws were found", flaws::ALL.len());
        Ok(ExitCode::SUCCESS)
    } else {
        println!("these flaws were not found: {missed:?}");
        Ok(ExitCode::FAILURE)
    }
}

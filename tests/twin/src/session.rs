//! Many cases one after the other, up to the first difference.

use std::collections::BTreeMap;
use std::fmt;
use std::time::Duration;

use crate::case::Case;
use crate::compare::{compare, Difference, Outcome};
use crate::generate::random_case;
use crate::known::Level;
use crate::machine::Machine;
use crate::options::Options;
use crate::shrink::shrink;
use crate::watch::Watch;

/// How many cases came out how.
#[derive(Default)]
pub struct Counts {
    counts: BTreeMap<Outcome, u64>,
}

impl Counts {
    fn add(&mut self, outcome: Outcome) {
        *self.counts.entry(outcome).or_insert(0) += 1;
    }
}

impl fmt::Display for Counts {
    fn fmt(&self, f: &mut fmt::Formatter) -> fmt::Result {
        for (place, (outcome, count)) in self.counts.iter().enumerate() {
            let comma = if place > 0 { ", " } else { "" };
            let name = match outcome {
                Outcome::Done => "done".to_owned(),
                Outcome::Endless => "endless".to_owned(),
                Outcome::Refused(1) => "no program".to_owned(),
                Outcome::Refused(2) => "not known".to_owned(),
                Outcome::Refused(8) => "no room".to_owned(),
                Outcome::Refused(number) => format!("refused {number}"),
            };
            write!(f, "{comma}{count} {name}")?;
        }
        Ok(())
    }
}

/// A difference, with the case made as small as could be.
pub struct Finding {
    pub number: u64,
    pub case: Case,
    pub difference: Box<Difference>,
}

/// Compares on one case, and makes it small if there is a difference.
pub fn examine(
    case: &Case,
    machine: &mut dyn Machine,
    known: Level,
    watch: &Watch,
) -> Result<Outcome, (Case, Box<Difference>)> {
    let first = match watch.over(case, || compare(case, machine, known)) {
        Ok(outcome) => return Ok(outcome),
        Err(difference) => difference,
    };
    // A smaller case may hang or crash the machine: then this is all that was said.
    eprintln!("twin: a difference: {}; the case is being made small", first.what);
    let mut fails = |smaller: &Case| {
        let compared = watch.over(smaller, || compare(smaller, machine, known));
        compared.is_err_and(|difference| difference.is_like(&first))
    };
    let small = shrink(case, &mut fails);
    let difference = compare(&small, machine, known).err().unwrap_or(first);
    Err((small, difference))
}

pub fn random_cases(options: &Options, cases: u64, machine: &mut dyn Machine) -> Result<Counts, Finding> {
    let watch = Watch::new(Duration::from_secs(options.patience));
    let mut counts = Counts::default();
    for number in options.from..options.from + cases {
        if options.trace {
            eprintln!("case {number}");
        }
        let case = random_case(options.seed, number, options.level, options.known);
        match examine(&case, machine, options.known, &watch) {
            Ok(outcome) => counts.add(outcome),
            Err((case, difference)) => {
                return Err(Finding { number, case, difference });
            }
        }
    }
    Ok(counts)
}

//! Making a case small that shows a difference.

use crate::case::Case;
use crate::generate::rough_tokens;

/// So many attempts are made at most.
const MOST_ATTEMPTS: usize = 4000;

pub struct Shrinker<'a> {
    fails: &'a mut dyn FnMut(&Case) -> bool,
    attempts: usize,
    best: Case,
}

/// The smallest case found by leaving things out for which `fails` still says yes.
pub fn shrink(case: &Case, fails: &mut dyn FnMut(&Case) -> bool) -> Case {
    let mut shrinker = Shrinker { fails, attempts: 0, best: case.clone() };
    loop {
        let before = shrinker.best.clone();
        shrinker.shrink_cuts();
        shrinker.shrink_list();
        shrinker.shrink_program();
        if shrinker.best == before || shrinker.attempts >= MOST_ATTEMPTS {
            return shrinker.best;
        }
    }
}

impl Shrinker<'_> {
    fn keep_if_it_fails(&mut self, candidate: Case) -> bool {
        if self.attempts >= MOST_ATTEMPTS || candidate == self.best {
            return false;
        }
        self.attempts += 1;
        let fails = (self.fails)(&candidate);
        if fails {
            self.best = candidate;
        }
        fails
    }

    fn shrink_cuts(&mut self) {
        let without = Case { cuts: Vec::new(), ..self.best.clone() };
        if self.keep_if_it_fails(without) {
            return;
        }
        self.leave_out(
            |case| (0..case.cuts.len()).map(|at| (at, at + 1)).collect(),
            |case, begin, end| {
                case.cuts.drain(begin..end);
            },
        );
    }

    fn shrink_list(&mut self) {
        let lines = |case: &Case| {
            let mut spans = Vec::new();
            let mut begin = 0;
            for line in case.list.split_inclusive(|byte| *byte == b'\n') {
                spans.push((begin, begin + line.len()));
                begin += line.len();
            }
            spans
        };
        self.leave_out(lines, remove_from_list);
        self.leave_out(|case| bytes_of(case.list.len()), remove_from_list);
    }

    fn shrink_program(&mut self) {
        let remove = |case: &mut Case, begin: usize, end: usize| {
            case.program.drain(begin..end);
        };
        self.leave_out(|case| rough_tokens(&case.program), remove);
        self.leave_out(|case| bytes_of(case.program.len()), remove);
    }

    /// Leaves out runs of units, long runs first.
    fn leave_out(
        &mut self,
        units: impl Fn(&Case) -> Vec<(usize, usize)>,
        remove: impl Fn(&mut Case, usize, usize),
    ) {
        let mut run = units(&self.best).len();
        while run > 0 {
            let mut at = 0;
            loop {
                let spans = units(&self.best);
                let (Some(first), Some(last)) = (spans.get(at), spans.get(at + run - 1)) else { break };
                let mut candidate = self.best.clone();
                remove(&mut candidate, first.0, last.1);
                if !self.keep_if_it_fails(candidate) {
                    at += run;
                }
                if self.attempts >= MOST_ATTEMPTS {
                    return;
                }
            }
            run /= 2;
        }
    }
}

fn bytes_of(len: usize) -> Vec<(usize, usize)> {
    (0..len).map(|at| (at, at + 1)).collect()
}

/// Cuts behind what is removed move with the bytes that they stand at.
fn remove_from_list(case: &mut Case, begin: usize, end: usize) {
    case.list.drain(begin..end);
    for cut in &mut case.cuts {
        if *cut >= end {
            *cut -= end - begin;
        } else if *cut > begin {
            *cut = begin;
        }
    }
}

#[cfg(test)]
mod tests {
    use super::*;

    #[test]
    fn what_is_not_needed_goes() {
        let case = Case {
            program: b"BEGIN { a = 1; print \"milk\" , a ; }".to_vec(),
            list: b"one\ntwo\nthree\nfour\n".to_vec(),
            cuts: vec![2, 4, 5, 9],
        };
        let has = |bytes: &[u8], part: &[u8]| bytes.windows(part.len()).any(|window| window == part);
        let mut fails =
            |case: &Case| has(&case.program, b"milk") && has(&case.list, b"hree") && case.cuts.len() > 1;
        let small = shrink(&case, &mut fails);
        assert_eq!(small.program, b"milk");
        assert_eq!(small.list, b"hree");
        assert_eq!(small.cuts.len(), 2);
    }
}

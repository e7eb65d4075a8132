//! Random cases, the same for the same seed and number.

mod damage;
mod edges;
mod expressions;
mod extremes;
mod grammar;
mod layout;
mod lists;
mod patterns;
mod reports;

pub use damage::rough_tokens;

use crate::case::{Case, LONGEST_PIECE};
use crate::known::Level;
use crate::random::Random;

const LEVELS: [Level; 5] = [Level::Core, Level::Tables, Level::Functions, Level::Patterns, Level::Everything];

/// The case of a seed with this number. Without a level most are of the level that is
/// known, and some of others.
pub fn random_case(seed: u64, number: u64, level: Option<Level>, known: Level) -> Case {
    let mut random = Random::new(seed, number);
    let level = level.unwrap_or_else(|| {
        if known == Level::Nothing || random.once_in(5) {
            *random.pick(&LEVELS)
        } else {
            known
        }
    });
    let mut case = random_kind(&mut random, level);
    case.program.truncate(LONGEST_PIECE);
    case.cuts = lists::random_cuts(&mut random, &case.list);
    case
}

fn random_kind(random: &mut Random, level: Level) -> Case {
    let kind = random.weighted(&[300, 220, 160, 80, 50, 12, 12, 12, 12, 20, 90, 8]);
    let program = match kind {
        0 => tree(random, level),
        1 => reports::report(random, level),
        2 => {
            let whole = if random.once_in(2) { tree(random, level) } else { reports::report(random, level) };
            damage::damaged(random, &whole)
        }
        3 => damage::token_soup(random),
        4 => extremes::deep(random, level),
        5 => extremes::long_texts(random, level),
        6 => extremes::endless(random, level),
        7 => extremes::long_prints(random),
        8 => reports::report(random, level),
        9 => {
            let begun = tree(random, level);
            extremes::near_longest(random, begun)
        }
        10 => edges::edges(random),
        _ => return extremes::at_the_brim(random, level),
    };
    let list = match kind {
        1 => lists::dairy(random, 20),
        8 => lists::long_list(random),
        _ => lists::random_list(random),
    };
    Case { program, list, cuts: Vec::new() }
}

/// A random program that is short enough.
fn tree(random: &mut Random, level: Level) -> Vec<u8> {
    let mut budget = *random.pick(&[20, 60, 150, 400]);
    loop {
        let tokens = grammar::random_program(random, level, budget);
        let text = layout::lay_out(random, &tokens);
        if text.len() <= LONGEST_PIECE {
            return text;
        }
        budget /= 2;
    }
}

#[cfg(test)]
mod tests {
    use super::*;
    use crate::parse::parse;

    #[test]
    fn the_same_seed_gives_the_same_case() {
        let case = |number| random_case(7, number, None, Level::Everything);
        assert_eq!(case(3), case(3));
        assert_ne!(case(3), case(4));
    }

    #[test]
    fn cases_keep_to_their_bounds_and_levels() {
        for number in 0..2000 {
            let level = LEVELS[number as usize % LEVELS.len()];
            let case = random_case(11, number, Some(level), level);
            assert!(case.program.len() <= LONGEST_PIECE);
            assert!(case.pieces().iter().all(|piece| piece.len() <= LONGEST_PIECE));
        }
    }

    #[test]
    fn reports_and_trees_are_programs_of_their_level() {
        let mut random = Random::new(5, 0);
        for level in LEVELS {
            let mut read = 0;
            let mut known = 0;
            for _ in 0..300 {
                for program in [tree(&mut random, level), reports::report(&mut random, level)] {
                    if let Some(program) = parse(&program) {
                        read += 1;
                        known += usize::from(level.knows(&program));
                    }
                }
            }
            assert!(read > 540, "{level:?}: {read} of 600 are programs");
            assert!(known > 500, "{level:?}: {known} of 600 are known");
        }
    }
}

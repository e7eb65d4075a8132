//! What a case is meant to do: the twin's own run of it.

use std::rc::Rc;

use crate::case::{cut_into_lines, Case};
use crate::known::Level;
use crate::parse::parse;
use crate::worker::{Bounds, Ending, Refusal, Worker};

/// Enough for nearly all cases.
pub const QUICK: Bounds = Bounds { effort: 100_000, output: 1 << 20, depth: 100_000 };

/// For those that the machine ended where the twin had not come to an end.
pub const PATIENT: Bounds = Bounds { effort: 20_000_000, output: 64 << 20, depth: 200_000 };

#[derive(Clone, Debug)]
pub struct Meant {
    pub out: Vec<u8>,
    /// How much is written when the rules before the first line and then so many whole
    /// lines are done, as far as the run got.
    pub out_after_lines: Vec<usize>,
    pub ending: Ending,
    pub heavy: u64,
    pub out_when_full: Option<usize>,
    pub effort: u64,
}

impl Meant {
    fn refused(refusal: Refusal) -> Meant {
        Meant {
            out: Vec::new(),
            out_after_lines: Vec::new(),
            ending: Ending::Refused(refusal),
            heavy: 0,
            out_when_full: None,
            effort: 0,
        }
    }

    /// Whether the program is refused before anything is done.
    pub fn is_refused_unread(&self) -> bool {
        matches!(self.ending, Ending::Refused(Refusal::NotAProgram | Refusal::NotKnown))
    }

    pub fn of(case: &Case, known: Level, bounds: Bounds) -> Meant {
        if known == Level::Nothing {
            return Meant::refused(Refusal::NotKnown);
        }
        match parse(&case.program) {
            None => Meant::refused(Refusal::NotAProgram),
            Some(program) if !known.knows(&program) => Meant::refused(Refusal::NotKnown),
            Some(program) => {
                let mut worker = Worker::new(Rc::new(program), bounds);
                let mut out_after_lines = Vec::new();
                let ending = run(&mut worker, &case.list, &mut out_after_lines);
                Meant {
                    out_after_lines,
                    ending,
                    heavy: worker.state.heavy,
                    out_when_full: worker.state.out_when_full,
                    effort: worker.spent(),
                    out: worker.state.out,
                }
            }
        }
    }
}

/// A whole run over a list.
pub fn run(worker: &mut Worker, list: &[u8], out_after_lines: &mut Vec<usize>) -> Ending {
    if let Some(ending) = worker.begin() {
        return ending;
    }
    out_after_lines.push(worker.state.out.len());
    let (lines, rest) = cut_into_lines(list);
    for line in lines {
        if let Some(ending) = worker.line(line) {
            return ending;
        }
        out_after_lines.push(worker.state.out.len());
    }
    if !rest.is_empty() {
        if let Some(ending) = worker.line(rest) {
            return ending;
        }
    }
    worker.end()
}

#[cfg(test)]
mod tests {
    use super::*;

    fn meant(program: &str, list: &str) -> Meant {
        let case = Case { program: program.into(), list: list.into(), cuts: Vec::new() };
        Meant::of(&case, Level::Everything, QUICK)
    }

    fn written(program: &str, list: &str) -> String {
        String::from_utf8_lossy(&meant(program, list).out).into_owned()
    }

    fn ending(program: &str) -> Ending {
        meant(program, "one line\n").ending
    }

    /// Weights worked out by hand.
    #[test]
    fn heavy_to_the_byte() {
        // The number within the assignment, 16; then the name, 16 + 1, with its value, 16 + 1.
        assert_eq!(meant("BEGIN { x = 5; }", "").heavy, 34);
        // The second text stands in two expressions and beside the first: 32 + 18.
        assert_eq!(meant("BEGIN { x = \"ab\" \"c\"; }", "").heavy, 50);
        // Nothing but an expression at no depth.
        assert_eq!(meant("BEGIN { 5; }", "").heavy, 0);
        // One operand within.
        assert_eq!(meant("BEGIN { -5; }", "").heavy, 16);
        // Printed values are held: the third beside "1" and "22".
        assert_eq!(meant("BEGIN { print 1, 22, 3; }", "").heavy, 17 + 18);
        // The condition at 0, the body at 16.
        assert_eq!(meant("BEGIN { if (1) { 5; } }", "").heavy, 16);
        // An empty body counts as one that is in.
        assert_eq!(meant("BEGIN { if (1) { } }", "").heavy, 16);
        // Of `||` and `&&` the first isn't needed while the second is worked out.
        assert_eq!(meant("BEGIN { \"\" || 5; }", "").heavy, 16);
        // Of `=` the value is held while the field's number is worked out: 16 + 16 + 1.
        // Afterwards the line, 1, and its field, 16 + 1, are there.
        assert_eq!(meant("BEGIN { $1 = 5; }", "").heavy, 33);
        assert_eq!(meant("BEGIN { $3 = 5; }", "").heavy, 3 + 3 * 16 + 1);
        // A line of 4 bytes with two fields.
        assert_eq!(meant("", "ab 3\n").heavy, 4 + 18 + 17);
        assert_eq!(meant("{ }", "ab 3").heavy, 39);
    }

    #[test]
    fn heavy_of_calls_and_loops() {
        // The frame, 64, with its name 16 + 1 and its value 16 + 2; the body one level in.
        assert_eq!(meant("function f(a) { } BEGIN { f(22); }", "").heavy, 16 + 64 + 35);
        // A missing value has no bytes but its name is held.
        assert_eq!(meant("function f(a, bb) { } BEGIN { f(22); }", "").heavy, 16 + 64 + 35 + 34);
        // The value returned is worked out at the body's level: 16, and one operand within.
        assert_eq!(meant("function f() { return -1; } BEGIN { f(); }", "").heavy, 64 + 32);
        // Two keys, set to one byte each: 2 * (32 + 1 + 1 + 17) and the loop's variable,
        // 17 + 17; the body 16, and the key still to come, 17.
        let keys = "BEGIN { t[1] = 1; t[2] = 2; for (k in t) { } }";
        assert_eq!(meant(keys, "").heavy, 102 + 34 + 16 + 17);
        // The key is worked out beside the value: 51 are there, 16 + 17.
        assert_eq!(meant("BEGIN { t[1] = 1; t[2] = 2; }", "").heavy, 102);
        // Three values: the last beside the first, 16 + 4, and the second, 16 + 1.
        assert_eq!(meant("BEGIN { substr(\"milk\", 2, 2); }", "").heavy, 16 + 20 + 17);
        // After `while` has ended its body's 16 are noted but not more.
        assert_eq!(meant("BEGIN { while (x < 1) x = 1; }", "").heavy, 34 + 16 + 17);
    }

    #[test]
    fn splitting_leaves_the_table_with_the_pieces_only() {
        let program =
            "BEGIN { t[\"x\"] = 1; t[1] = 2; print split(\"a,b\", t, \",\"), \"x\" in t, t[1] t[2]; }";
        assert_eq!(written(program, ""), "2 0 ab\n");
        assert_eq!(written("BEGIN { t[1] = 2; print split(\"\", t, \",\"), 1 in t; }", ""), "0 0\n");
    }

    #[test]
    fn refusals() {
        use Refusal::*;
        let refused = |program: &str| match ending(program) {
            Ending::Refused(refusal) => refusal,
            other => panic!("{program}: {other:?}"),
        };
        assert_eq!(refused("{"), NotAProgram);
        assert_eq!(refused("{ x = 999999999999999999 * 5; }"), NumberTooLarge);
        assert_eq!(refused("{ x = 1 / NF - 1 / 0; }"), DivisionByZero);
        assert_eq!(refused("{ f(1); }"), NoSuchFunction);
        assert_eq!(refused("function f() { } { f(1); }"), NoSuchFunction);
        assert_eq!(refused("{ NR = 1; }"), ReadOnlyName);
        assert_eq!(refused("{ t[1] = 1; for (NF in t) { } }"), ReadOnlyName);
        assert_eq!(refused("{ swap(\"1\", 2, NR); }"), ReadOnlyName);
        assert_eq!(refused("{ $1001 = 1; }"), OutOfBounds);
        assert_eq!(refused("{ x = $-1; }"), OutOfBounds);
        assert_eq!(refused("{ exit 256; }"), OutOfBounds);
        assert_eq!(refused("{ exit -1; }"), OutOfBounds);
    }

    #[test]
    fn no_refusals() {
        assert_eq!(ending("{ swap(\"x\", 2, NR); }"), Ending::Done(0));
        assert_eq!(ending("{ for (NF in t) { } }"), Ending::Done(0));
        assert_eq!(ending("function f(NR) { NR = 5; return NR; } { exit f(1); }"), Ending::Done(5));
        assert_eq!(ending("{ exit \"12x\"; }"), Ending::Done(12));
        assert_eq!(ending("{ exit; } END { exit 3; }"), Ending::Done(0));
        assert_eq!(ending("{ NR[1] = 2; exit NR[1]; }"), Ending::Done(2));
        assert_eq!(ending("{ $\"x\" = 7; exit $1; }"), Ending::Done(7));
    }

    #[test]
    fn edges_of_numbers() {
        let most = "999999999999999999 * 4 + 611686018427387907";
        assert_eq!(written(&format!("BEGIN {{ print {most}; }}"), ""), "4611686018427387903\n");
        assert_eq!(
            written(&format!("BEGIN {{ print -({most}) - 1; print {most} + 1; }}"), ""),
            "-4611686018427387904\n"
        );
        let least = format!("x = -({most}) - 1;");
        assert_eq!(
            meant(&format!("BEGIN {{ {least} print x % -1; print x / -1; }}"), "").ending,
            Ending::Refused(Refusal::NumberTooLarge)
        );
        assert_eq!(written("BEGIN { print -7 / 2, -7 % 2, 7 / -2, 7 % -2, -0; }", ""), "-3 -1 -3 1 0\n");
    }

    #[test]
    fn next_and_return_leave_the_rules_for_this_line() {
        let program =
            "function f() { next; } { f(); print 1; } { print 2; } END { return; } END { print 3; }";
        assert_eq!(written(program, "a\nb\n"), "");
        assert_eq!(written("BEGIN { next; } BEGIN { print 1; } END { print 2; }", ""), "2\n");
        assert_eq!(written("{ return 5; } { print 1; }", "a\n"), "");
    }

    #[test]
    fn functions_have_their_own_names_and_share_tables() {
        let program = "function f(a, b) { a = a 1; b = 2; c = 3; t[1] = a; return a b; } \
                       BEGIN { a = 7; print f(5), a, b \"|\", c, t[1]; }";
        assert_eq!(written(program, ""), "512 7 | 3 51\n");
        // A function that is called sees the outermost names and not its caller's.
        let nested = "function g() { return x; } function f(x) { return g(); } BEGIN { x = 1; print f(2); }";
        assert_eq!(written(nested, ""), "1\n");
        // Of two functions with one name the first counts; of two equal parameters too.
        assert_eq!(
            written("function f() { return 1; } function f() { return 2; } BEGIN { print f(); }", ""),
            "1\n"
        );
        assert_eq!(written("function f(a, a) { return a; } BEGIN { print f(1, 2); }", ""), "1\n");
    }

    #[test]
    fn order_of_working_out() {
        // First the value, then the place's key.
        assert_eq!(written("BEGIN { i = 1; t[i] = (i = 2); print t[1] \"|\" t[2]; }", ""), "|2\n");
        assert_eq!(written("BEGIN { $(x = 2) = (x = 3); print x, NF; }", ""), "2 2\n");
        // What is swapped in is worked out before the place's needs.
        let swap =
            "BEGIN { t[1] = \"aa\"; t[2] = \"bb\"; i = 1; swap(\"a|b\", i = 2, t[i]); print t[1], t[2]; }";
        assert_eq!(written(swap, ""), "aa 22\n");
    }

    #[test]
    fn what_is_written_after_each_line() {
        let meant = meant("BEGIN { print 0; } { print NR; } END { print \"end\"; }", "a\nb\nc");
        assert_eq!(meant.out_after_lines, [2, 4, 6]);
        assert_eq!(meant.out, b"0\n1\n2\n3\nend\n");
    }

    #[test]
    fn room_is_exceeded_when_it_is() {
        let program = "BEGIN { x = \"0123456789abcdef\"; while (i < 12) { x = x x; i = i + 1; } print 1; \
                       a = x; b = x; c = x; print 2; d = x; e = x; print 3; }";
        let meant = meant(program, "");
        // 65,536 bytes are too many for one text.
        assert_eq!(meant.ending, Ending::Refused(Refusal::TextTooLong));
        let grown = self::meant(&program.replace("12", "11"), "");
        assert_eq!(grown.out_when_full, None);
        let more = program.replace("12", "11").replace("e = x;", "e = x; f = x; g = x; h = x;");
        let more = self::meant(&more, "");
        assert_eq!(more.out_when_full, Some(4));
        assert_eq!(more.ending, Ending::Done(0));
    }

    #[test]
    fn endless_programs_are_given_up() {
        assert_eq!(ending("BEGIN { while (1) { } }"), Ending::Unfinished);
        assert_eq!(ending("BEGIN { while (1) print 1; }"), Ending::Unfinished);
    }
}

//! The worked examples of the language, each on the two lines "ab 3" and "a  b 12".

use crate::case::Case;
use crate::known::Level;
use crate::meant::{Meant, QUICK};
use crate::report::{shown, shown_ending};
use crate::worker::{Ending, Refusal};

struct Example {
    program: &'static str,
    written: &'static str,
    ending: Ending,
}

const fn done(program: &'static str, written: &'static str) -> Example {
    Example { program, written, ending: Ending::Done(0) }
}

const LIST: &str = "ab 3\na  b 12\n";

const EXAMPLES: [Example; 11] = [
    done("{ print NF, $2; }", "2 3\n3 b\n"),
    done("{ $5 = \"z\"; print NF, $0; }", "5 ab 3   z\n5 a b 12  z\n"),
    done("{ n = n + $NF; } END { print n, n / 4, -n % 4; }", "15 3 -3\n"),
    done("$1 ~ \"^a.$\" { print \"two\"; next; } { print \"else\"; }", "two\nelse\n"),
    done("{ t[$1] = t[$1] $NF; } END { for (k in t) print k, t[k]; }", "a 12\nab 3\n"),
    done(
        "BEGIN { print \"007\" == 7, \"007x\" < 7, substr(\"milk\", 2, 2), index(\"milk\", \"k\"); }",
        "1 1 il 4\n",
    ),
    done("BEGIN { x = \"banana\"; print swap(\"a*n\", \"<>\", x), x; }", "2 b<><>a\n"),
    done("BEGIN { print split(\"1,2,,3\", t, \",\"), t[3] \"|\" t[4]; }", "4 |3\n"),
    done("function f(a) { if (a < 2) return 1; return a * f(a - 1); } BEGIN { print f(5); }", "120\n"),
    Example {
        program: "{ print 1 / (NR - 2); }",
        written: "-1\n",
        ending: Ending::Refused(Refusal::DivisionByZero),
    },
    Example { program: "BEGIN { while (1) { } }", written: "", ending: Ending::Unfinished },
];

/// Checks the worker on all of them; what went wrong, if anything did.
pub fn check() -> Vec<String> {
    let mut wrong = Vec::new();
    for example in &EXAMPLES {
        let case = Case { program: example.program.into(), list: LIST.into(), cuts: Vec::new() };
        let meant = Meant::of(&case, Level::Everything, QUICK);
        if meant.out != example.written.as_bytes() || meant.ending != example.ending {
            wrong.push(format!(
                "{}\n  wrote {}, {}\n  instead of {}, {}",
                example.program,
                shown(&meant.out),
                shown_ending(meant.ending),
                shown(example.written.as_bytes()),
                shown_ending(example.ending),
            ));
        }
    }
    wrong
}

pub fn count() -> usize {
    EXAMPLES.len()
}

#[cfg(test)]
mod tests {
    #[test]
    fn examples_are_worked_as_they_should() {
        assert_eq!(super::check(), Vec::<String>::new());
    }
}

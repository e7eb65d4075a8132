//! Programs at the edges of numbers, fields and ends.

use crate::random::Random;

/// Numbers that cannot be written with 18 digits are worked out.
const NUMBERS: [&str; 20] = [
    "(461168601842738790 * 10 + 3)", "(461168601842738790 * 10 + 2)", "(-461168601842738790 * 10 - 4)",
    "(-461168601842738790 * 10 - 3)", "(115292150460684697 * 20 + 12)", "(230584300921369395 * 10 + 2)",
    "2147483648", "-2147483648", "2147483647", "999999999999999999", "-999999999999999999",
    "000000000000000007", "0", "1", "-1", "2", "-2", "3", "-7", "$1",
];

const OPERATORS: [&str; 11] = ["+", "-", "*", "/", "%", "%", "<", "==", " ", "+", "-"];

fn reckoning(random: &mut Random) -> String {
    let left = *random.pick(&NUMBERS);
    let right = *random.pick(&NUMBERS);
    let operator = *random.pick(&OPERATORS);
    let sign = *random.pick(&["", "", "-", "- -", "!"]);
    match random.below(4) {
        0 => format!("print {sign}({left} {operator} {right});"),
        1 => format!("x = {left}; y = {right}; print {sign}x {operator} y;"),
        2 => format!("x = {left}; x = x {operator} {right}; print x, x / {right}, x % {right};"),
        _ => format!("x = {sign}({left}) \"\"; print x {operator} {right}, x == {left};"),
    }
}

fn field(random: &mut Random) -> String {
    let number = *random.pick(&[
        "0", "1", "2", "999", "1000", "1001", "-1", "NF", "NF + 1", "\"1x\"", "\"\"", "\" 2\"", "-0",
        "1 - 1", "4294967296", "999999999999999999", "x", "$1",
    ]);
    match random.below(5) {
        0 => format!("print $({number}), NF;"),
        1 => format!("$({number}) = \"a b\"; print NF, $0, $2;"),
        2 => format!("$({number}) = NR; print NF; $0 = \"p  q\tr\"; print NF, $3;"),
        3 => format!("x = {number}; $x = $x $(x); print; $1 = $1; print NF, $0;"),
        _ => format!("print $$({number}), -$({number}), !$({number});"),
    }
}

fn ending(random: &mut Random) -> String {
    let number = *random.pick(&[
        "0", "1", "255", "256", "-1", "-0", "\"\"", "\"12ab\"", "\"-1\"", "254 + 1", "NR", "NF * 100",
        "999999999999999999",
    ]);
    match random.below(4) {
        0 => format!("print 1; exit {number}; print 2;"),
        1 => format!("if (NR == 2) exit {number}; print NR;"),
        2 => "print; next; print 2;".to_owned(),
        _ => String::from(*random.pick(&["NR = 1;", "NF = 3;", "x = NR = 2;", "exit;"])),
    }
}

fn comparing(random: &mut Random) -> String {
    const TEXTS: [&str; 18] = [
        "\"007\"", "7", "\" 7 \"", "\"7x\"", "\"\"", "\"0\"", "0", "\"-0\"", "\"-\"",
        "\"1000000000000000000\"", "\"999999999999999999\"", "\"a\"", "\"ab\"", "\"a \"", "$1", "$2", "$0",
        "\"\\t-3\"",
    ];
    let (one, other) = (*random.pick(&TEXTS), *random.pick(&TEXTS));
    format!(
        "x = {one}; y = {other}; print x < y, x <= y, x == y, x != y, x > y, x >= y, !x, !y, x + y, -x, x y, x && y, x || y;"
    )
}

pub fn edges(random: &mut Random) -> Vec<u8> {
    let mut text = String::new();
    let rules = random.between(1, 3);
    for _ in 0..rules {
        text.push_str(*random.pick(&["BEGIN ", "", "", "END ", "NR > 1 "]));
        text.push_str("{ ");
        let statements = random.between(1, 4);
        for _ in 0..statements {
            text.push_str(&match random.below(8) {
                0..=3 => reckoning(random),
                4 | 5 => field(random),
                6 => comparing(random),
                _ => ending(random),
            });
            text.push(' ');
        }
        text.push_str("} ");
    }
    text.into_bytes()
}

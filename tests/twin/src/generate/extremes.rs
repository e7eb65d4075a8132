//! Programs at the edges: deeply nested, holding much, endless, writing much.

use crate::case::{Case, LONGEST_PIECE};
use crate::known::Level;
use crate::meant::{Meant, QUICK};
use crate::random::Random;
use crate::state::ROOM;

/// What is repeated before and behind something, and from which level on it is known.
struct Nest {
    open: &'static str,
    close: &'static str,
    level: Level,
    /// Whether statements stand in it, or expressions.
    of_statements: bool,
}

const fn expr(open: &'static str, close: &'static str, level: Level) -> Nest {
    Nest { open, close, level, of_statements: false }
}

const fn stmt(open: &'static str, close: &'static str, level: Level) -> Nest {
    Nest { open, close, level, of_statements: true }
}

const NESTS: [Nest; 36] = [
    expr("(", ")", Level::Core),
    expr("-", "", Level::Core),
    expr("- -", "", Level::Core),
    expr("!", "", Level::Core),
    expr("!-", "", Level::Core),
    expr("$", "", Level::Core),
    expr("$(", ")", Level::Core),
    expr("x=", "", Level::Core),
    expr("$2=", "", Level::Core),
    expr("1+", "", Level::Core),
    expr("1+(", ")", Level::Core),
    expr("1*(", ")", Level::Core),
    expr("1 ", "", Level::Core),
    expr("\"a\"(", ")", Level::Core),
    expr("1==(", ")", Level::Core),
    expr("1&&(", ")", Level::Core),
    expr("0||", "", Level::Core),
    expr("x=(", ")", Level::Core),
    expr("\"milk\"<(", ")", Level::Core),
    expr("t[", "]", Level::Tables),
    expr("t[1]=", "", Level::Tables),
    expr("(", " in t)", Level::Tables),
    expr("f(", ")", Level::Functions),
    expr("f(1,", ")", Level::Functions),
    expr("(", "~\"1\")", Level::Patterns),
    expr("length(", ")", Level::Everything),
    expr("upper(1 ", ")", Level::Everything),
    expr("substr(", ",1,2)", Level::Everything),
    expr("index(", ",\"1\")", Level::Everything),
    stmt("{", "}", Level::Core),
    stmt("if(1)", "", Level::Core),
    stmt("if(1){", "}", Level::Core),
    stmt("if(0)print 0;else ", "", Level::Core),
    stmt("while(x<1){x=1;", "}", Level::Core),
    stmt("{if(1){print;}}{", "}", Level::Core),
    stmt("for(k in t){", "}", Level::Tables),
];

/// One kind of nest, or a few in turn, up to as many bytes as a program may have.
pub fn deep(random: &mut Random, level: Level) -> Vec<u8> {
    let of_statements = random.once_in(4);
    let kinds: Vec<&Nest> =
        NESTS.iter().filter(|n| n.level <= level && n.of_statements == of_statements).collect();
    let few: Vec<&Nest> = (0..random.between(1, 3)).map(|_| *random.pick(&kinds)).collect();
    let mut before = String::from("function f(a, b) { return a; } ");
    if level < Level::Functions {
        before.clear();
    }
    before.push_str(*random.pick(&["BEGIN {", "{", "END { x = 1;"]));
    if level >= Level::Tables {
        before.push_str(" t[1] = 1;");
    }
    let (inner, behind) = if of_statements { ("print x, 1;", "}") } else { ("1", "; print x; }") };
    if !of_statements {
        before.push_str(*random.pick(&[" print ", " x = ", " "]));
    }
    let room = if random.once_in(2) { LONGEST_PIECE } else { random.between(100, LONGEST_PIECE) };
    let mut left = room - before.len() - inner.len() - behind.len();
    let mut closes = Vec::new();
    loop {
        let nest = *random.pick(&few);
        match left.checked_sub(nest.open.len() + nest.close.len()) {
            Some(less) => left = less,
            None => break,
        }
        before.push_str(nest.open);
        closes.push(nest.close);
    }
    if random.once_in(12) {
        // One too few.
        closes.pop();
    }
    before.push_str(inner);
    before.extend(closes.iter().rev().copied());
    before.push_str(behind);
    before.into_bytes()
}

/// Texts grown by doubling up to about the longest there can be.
pub fn long_texts(random: &mut Random, level: Level) -> Vec<u8> {
    let times = random.between(14, 17);
    let grown = format!("while (i < {times}) {{ y = y x; if (i < 15) x = x x; i = i + 1; }}");
    let shown = match random.below(6) {
        0 if level >= Level::Everything => "print length(y), length(x);",
        1 if level >= Level::Everything => "print swap(\"a\", \"bb\", x); print swap(\"a*\", \"c\", y), y;",
        2 if level >= Level::Everything => "print split(y, t, \"a\"), length(upper(y)), index(y, \"b\");",
        3 if level >= Level::Patterns => "print y ~ \"b\", y ~ \"^a*$\", y !~ \"a\";",
        4 => "$1 = y; print NF; $3 = x; print NF; $4 = x; print NF;",
        _ => "print y == x, y < x; z = y \"b\"; print 2;",
    };
    let rest = *random.pick(&["", "print y;", "print x y;", "print x, y, x, y;", "$0 = y; $2 = 1;"]);
    format!("BEGIN {{ x = \"a\"; {grown} print 1; {shown} {rest} }} END {{ print \"end\"; }}").into_bytes()
}

const ENDLESS: &[(Level, &str)] = &[
    (Level::Core, "BEGIN { while (1) { } }"),
    (Level::Core, "BEGIN { print 1; while (1) x = x + 1; }"),
    (Level::Core, "{ while (1) print NR, $1; }"),
    (Level::Core, "{ print; if (NR > 1) while (\"0\") { n = n + 1; if (n % 100 == 0) print n; } }"),
    (Level::Core, "END { while (!x) { print NR; } }"),
    (Level::Core, "BEGIN { while (1) { x = x \"a\"; } }"),
    (Level::Core, "BEGIN { x = 1; while (1) { x = x * 2; print x; } }"),
    (Level::Core, "BEGIN { while (1) { i = i + 1; $(i % 1000 + 1) = i; if (i % 500 == 1) print NF; } }"),
    (Level::Tables, "BEGIN { while (1) { i = i + 1; t[i] = i; if (i % 100 == 0) print i; } }"),
    (Level::Tables, "BEGIN { t[1] = 1; while (1) for (k in t) { delete t[k]; t[k + 1] = 1; print k; } }"),
    (Level::Functions, "function f(a) { return f(a + 1); } BEGIN { print 1; print f(1); }"),
    (Level::Functions, "function f(a) { print a; f(a + 1); } { f(NR); }"),
    (Level::Functions, "function f(a) { while (1) a = a + 1; } BEGIN { f(); }"),
    (Level::Functions, "function f(n) { if (n < 1) return 0; return f(n - 1) + 1; } BEGIN { while (1) { i = i + 500; print f(i); } }"),
    (Level::Everything, "BEGIN { x = \"a\"; while (1) { print swap(\"a\", \"aa\", x), length(x); } }"),
];

/// Most of these never end; the rest end when something is too much.
pub fn endless(random: &mut Random, level: Level) -> Vec<u8> {
    let known: Vec<&str> = ENDLESS.iter().filter(|(l, _)| *l <= level).map(|(_, text)| *text).collect();
    random.pick(&known).as_bytes().to_vec()
}

/// Rows longer than can be written at once, and many rows.
pub fn long_prints(random: &mut Random) -> Vec<u8> {
    let doublings = random.between(6, 12);
    let rows = random.below(400) + 1;
    let body = match random.below(4) {
        0 => format!("while (j < {rows}) {{ j = j + 1; print j; }}"),
        1 => "print x, x x, 1; print x; print \"\"; print x \"-\" x;".to_owned(),
        2 => format!("while (j < {}) {{ j = j + 1; print x, j; }}", rows / 10 + 1),
        _ => format!("while (j < {rows}) {{ j = j + 1; print \"\"; if (j % 7 == 0) print x; }}"),
    };
    let wrong = *random.pick(&["", "", "print 1 / 0;", "exit 7;", "NR = 1;"]);
    let when = *random.pick(&["BEGIN", "END", ""]);
    format!("BEGIN {{ x = \"milk\"; while (i < {doublings}) {{ x = x x; i = i + 1; }} }} {when} {{ {body} {wrong} }}")
        .into_bytes()
}

/// A program of exactly or nearly as many bytes as it may have.
pub fn near_longest(random: &mut Random, program: Vec<u8>) -> Vec<u8> {
    let room = LONGEST_PIECE - random.below(3);
    let mut text = program;
    let filler: &[u8] = *random.pick(&[
        &b"\n# and so on"[..],
        b"    ",
        b" x { print; }",
        b"END{print NR;}",
        b"BEGIN { n = n + 1; }",
    ]);
    while text.len() + filler.len() <= room {
        text.extend_from_slice(filler);
    }
    text.resize(room.max(text.len()), b' ');
    text
}

/// What fills the room up to where a line of blanks can make up the rest.
fn filling(random: &mut Random, level: Level) -> String {
    let texts = |copies: usize| {
        let names = ["a", "b", "c", "d", "e", "g", "h"];
        let sets: Vec<String> = names[..copies].iter().map(|n| format!("{n} = x;")).collect();
        format!(
            "BEGIN {{ x = \"0123456789abcdef\"; while (i < 11) {{ x = x x; i = i + 1; }} {} }}",
            sets.join(" ")
        )
    };
    match random.below(4) {
        0 if level >= Level::Tables => {
            let count = random.between(3200, 4200);
            format!("BEGIN {{ while (i < {count}) {{ t[i] = \"0123456789\"; i = i + 1; }} print \"full\"; }}")
        }
        1 if level >= Level::Functions => {
            let depth = random.between(900, 1500);
            format!("function f(n) {{ if (n < 1) return 0; return f(n - 1) + 1; }} {{ print f({depth}); }}")
        }
        2 => format!("{} {{ $1000 = 1; print NF; }}", texts(5)),
        _ => texts(random.between(5, 6)),
    }
}

/// A case in which exactly as much is to be held as there is room for, or a little less or
/// more: the program fills most of it, and a line of blanks, of which each counts as one or
/// a few, the rest.
pub fn at_the_brim(random: &mut Random, level: Level) -> Case {
    let filling = filling(random, level);
    let last = *random.pick(&[
        "{ print NR; }", "{ print NF, NR; y = $1; }", "END { print x == a; }", "{ y = $0; print NR; }",
    ]);
    let program = format!("{filling} {last} END {{ print \"end\"; }}").into_bytes();
    let with_blanks = |count: usize| {
        let mut list = vec![b' '; count];
        list.extend_from_slice(b"\nlast 1\n");
        Case { program: program.clone(), list, cuts: Vec::new() }
    };
    let heavy = |count: usize| Meant::of(&with_blanks(count), Level::Everything, QUICK).heavy as i64;
    let over = *random.pick(&[-1, 0, 0, 1, 1, 2, 50, 3000]);
    let least = heavy(100);
    let slope = (heavy(1100) - least) / 1000;
    let missing = ROOM as i64 + over - least;
    let count = if slope > 0 { 100 + missing / slope } else { 100 };
    with_blanks(count.clamp(0, 65_535) as usize)
}

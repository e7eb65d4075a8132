//! Small programs such as clerks write, with changing details.

use crate::known::Level;
use crate::random::Random;

// `@n` is a small number, `@f` a field, `@c` a comparison, `@t` a text, `@p` a pattern.

const CORE: &[&str] = &[
    "{ n = n + $@f; } END { print n, NR, n / (NR + 1), -n % @n; }",
    "$@f @c @n { print $1, $@f; next; } { c = c + 1; } END { print \"others\", c; }",
    "{ if ($@f > most) { most = $@f; who = $1; } } END { print who, most; }",
    "NR == @n { print; exit @n; } { print NR \": \" $0; }",
    "{ $@f = \"\"; print; }",
    "{ $@f = $@f * @n; print NF, $0; }",
    "BEGIN { print \"farm can weight\"; } $@f != last { print @t, $1; last = $@f; } END { print NR; }",
    "{ i = NF; row = \"\"; while (i > 0) { row = row $i \" \"; i = i - 1; } print row; }",
    "{ print $@f @c $@f, $@f @c @n, $@f @c @t; }",
    "{ sum = sum + $3; fat = fat + $3 * $4; } END { if (sum) print fat / sum, fat % sum; else print \"none\"; }",
    "!$@f { print NR, \"empty\"; } $0 == \"\" { e = e + 1; } END { print e + 0; }",
    "{ $0 = $2 \" \" $1; print NF, $1; $(NF + @n) = @t; print; }",
    "BEGIN { while (i < @n) { j = 0; while (j < i) { print i, j; j = j + 1; } i = i + 1; } }",
    "{ a = b; b = $1; } a == b { print \"again\", a; } $@f < -@n || $@f > @n && NF { print $@f; }",
    "{ print (NR - @n) / @n, (NR - @n) % @n, -(NR - @n) % -@n; }",
    "{ print 100 / ($@f - @n); }",
    "{ x = x $@f; print x; } END { print x x; exit NR % @n; }",
];

const TABLES: &[&str] = &[
    "{ w[$1] = w[$1] + $3; } END { for (k in w) print k, w[k]; }",
    "{ t[$@f] = t[$@f] $NF; } END { for (k in t) print k, t[k]; }",
    "!($1 in seen) { seen[$1] = NR; print $1; } END { for (k in seen) { print k, seen[k]; delete seen[k]; } print \"x\" in seen; }",
    "{ c[$@f % @n] = c[$@f % @n] + 1; } END { for (k in c) if (c[k] @c @n) print k, c[k]; }",
    "{ n = n + 1; line[n] = $0; } END { while (n > 0) { print line[n]; n = n - 1; } }",
    "{ t[$1 \"/\" $2] = $3; } END { for (k in t) { for (j in t) if (j != k) c = c + 1; print k, c; } }",
    "{ delete t[$@f]; t[$1] = NR; } END { for (k in t) { delete t[\"a\"]; t[k \"!\"] = 1; print k; } for (k in t) print k; }",
];

const FUNCTIONS: &[&str] = &[
    "function f(a) { if (a < 2) return 1; return a * f(a - 1); } { print f(NR), f(@n); }",
    "function most(a, b) { if (a > b) return a; return b; } { m = most(m, $@f); } END { print m; }",
    "function put(k, v) { t[k] = t[k] v; n = n + 1; return n; } { print put($1, $2), n; } END { for (k in t) print k, t[k]; }",
    "function skip(a) { if (a @c @n) next; } { skip($@f); print $1; } END { skip(@n); print \"end\"; }",
    "function g(a, b) { b = a; $1 = b; return; } { print g(@n) \"|\" b, $0; }",
    "function fib(n) { if (n < 2) return n; return fib(n - 1) + fib(n - 2); } BEGIN { print fib(@n); }",
    "function own(NR, x) { NR = NR + 1; x = NR NR; return x; } { print own(@n), NR, x; }",
    "function e(n) { if (n < 1) exit @n; return e(n - 1); } { print e(NR - @n); }",
];

const PATTERNS: &[&str] = &[
    "$1 ~ @p { print; next; } { print \"else\", $1; }",
    "$@f !~ @p { n = n + 1; } END { print n, NR - n; }",
    "$0 ~ @p && $1 !~ @p { print NR, $0; }",
    "{ if ($@f ~ \"^[0-9]+$\") s = s + $@f; else o = o \" \" $@f; } END { print s o; }",
    "{ print $0 ~ @p, $1 ~ @p, ($2 ~ @p) + ($1 !~ @p); }",
];

const PARTS: &[&str] = &[
    "{ print length($0), length($@f), upper($1); }",
    "{ i = index($0, @t); print i, substr($0, i, @n), substr($0, i - @n, @n); }",
    "{ k = split($0, t, @p); i = 1; while (i <= k) { print i, t[i]; i = i + 1; } }",
    "{ n = n + swap(@p, @t, $0); print NF, $0; } END { print n; }",
    "{ print swap(@p, \"<\" NR \">\", $@f), $0; x = $0; print swap(@p, \"\", x), x; }",
    "{ t[$1] = $0; print swap(@p, @t, t[$1]), t[$1], substr(upper(t[$1]), -@n, @n + @n); }",
    "{ k = split($2, t, \"\"); print k, t[1]; k = split(\" \" $0 \" \", t, \"[ \\t]+\"); print k, t[1] \"|\" t[k] \"|\"; }",
];

/// One of them, as a program's text.
pub fn report(random: &mut Random, level: Level) -> Vec<u8> {
    let mut choices: Vec<&str> = Vec::new();
    let all = [
        (Level::Core, CORE),
        (Level::Tables, TABLES),
        (Level::Functions, FUNCTIONS),
        (Level::Patterns, PATTERNS),
        (Level::Everything, PARTS),
    ];
    for (needed, reports) in all {
        if level >= needed {
            choices.extend_from_slice(reports);
        }
        if level == needed {
            // What a level adds comes more often.
            choices.extend_from_slice(reports);
        }
    }
    let template = *random.pick(&choices);
    filled(random, template)
}

fn filled(random: &mut Random, template: &str) -> Vec<u8> {
    let mut text = Vec::new();
    let mut bytes = template.bytes();
    while let Some(byte) = bytes.next() {
        if byte != b'@' {
            text.push(byte);
            continue;
        }
        match bytes.next() {
            Some(b'n') => text.extend_from_slice(random.between(1, 9).to_string().as_bytes()),
            Some(b'f') => text.extend_from_slice(random.pick(&["1", "2", "3", "4", "5", "NF"]).as_bytes()),
            Some(b'c') => {
                text.extend_from_slice(random.pick(&["<", "<=", "==", "!=", ">", ">="]).as_bytes());
            }
            Some(b't') => {
                let literal = super::expressions::literal(random);
                text.extend(super::layout::quote(random, &literal));
            }
            _ => {
                let pattern = super::patterns::pattern_text(random);
                text.extend(super::layout::quote(random, &pattern));
            }
        }
    }
    text
}

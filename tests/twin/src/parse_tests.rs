//! Tests of reading: trees are shown with all their parentheses.

use crate::parse::parse;
use crate::syntax::{Expr, Names, Stmt, When};

fn name(names: &Names, name: crate::syntax::Name) -> String {
    String::from_utf8_lossy(&names.list[name.0]).into_owned()
}

fn show(names: &Names, expr: &Expr) -> String {
    let sub = |expr: &Expr| show(names, expr);
    match expr {
        Expr::Number(n) => n.to_string(),
        Expr::Text(text) => format!("'{}'", String::from_utf8_lossy(text)),
        Expr::Variable(x) => name(names, *x),
        Expr::Item(t, key) => format!("{}[{}]", name(names, *t), sub(key)),
        Expr::Field(n) => format!("${}", sub(n)),
        Expr::Unary(op, a) => format!("({op:?} {})", sub(a)),
        Expr::Binary(op, a, b) => format!("({op:?} {} {})", sub(a), sub(b)),
        Expr::Match(a, _) => format!("(Match {})", sub(a)),
        Expr::InTable(a, t) => format!("(In {} {})", sub(a), name(names, *t)),
        Expr::Assign(a, b) => format!("(Set {} {})", sub(a), sub(b)),
        Expr::Call(f, args) => {
            let args: Vec<String> = args.iter().map(sub).collect();
            format!("{}({})", name(names, *f), args.join(","))
        }
        Expr::Substr(three) => format!("(Substr {} {} {})", sub(&three[0]), sub(&three[1]), sub(&three[2])),
        Expr::Split(a, t, _) => format!("(Split {} {})", sub(a), name(names, *t)),
        Expr::Swap(_, a, b) => format!("(Swap {} {})", sub(a), sub(b)),
    }
}

/// The expression before a rule, shown; or "none".
fn read(text: &str) -> String {
    match parse(format!("{text} {{ }}").as_bytes()) {
        None => "none".into(),
        Some(program) => match &program.rules[..] {
            [rule] => match &rule.when {
                When::If(test) => show(&program.names, test),
                other => format!("{other:?}"),
            },
            rules => format!("{} rules", rules.len()),
        },
    }
}

fn is_program(text: &str) -> bool {
    parse(text.as_bytes()).is_some()
}

#[test]
fn what_binds_closest() {
    assert_eq!(read("a + b * c"), "(Add a (Multiply b c))");
    assert_eq!(read("a - b - c"), "(Subtract (Subtract a b) c)");
    assert_eq!(read("-a * b"), "(Multiply (Negate a) b)");
    assert_eq!(read("!a + b"), "(Add (Not a) b)");
    assert_eq!(read("a b + c"), "(Join a (Add b c))");
    assert_eq!(read("a b < c d"), "(Less (Join a b) (Join c d))");
    assert_eq!(read("a < b ~ \"p\""), "(Match (Less a b))");
    assert_eq!(read("a !~ \"p\" && b || c"), "(Or (And (Not (Match a)) b) c)");
    assert_eq!(read("a in t && 1"), "(And (In a t) 1)");
    assert_eq!(read("a = b = c || d"), "(Set a (Set b (Or c d)))");
    assert_eq!(read("a - -b"), "(Subtract a (Negate b))");
    assert_eq!(read("a % b / c"), "(Divide (Remainder a b) c)");
}

#[test]
fn what_can_be_joined() {
    assert_eq!(read("a -1"), "(Subtract a 1)");
    assert_eq!(read("a !b"), "(Join a (Not b))");
    assert_eq!(read("a $1"), "(Join a $1)");
    assert_eq!(read("1 (a)"), "(Join 1 a)");
    assert_eq!(read("a (b)"), "a(b)");
    assert_eq!(read("a (b) (c)"), "(Join a(b) c)");
    assert_eq!(read("$1 (b)"), "(Join $1 b)");
    assert_eq!(read("1 length(a)"), "(Join 1 (Length a))");
    assert_eq!(read("1 2 \"3\""), "(Join (Join 1 2) '3')");
    assert_eq!(read("a !b + c"), "(Join a (Add (Not b) c))");
}

#[test]
fn fields() {
    assert_eq!(read("$NF - 1"), "(Subtract $NF 1)");
    assert_eq!(read("$-1"), "$(Negate 1)");
    assert_eq!(read("$!a"), "$(Not a)");
    assert_eq!(read("$$a"), "$$a");
    assert_eq!(read("$t[1]"), "$t[1]");
    assert_eq!(read("-$a"), "(Negate $a)");
    assert_eq!(read("$f(1)"), "$f(1)");
}

#[test]
fn what_can_be_set() {
    assert_eq!(read("(a) = 1"), "(Set a 1)");
    assert_eq!(read("((t[1])) = 1"), "(Set t[1] 1)");
    assert_eq!(read("$a = 1"), "(Set $a 1)");
    assert_eq!(read("$a = b = 2"), "(Set $a (Set b 2))");
    for text in [
        "1 = 2", "-a = 1", "!a = 1", "a b = 1", "a || b = 1", "f() = 1", "a in t = 1", "a = b + c = 2",
        "a < b = 1",
    ] {
        assert_eq!(read(text), "none", "{text}");
    }
    assert_eq!(read("swap(\"a\", b, (c))"), "(Swap b c)");
    assert_eq!(read("swap(\"a\", b, c = d)"), "none");
    assert_eq!(read("swap(\"a\", b, \"c\")"), "none");
    assert_eq!(read("swap(\"a\", b = 1, $c)"), "(Swap (Set b 1) $c)");
}

#[test]
fn once_only() {
    for text in [
        "a < b < c", "a == b != c", "a ~ \"b\" ~ \"c\"", "a in b in c", "a ~ \"b\" in c", "a ~ b",
        "a ~ \"*\"", "a in 1", "a in (b)",
    ] {
        assert_eq!(read(text), "none", "{text}");
    }
    assert_eq!(read("(a < b) < c"), "(Less (Less a b) c)");
    assert_eq!(read("(a in b) in c"), "(In (In a b) c)");
}

#[test]
fn calls_and_built_in_functions() {
    assert_eq!(read("f()"), "f()");
    assert_eq!(read("f (a, b = 2)"), "f(a,(Set b 2))");
    assert_eq!(read("index(a, b)"), "(Index a b)");
    assert_eq!(read("substr(a, 1, 2)"), "(Substr a 1 2)");
    assert_eq!(read("split(a, t, \",\")"), "(Split a t)");
    for text in [
        "f(", "f(,)", "f(a,)", "length", "length()", "length a", "upper(a, b)", "index(a)", "substr(a, b)",
        "split(a, t)", "split(a, t[1], \"b\")", "split(a, t, b)", "(a, b)", "t[]", "t[a, b]", "if", "print",
        "in",
    ] {
        assert_eq!(read(text), "none", "{text}");
    }
}

#[test]
fn statements() {
    for text in [
        "{ }", "{ { } { 1; } }", "{ if (a) { } else { } }", "{ if (a) if (b) 1; else 2; }",
        "{ while (1) { } }", "{ for (k in t) print k; }", "{ print; print 1, 2; print (1) (2); }",
        "{ next; exit; exit 1; return; return 2; delete t[1]; }", "", "# nothing", "BEGIN{}END{}{}",
        "function f() { } function f(a, b) { }", "a { } b { }", "length(1) { }",
        "function\nf\n(\na\n)\n{\n}",
    ] {
        assert!(is_program(text), "{text}");
    }
    for text in [
        "{ ; }", "{ 1 }", "{ 1;; }", "{", "}", "{ if a 1; }", "{ if (a) }", "{ else 1; }",
        "{ while () { } }", "{ for (k in t[1]) { } }", "{ for (1 in t) { } }", "{ print 1,; }",
        "{ print (1, 2); }", "{ next }", "{ next 1; }", "{ delete t; }", "{ delete t[1] }", "BEGIN",
        "BEGIN 1 { }", "END", "a", "function f { }", "function f(a,) { }", "function f(1) { }",
        "function length() { }", "function f(in) { }", "function f() 1;", "{ BEGIN { } }",
        "{ function f() { } }", "{ x = function; }", "{ } ;", "{ }; { }",
    ] {
        assert!(!is_program(text), "{text}");
    }
}

#[test]
fn else_belongs_to_the_nearest_if() {
    let program = parse(b"{ if (a) if (b) 1; else 2; }").expect("a program");
    match &program.rules[0].body[..] {
        [Stmt::If(_, then, otherwise)] => {
            assert!(otherwise.is_empty());
            assert!(matches!(&then[..], [Stmt::If(_, _, inner)] if inner.len() == 1));
        }
        other => panic!("{other:?}"),
    }
}

#[test]
fn blocks_are_nothing_of_their_own() {
    let program = parse(b"{ { 1; { 2; } } { } 3; }").expect("a program");
    assert_eq!(program.rules[0].body.len(), 3);
}

/// As many bytes as a program may have, all of them opening something.
#[test]
fn deep_programs_are_read_on_a_big_stack() {
    let read = |open: &str, inner: &str, close: &str, behind: &str| {
        let count = 4000 / (open.len() + close.len());
        let text = format!("{{ {}{inner}{}{behind} }}", open.repeat(count), close.repeat(count));
        let thread = std::thread::Builder::new().stack_size(256 << 20);
        thread.spawn(move || is_program(&text)).expect("a thread").join().expect("it is read")
    };
    assert!(read("(", "1", ")", ";"));
    assert!(!read("(", "1", ")", ");"));
    assert!(read("-", "1", "", ";"));
    assert!(read("x=", "1", "", ";"));
    assert!(read("t[", "1", "]", ";"));
    assert!(read("{", "", "}", ""));
    assert!(read("if(1)", "next;", "", ""));
    assert!(read("while(1){", "", "}", ""));
}

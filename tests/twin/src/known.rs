//! How much of the language is known, by levels, and whether a program keeps to one.

use crate::syntax::{BinaryOp, Expr, Program, Stmt, UnaryOp, When};

#[derive(Clone, Copy, Debug, PartialEq, Eq, PartialOrd, Ord)]
pub enum Level {
    /// Every text is refused at once.
    Nothing,
    /// No tables, functions, patterns or parts of texts.
    Core,
    Tables,
    Functions,
    Patterns,
    Everything,
}

impl Level {
    pub fn named(name: &str) -> Option<Level> {
        Some(match name {
            "nothing" => Level::Nothing,
            "core" => Level::Core,
            "tables" => Level::Tables,
            "functions" => Level::Functions,
            "patterns" => Level::Patterns,
            "everything" | "parts" => Level::Everything,
            _ => return None,
        })
    }

    pub fn knows(self, program: &Program) -> bool {
        program_level(program) <= self
    }
}

/// The least level that knows the program.
pub fn program_level(program: &Program) -> Level {
    let functions = if program.functions.is_empty() { Level::Core } else { Level::Functions };
    let bodies = program.functions.iter().map(|function| body_level(&function.body));
    let rules = program.rules.iter().map(|rule| match &rule.when {
        When::If(test) => expr_level(test).max(body_level(&rule.body)),
        _ => body_level(&rule.body),
    });
    bodies.chain(rules).fold(functions, Level::max)
}

fn body_level(body: &[Stmt]) -> Level {
    body.iter().map(stmt_level).fold(Level::Core, Level::max)
}

fn stmt_level(stmt: &Stmt) -> Level {
    match stmt {
        Stmt::Expr(expr) | Stmt::Exit(expr) => expr_level(expr),
        Stmt::Print(values) => exprs_level(values),
        Stmt::If(condition, then, otherwise) => {
            expr_level(condition).max(body_level(then)).max(body_level(otherwise))
        }
        Stmt::While(condition, body) => expr_level(condition).max(body_level(body)),
        Stmt::ForKey(_, _, body) => Level::Tables.max(body_level(body)),
        Stmt::Next => Level::Core,
        Stmt::Delete(_, key) => Level::Tables.max(expr_level(key)),
        Stmt::Return(expr) => Level::Functions.max(expr_level(expr)),
    }
}

fn exprs_level(exprs: &[Expr]) -> Level {
    exprs.iter().map(expr_level).fold(Level::Core, Level::max)
}

fn expr_level(expr: &Expr) -> Level {
    match expr {
        Expr::Number(_) | Expr::Text(_) | Expr::Variable(_) => Level::Core,
        Expr::Field(inner) => expr_level(inner),
        Expr::Item(_, inner) | Expr::InTable(inner, _) => Level::Tables.max(expr_level(inner)),
        Expr::Unary(UnaryOp::Not | UnaryOp::Negate, operand) => expr_level(operand),
        Expr::Binary(op, left, right) if *op != BinaryOp::Index => expr_level(left).max(expr_level(right)),
        Expr::Assign(place, value) => expr_level(place).max(expr_level(value)),
        Expr::Call(_, args) => Level::Functions.max(exprs_level(args)),
        Expr::Match(text, _) => Level::Patterns.max(expr_level(text)),
        Expr::Unary(..) | Expr::Binary(..) | Expr::Substr(_) | Expr::Split(..) | Expr::Swap(..) => {
            Level::Everything
        }
    }
}

#[cfg(test)]
mod tests {
    use super::*;
    use crate::parse::parse;

    fn level(text: &str) -> Level {
        program_level(&parse(text.as_bytes()).expect("a program"))
    }

    #[test]
    fn levels_of_programs() {
        assert_eq!(level(""), Level::Core);
        assert_eq!(level("BEGIN { x = $(1 + NF) \"a\"; exit !x; }"), Level::Core);
        assert_eq!(level("{ print t[1]; }"), Level::Tables);
        assert_eq!(level("1 in t { }"), Level::Tables);
        assert_eq!(level("{ for (k in t) { } }"), Level::Tables);
        assert_eq!(level("{ delete t[1]; }"), Level::Tables);
        assert_eq!(level("function f() { }"), Level::Functions);
        assert_eq!(level("{ return; }"), Level::Functions);
        assert_eq!(level("{ f(); }"), Level::Functions);
        assert_eq!(level("$1 !~ \"a\" { }"), Level::Patterns);
        assert_eq!(level("{ print length(1); }"), Level::Everything);
        assert_eq!(level("{ print index(1, 2); }"), Level::Everything);
        assert_eq!(level("{ x = -upper(1) * 2; }"), Level::Everything);
        assert_eq!(level("{ $swap(\"a\", 1, x) = 2; }"), Level::Everything);
    }
}

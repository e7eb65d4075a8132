//! Flaws of machines: some in when they write and ask, some in what they take a program
//! to mean. The latter are made by changing the program before it is run.

use std::rc::Rc;

use crate::matcher::Matcher;
use crate::pattern::Pattern;
use crate::syntax::{BinaryOp, Expr, Program, Stmt, When};

#[derive(Clone, Copy, Debug, PartialEq, Eq)]
pub enum Flaw {
    RefusesEverything,
    HoardsOutput,
    ReadsAllFirst,
    DropsLastLine,
    EndsLinesAtCuts,
    WritesLongRows,
    WritesAfterRefusal,
    ForgetsBeforeRefusal,
    NoRoomTooEarly,
    NoRoomByAByte,
    NoRoomBeforeWriting,
    NeverAsks,
    AsksAfterExit,
    AddsToExit,
    EndsEndless,
    ComparesAsTexts,
    FloorsRemainders,
    TakesFirstAlternative,
    WorksOutBothSides,
    ForgetsFieldsBefore,
}

pub const ALL: [Flaw; 20] = [
    Flaw::RefusesEverything,
    Flaw::HoardsOutput,
    Flaw::ReadsAllFirst,
    Flaw::DropsLastLine,
    Flaw::EndsLinesAtCuts,
    Flaw::WritesLongRows,
    Flaw::WritesAfterRefusal,
    Flaw::ForgetsBeforeRefusal,
    Flaw::NoRoomTooEarly,
    Flaw::NoRoomByAByte,
    Flaw::NoRoomBeforeWriting,
    Flaw::NeverAsks,
    Flaw::AsksAfterExit,
    Flaw::AddsToExit,
    Flaw::EndsEndless,
    Flaw::ComparesAsTexts,
    Flaw::FloorsRemainders,
    Flaw::TakesFirstAlternative,
    Flaw::WorksOutBothSides,
    Flaw::ForgetsFieldsBefore,
];

/// The program as a machine with this flaw takes it.
pub fn changed_program(mut program: Program, flaw: Option<Flaw>) -> Program {
    let Some(flaw) = flaw else { return program };
    for rule in &mut program.rules {
        if let When::If(test) = &mut rule.when {
            change_expr(flaw, test);
        }
        change_body(flaw, &mut rule.body);
    }
    for function in &mut program.functions {
        change_body(flaw, &mut function.body);
    }
    program
}

fn change_body(flaw: Flaw, body: &mut [Stmt]) {
    for stmt in body {
        match stmt {
            Stmt::Expr(expr) | Stmt::Exit(expr) | Stmt::Return(expr) | Stmt::Delete(_, expr) => {
                change_expr(flaw, expr);
            }
            Stmt::Print(values) => values.iter_mut().for_each(|value| change_expr(flaw, value)),
            Stmt::If(condition, then, otherwise) => {
                change_expr(flaw, condition);
                change_body(flaw, then);
                change_body(flaw, otherwise);
            }
            Stmt::While(condition, body) => {
                change_expr(flaw, condition);
                change_body(flaw, body);
            }
            Stmt::ForKey(_, _, body) => change_body(flaw, body),
            Stmt::Next => {}
        }
    }
}

fn change_expr(flaw: Flaw, expr: &mut Expr) {
    match expr {
        Expr::Number(_) | Expr::Text(_) | Expr::Variable(_) => {}
        Expr::Item(_, inner) | Expr::Field(inner) | Expr::Unary(_, inner) | Expr::InTable(inner, _) => {
            change_expr(flaw, inner);
        }
        Expr::Binary(_, one, other) | Expr::Assign(one, other) => {
            change_expr(flaw, one);
            change_expr(flaw, other);
        }
        Expr::Match(inner, matcher) | Expr::Split(inner, _, matcher) => {
            change_expr(flaw, inner);
            change_matcher(flaw, matcher);
        }
        Expr::Call(_, args) => args.iter_mut().for_each(|arg| change_expr(flaw, arg)),
        Expr::Substr(operands) => operands.iter_mut().for_each(|operand| change_expr(flaw, operand)),
        Expr::Swap(matcher, new, place) => {
            change_expr(flaw, new);
            change_expr(flaw, place);
            change_matcher(flaw, matcher);
        }
    }
    *expr = changed(flaw, std::mem::replace(expr, Expr::Number(0)));
}

fn binary(op: BinaryOp, left: Expr, right: Expr) -> Expr {
    Expr::Binary(op, Box::new(left), Box::new(right))
}

/// One expression whose parts are changed already.
fn changed(flaw: Flaw, expr: Expr) -> Expr {
    use BinaryOp::{Add, And, AtLeast, AtMost, Equal, Greater, Join, Less, NotEqual, Or, Remainder};
    match (flaw, expr) {
        (Flaw::ComparesAsTexts, Expr::Binary(op, left, right))
            if matches!(op, Equal | NotEqual | Less | AtMost | Greater | AtLeast) =>
        {
            // With a letter before them they don't look like numbers, and keep their order.
            let letter = || Expr::Text(Rc::from(&b"x"[..]));
            binary(op, binary(Join, letter(), *left), binary(Join, letter(), *right))
        }
        (Flaw::FloorsRemainders, Expr::Binary(Remainder, left, right)) => {
            let first = binary(Remainder, *left, (*right).clone());
            binary(Remainder, binary(Add, first, (*right).clone()), *right)
        }
        (Flaw::WorksOutBothSides, Expr::Binary(op @ (And | Or), left, right)) => {
            // Joined texts hold if one has bytes; what matters is that both are worked out.
            let both = binary(Join, (*left).clone(), (*right).clone());
            let first = binary(Join, both, binary(op, *left, *right));
            Expr::Binary(And, Box::new(first.clone()), Box::new(first))
        }
        (Flaw::ForgetsFieldsBefore, Expr::Assign(place, value)) => match *place {
            Expr::Field(number) => {
                let next = binary(Add, *number, Expr::Number(1));
                Expr::Assign(Box::new(Expr::Field(Box::new(next))), value)
            }
            place => Expr::Assign(Box::new(place), value),
        },
        (_, expr) => expr,
    }
}

fn change_matcher(flaw: Flaw, matcher: &mut Rc<Matcher>) {
    if flaw == Flaw::TakesFirstAlternative {
        *matcher = Rc::new(Matcher::new(first_alternative(&matcher.pattern)));
    }
}

fn first_alternative(pattern: &Pattern) -> Pattern {
    let inner = |pattern: &Rc<Pattern>| Rc::new(first_alternative(pattern));
    match pattern {
        Pattern::Either(first, _) => first_alternative(first),
        Pattern::Sequence(parts) => Pattern::Sequence(parts.iter().map(first_alternative).collect()),
        Pattern::Star(part) => Pattern::Star(inner(part)),
        Pattern::Plus(part) => Pattern::Plus(inner(part)),
        Pattern::Optional(part) => Pattern::Optional(inner(part)),
        Pattern::Byte(_) | Pattern::TextStart | Pattern::TextEnd => pattern.clone(),
    }
}

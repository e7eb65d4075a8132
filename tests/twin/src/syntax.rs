//! The syntax tree of a program.

use std::rc::Rc;

use crate::matcher::Matcher;
use crate::value::Bytes;

/// A name of the program, by its place in the program's list of names.
#[derive(Clone, Copy, Debug, PartialEq, Eq)]
pub struct Name(pub usize);

/// These two are in every program's list, at fixed places.
pub const NR: Name = Name(0);
pub const NF: Name = Name(1);

#[derive(Debug)]
pub struct Names {
    pub list: Vec<Bytes>,
}

impl Names {
    pub fn new() -> Names {
        Names { list: vec![Rc::from(&b"NR"[..]), Rc::from(&b"NF"[..])] }
    }

    /// The place of a name, which gets one if it has none yet.
    pub fn place_of(&mut self, name: &[u8]) -> Name {
        match self.list.iter().position(|known| **known == *name) {
            Some(place) => Name(place),
            None => {
                self.list.push(Rc::from(name));
                Name(self.list.len() - 1)
            }
        }
    }
}

#[derive(Clone, Copy, Debug, PartialEq, Eq)]
pub enum UnaryOp {
    Not,
    Negate,
    Length,
    Upper,
}

#[derive(Clone, Copy, Debug, PartialEq, Eq)]
pub enum BinaryOp {
    Or,
    And,
    Equal,
    NotEqual,
    Less,
    AtMost,
    Greater,
    AtLeast,
    Add,
    Subtract,
    Multiply,
    Divide,
    Remainder,
    Join,
    Index,
}

#[derive(Clone, Debug)]
pub enum Expr {
    Number(i64),
    Text(Bytes),
    Variable(Name),
    Item(Name, Box<Expr>),
    Field(Box<Expr>),
    Unary(UnaryOp, Box<Expr>),
    Binary(BinaryOp, Box<Expr>, Box<Expr>),
    Match(Box<Expr>, Rc<Matcher>),
    InTable(Box<Expr>, Name),
    /// The place that is set, and the value.
    Assign(Box<Expr>, Box<Expr>),
    Call(Name, Vec<Expr>),
    Substr(Box<[Expr; 3]>),
    Split(Box<Expr>, Name, Rc<Matcher>),
    /// What is looked for, what it is replaced by, and the place in which that is done.
    Swap(Rc<Matcher>, Box<Expr>, Box<Expr>),
}

impl Expr {
    /// A name, an item of a table or a field.
    pub fn is_settable(&self) -> bool {
        matches!(self, Expr::Variable(_) | Expr::Item(..) | Expr::Field(_))
    }
}

#[derive(Clone, Debug)]
pub enum Stmt {
    Expr(Expr),
    /// Without values it prints the line.
    Print(Vec<Expr>),
    If(Expr, Vec<Stmt>, Vec<Stmt>),
    While(Expr, Vec<Stmt>),
    /// For each key, held by the first name, of the table with the second.
    ForKey(Name, Name, Vec<Stmt>),
    Next,
    Exit(Expr),
    Delete(Name, Expr),
    Return(Expr),
}

#[derive(Clone, Debug)]
pub enum When {
    Begin,
    End,
    EveryLine,
    If(Expr),
}

#[derive(Clone, Debug)]
pub struct Rule {
    pub when: When,
    pub body: Vec<Stmt>,
}

#[derive(Clone, Debug)]
pub struct Function {
    pub name: Name,
    pub params: Vec<Name>,
    pub body: Vec<Stmt>,
}

#[derive(Debug)]
pub struct Program {
    pub names: Names,
    pub rules: Vec<Rule>,
    pub functions: Vec<Function>,
}

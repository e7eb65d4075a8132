//! Doing what a program means: a whole run, fed line by line.

use std::rc::Rc;

use crate::matcher::{Effort, Exhausted};
use crate::state::State;
use crate::syntax::{Program, Rule, Stmt, When};
use crate::value::{Value, LONGEST_TEXT};

/// Why a run is refused, by the number that is told.
#[derive(Clone, Copy, Debug, PartialEq, Eq, PartialOrd, Ord)]
pub enum Refusal {
    NotAProgram = 1,
    NotKnown = 2,
    NumberTooLarge = 3,
    DivisionByZero = 4,
    NoSuchFunction = 5,
    ReadOnlyName = 6,
    TextTooLong = 7,
    NoRoom = 8,
    OutOfBounds = 9,
}

/// How a run came to its end, or that it was given up before.
#[derive(Clone, Copy, Debug, PartialEq, Eq)]
pub enum Ending {
    Done(u8),
    Refused(Refusal),
    /// The bounds were reached first: the program may be endless.
    Unfinished,
}

/// Why statements are left before their end.
#[derive(Clone, Debug)]
pub enum Stop {
    Next,
    Exit(u8),
    Return(Value),
    Wrong(Refusal),
    Unfinished,
}

impl From<Exhausted> for Stop {
    fn from(_: Exhausted) -> Stop {
        Stop::Unfinished
    }
}

pub type Evaluated = Result<Value, Stop>;
pub type Executed = Result<(), Stop>;

/// How far a run is followed.
#[derive(Clone, Copy, Debug)]
pub struct Bounds {
    /// Expressions, statements, and bytes moved (these at a fraction).
    pub effort: u64,
    pub output: usize,
    /// How deep expressions and statements may stand within each other, calls included.
    pub depth: usize,
}

impl Bounds {
    pub const UNBOUNDED: Bounds = Bounds { effort: u64::MAX, output: usize::MAX, depth: 200_000 };
}

pub struct Worker {
    pub program: Rc<Program>,
    pub state: State,
    pub effort: Effort,
    bounds: Bounds,
    depth: usize,
}

/// What standing within something counts for.
pub const NESTING: u64 = 16;

/// Bytes that can be moved for the price of one expression.
const BYTES_PER_EFFORT: usize = 64;

impl Worker {
    pub fn new(program: Rc<Program>, bounds: Bounds) -> Worker {
        let state = State::new(&program.names);
        let effort = Effort { left: bounds.effort };
        Worker { program, state, effort, bounds, depth: 0 }
    }

    /// How much effort was spent.
    pub fn spent(&self) -> u64 {
        self.bounds.effort - self.effort.left
    }

    /// The rules before the first line. Nothing is returned if the run goes on.
    pub fn begin(&mut self) -> Option<Ending> {
        self.run_rules(|when| matches!(when, When::Begin))
    }

    /// The rules for a line.
    pub fn line(&mut self, line: &[u8]) -> Option<Ending> {
        if line.len() > LONGEST_TEXT {
            return Some(Ending::Refused(Refusal::TextTooLong));
        }
        if self.spend_on(line.len()).is_err() {
            return Some(Ending::Unfinished);
        }
        self.state.begin_line(line);
        self.run_rules(|when| matches!(when, When::EveryLine | When::If(_)))
    }

    /// The rules after the last line.
    pub fn end(&mut self) -> Ending {
        self.run_rules(|when| matches!(when, When::End)).unwrap_or(Ending::Done(0))
    }

    /// Rules in their order, up to a `next` or a `return` that stands in no function.
    fn run_rules(&mut self, chosen: fn(&When) -> bool) -> Option<Ending> {
        let program = Rc::clone(&self.program);
        self.depth = 0;
        for rule in program.rules.iter().filter(|rule| chosen(&rule.when)) {
            match self.run_rule(rule) {
                Ok(()) => {}
                Err(Stop::Next | Stop::Return(_)) => break,
                Err(Stop::Exit(number)) => return Some(Ending::Done(number)),
                Err(Stop::Wrong(refusal)) => return Some(Ending::Refused(refusal)),
                Err(Stop::Unfinished) => return Some(Ending::Unfinished),
            }
        }
        self.state.drop_frames();
        None
    }

    fn run_rule(&mut self, rule: &Rule) -> Executed {
        if let When::If(test) = &rule.when {
            if !self.evaluate(0, test)?.holds() {
                return Ok(());
            }
        }
        self.execute(0, &rule.body)
    }

    /// Pays for something that is done, and for the bytes it moves.
    pub fn spend_on(&mut self, bytes: usize) -> Result<(), Stop> {
        Ok(self.effort.spend(1 + (bytes / BYTES_PER_EFFORT) as u64)?)
    }

    /// Goes one level deeper for the time of what is done there.
    pub fn deeper<T>(&mut self, work: impl FnOnce(&mut Worker) -> Result<T, Stop>) -> Result<T, Stop> {
        if self.depth >= self.bounds.depth {
            return Err(Stop::Unfinished);
        }
        self.depth += 1;
        let result = work(self);
        self.depth -= 1;
        result
    }

    /// Statements one after the other, beside so much that is held.
    pub fn execute(&mut self, held: u64, body: &[Stmt]) -> Executed {
        self.deeper(|worker| {
            worker.state.note(held);
            for statement in body {
                worker.spend_on(0)?;
                worker.statement(held, statement)?;
                worker.state.note(held);
            }
            Ok(())
        })
    }

    fn statement(&mut self, held: u64, statement: &Stmt) -> Executed {
        match statement {
            Stmt::Expr(expr) => self.evaluate(held, expr).map(|_| ()),
            Stmt::Print(values) => self.print(held, values),
            Stmt::If(condition, then, otherwise) => {
                let holds = self.evaluate(held, condition)?.holds();
                self.execute(NESTING + held, if holds { then } else { otherwise })
            }
            Stmt::While(condition, body) => {
                while self.evaluate(held, condition)?.holds() {
                    self.execute(NESTING + held, body)?;
                    self.state.note(held);
                }
                Ok(())
            }
            Stmt::ForKey(variable, table, body) => self.for_keys(held, *variable, *table, body),
            Stmt::Next => Err(Stop::Next),
            Stmt::Exit(expr) => {
                let number = self.evaluate(held, expr)?.as_number();
                Err(u8::try_from(number).map_or(Stop::Wrong(Refusal::OutOfBounds), Stop::Exit))
            }
            Stmt::Delete(table, key) => {
                let key = self.evaluate(held, key)?.as_text();
                self.state.delete_item(*table, &key);
                Ok(())
            }
            Stmt::Return(expr) => Err(Stop::Return(self.evaluate(held, expr)?)),
        }
    }

    fn print(&mut self, held: u64, values: &[crate::syntax::Expr]) -> Executed {
        let mut row = Vec::new();
        if values.is_empty() {
            row.extend_from_slice(self.state.line());
        } else {
            let values = self.evaluate_all(held, values)?;
            for (place, value) in values.iter().enumerate() {
                if place > 0 {
                    row.push(b' ');
                }
                value.append_to(&mut row);
            }
        }
        row.push(b'\n');
        self.spend_on(row.len())?;
        if self.state.out.len() + row.len() > self.bounds.output {
            return Err(Stop::Unfinished);
        }
        self.state.out.extend_from_slice(&row);
        Ok(())
    }

    /// Over the keys that the table has when the loop begins; those still to come are held.
    fn for_keys(
        &mut self,
        held: u64,
        variable: crate::syntax::Name,
        table: crate::syntax::Name,
        body: &[Stmt],
    ) -> Executed {
        let keys = self.state.keys(table);
        let mut to_come: u64 = keys.iter().map(|key| 16 + key.len() as u64).sum();
        self.effort.spend(keys.len() as u64)?;
        for key in keys {
            to_come -= 16 + key.len() as u64;
            self.set_variable(variable, Value::Text(key))?;
            self.execute(NESTING + held + to_come, body)?;
        }
        Ok(())
    }
}

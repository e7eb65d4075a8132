//! Random programs by the rules of the grammar, as tokens.

use super::expressions::{forms_of, Binding, Form};
use crate::known::Level;
use crate::random::Random;

pub struct Known {
    pub name: &'static str,
    pub params: usize,
}

pub const FUNCTIONS: [Known; 4] = [
    Known { name: "f", params: 1 },
    Known { name: "g", params: 2 },
    Known { name: "total", params: 0 },
    Known { name: "deep_3", params: 3 },
];

pub struct Grammar<'r> {
    pub random: &'r mut Random,
    pub level: Level,
    pub forms: Vec<Form>,
    pub tokens: Vec<Vec<u8>>,
    /// About how many tokens there may still be.
    pub budget: usize,
    counters: usize,
    /// How many of the functions may be called here: each calls only those before it, so
    /// that most programs end.
    pub callable: usize,
}

/// A whole random program of about so many tokens.
pub fn random_program(random: &mut Random, level: Level, budget: usize) -> Vec<Vec<u8>> {
    let forms = forms_of(level);
    let mut grammar = Grammar { random, level, forms, tokens: Vec::new(), budget, counters: 0, callable: 0 };
    grammar.program();
    grammar.tokens
}

impl Grammar<'_> {
    pub fn put(&mut self, token: &str) {
        self.put_bytes(token.as_bytes().to_vec());
    }

    pub fn put_all(&mut self, tokens: &str) {
        for token in tokens.split(' ') {
            self.put(token);
        }
    }

    pub fn put_one_of(&mut self, tokens: &[&str]) {
        let token = *self.random.pick(tokens);
        self.put(token);
    }

    pub fn put_bytes(&mut self, token: Vec<u8>) {
        self.budget = self.budget.saturating_sub(1);
        self.tokens.push(token);
    }

    fn program(&mut self) {
        let functions = if self.level >= Level::Functions { self.random.below(4) } else { 0 };
        for (place, function) in FUNCTIONS.iter().enumerate().take(functions) {
            self.callable = if self.random.once_in(12) { FUNCTIONS.len() } else { place };
            self.function(function);
        }
        self.callable = functions;
        let rules = self.random.between(1, 4);
        for _ in 0..rules {
            self.rule();
        }
    }

    fn function(&mut self, function: &Known) {
        self.put("function");
        self.put(function.name);
        self.put("(");
        for param in 0..function.params {
            if param > 0 {
                self.put(",");
            }
            self.variable();
        }
        self.put(")");
        self.block(3);
    }

    fn rule(&mut self) {
        match self.random.below(8) {
            0 | 1 => self.put("BEGIN"),
            2 => self.put("END"),
            3 | 4 => self.expr(Binding::Assign, 3),
            _ => {}
        }
        self.block(3);
    }

    fn block(&mut self, depth: usize) {
        self.put("{");
        let count = self.random.below(5);
        for _ in 0..count {
            self.statement(depth);
        }
        self.put("}");
    }

    fn statement(&mut self, depth: usize) {
        if depth == 0 || self.budget == 0 {
            self.put_all("print x ;");
            return;
        }
        match self.random.below(20) {
            0..=5 => self.print(),
            6..=9 => {
                self.assignment(3);
                self.put(";");
            }
            10 => {
                self.expr(Binding::Assign, 3);
                self.put(";");
            }
            11..=13 => self.if_statement(depth - 1),
            14 | 15 => self.while_statement(depth - 1),
            16 => self.block(depth - 1),
            17 => self.leaving(),
            _ if self.level >= Level::Tables => self.table_statement(depth - 1),
            _ => self.print(),
        }
    }

    fn print(&mut self) {
        self.put("print");
        let count = self.random.below(4);
        for place in 0..count {
            if place > 0 {
                self.put(",");
            }
            self.expr(Binding::Assign, 3);
        }
        self.put(";");
    }

    fn if_statement(&mut self, depth: usize) {
        self.put_all("if (");
        self.expr(Binding::Assign, 3);
        self.put(")");
        self.statement(depth);
        if self.random.once_in(2) {
            self.put("else");
            self.statement(depth);
        }
    }

    /// Mostly with a counter of its own, so that it ends.
    fn while_statement(&mut self, depth: usize) {
        if self.random.once_in(25) {
            self.put_all("while (");
            self.expr(Binding::Assign, 2);
            self.put(")");
            self.statement(depth);
            return;
        }
        let counter = format!("w{}", self.counters);
        self.counters += 1;
        let times = self.random.below(5);
        self.put_all(&format!("{{ {counter} = 0 ; while ( {counter} < {times} ) {{"));
        self.put_all(&format!("{counter} = {counter} + 1 ;"));
        self.statement(depth);
        self.put_all("} }");
    }

    fn leaving(&mut self) {
        match self.random.below(6) {
            0 => self.put_all("next ;"),
            1 => self.put_all("exit ;"),
            2 => {
                self.put("exit");
                self.put_one_of(&["0", "1", "255", "256", "NR", "\"7x\"", "-1"]);
                self.put(";");
            }
            _ if self.level >= Level::Functions => {
                self.put("return");
                if !self.random.once_in(4) {
                    self.expr(Binding::Assign, 2);
                }
                self.put(";");
            }
            _ => self.print(),
        }
    }

    fn table_statement(&mut self, depth: usize) {
        if self.random.once_in(3) {
            self.put("delete");
            self.table();
            self.put("[");
            self.expr(Binding::Assign, 1);
            self.put_all("] ;");
            return;
        }
        self.put_all("for (");
        self.variable();
        self.put("in");
        self.table();
        self.put(")");
        self.statement(depth);
    }
}

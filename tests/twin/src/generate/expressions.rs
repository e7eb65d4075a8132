//! Random expressions, as tokens.

use super::grammar::{Grammar, FUNCTIONS};
use super::layout::quote;
use super::patterns::pattern_text;
use crate::known::Level;
use crate::random::Random;

/// How close an expression binds; what binds less than is needed goes into parentheses.
#[derive(Clone, Copy, PartialEq, Eq, PartialOrd, Ord)]
pub enum Binding {
    Assign,
    Or,
    And,
    Match,
    Compare,
    Join,
    Sum,
    Product,
    Unary,
    Primary,
}

#[derive(Clone, Copy)]
pub enum Form {
    Leaf,
    Assign,
    Or,
    And,
    Compare,
    Join,
    Sum,
    Product,
    Unary,
    Field,
    In,
    Item,
    Call,
    Match,
    Length,
    Index,
    Substr,
    Split,
    Swap,
}

impl Form {
    fn binding(self) -> Binding {
        match self {
            Form::Assign => Binding::Assign,
            Form::Or => Binding::Or,
            Form::And => Binding::And,
            Form::Match | Form::In => Binding::Match,
            Form::Compare => Binding::Compare,
            Form::Join => Binding::Join,
            Form::Sum => Binding::Sum,
            Form::Product => Binding::Product,
            Form::Unary => Binding::Unary,
            _ => Binding::Primary,
        }
    }
}

const CORE_FORMS: &[Form] = &[
    Form::Leaf,
    Form::Leaf,
    Form::Assign,
    Form::Or,
    Form::And,
    Form::Compare,
    Form::Compare,
    Form::Join,
    Form::Join,
    Form::Sum,
    Form::Sum,
    Form::Product,
    Form::Unary,
    Form::Field,
];
const TABLE_FORMS: &[Form] = &[Form::In, Form::Item, Form::Item];
const FUNCTION_FORMS: &[Form] = &[Form::Call, Form::Call];
const PATTERN_FORMS: &[Form] = &[Form::Match, Form::Match];
const PART_FORMS: &[Form] = &[Form::Length, Form::Index, Form::Substr, Form::Split, Form::Swap, Form::Swap];

/// What expressions of a level can be.
pub fn forms_of(level: Level) -> Vec<Form> {
    let mut forms = CORE_FORMS.to_vec();
    let more = [
        (Level::Tables, TABLE_FORMS),
        (Level::Functions, FUNCTION_FORMS),
        (Level::Patterns, PATTERN_FORMS),
        (Level::Everything, PART_FORMS),
    ];
    for (needed, more) in more {
        if level >= needed {
            forms.extend_from_slice(more);
        }
    }
    forms
}

const VARIABLES: &[&str] = &["a", "b", "c", "x", "n", "total", "_u9", "i", "NR", "NF"];
const COMPARISONS: &[&str] = &["==", "!=", "<", "<=", ">", ">="];
const TABLES: &[&str] = &["t", "u", "total", "a", "NR"];

impl Grammar<'_> {
    pub fn variable(&mut self) {
        // NR and NF stand last: names that can be set are to be the most.
        let all = if self.random.once_in(8) { VARIABLES.len() } else { VARIABLES.len() - 2 };
        let name = VARIABLES[self.random.below(all)];
        self.put(name);
    }

    pub fn table(&mut self) {
        self.put_one_of(TABLES);
    }

    /// Something that can be set.
    fn place(&mut self, depth: usize) {
        match self.random.below(8) {
            0 | 1 => {
                self.put("$");
                self.field_number(depth);
            }
            2 | 3 if self.level >= Level::Tables => self.item(depth),
            _ => self.variable(),
        }
    }

    fn field_number(&mut self, depth: usize) {
        match self.random.below(12) {
            0 => self.expr(Binding::Unary, depth.min(1)),
            1 => self.put("NF"),
            2 => {
                let edge = *self.random.pick(&["1000", "1001", "999", "-1", "NR", "30", "x"]);
                self.put_all(edge);
            }
            _ => {
                let number = self.random.below(6).to_string();
                self.put(&number);
            }
        }
    }

    fn item(&mut self, depth: usize) {
        self.table();
        self.put("[");
        self.expr(Binding::Assign, depth.min(1));
        self.put("]");
    }

    pub fn assignment(&mut self, depth: usize) {
        self.place(depth);
        self.put("=");
        self.expr(Binding::Assign, depth);
    }

    pub fn expr(&mut self, needed: Binding, depth: usize) {
        if depth == 0 || self.budget == 0 || self.random.once_in(3) {
            self.leaf();
            return;
        }
        let form = self.forms[self.random.below(self.forms.len())];
        let parens = form.binding() < needed || self.random.once_in(15);
        if parens {
            self.put("(");
        }
        self.form(form, depth - 1);
        if parens {
            self.put(")");
        }
    }

    fn form(&mut self, form: Form, depth: usize) {
        match form {
            Form::Leaf => self.leaf(),
            Form::Assign => self.assignment(depth),
            Form::Or => self.operation(Binding::Or, &["||"], Binding::And, depth),
            Form::And => self.operation(Binding::And, &["&&"], Binding::Match, depth),
            Form::Compare => self.operation(Binding::Join, COMPARISONS, Binding::Join, depth),
            Form::Join => self.join(depth),
            Form::Sum => self.operation(Binding::Sum, &["+", "-"], Binding::Product, depth),
            Form::Product => {
                self.operation(Binding::Product, &["*", "/", "%", "%"], Binding::Unary, depth);
            }
            Form::Unary => {
                self.put_one_of(&["!", "-", "-"]);
                self.expr(Binding::Unary, depth);
            }
            Form::Field => {
                self.put("$");
                self.field_number(depth);
            }
            Form::Item => self.item(depth),
            Form::In => {
                self.expr(Binding::Compare, depth);
                self.put("in");
                self.table();
            }
            Form::Call => self.call(depth),
            Form::Match => {
                self.expr(Binding::Compare, depth);
                self.put_one_of(&["~", "!~"]);
                self.pattern();
            }
            Form::Length | Form::Index | Form::Substr | Form::Split | Form::Swap => {
                self.built_in(form, depth);
            }
        }
    }

    fn operation(&mut self, left: Binding, signs: &[&str], right: Binding, depth: usize) {
        self.expr(left, depth);
        self.put_one_of(signs);
        self.expr(right, depth);
    }

    /// A name before something in parentheses would be a call: mostly it gets some itself.
    fn join(&mut self, depth: usize) {
        let left = self.tokens.len();
        self.expr(Binding::Join, depth);
        let right = self.tokens.len();
        self.expr(Binding::Sum, depth);
        let before = &self.tokens[right - 1];
        let is_name = before.first().is_some_and(u8::is_ascii_alphabetic);
        if is_name && self.tokens[right] == b"(" && !self.random.once_in(20) {
            self.tokens.insert(right, b")".to_vec());
            self.tokens.insert(left, b"(".to_vec());
        }
    }

    fn call(&mut self, depth: usize) {
        let stray = self.random.once_in(40) || self.callable == 0;
        if stray && !self.random.once_in(5) {
            self.leaf();
            return;
        }
        let function = &FUNCTIONS[self.random.below(if stray { 4 } else { self.callable })];
        let extra = usize::from(self.random.once_in(30));
        let given = self.random.between(0, function.params) + extra;
        self.put(function.name);
        self.put("(");
        for place in 0..given {
            if place > 0 {
                self.put(",");
            }
            self.expr(Binding::Assign, depth);
        }
        self.put(")");
    }

    fn pattern(&mut self) {
        let text = pattern_text(self.random);
        let token = quote(self.random, &text);
        self.put_bytes(token);
    }

    fn built_in(&mut self, form: Form, depth: usize) {
        match form {
            Form::Length => {
                self.put_one_of(&["length", "upper"]);
                self.put("(");
                self.expr(Binding::Assign, depth);
            }
            Form::Index => {
                self.put_all("index (");
                self.operation(Binding::Assign, &[","], Binding::Assign, depth);
            }
            Form::Substr => {
                self.put_all("substr (");
                self.expr(Binding::Assign, depth);
                self.put(",");
                self.operation(Binding::Assign, &[","], Binding::Assign, depth.min(1));
            }
            Form::Split => {
                self.put_all("split (");
                self.expr(Binding::Assign, depth);
                self.put(",");
                self.table();
                self.put(",");
                self.pattern();
            }
            _ => {
                self.put_all("swap (");
                self.pattern();
                self.put(",");
                self.expr(Binding::Assign, depth.min(1));
                self.put(",");
                self.place(depth.min(1));
            }
        }
        self.put(")");
    }

    fn leaf(&mut self) {
        match self.random.below(10) {
            0..=2 => self.variable(),
            3 | 4 => {
                self.put("$");
                self.put_one_of(&["0", "1", "2", "3", "4", "NF"]);
            }
            5..=7 => self.number(),
            _ => {
                let text = literal(self.random);
                let token = quote(self.random, &text);
                self.put_bytes(token);
            }
        }
    }

    fn number(&mut self) {
        const EDGES: [&str; 10] = [
            "999999999999999999", "100000000000000000", "000000000000000007", "65535", "65536",
            "( 461168601842738790 * 10 + 3 )", "( - 461168601842738790 * 10 - 4 )",
            "( 2147483648 * 2147483647 )", "4294967296", "007",
        ];
        if self.random.once_in(12) {
            let edge = *self.random.pick(&EDGES);
            self.put_all(edge);
        } else {
            let top = *self.random.pick(&[3, 10, 100, 1000]);
            let number = self.random.below(top).to_string();
            self.put(&number);
        }
    }
}

/// The bytes of a text that stands in a program.
pub fn literal(random: &mut Random) -> Vec<u8> {
    const TEXTS: [&str; 24] = [
        "", "a", "ab", "x y", "0", "00", "7", "007", " 7 ", "-3", "- 3", "12x", "\t5", "banana", "milk", "|",
        ",", "1,2,,3", "a\nb", "\"q\"", "back\\slash", "999999999999999999", "1000000000000000000", "-0",
    ];
    if random.once_in(6) {
        let len = random.below(12);
        return (0..len).map(|_| random.byte()).collect();
    }
    random.pick(&TEXTS).as_bytes().to_vec()
}

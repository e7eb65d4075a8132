//! Working out expressions.

use std::cmp::Ordering;
use std::rc::Rc;

use crate::matcher::Matcher;
use crate::state::Frame;
use crate::syntax::{BinaryOp, Expr, Name, UnaryOp, NF, NR};
use crate::value::{Bytes, Value, LONGEST_TEXT};
use crate::worker::{Evaluated, Refusal, Stop, Worker, NESTING};

const LAST_FIELD: i64 = 1000;

/// A place that can be set, with its key or number worked out.
enum Place {
    Variable(Name),
    Item(Name, Bytes),
    Field(i64),
}

fn wrong<T>(refusal: Refusal) -> Result<T, Stop> {
    Err(Stop::Wrong(refusal))
}

fn number(n: i128) -> Evaluated {
    Value::within_limits(n).ok_or(Stop::Wrong(Refusal::NumberTooLarge))
}

/// The field's number, if there can be such a field.
fn field_number(n: i64) -> Result<usize, Stop> {
    if (0..=LAST_FIELD).contains(&n) {
        Ok(n as usize)
    } else {
        wrong(Refusal::OutOfBounds)
    }
}

/// Where `part` first stands in `text`, counted from 1, or 0. What is empty stands at 1.
fn index_of(text: &[u8], part: &[u8]) -> usize {
    if part.is_empty() {
        return 1;
    }
    text.windows(part.len()).position(|window| window == part).map_or(0, |at| at + 1)
}

/// The bytes at the places from `from`, counted from 1, so many; some of these places may
/// lie before the first or behind the last byte.
fn substr(text: &[u8], from: i64, count: i64) -> &[u8] {
    let len = text.len() as i128;
    let from = i128::from(from) - 1;
    let end = (from + i128::from(count).max(0)).clamp(0, len);
    let begin = from.clamp(0, end);
    &text[begin as usize..end as usize]
}

fn compared(op: BinaryOp, order: Ordering) -> bool {
    match op {
        BinaryOp::Equal => order.is_eq(),
        BinaryOp::NotEqual => order.is_ne(),
        BinaryOp::Less => order.is_lt(),
        BinaryOp::AtMost => order.is_le(),
        BinaryOp::Greater => order.is_gt(),
        BinaryOp::AtLeast => order.is_ge(),
        _ => unreachable!("no comparison"),
    }
}

fn reckoned(op: BinaryOp, left: &Value, right: &Value) -> Evaluated {
    let (a, b) = (i128::from(left.as_number()), i128::from(right.as_number()));
    match op {
        BinaryOp::Add => number(a + b),
        BinaryOp::Subtract => number(a - b),
        BinaryOp::Multiply => number(a * b),
        BinaryOp::Divide | BinaryOp::Remainder if b == 0 => wrong(Refusal::DivisionByZero),
        BinaryOp::Divide => number(a / b),
        BinaryOp::Remainder => number(a % b),
        _ => unreachable!("no reckoning"),
    }
}

impl Worker {
    /// Works out an expression, beside so much that is held. What is held is noted before
    /// and after; what stands within counts as held by what stands around it.
    pub fn evaluate(&mut self, held: u64, expr: &Expr) -> Evaluated {
        self.spend_on(0)?;
        self.state.note(held);
        let value = self.deeper(|worker| worker.work_out(held, expr))?;
        self.state.note(held);
        Ok(value)
    }

    fn within(&mut self, held: u64, expr: &Expr) -> Evaluated {
        self.evaluate(NESTING + held, expr)
    }

    fn work_out(&mut self, held: u64, expr: &Expr) -> Evaluated {
        match expr {
            Expr::Number(n) => Ok(Value::Number(*n)),
            Expr::Text(text) => Ok(Value::Text(Rc::clone(text))),
            Expr::Variable(name) => Ok(self.variable(*name)),
            Expr::Item(table, key) => {
                let key = self.within(held, key)?.as_text();
                Ok(self.state.item(*table, &key))
            }
            Expr::Field(number) => {
                let number = self.within(held, number)?.as_number();
                self.field(number)
            }
            Expr::Unary(op, operand) => {
                let value = self.within(held, operand)?;
                self.unary(*op, &value)
            }
            Expr::Binary(op, left, right) => self.binary(held, *op, left, right),
            Expr::Match(text, pattern) => {
                let text = self.within(held, text)?.as_text();
                Ok(Value::truth(pattern.matches(&text, &mut self.effort)?))
            }
            Expr::InTable(key, table) => {
                let key = self.within(held, key)?.as_text();
                Ok(Value::truth(self.state.has_item(*table, &key)))
            }
            Expr::Assign(place, value) => self.assign(held, place, value),
            Expr::Call(name, args) => self.call(held, *name, args),
            Expr::Substr(operands) => self.substr(held, operands),
            Expr::Split(text, table, pattern) => self.split(held, text, *table, pattern),
            Expr::Swap(pattern, new, place) => self.swap(held, pattern, new, place),
        }
    }

    /// Values from the left, each held while the next ones are worked out.
    pub fn evaluate_all(&mut self, held: u64, exprs: &[Expr]) -> Result<Vec<Value>, Stop> {
        let mut held = held;
        let mut values = Vec::with_capacity(exprs.len());
        for expr in exprs {
            let value = self.evaluate(held, expr)?;
            held += value.size();
            values.push(value);
        }
        Ok(values)
    }

    /// One of the function's own names goes before all else, even if it is NR or NF.
    fn variable(&self, name: Name) -> Value {
        if let Some(own) = self.state.own(name) {
            return own.clone();
        }
        match name {
            NR => Value::Number(self.state.line_count() as i64),
            NF => Value::count(self.state.field_count()),
            _ => self.state.global(name),
        }
    }

    pub fn set_variable(&mut self, name: Name, value: Value) -> Result<(), Stop> {
        if self.state.own(name).is_some() {
            self.state.set_own(name, value);
        } else if name == NR || name == NF {
            return wrong(Refusal::ReadOnlyName);
        } else {
            self.state.set_global(name, value);
        }
        Ok(())
    }

    fn field(&self, number: i64) -> Evaluated {
        Ok(match field_number(number)? {
            0 => Value::Text(Rc::clone(self.state.line())),
            number => self.state.field(number),
        })
    }

    fn set_field(&mut self, number: i64, value: &Value) -> Result<(), Stop> {
        let number = field_number(number)?;
        self.spend_on(self.state.line().len() + 8 * self.state.field_count().max(number))?;
        if number == 0 {
            self.state.set_line(value.as_text());
            return Ok(());
        }
        if self.state.set_field(number, value.as_text()) {
            Ok(())
        } else {
            wrong(Refusal::TextTooLong)
        }
    }

    fn unary(&mut self, op: UnaryOp, value: &Value) -> Evaluated {
        match op {
            UnaryOp::Not => Ok(Value::truth(!value.holds())),
            UnaryOp::Negate => number(-i128::from(value.as_number())),
            UnaryOp::Length => Ok(Value::count(value.text_len())),
            UnaryOp::Upper => {
                self.spend_on(value.text_len())?;
                Ok(Value::text(&value.as_text().to_ascii_uppercase()))
            }
        }
    }

    fn binary(&mut self, held: u64, op: BinaryOp, left: &Expr, right: &Expr) -> Evaluated {
        let left = self.within(held, left)?;
        match op {
            BinaryOp::Or if left.holds() => return Ok(Value::truth(true)),
            BinaryOp::And if !left.holds() => return Ok(Value::truth(false)),
            BinaryOp::Or | BinaryOp::And => {
                // The first is not needed any more.
                return Ok(Value::truth(self.within(held, right)?.holds()));
            }
            _ => {}
        }
        let right = self.within(held + left.size(), right)?;
        match op {
            BinaryOp::Join => self.join(&left, &right),
            BinaryOp::Index => {
                self.spend_on(left.text_len())?;
                Ok(Value::count(index_of(&left.as_text(), &right.as_text())))
            }
            BinaryOp::Equal
            | BinaryOp::NotEqual
            | BinaryOp::Less
            | BinaryOp::AtMost
            | BinaryOp::Greater
            | BinaryOp::AtLeast => {
                self.spend_on(left.text_len().min(right.text_len()))?;
                Ok(Value::truth(compared(op, left.compare(&right))))
            }
            _ => reckoned(op, &left, &right),
        }
    }

    fn join(&mut self, left: &Value, right: &Value) -> Evaluated {
        let len = left.text_len() + right.text_len();
        if len > LONGEST_TEXT {
            return wrong(Refusal::TextTooLong);
        }
        self.spend_on(len)?;
        let mut text = Vec::with_capacity(len);
        left.append_to(&mut text);
        right.append_to(&mut text);
        Ok(Value::Text(Rc::from(text)))
    }

    fn substr(&mut self, held: u64, operands: &[Expr; 3]) -> Evaluated {
        let [text, from, count] = operands;
        let text = self.within(held, text)?;
        let held = held + text.size();
        let from = self.within(held, from)?;
        let held = held + from.size();
        let count = self.within(held, count)?;
        self.spend_on(text.text_len())?;
        Ok(Value::text(substr(&text.as_text(), from.as_number(), count.as_number())))
    }

    fn call(&mut self, held: u64, name: Name, args: &[Expr]) -> Evaluated {
        let values = self.evaluate_all(NESTING + held, args)?;
        let program = Rc::clone(&self.program);
        let function = program.functions.iter().find(|function| function.name == name);
        let function = match function {
            Some(function) if values.len() <= function.params.len() => function,
            _ => return wrong(Refusal::NoSuchFunction),
        };
        let values = values.into_iter().chain(std::iter::repeat_with(Value::empty));
        let frame: Frame = function.params.iter().copied().zip(values).collect();
        self.state.push_frame(frame);
        let value = match self.execute(NESTING + held, &function.body) {
            Ok(()) => Value::empty(),
            Err(Stop::Return(value)) => value,
            Err(stop) => return Err(stop),
        };
        self.state.pop_frame();
        Ok(value)
    }

    /// Works out what a place needs: a field's number, an item's key.
    fn place(&mut self, held: u64, place: &Expr) -> Result<Place, Stop> {
        Ok(match place {
            Expr::Variable(name) => Place::Variable(*name),
            Expr::Item(table, key) => Place::Item(*table, self.within(held, key)?.as_text()),
            Expr::Field(number) => Place::Field(self.within(held, number)?.as_number()),
            _ => unreachable!("the reader lets only places be set"),
        })
    }

    fn value_in(&self, place: &Place) -> Evaluated {
        match place {
            Place::Variable(name) => Ok(self.variable(*name)),
            Place::Item(table, key) => Ok(self.state.item(*table, key)),
            Place::Field(number) => self.field(*number),
        }
    }

    fn store(&mut self, place: Place, value: Value) -> Result<(), Stop> {
        match place {
            Place::Variable(name) => self.set_variable(name, value)?,
            Place::Item(table, key) => self.state.set_item(table, key, value),
            Place::Field(number) => self.set_field(number, &value)?,
        }
        Ok(())
    }

    /// First the value, then what the place needs.
    fn assign(&mut self, held: u64, place: &Expr, value: &Expr) -> Evaluated {
        let value = self.within(held, value)?;
        let place = self.place(held + value.size(), place)?;
        self.store(place, value.clone())?;
        Ok(value)
    }

    fn split(&mut self, held: u64, text: &Expr, table: Name, pattern: &Matcher) -> Evaluated {
        let text = self.within(held, text)?.as_text();
        let pieces = pattern.pieces(&text, &mut self.effort)?;
        self.effort.spend(pieces.len() as u64)?;
        self.state.fill_table(table, &pieces);
        Ok(Value::count(pieces.len()))
    }

    /// Without a match nothing is set, not even a place that cannot be.
    fn swap(&mut self, held: u64, pattern: &Matcher, new: &Expr, place: &Expr) -> Evaluated {
        let new = self.within(held, new)?;
        let place = self.place(held + new.size(), place)?;
        let old = self.value_in(&place)?.as_text();
        let (swapped, times) = pattern.swap(&old, &new.as_text(), &mut self.effort)?;
        if times == 0 {
            return Ok(Value::Number(0));
        }
        if swapped.len() > LONGEST_TEXT {
            return wrong(Refusal::TextTooLong);
        }
        self.store(place, Value::Text(Rc::from(swapped)))?;
        Ok(Value::count(times))
    }
}

#[cfg(test)]
mod tests {
    use super::*;

    #[test]
    fn parts_of_texts() {
        assert_eq!(substr(b"milk", 2, 2), b"il");
        assert_eq!(substr(b"milk", 0, 2), b"m");
        assert_eq!(substr(b"milk", 0, 0), b"");
        assert_eq!(substr(b"milk", -1, 3), b"m");
        assert_eq!(substr(b"milk", -1, 2), b"");
        assert_eq!(substr(b"milk", -5, 100), b"milk");
        assert_eq!(substr(b"milk", 1, -1), b"");
        assert_eq!(substr(b"milk", 4, 9), b"k");
        assert_eq!(substr(b"milk", 5, 1), b"");
        assert_eq!(substr(b"milk", 9, 1), b"");
        assert_eq!(substr(b"milk", i64::MIN, i64::MAX), b"");
        assert_eq!(substr(b"", 1, 1), b"");
    }

    #[test]
    fn places_of_texts() {
        assert_eq!(index_of(b"milk", b"k"), 4);
        assert_eq!(index_of(b"milk", b""), 1);
        assert_eq!(index_of(b"", b""), 1);
        assert_eq!(index_of(b"", b"a"), 0);
        assert_eq!(index_of(b"ab", b"abc"), 0);
        assert_eq!(index_of(b"aab", b"ab"), 2);
    }
}

//! What a running program holds, and how much that is.
//!
//! The weight is kept up to date with every change, so that noting it costs nothing;
//! `recount` works it out anew, for checking.

use std::collections::BTreeMap;
use std::rc::Rc;

use crate::syntax::{Name, Names};
use crate::value::{is_blank, Bytes, Value, LONGEST_TEXT};

/// More than this need not be held: a machine may say that it has no room.
pub const ROOM: u64 = 262_144;

const NAME_COST: u64 = 16;
const ITEM_COST: u64 = 32;
const FIELD_COST: u64 = 16;
const FRAME_COST: u64 = 64;

/// A function's own names, in the order of its parameters.
pub type Frame = Vec<(Name, Value)>;

pub struct State {
    name_lens: Vec<u64>,
    globals: Vec<Option<Value>>,
    /// Tables by their name; tables stand beside variables and belong to no function.
    tables: Vec<BTreeMap<Bytes, Value>>,
    line: Bytes,
    fields: Vec<Bytes>,
    line_count: u64,
    frames: Vec<Frame>,
    pub out: Vec<u8>,
    weight: u64,
    /// The most that was to be held so far, with what stood beside the state.
    pub heavy: u64,
    /// How much was written when `heavy` first went beyond the room.
    pub out_when_full: Option<usize>,
    /// At so many of the next notes the weight is counted anew.
    pub weight_checks: u32,
}

/// What stands between blanks and tabs.
fn cut_into_fields(line: &[u8]) -> Vec<Bytes> {
    line.split(|byte| is_blank(*byte)).filter(|field| !field.is_empty()).map(Rc::from).collect()
}

impl State {
    pub fn new(names: &Names) -> State {
        State {
            name_lens: names.list.iter().map(|name| name.len() as u64).collect(),
            globals: vec![None; names.list.len()],
            tables: vec![BTreeMap::new(); names.list.len()],
            line: Rc::from(&[][..]),
            fields: Vec::new(),
            line_count: 0,
            frames: Vec::new(),
            out: Vec::new(),
            weight: 0,
            heavy: 0,
            out_when_full: None,
            weight_checks: 0,
        }
    }

    /// Notes what is held now, with so much beside the state.
    pub fn note(&mut self, beside: u64) {
        if self.weight_checks > 0 {
            self.weight_checks -= 1;
            assert_eq!(self.weight, self.recount(), "the weight was not kept up to date");
        }
        let held = self.weight + beside;
        if held > self.heavy {
            self.heavy = held;
            if held > ROOM && self.out_when_full.is_none() {
                self.out_when_full = Some(self.out.len());
            }
        }
    }

    fn name_len(&self, name: Name) -> u64 {
        self.name_lens[name.0]
    }

    fn bind_cost(&self, name: Name, value: &Value) -> u64 {
        NAME_COST + self.name_len(name) + value.size()
    }

    fn item_cost(&self, table: Name, key: &[u8], value: &Value) -> u64 {
        ITEM_COST + self.name_len(table) + key.len() as u64 + value.size()
    }

    fn frame_cost(&self, frame: &Frame) -> u64 {
        FRAME_COST + frame.iter().map(|(name, value)| self.bind_cost(*name, value)).sum::<u64>()
    }

    fn record_cost(&self) -> u64 {
        let fields = self.fields.iter().map(|field| FIELD_COST + field.len() as u64);
        self.line.len() as u64 + fields.sum::<u64>()
    }

    /// The weight, counted from the beginning.
    pub fn recount(&self) -> u64 {
        let globals = self.globals.iter().enumerate();
        let globals = globals.filter_map(|(n, v)| Some(self.bind_cost(Name(n), v.as_ref()?)));
        let tables = self.tables.iter().enumerate();
        let items = tables.flat_map(|(n, table)| table.iter().map(move |(k, v)| (n, k, v)));
        let items = items.map(|(n, key, value)| self.item_cost(Name(n), key, value));
        let frames = self.frames.iter().map(|frame| self.frame_cost(frame));
        globals.sum::<u64>() + items.sum::<u64>() + frames.sum::<u64>() + self.record_cost()
    }

    // Variables

    /// The value of one of the running function's own names.
    pub fn own(&self, name: Name) -> Option<&Value> {
        let frame = self.frames.last()?;
        frame.iter().find(|(own, _)| *own == name).map(|(_, value)| value)
    }

    pub fn set_own(&mut self, name: Name, value: Value) {
        let place = self.frames.last_mut().and_then(|f| f.iter_mut().find(|(own, _)| *own == name));
        let (_, place) = place.expect("only asked for names that the function has");
        self.weight = self.weight - place.size() + value.size();
        *place = value;
    }

    pub fn global(&self, name: Name) -> Value {
        self.globals[name.0].clone().unwrap_or_else(Value::empty)
    }

    pub fn set_global(&mut self, name: Name, value: Value) {
        self.weight += self.bind_cost(name, &value);
        if let Some(old) = self.globals[name.0].replace(value) {
            self.weight -= self.bind_cost(name, &old);
        }
    }

    pub fn push_frame(&mut self, frame: Frame) {
        self.weight += self.frame_cost(&frame);
        self.frames.push(frame);
    }

    pub fn pop_frame(&mut self) {
        let frame = self.frames.pop().expect("a function that ends was begun");
        self.weight -= self.frame_cost(&frame);
    }

    pub fn drop_frames(&mut self) {
        while !self.frames.is_empty() {
            self.pop_frame();
        }
    }

    // Tables

    pub fn item(&self, table: Name, key: &[u8]) -> Value {
        self.tables[table.0].get(key).cloned().unwrap_or_else(Value::empty)
    }

    pub fn has_item(&self, table: Name, key: &[u8]) -> bool {
        self.tables[table.0].contains_key(key)
    }

    pub fn set_item(&mut self, table: Name, key: Bytes, value: Value) {
        self.weight += self.item_cost(table, &key, &value);
        if let Some(old) = self.tables[table.0].insert(Rc::clone(&key), value) {
            self.weight -= self.item_cost(table, &key, &old);
        }
    }

    pub fn delete_item(&mut self, table: Name, key: &[u8]) {
        if let Some(old) = self.tables[table.0].remove(key) {
            self.weight -= self.item_cost(table, key, &old);
        }
    }

    /// The table has these pieces at 1, 2, 3, … and nothing else.
    pub fn fill_table(&mut self, table: Name, pieces: &[&[u8]]) {
        for (key, old) in std::mem::take(&mut self.tables[table.0]) {
            self.weight -= self.item_cost(table, &key, &old);
        }
        for (place, piece) in pieces.iter().enumerate() {
            self.set_item(table, Value::count(place + 1).as_text(), Value::text(piece));
        }
    }

    /// By rising bytes.
    pub fn keys(&self, table: Name) -> Vec<Bytes> {
        self.tables[table.0].keys().cloned().collect()
    }

    // The line and its fields

    pub fn line(&self) -> &Bytes {
        &self.line
    }

    pub fn line_count(&self) -> u64 {
        self.line_count
    }

    pub fn field_count(&self) -> usize {
        self.fields.len()
    }

    /// A field, counted from 1; behind the last ones they have no bytes.
    pub fn field(&self, number: usize) -> Value {
        self.fields.get(number - 1).map_or_else(Value::empty, |f| Value::Text(Rc::clone(f)))
    }

    fn set_record(&mut self, line: Bytes, fields: Vec<Bytes>) {
        self.weight -= self.record_cost();
        self.line = line;
        self.fields = fields;
        self.weight += self.record_cost();
    }

    pub fn set_line(&mut self, line: Bytes) {
        let fields = cut_into_fields(&line);
        self.set_record(line, fields);
    }

    /// Sets a field, counted from 1; fields before it come to be there, and the line is the
    /// fields with a blank between. Nothing is changed if that would be too long: then it's false.
    pub fn set_field(&mut self, number: usize, value: Bytes) -> bool {
        let mut fields = self.fields.clone();
        if fields.len() < number {
            fields.resize(number, Rc::from(&[][..]));
        }
        fields[number - 1] = value;
        let line = fields.join(&b' ');
        let fits = line.len() <= LONGEST_TEXT;
        if fits {
            self.set_record(Rc::from(line), fields);
        }
        fits
    }

    /// A new line has come.
    pub fn begin_line(&mut self, line: &[u8]) {
        self.drop_frames();
        self.line_count += 1;
        self.set_line(Rc::from(line));
        self.note(0);
    }
}

#[cfg(test)]
mod tests {
    use super::*;

    fn state_with_line(line: &str) -> State {
        let mut state = State::new(&Names::new());
        state.weight_checks = u32::MAX;
        state.begin_line(line.as_bytes());
        state
    }

    fn fields(state: &State) -> Vec<String> {
        state.fields.iter().map(|f| String::from_utf8_lossy(f).into_owned()).collect()
    }

    #[test]
    fn lines_are_cut_at_blanks_and_tabs() {
        assert_eq!(fields(&state_with_line(" \ta  b\t12 ")), ["a", "b", "12"]);
        assert_eq!(fields(&state_with_line(" \t ")), Vec::<String>::new());
        assert_eq!(fields(&state_with_line("a\rb\u{b}")), ["a\rb\u{b}"]);
    }

    #[test]
    fn setting_fields() {
        let mut state = state_with_line("a  b 12");
        assert!(state.set_field(2, Rc::from(&b"x y"[..])));
        assert_eq!(&state.line()[..], b"a x y 12");
        assert_eq!(fields(&state), ["a", "x y", "12"]);
        assert!(state.set_field(5, Rc::from(&b"z"[..])));
        assert_eq!(&state.line()[..], b"a x y 12  z");
        assert_eq!(state.field_count(), 5);
        assert_eq!(state.recount(), state.weight);
    }

    #[test]
    fn a_field_that_makes_the_line_too_long_is_not_set() {
        let mut state = state_with_line("a b");
        assert!(state.set_field(1, Rc::from(vec![b'x'; LONGEST_TEXT - 2])));
        assert!(!state.set_field(1, Rc::from(vec![b'x'; LONGEST_TEXT - 1])));
        assert_eq!(state.line().len(), LONGEST_TEXT);
    }

    #[test]
    fn fields_beyond_the_thousandth_stay() {
        let line = vec!["f"; 1200].join(" ");
        let mut state = state_with_line(&line);
        assert!(state.set_field(1000, Rc::from(&b"g"[..])));
        assert_eq!(state.field_count(), 1200);
    }

    #[test]
    fn weights() {
        let mut state = state_with_line("ab 3");
        // The line's 4 bytes, and two fields of 16 and their bytes.
        assert_eq!(state.weight, 4 + 16 + 2 + 16 + 1);
        state.set_global(Name(1), Value::Number(-10));
        assert_eq!(state.weight, 39 + 16 + 2 + 16 + 3);
        state.set_item(Name(0), Rc::from(&b"key"[..]), Value::text(b"four"));
        assert_eq!(state.weight, 76 + 32 + 2 + 3 + 16 + 4);
        state.push_frame(vec![(Name(0), Value::empty())]);
        assert_eq!(state.weight, 133 + 64 + 16 + 2 + 16);
        assert_eq!(state.recount(), state.weight);
        state.drop_frames();
        state.delete_item(Name(0), b"key");
        assert_eq!(state.weight, 76);
    }
}

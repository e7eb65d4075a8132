//! Values: numbers and texts, how each is seen as the other, and their order.

use std::cmp::Ordering;
use std::rc::Rc;

/// Bytes that several holders may share.
pub type Bytes = Rc<[u8]>;

/// Numbers reach from `-NUMBER_LIMIT` to `NUMBER_LIMIT - 1`.
pub const NUMBER_LIMIT: i128 = 1 << 62;

/// A text or a line has at most this many bytes.
pub const LONGEST_TEXT: usize = 65_535;

/// More digits than these don't count when a text is taken as a number.
pub const MOST_DIGITS: usize = 18;

#[derive(Clone, Debug, PartialEq, Eq)]
pub enum Value {
    Number(i64),
    Text(Bytes),
}

pub fn is_blank(byte: u8) -> bool {
    byte == b' ' || byte == b'\t'
}

impl Value {
    pub fn empty() -> Value {
        Value::Text(Rc::from(&[][..]))
    }

    pub fn text(bytes: &[u8]) -> Value {
        Value::Text(Rc::from(bytes))
    }

    pub fn truth(holds: bool) -> Value {
        Value::Number(i64::from(holds))
    }

    pub fn count(n: usize) -> Value {
        Value::Number(n as i64)
    }

    /// The number, unless it is beyond the limits.
    pub fn within_limits(n: i128) -> Option<Value> {
        if (-NUMBER_LIMIT..NUMBER_LIMIT).contains(&n) {
            Some(Value::Number(n as i64))
        } else {
            None
        }
    }

    pub fn as_text(&self) -> Bytes {
        match self {
            Value::Number(n) => Rc::from(n.to_string().into_bytes()),
            Value::Text(bytes) => Rc::clone(bytes),
        }
    }

    pub fn append_to(&self, out: &mut Vec<u8>) {
        match self {
            Value::Number(n) => out.extend_from_slice(n.to_string().as_bytes()),
            Value::Text(bytes) => out.extend_from_slice(bytes),
        }
    }

    pub fn text_len(&self) -> usize {
        match self {
            Value::Number(n) => decimal_len(*n),
            Value::Text(bytes) => bytes.len(),
        }
    }

    /// What holding this value counts for.
    pub fn size(&self) -> u64 {
        16 + self.text_len() as u64
    }

    /// The number itself, or the one with which a text begins after blanks, or 0.
    pub fn as_number(&self) -> i64 {
        match self {
            Value::Number(n) => *n,
            Value::Text(bytes) => leading_number(bytes),
        }
    }

    pub fn looks_like_number(&self) -> bool {
        match self {
            Value::Number(_) => true,
            Value::Text(bytes) => text_looks_like_number(bytes),
        }
    }

    /// A number other than 0, or a text with bytes; so the text "0" holds.
    pub fn holds(&self) -> bool {
        match self {
            Value::Number(n) => *n != 0,
            Value::Text(bytes) => !bytes.is_empty(),
        }
    }

    /// As numbers if both look like numbers, otherwise as texts, byte by byte.
    pub fn compare(&self, other: &Value) -> Ordering {
        if self.looks_like_number() && other.looks_like_number() {
            self.as_number().cmp(&other.as_number())
        } else {
            self.as_text().cmp(&other.as_text())
        }
    }
}

fn decimal_len(n: i64) -> usize {
    let mut rest = n.unsigned_abs();
    let mut len = 1 + usize::from(n < 0);
    while rest >= 10 {
        rest /= 10;
        len += 1;
    }
    len
}

fn without_blanks(bytes: &[u8]) -> &[u8] {
    let skip = bytes.iter().take_while(|b| is_blank(**b)).count();
    &bytes[skip..]
}

fn digits_at_front(bytes: &[u8]) -> usize {
    bytes.iter().take_while(|b| b.is_ascii_digit()).count()
}

fn leading_number(bytes: &[u8]) -> i64 {
    let bytes = without_blanks(bytes);
    let (negative, bytes) = match bytes.first() {
        Some(b'-') => (true, &bytes[1..]),
        _ => (false, bytes),
    };
    let digits = digits_at_front(bytes).min(MOST_DIGITS);
    let size = bytes[..digits].iter().fold(0i64, |n, b| 10 * n + i64::from(b - b'0'));
    if negative {
        -size
    } else {
        size
    }
}

/// Blanks, perhaps a minus, 1 to 18 digits, blanks.
fn text_looks_like_number(bytes: &[u8]) -> bool {
    let bytes = without_blanks(bytes);
    let bytes = bytes.strip_prefix(b"-").unwrap_or(bytes);
    let digits = digits_at_front(bytes);
    (1..=MOST_DIGITS).contains(&digits) && without_blanks(&bytes[digits..]).is_empty()
}

#[cfg(test)]
mod tests {
    use super::*;

    fn number_in(text: &str) -> i64 {
        Value::text(text.as_bytes()).as_number()
    }

    fn looks(text: &str) -> bool {
        Value::text(text.as_bytes()).looks_like_number()
    }

    fn order(a: &str, b: &str) -> Ordering {
        Value::text(a.as_bytes()).compare(&Value::text(b.as_bytes()))
    }

    #[test]
    fn texts_as_numbers() {
        assert_eq!(number_in(" \t12x"), 12);
        assert_eq!(number_in("-7 8"), -7);
        assert_eq!(number_in("- 7"), 0);
        assert_eq!(number_in("--7"), 0);
        assert_eq!(number_in("+7"), 0);
        assert_eq!(number_in(""), 0);
        assert_eq!(number_in("-"), 0);
        assert_eq!(number_in("-0"), 0);
        assert_eq!(number_in("1234567890123456789"), 123_456_789_012_345_678);
        assert_eq!(number_in("0000000000000000012"), 1);
        assert_eq!(number_in("\n5"), 0);
    }

    #[test]
    fn texts_that_look_like_numbers() {
        assert!(looks("007"));
        assert!(looks(" -12\t "));
        assert!(looks("999999999999999999"));
        assert!(!looks("1000000000000000000"));
        assert!(!looks("0000000000000000000"));
        assert!(!looks(""));
        assert!(!looks(" "));
        assert!(!looks("-"));
        assert!(!looks("- 1"));
        assert!(!looks("1 2"));
        assert!(!looks("1\n"));
        assert!(!looks("+1"));
    }

    #[test]
    fn order_of_values() {
        assert_eq!(order("007", "7"), Ordering::Equal);
        assert_eq!(order("10", "9"), Ordering::Greater);
        assert_eq!(order("10x", "9"), Ordering::Less);
        assert_eq!(order("", "0"), Ordering::Less);
        assert_eq!(order("a", "ab"), Ordering::Less);
        assert_eq!(order("-0", " 0 "), Ordering::Equal);
        assert_eq!(Value::Number(7).compare(&Value::text(b"07")), Ordering::Equal);
        assert_eq!(Value::Number(7).compare(&Value::text(b"07x")), Ordering::Greater);
    }

    #[test]
    fn lengths_of_numbers() {
        for n in [0, 9, 10, -1, -10, 99, 100, i64::from(i32::MIN), -(1 << 62), (1 << 62) - 1] {
            assert_eq!(Value::Number(n).text_len(), n.to_string().len());
        }
        assert_eq!(Value::Number(-5).size(), 18);
    }

    #[test]
    fn only_empty_texts_and_zero_do_not_hold() {
        assert!(Value::text(b"0").holds());
        assert!(!Value::empty().holds());
        assert!(!Value::Number(0).holds());
        assert!(Value::Number(-1).holds());
    }

    #[test]
    fn limits_of_numbers() {
        assert!(Value::within_limits(NUMBER_LIMIT).is_none());
        assert!(Value::within_limits(NUMBER_LIMIT - 1).is_some());
        assert!(Value::within_limits(-NUMBER_LIMIT).is_some());
        assert!(Value::within_limits(-NUMBER_LIMIT - 1).is_none());
    }
}

//! Patterns, read from the bytes of a quoted text.

use std::rc::Rc;

/// A set of bytes.
#[derive(Clone, Copy, Debug, PartialEq, Eq)]
pub struct ByteSet {
    words: [u64; 4],
}

impl ByteSet {
    pub fn none() -> ByteSet {
        ByteSet { words: [0; 4] }
    }

    pub fn all() -> ByteSet {
        ByteSet::none().inverted()
    }

    pub fn one(byte: u8) -> ByteSet {
        let mut set = ByteSet::none();
        set.add_span(byte, byte);
        set
    }

    /// A span whose ends stand the wrong way around has no bytes.
    pub fn add_span(&mut self, low: u8, high: u8) {
        for byte in low..=high {
            self.words[usize::from(byte >> 6)] |= 1 << (byte & 63);
        }
    }

    pub fn inverted(self) -> ByteSet {
        ByteSet { words: self.words.map(|word| !word) }
    }

    pub fn has(&self, byte: u8) -> bool {
        self.words[usize::from(byte >> 6)] >> (byte & 63) & 1 == 1
    }

    pub fn add_all(&mut self, other: &ByteSet) {
        for (word, more) in self.words.iter_mut().zip(other.words) {
            *word |= more;
        }
    }
}

#[derive(Clone, Debug, PartialEq, Eq)]
pub enum Pattern {
    Byte(ByteSet),
    /// One after the other; without parts it matches where it stands.
    Sequence(Vec<Pattern>),
    Either(Rc<Pattern>, Rc<Pattern>),
    /// None or more.
    Star(Rc<Pattern>),
    /// One or more.
    Plus(Rc<Pattern>),
    Optional(Rc<Pattern>),
    TextStart,
    TextEnd,
}

/// The pattern that the whole text is, if it is one.
pub fn parse_pattern(text: &[u8]) -> Option<Pattern> {
    let mut parser = PatternParser { bytes: text, at: 0 };
    let pattern = parser.alternatives()?;
    if parser.at == text.len() {
        Some(pattern)
    } else {
        None
    }
}

struct PatternParser<'a> {
    bytes: &'a [u8],
    at: usize,
}

fn is_repeat(byte: u8) -> bool {
    matches!(byte, b'*' | b'+' | b'?')
}

impl PatternParser<'_> {
    fn peek(&self) -> Option<u8> {
        self.bytes.get(self.at).copied()
    }

    fn accept(&mut self, byte: u8) -> bool {
        let seen = self.peek() == Some(byte);
        self.at += usize::from(seen);
        seen
    }

    fn take(&mut self) -> Option<u8> {
        let byte = self.peek()?;
        self.at += 1;
        Some(byte)
    }

    fn alternatives(&mut self) -> Option<Pattern> {
        let first = self.sequence()?;
        if !self.accept(b'|') {
            return Some(first);
        }
        let others = self.alternatives()?;
        Some(Pattern::Either(Rc::new(first), Rc::new(others)))
    }

    /// Up to a `|` or `)`, which are left to whoever asked for the sequence.
    fn sequence(&mut self) -> Option<Pattern> {
        let mut parts = Vec::new();
        while let Some(byte) = self.peek() {
            if byte == b'|' || byte == b')' {
                break;
            }
            let atom = self.atom()?;
            parts.push(self.repeated(atom));
        }
        Some(Pattern::Sequence(parts))
    }

    fn repeated(&mut self, atom: Pattern) -> Pattern {
        let mut pattern = atom;
        while let Some(byte) = self.peek().filter(|b| is_repeat(*b)) {
            self.at += 1;
            let inner = Rc::new(pattern);
            pattern = match byte {
                b'*' => Pattern::Star(inner),
                b'+' => Pattern::Plus(inner),
                _ => Pattern::Optional(inner),
            };
        }
        pattern
    }

    fn atom(&mut self) -> Option<Pattern> {
        let byte = self.take()?;
        match byte {
            b'*' | b'+' | b'?' => None,
            b'(' => {
                let inner = self.alternatives()?;
                self.accept(b')').then_some(inner)
            }
            b'.' => Some(Pattern::Byte(ByteSet::all())),
            b'^' => Some(Pattern::TextStart),
            b'$' => Some(Pattern::TextEnd),
            b'\\' => self.take().map(|meant| Pattern::Byte(ByteSet::one(meant))),
            b'[' => self.bracketed(),
            _ => Some(Pattern::Byte(ByteSet::one(byte))),
        }
    }

    /// Spans up to the closing bracket. A closing one that stands first is itself, and so
    /// is a `-` that stands first or before the closing one.
    fn bracketed(&mut self) -> Option<Pattern> {
        let inverted = self.accept(b'^');
        let mut set = ByteSet::none();
        let mut first = true;
        loop {
            let low = self.take()?;
            if low == b']' && !first {
                break;
            }
            first = false;
            let high = self.span_end().unwrap_or(low);
            set.add_span(low, high);
        }
        Some(Pattern::Byte(if inverted { set.inverted() } else { set }))
    }

    /// Behind a span's first byte: a `-` and another byte than the closing bracket.
    fn span_end(&mut self) -> Option<u8> {
        match self.bytes[self.at..] {
            [b'-', high, ..] if high != b']' => {
                self.at += 2;
                Some(high)
            }
            _ => None,
        }
    }
}

#[cfg(test)]
mod tests {
    use super::*;

    fn set_of(text: &[u8]) -> ByteSet {
        match parse_pattern(text) {
            Some(Pattern::Sequence(parts)) => match parts[..] {
                [Pattern::Byte(set)] => set,
                _ => panic!("not one byte: {parts:?}"),
            },
            other => panic!("no pattern: {other:?}"),
        }
    }

    fn members(text: &[u8]) -> Vec<u8> {
        let set = set_of(text);
        (0..=255).filter(|b| set.has(*b)).collect()
    }

    #[test]
    fn brackets() {
        assert_eq!(members(b"[a-c]"), b"abc");
        assert_eq!(members(b"[]a]"), b"]a");
        assert_eq!(members(b"[a-]"), b"-a");
        assert_eq!(members(b"[-a]"), b"-a");
        assert_eq!(members(b"[c-a]"), b"");
        assert_eq!(members(b"[a-b-d]"), b"-abd");
        assert_eq!(members(b"[--0]"), b"-./0");
        assert_eq!(members(b"[]-_]"), b"]^_");
        assert_eq!(members(br"[\]"), br"\");
        assert_eq!(members(b"[*.^$]"), b"$*.^");
        assert_eq!(members(b"[^]]").len(), 255);
        assert_eq!(members(b"[^^]").len(), 255);
        assert_eq!(members(b".").len(), 256);
        assert_eq!(members(br"\."), b".");
    }

    #[test]
    fn no_patterns() {
        for text in [
            &b"*"[..],
            b"a|*",
            b"(",
            b")",
            b"(a",
            b"a)",
            b"[",
            b"[]",
            b"[^",
            b"[^]",
            b"[a",
            b"\\",
            b"a\\",
            b"(*)",
            b"[a-",
        ] {
            assert_eq!(parse_pattern(text), None, "{:?}", String::from_utf8_lossy(text));
        }
    }

    #[test]
    fn patterns_of_odd_forms() {
        for text in [
            &b""[..],
            b"|",
            b"()",
            b"(|)",
            b"a**",
            b"a+?*",
            b"^*",
            b"$^",
            b"]",
            b"{",
            b"a||b",
            b"(a|b)*c",
            b"[[]",
        ] {
            assert!(parse_pattern(text).is_some(), "{:?}", String::from_utf8_lossy(text));
        }
    }
}

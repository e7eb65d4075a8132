//! Finding patterns in texts: a pattern is laid out as states, and the set of states that
//! can be reached is carried over the text, so the work is bounded by states times bytes.

use crate::pattern::{ByteSet, Pattern};

#[derive(Clone, Debug)]
enum State {
    Byte(ByteSet, usize),
    Fork(usize, usize),
    TextStart(usize),
    TextEnd(usize),
    Accept,
}

/// How much work a search may still do; searching stops as if out of breath when it is used up.
#[derive(Clone, Copy, Debug)]
pub struct Effort {
    pub left: u64,
}

/// The search was given up because its effort was used up.
#[derive(Clone, Copy, Debug, PartialEq, Eq)]
pub struct Exhausted;

impl Effort {
    pub fn spend(&mut self, cost: u64) -> Result<(), Exhausted> {
        match self.left.checked_sub(cost) {
            Some(left) => {
                self.left = left;
                Ok(())
            }
            None => {
                self.left = 0;
                Err(Exhausted)
            }
        }
    }
}

/// A pattern ready for searching.
#[derive(Debug)]
pub struct Matcher {
    pub pattern: Pattern,
    states: Vec<State>,
    start: usize,
    /// The bytes with which a match can begin, and whether one may be empty: most places
    /// of a text are passed over by these alone.
    first: ByteSet,
    may_be_empty: bool,
}

struct Layout {
    states: Vec<State>,
}

impl Layout {
    fn add(&mut self, state: State) -> usize {
        self.states.push(state);
        self.states.len() - 1
    }

    /// The state from which the pattern is matched and then `next` is gone on with.
    fn lay(&mut self, pattern: &Pattern, next: usize) -> usize {
        match pattern {
            Pattern::Byte(set) => self.add(State::Byte(*set, next)),
            Pattern::Sequence(parts) => parts.iter().rev().fold(next, |next, part| self.lay(part, next)),
            Pattern::Either(one, other) => {
                let one = self.lay(one, next);
                let other = self.lay(other, next);
                self.add(State::Fork(one, other))
            }
            Pattern::Star(inner) => self.lay_loop(inner, next).0,
            Pattern::Plus(inner) => self.lay_loop(inner, next).1,
            Pattern::Optional(inner) => {
                let inner = self.lay(inner, next);
                self.add(State::Fork(inner, next))
            }
            Pattern::TextStart => self.add(State::TextStart(next)),
            Pattern::TextEnd => self.add(State::TextEnd(next)),
        }
    }

    /// A loop: where it is entered if it may be passed over, and where it must be gone
    /// through once.
    fn lay_loop(&mut self, inner: &Pattern, next: usize) -> (usize, usize) {
        let fork = self.add(State::Fork(next, next));
        let body = self.lay(inner, fork);
        self.states[fork] = State::Fork(body, next);
        (fork, body)
    }
}

/// States reached at one place of the text, each once.
struct Reached {
    list: Vec<usize>,
    mark: Vec<bool>,
}

impl Reached {
    fn new(count: usize) -> Reached {
        Reached { list: Vec::new(), mark: vec![false; count] }
    }

    fn clear(&mut self) {
        for state in self.list.drain(..) {
            self.mark[state] = false;
        }
    }

    fn add(&mut self, state: usize) {
        if !self.mark[state] {
            self.mark[state] = true;
            self.list.push(state);
        }
    }
}

impl Matcher {
    pub fn new(pattern: Pattern) -> Matcher {
        let mut layout = Layout { states: vec![State::Accept] };
        let start = layout.lay(&pattern, 0);
        let mut matcher =
            Matcher { pattern, states: layout.states, start, first: ByteSet::none(), may_be_empty: false };
        matcher.look_ahead();
        matcher
    }

    /// Fills in how matches can begin, as if every place were the text's beginning and end.
    fn look_ahead(&mut self) {
        let mut reached = Reached::new(self.states.len());
        reached.add(self.start);
        let mut at = 0;
        while at < reached.list.len() {
            match &self.states[reached.list[at]] {
                State::Byte(set, _) => self.first.add_all(set),
                State::Fork(one, other) => {
                    reached.add(*one);
                    reached.add(*other);
                }
                State::TextStart(next) | State::TextEnd(next) => reached.add(*next),
                State::Accept => self.may_be_empty = true,
            }
            at += 1;
        }
    }

    /// Adds all states that are reached without a byte; whether the accepting one is among them.
    fn close(&self, reached: &mut Reached, place: usize, len: usize) -> bool {
        let mut at = 0;
        while at < reached.list.len() {
            match self.states[reached.list[at]] {
                State::Fork(one, other) => {
                    reached.add(one);
                    reached.add(other);
                }
                State::TextStart(next) if place == 0 => reached.add(next),
                State::TextEnd(next) if place == len => reached.add(next),
                _ => {}
            }
            at += 1;
        }
        reached.mark[0]
    }

    fn advance(&self, from: &Reached, byte: u8, to: &mut Reached) {
        to.clear();
        for state in &from.list {
            if let State::Byte(set, next) = &self.states[*state] {
                if set.has(byte) {
                    to.add(*next);
                }
            }
        }
    }

    fn can_begin(&self, text: &[u8], place: usize) -> bool {
        self.may_be_empty || text.get(place).is_some_and(|byte| self.first.has(*byte))
    }

    /// The longest end of a match that begins at this place.
    pub fn longest_at(
        &self,
        text: &[u8],
        place: usize,
        effort: &mut Effort,
    ) -> Result<Option<usize>, Exhausted> {
        effort.spend(1)?;
        if !self.can_begin(text, place) {
            return Ok(None);
        }
        let mut now = Reached::new(self.states.len());
        let mut then = Reached::new(self.states.len());
        effort.spend(self.states.len() as u64 / 16)?;
        now.add(self.start);
        let mut longest = self.close(&mut now, place, text.len()).then_some(place);
        for (at, byte) in text.iter().enumerate().skip(place) {
            effort.spend(1 + now.list.len() as u64)?;
            self.advance(&now, *byte, &mut then);
            if then.list.is_empty() {
                break;
            }
            if self.close(&mut then, at + 1, text.len()) {
                longest = Some(at + 1);
            }
            std::mem::swap(&mut now, &mut then);
        }
        Ok(longest)
    }

    /// Whether there is a match somewhere: all places are begun from in one go.
    pub fn matches(&self, text: &[u8], effort: &mut Effort) -> Result<bool, Exhausted> {
        let mut now = Reached::new(self.states.len());
        let mut then = Reached::new(self.states.len());
        for at in 0..=text.len() {
            now.add(self.start);
            if self.close(&mut now, at, text.len()) {
                return Ok(true);
            }
            effort.spend(1 + now.list.len() as u64)?;
            if let Some(byte) = text.get(at) {
                self.advance(&now, *byte, &mut then);
                std::mem::swap(&mut now, &mut then);
            }
        }
        Ok(false)
    }

    /// All matches from the left, the longest each, replaced; and how many they were. An
    /// empty match right behind another match is passed over.
    pub fn swap(&self, text: &[u8], new: &[u8], effort: &mut Effort) -> Result<(Vec<u8>, usize), Exhausted> {
        let mut result = Vec::new();
        let mut times = 0;
        let mut place = 0;
        let mut behind_match = false;
        while place <= text.len() {
            let longest = self.longest_at(text, place, effort)?;
            let replaces = longest.is_some_and(|end| end > place || !behind_match);
            if replaces {
                effort.spend(new.len() as u64 / 16)?;
                result.extend_from_slice(new);
                times += 1;
            }
            match longest.filter(|end| *end > place) {
                Some(end) => {
                    place = end;
                    behind_match = true;
                }
                None => {
                    result.extend(text.get(place));
                    place += 1;
                    behind_match = false;
                }
            }
        }
        Ok((result, times))
    }

    /// The pieces between matches that have bytes; an empty text has no pieces. The text
    /// stays whole, so that `^` matches at its beginning only.
    pub fn pieces<'t>(&self, text: &'t [u8], effort: &mut Effort) -> Result<Vec<&'t [u8]>, Exhausted> {
        let mut pieces = Vec::new();
        if text.is_empty() {
            return Ok(pieces);
        }
        let mut begin = 0;
        let mut place = 0;
        while place < text.len() {
            match self.longest_at(text, place, effort)?.filter(|end| *end > place) {
                Some(end) => {
                    pieces.push(&text[begin..place]);
                    begin = end;
                    place = end;
                }
                None => place += 1,
            }
        }
        pieces.push(&text[begin..]);
        Ok(pieces)
    }
}

#[cfg(test)]
mod tests {
    use super::*;
    use crate::pattern::parse_pattern;

    const PLENTY: Effort = Effort { left: u64::MAX };

    fn matcher(pattern: &str) -> Matcher {
        Matcher::new(parse_pattern(pattern.as_bytes()).expect("a pattern"))
    }

    fn swapped(pattern: &str, new: &str, text: &str) -> (String, usize) {
        let (bytes, times) =
            matcher(pattern).swap(text.as_bytes(), new.as_bytes(), &mut PLENTY.clone()).expect("plenty");
        (String::from_utf8(bytes).expect("text"), times)
    }

    fn cut(pattern: &str, text: &str) -> Vec<String> {
        let matcher = matcher(pattern);
        let pieces = matcher.pieces(text.as_bytes(), &mut PLENTY.clone()).expect("plenty");
        pieces.iter().map(|p| String::from_utf8_lossy(p).into_owned()).collect()
    }

    fn longest(pattern: &str, text: &str, place: usize) -> Option<usize> {
        matcher(pattern).longest_at(text.as_bytes(), place, &mut PLENTY.clone()).expect("plenty")
    }

    fn found(pattern: &str, text: &str) -> bool {
        matcher(pattern).matches(text.as_bytes(), &mut PLENTY.clone()).expect("plenty")
    }

    #[test]
    fn the_longest_and_not_the_first_alternative() {
        assert_eq!(longest("a|ab|abc", "abcd", 0), Some(3));
        assert_eq!(longest("(a|ab)(c|bcd)", "abcd", 0), Some(4));
        assert_eq!(longest("a*", "baa", 0), Some(0));
        assert_eq!(longest("a+", "baa", 0), None);
        assert_eq!(longest("(a*)*b?", "aab", 0), Some(3));
        assert_eq!(longest("a++++", "aaab", 0), Some(3));
    }

    #[test]
    fn beginnings_and_ends_of_the_text() {
        assert!(found("^a.$", "ab"));
        assert!(!found("^a.$", "ab3"));
        assert!(!found("^b", "ab"));
        assert!(found("a^*b", "ab"));
        assert!(found("$", ""));
        assert!(found("^$", ""));
        assert!(!found("a^b", "ab"));
        assert!(found("(^|b)c", "abc"));
        assert!(found("", "anything"));
        assert!(found(".", "\n"));
    }

    #[test]
    fn swapping() {
        assert_eq!(swapped("a*n", "<>", "banana"), ("b<><>a".into(), 2));
        assert_eq!(swapped("x*", "-", "abc"), ("-a-b-c-".into(), 4));
        assert_eq!(swapped("b*", "-", "abbc"), ("-a-c-".into(), 3));
        assert_eq!(swapped("a*", "-", "aa"), ("-".into(), 1));
        assert_eq!(swapped("^", ">", "ab"), (">ab".into(), 1));
        assert_eq!(swapped("$", "<", "ab"), ("ab<".into(), 1));
        assert_eq!(swapped("b|$", "<", "ab"), ("a<".into(), 1));
        assert_eq!(swapped("", "-", ""), ("-".into(), 1));
        assert_eq!(swapped("q", "-", "ab"), ("ab".into(), 0));
        assert_eq!(swapped("^a", "", "aaa"), ("aa".into(), 1));
    }

    #[test]
    fn splitting() {
        assert_eq!(cut(",", "1,2,,3"), ["1", "2", "", "3"]);
        assert_eq!(cut(",", ""), Vec::<String>::new());
        assert_eq!(cut("x*", "abc"), ["abc"]);
        assert_eq!(cut("b*", "abbc"), ["a", "c"]);
        assert_eq!(cut("^a", "aaab"), ["", "aab"]);
        assert_eq!(cut(",", ","), ["", ""]);
        assert_eq!(cut(" +", "a  b c "), ["a", "b", "c", ""]);
        assert_eq!(cut("b$|b", "abab"), ["a", "a", ""]);
    }

    #[test]
    fn effort_is_used_up() {
        let mut little = Effort { left: 100 };
        let text = vec![b'a'; 1000];
        assert_eq!(matcher("a*b").longest_at(&text, 0, &mut little), Err(Exhausted));
    }
}

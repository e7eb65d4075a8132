//! A program's bytes cut into tokens.

use crate::value::MOST_DIGITS;

#[derive(Clone, Copy, Debug, PartialEq, Eq)]
pub enum Keyword {
    Begin,
    End,
    Function,
    If,
    Else,
    While,
    For,
    In,
    Print,
    Next,
    Exit,
    Delete,
    Return,
    Length,
    Upper,
    Index,
    Substr,
    Split,
    Swap,
}

#[derive(Clone, Copy, Debug, PartialEq, Eq)]
pub enum Sign {
    Not,
    Dollar,
    Percent,
    OpenParen,
    CloseParen,
    Star,
    Plus,
    Comma,
    Minus,
    Slash,
    Semicolon,
    Less,
    Assign,
    Greater,
    OpenBracket,
    CloseBracket,
    OpenBrace,
    CloseBrace,
    Tilde,
    Equal,
    NotEqual,
    AtMost,
    AtLeast,
    And,
    Or,
    NotTilde,
}

#[derive(Clone, Debug, PartialEq, Eq)]
pub enum Token {
    Keyword(Keyword),
    Name(Vec<u8>),
    Number(i64),
    Quoted(Vec<u8>),
    Sign(Sign),
}

pub fn keyword(word: &[u8]) -> Option<Keyword> {
    Some(match word {
        b"BEGIN" => Keyword::Begin,
        b"END" => Keyword::End,
        b"function" => Keyword::Function,
        b"if" => Keyword::If,
        b"else" => Keyword::Else,
        b"while" => Keyword::While,
        b"for" => Keyword::For,
        b"in" => Keyword::In,
        b"print" => Keyword::Print,
        b"next" => Keyword::Next,
        b"exit" => Keyword::Exit,
        b"delete" => Keyword::Delete,
        b"return" => Keyword::Return,
        b"length" => Keyword::Length,
        b"upper" => Keyword::Upper,
        b"index" => Keyword::Index,
        b"substr" => Keyword::Substr,
        b"split" => Keyword::Split,
        b"swap" => Keyword::Swap,
        _ => return None,
    })
}

/// Signs of two bytes; these go before the single ones.
fn double_sign(first: u8, second: Option<u8>) -> Option<Sign> {
    Some(match (first, second?) {
        (b'=', b'=') => Sign::Equal,
        (b'!', b'=') => Sign::NotEqual,
        (b'<', b'=') => Sign::AtMost,
        (b'>', b'=') => Sign::AtLeast,
        (b'&', b'&') => Sign::And,
        (b'|', b'|') => Sign::Or,
        (b'!', b'~') => Sign::NotTilde,
        _ => return None,
    })
}

fn single_sign(byte: u8) -> Option<Sign> {
    Some(match byte {
        b'!' => Sign::Not,
        b'$' => Sign::Dollar,
        b'%' => Sign::Percent,
        b'(' => Sign::OpenParen,
        b')' => Sign::CloseParen,
        b'*' => Sign::Star,
        b'+' => Sign::Plus,
        b',' => Sign::Comma,
        b'-' => Sign::Minus,
        b'/' => Sign::Slash,
        b';' => Sign::Semicolon,
        b'<' => Sign::Less,
        b'=' => Sign::Assign,
        b'>' => Sign::Greater,
        b'[' => Sign::OpenBracket,
        b']' => Sign::CloseBracket,
        b'{' => Sign::OpenBrace,
        b'}' => Sign::CloseBrace,
        b'~' => Sign::Tilde,
        _ => return None,
    })
}

fn is_letter(byte: u8) -> bool {
    byte.is_ascii_alphabetic() || byte == b'_'
}

/// All tokens of a program, or nothing if there is a byte that begins none, a text without
/// its closing quote, or a number of too many digits: then it is no program, whatever
/// else stands there.
pub fn tokens(program: &[u8]) -> Option<Vec<Token>> {
    let mut cutter = Cutter { bytes: program, at: 0 };
    let mut found = Vec::new();
    while cutter.skip_gaps() {
        found.push(cutter.token()?);
    }
    Some(found)
}

struct Cutter<'a> {
    bytes: &'a [u8],
    at: usize,
}

impl Cutter<'_> {
    fn peek(&self) -> Option<u8> {
        self.bytes.get(self.at).copied()
    }

    /// Past blanks, ends of lines and comments; whether anything is left.
    fn skip_gaps(&mut self) -> bool {
        while let Some(byte) = self.peek() {
            match byte {
                b' ' | b'\n' | b'\t' => self.at += 1,
                b'#' => {
                    self.take_while(|b| b != b'\n');
                    self.at += 1;
                }
                _ => return true,
            }
        }
        false
    }

    fn take_while(&mut self, wanted: impl Fn(u8) -> bool) -> &[u8] {
        let start = self.at;
        while self.peek().is_some_and(&wanted) {
            self.at += 1;
        }
        &self.bytes[start..self.at]
    }

    fn token(&mut self) -> Option<Token> {
        let first = self.peek()?;
        if is_letter(first) {
            return Some(self.word());
        }
        if first.is_ascii_digit() {
            return self.number();
        }
        if first == b'"' {
            self.at += 1;
            return self.quoted();
        }
        self.sign(first)
    }

    fn word(&mut self) -> Token {
        let word = self.take_while(|b| is_letter(b) || b.is_ascii_digit());
        match keyword(word) {
            Some(keyword) => Token::Keyword(keyword),
            None => Token::Name(word.to_vec()),
        }
    }

    fn number(&mut self) -> Option<Token> {
        let digits = self.take_while(|b| b.is_ascii_digit());
        if digits.len() > MOST_DIGITS {
            return None;
        }
        Some(Token::Number(digits.iter().fold(0, |n, b| 10 * n + i64::from(b - b'0'))))
    }

    /// What stands in quotes: `\n` is the end of a line, `\` before another byte that byte.
    fn quoted(&mut self) -> Option<Token> {
        let mut text = Vec::new();
        loop {
            let byte = self.peek()?;
            self.at += 1;
            match byte {
                b'"' => return Some(Token::Quoted(text)),
                b'\\' => {
                    let meant = self.peek()?;
                    self.at += 1;
                    text.push(if meant == b'n' { b'\n' } else { meant });
                }
                _ => text.push(byte),
            }
        }
    }

    fn sign(&mut self, first: u8) -> Option<Token> {
        if let Some(sign) = double_sign(first, self.bytes.get(self.at + 1).copied()) {
            self.at += 2;
            return Some(Token::Sign(sign));
        }
        self.at += 1;
        single_sign(first).map(Token::Sign)
    }
}

#[cfg(test)]
mod tests {
    use super::*;

    fn quoted(program: &[u8]) -> Option<Vec<Token>> {
        tokens(program)
    }

    #[test]
    fn numbers_have_at_most_eighteen_digits() {
        assert_eq!(tokens(b"999999999999999999"), Some(vec![Token::Number(999_999_999_999_999_999)]));
        assert_eq!(tokens(b"000000000000000001"), Some(vec![Token::Number(1)]));
        assert_eq!(tokens(b"0000000000000000001"), None);
        assert_eq!(tokens(b"12ab"), Some(vec![Token::Number(12), Token::Name(b"ab".to_vec())]));
    }

    #[test]
    fn quoted_texts() {
        assert_eq!(quoted(br#""a\n\"\\\x""#), Some(vec![Token::Quoted(b"a\n\"\\x".to_vec())]));
        assert_eq!(quoted(b"\"a\nb\""), Some(vec![Token::Quoted(b"a\nb".to_vec())]));
        assert_eq!(quoted(br#""\""#), None);
        assert_eq!(quoted(br#""a\"#), None);
        assert_eq!(quoted(b"\""), None);
        assert_eq!(quoted(br#""""#), Some(vec![Token::Quoted(Vec::new())]));
        assert_eq!(quoted(b"\"# no comment\"").map(|t| t.len()), Some(1));
    }

    #[test]
    fn comments_reach_to_the_end_of_a_line() {
        assert_eq!(tokens(b"# all \" & of it"), Some(vec![]));
        assert_eq!(tokens(b"a#b\nc").map(|t| t.len()), Some(2));
        assert_eq!(tokens(b"a #"), Some(vec![Token::Name(b"a".to_vec())]));
    }

    #[test]
    fn double_signs_go_first() {
        use Sign::*;
        let signs = |text: &[u8]| -> Vec<Token> { tokens(text).expect("these are signs") };
        assert_eq!(signs(b"==="), vec![Token::Sign(Equal), Token::Sign(Assign)]);
        assert_eq!(signs(b"!==!~~"), [NotEqual, Assign, NotTilde, Tilde].map(Token::Sign));
        assert_eq!(signs(b"< = <="), [Less, Assign, AtMost].map(Token::Sign));
        assert_eq!(tokens(b"a & b"), None);
        assert_eq!(tokens(b"a | b"), None);
        assert_eq!(tokens(b"a\rb"), None);
        assert_eq!(tokens(b"a.b"), None);
    }
}

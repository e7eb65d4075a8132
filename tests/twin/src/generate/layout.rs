//! Tokens put down as a program's text.

use crate::random::Random;

/// How tokens are kept apart.
#[derive(Clone, Copy, PartialEq, Eq)]
enum Spacing {
    /// Only where two tokens would else become one.
    Tight,
    OneBlank,
    /// Blanks, tabs, ends of lines and comments.
    Wild,
}

fn is_word_byte(byte: u8) -> bool {
    byte.is_ascii_alphanumeric() || byte == b'_'
}

/// Whether two tokens side by side would be read as something else.
fn must_be_apart(left: &[u8], right: &[u8]) -> bool {
    let (Some(last), Some(first)) = (left.last(), right.first()) else { return false };
    if is_word_byte(*last) && is_word_byte(*first) {
        return true;
    }
    let signs = [(b'=', b'='), (b'!', b'='), (b'<', b'='), (b'>', b'='), (b'!', b'~')];
    left.len() == 1 && signs.contains(&(*last, *first))
}

fn push_gap(random: &mut Random, spacing: Spacing, must: bool, text: &mut Vec<u8>) {
    match spacing {
        Spacing::Tight => text.extend(must.then_some(b' ')),
        Spacing::OneBlank => text.push(b' '),
        Spacing::Wild => {
            let count = random.below(4) + usize::from(must);
            for _ in 0..count {
                match random.below(12) {
                    0 => text.extend_from_slice(b"# \"} a comment\n"),
                    1 | 2 => text.push(b'\n'),
                    3 | 4 => text.push(b'\t'),
                    _ => text.push(b' '),
                }
            }
        }
    }
}

pub fn lay_out(random: &mut Random, tokens: &[Vec<u8>]) -> Vec<u8> {
    let spacing = match random.below(10) {
        0..=3 => Spacing::OneBlank,
        4..=6 => Spacing::Tight,
        _ => Spacing::Wild,
    };
    let mut text = Vec::new();
    for (at, token) in tokens.iter().enumerate() {
        if at > 0 {
            push_gap(random, spacing, must_be_apart(&tokens[at - 1], token), &mut text);
        }
        text.extend_from_slice(token);
    }
    text
}

/// A text in quotes, with its bytes escaped where they must be and now and then elsewhere.
pub fn quote(random: &mut Random, bytes: &[u8]) -> Vec<u8> {
    let mut text = vec![b'"'];
    for byte in bytes {
        match byte {
            b'"' | b'\\' => text.extend_from_slice(&[b'\\', *byte]),
            b'\n' if !random.once_in(4) => text.extend_from_slice(b"\\n"),
            b'n' => text.push(b'n'),
            byte if random.once_in(40) => text.extend_from_slice(&[b'\\', *byte]),
            byte => text.push(*byte),
        }
    }
    text.push(b'"');
    text
}

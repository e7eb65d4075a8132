//! Random patterns.

use crate::random::Random;

/// The bytes of a quoted text that is a pattern, or seldom none.
pub fn pattern_text(random: &mut Random) -> Vec<u8> {
    const COMMON: [&str; 20] = [
        "^a.$", "a*n", ",", " +", "[0-9]+", "^[a-z]*$", "(a|ab)(c|bcd)*", "a|b|ab", "x*", "[^ ]+", "^", "$",
        "", "[]a-]", "\\.", "(^| )b", "0+$", "a?b?", "[^0-9]", "(a*)*",
    ];
    if random.once_in(2) {
        return random.pick(&COMMON).as_bytes().to_vec();
    }
    let mut text = Vec::new();
    alternatives(random, 3, &mut text);
    if random.once_in(40) {
        let at = random.below(text.len() + 1);
        text.insert(at, *random.pick(b"()[]*+?\\|^$-"));
    }
    text
}

fn alternatives(random: &mut Random, depth: usize, text: &mut Vec<u8>) {
    sequence(random, depth, text);
    while random.once_in(4) {
        text.push(b'|');
        sequence(random, depth, text);
    }
}

fn sequence(random: &mut Random, depth: usize, text: &mut Vec<u8>) {
    let count = random.below(4);
    for _ in 0..count {
        atom(random, depth, text);
        while random.once_in(4) {
            text.push(*random.pick(b"*+?"));
        }
    }
}

fn atom(random: &mut Random, depth: usize, text: &mut Vec<u8>) {
    match random.below(12) {
        0 if depth > 0 => group(random, depth, text),
        1 if depth > 0 => group(random, depth, text),
        2 => text.push(b'.'),
        3 => text.push(*random.pick(b"^$")),
        4 => text.extend_from_slice(&[b'\\', *random.pick(b".*+?()[]|\\^$na")]),
        5 | 6 => brackets(random, text),
        7 => text.push(*random.pick(b" 0123,-]{}")),
        _ => text.push(*random.pick(b"abcn1")),
    }
}

fn group(random: &mut Random, depth: usize, text: &mut Vec<u8>) {
    text.push(b'(');
    alternatives(random, depth - 1, text);
    text.push(b')');
}

fn brackets(random: &mut Random, text: &mut Vec<u8>) {
    text.push(b'[');
    if random.once_in(3) {
        text.push(b'^');
    }
    if random.once_in(6) {
        text.push(b']');
    }
    let count = random.between(1, 3);
    for _ in 0..count {
        let low = *random.pick(b"abc019 ,.*\\^-");
        text.push(low);
        if random.once_in(3) {
            text.push(b'-');
            text.push(*random.pick(b"bcz59~a-"));
        }
    }
    text.push(b']');
}

//! Programs that were damaged, and tokens in no order.

use super::expressions::literal;
use super::layout::{lay_out, quote};
use crate::random::Random;

const TOKENS: [&str; 66] = [
    "a", "b", "x", "t", "f", "NR", "NF", "0", "1", "2", "1000", "1001", "256", "999999999999999999", "\"\"",
    "\"a\"", "\"*\"", "\"[\"", "!", "$", "%", "(", ")", "*", "+", ",", "-", "/", ";", ";", "<", "=", ">",
    "[", "]", "{", "}", "~", "==", "!=", "<=", ">=", "&&", "||", "!~", "BEGIN", "END", "function", "if",
    "else", "while", "for", "in", "print", "next", "exit", "delete", "return", "length", "upper", "index",
    "substr", "split", "swap", "getline", "x1_",
];

/// Tokens at random, mostly within the braces of a rule.
pub fn token_soup(random: &mut Random) -> Vec<u8> {
    let mut tokens: Vec<Vec<u8>> = Vec::new();
    if !random.once_in(4) {
        tokens.push(random.pick(&["BEGIN", "END", "x"]).as_bytes().to_vec());
        tokens.push(b"{".to_vec());
    }
    // Few tokens make a program by chance at times, many hardly ever.
    let count = if random.once_in(5) { random.below(60) } else { random.below(7) };
    for _ in 0..count {
        if random.once_in(20) {
            let text = literal(random);
            tokens.push(quote(random, &text));
        } else {
            tokens.push(random.pick(&TOKENS).as_bytes().to_vec());
        }
    }
    if !random.once_in(4) {
        tokens.push(b";".to_vec());
        tokens.push(b"}".to_vec());
    }
    lay_out(random, &tokens)
}

/// A program with a few bytes or tokens taken out, put in, replaced or doubled.
pub fn damaged(random: &mut Random, program: &[u8]) -> Vec<u8> {
    let mut program = program.to_vec();
    let times = random.between(1, 3);
    for _ in 0..times {
        if random.once_in(2) {
            damage_bytes(random, &mut program);
        } else {
            damage_tokens(random, &mut program);
        }
    }
    program
}

fn damage_bytes(random: &mut Random, program: &mut Vec<u8>) {
    const LIKELY: &[u8] = b"(){}[];,=!<>~&|$\"\\#-+*/% \n\tn019aN_.\0\xff\r";
    let at = random.below(program.len() + 1);
    let byte = if random.once_in(8) { random.byte() } else { *random.pick(LIKELY) };
    match random.below(5) {
        0 => program.insert(at, byte),
        1 if at < program.len() => program[at] = byte,
        2 if at < program.len() => {
            program.insert(at, program[at]);
        }
        3 => program.truncate(at),
        _ if at < program.len() => {
            program.remove(at);
        }
        _ => {}
    }
}

/// Where tokens, roughly, begin and end.
pub fn rough_tokens(program: &[u8]) -> Vec<(usize, usize)> {
    let is_word = |byte: u8| byte.is_ascii_alphanumeric() || byte == b'_';
    let mut spans = Vec::new();
    let mut at = 0;
    while at < program.len() {
        let begin = at;
        at += 1;
        if is_word(program[begin]) {
            while at < program.len() && is_word(program[at]) {
                at += 1;
            }
        } else if program[begin] == b'"' {
            while at < program.len() && program[at] != b'"' {
                at += if program[at] == b'\\' { 2 } else { 1 };
            }
            at = (at + 1).min(program.len());
        }
        if !program[begin].is_ascii_whitespace() {
            spans.push((begin, at));
        }
    }
    spans
}

fn damage_tokens(random: &mut Random, program: &mut Vec<u8>) {
    let spans = rough_tokens(program);
    if spans.is_empty() {
        return;
    }
    let (begin, end) = *random.pick(&spans);
    let new: Vec<u8> = match random.below(5) {
        0 => Vec::new(),
        1 => [&program[begin..end], b" ", &program[begin..end]].concat(),
        2 => random.pick(&TOKENS).as_bytes().to_vec(),
        3 => [random.pick(&TOKENS).as_bytes(), b" ", &program[begin..end]].concat(),
        _ => {
            let (from, to) = *random.pick(&spans);
            program[from..to].to_vec()
        }
    };
    program.splice(begin..end, new);
}

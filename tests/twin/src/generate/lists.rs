//! Random lists of lines, and places where they are cut.

use crate::case::LONGEST_PIECE;
use crate::random::Random;
use crate::value::LONGEST_TEXT;

pub fn random_list(random: &mut Random) -> Vec<u8> {
    let mut list = match random.weighted(&[4, 6, 5, 3, 2, 2]) {
        0 => Vec::new(),
        1 => dairy(random, 12),
        2 => lines(random, words_line),
        3 => lines(random, numbers_line),
        4 => lines(random, bytes_line),
        _ => lines(random, blanks_line),
    };
    if random.once_in(4) {
        // The last line without its end.
        list.pop();
    }
    list
}

/// An evening's list: farm, can, weight, fat, driver.
pub fn dairy(random: &mut Random, most: usize) -> Vec<u8> {
    const FARMS: [&str; 8] = ["Holm", "Ekeby", "Lund", "ost", "Aspnas", "Holm2", "Kulla", "berga"];
    const DRIVERS: [&str; 4] = ["anna", "Per", "olle", "Ulla"];
    let mut list = Vec::new();
    let count = random.below(most + 1);
    for _ in 0..count {
        let farm = *random.pick(&FARMS);
        let can = random.below(30);
        let weight = random.below(600) as i64 - 5;
        let fat = random.between(30, 52);
        let driver = *random.pick(&DRIVERS);
        let gap = *random.pick(&[" ", " ", " ", "  ", "\t", " \t "]);
        let line = match random.below(12) {
            0 => format!("{farm}{gap}{can:03}"),
            1 => format!("# {driver}"),
            _ => format!("{farm}{gap}{can:03}{gap}{weight}{gap}{fat}{gap}{driver}"),
        };
        list.extend_from_slice(line.as_bytes());
        list.push(b'\n');
    }
    list
}

fn lines(random: &mut Random, line: fn(&mut Random, &mut Vec<u8>)) -> Vec<u8> {
    let mut list = Vec::new();
    let count = random.below(8);
    for _ in 0..count {
        if !random.once_in(8) {
            line(random, &mut list);
        }
        list.push(b'\n');
    }
    list
}

fn gap(random: &mut Random, list: &mut Vec<u8>) {
    let count = if random.once_in(4) { random.below(5) } else { 1 };
    for _ in 0..count {
        list.push(*random.pick(b"   \t"));
    }
}

fn words_line(random: &mut Random, list: &mut Vec<u8>) {
    const WORDS: [&str; 12] =
        ["a", "ab", "abc", "b", "banana", "milk", "x,y", "1,2,,3", "12", "007", "n", "aab"];
    let count = random.below(7);
    for _ in 0..count {
        list.extend_from_slice(random.pick(&WORDS).as_bytes());
        gap(random, list);
    }
}

fn numbers_line(random: &mut Random, list: &mut Vec<u8>) {
    const NUMBERS: [&str; 14] = [
        "0", "1", "-1", "007", "-007", "10", "9", "999999999999999999", "-999999999999999999",
        "1000000000000000000", "12x", "-", "--1", "000000000000000000000",
    ];
    let count = random.below(6);
    for _ in 0..count {
        if random.once_in(2) {
            list.extend_from_slice(random.pick(&NUMBERS).as_bytes());
        } else {
            list.extend_from_slice(random.below(1000).to_string().as_bytes());
        }
        gap(random, list);
    }
}

fn bytes_line(random: &mut Random, list: &mut Vec<u8>) {
    let count = random.below(30);
    list.extend((0..count).map(|_| random.byte()));
}

fn blanks_line(random: &mut Random, list: &mut Vec<u8>) {
    let count = random.below(10);
    for _ in 0..count {
        list.push(*random.pick(b"  \t\ta0-"));
    }
}

/// A line of about as many bytes as one may have, or of very many fields.
pub fn long_list(random: &mut Random) -> Vec<u8> {
    let mut list = Vec::new();
    let count = random.between(1, 2);
    for _ in 0..count {
        if random.once_in(3) {
            list.extend_from_slice(b"a b 3\n");
        }
        let len = match random.below(6) {
            0 => LONGEST_TEXT - 1,
            1 => LONGEST_TEXT,
            2 => LONGEST_TEXT + 1,
            3 => LONGEST_TEXT + 2 + random.below(5000),
            _ => random.between(3000, LONGEST_TEXT),
        };
        let filler: &[u8] = *random.pick(&[&b"x"[..], b"x ", b" ", b"ab 12 ", b"0", b"milk\tcan  "]);
        list.extend(filler.iter().cycle().take(len));
        list.push(b'\n');
    }
    if random.once_in(2) {
        list.pop();
    }
    list
}

/// Where a list is cut: not at all but for length, at random, around ends of lines, or
/// after every byte; with empty pieces among them.
pub fn random_cuts(random: &mut Random, list: &[u8]) -> Vec<usize> {
    let len = list.len();
    let mut cuts: Vec<usize> = match random.below(6) {
        0 => Vec::new(),
        1 if len <= 600 => (1..=len).collect(),
        2 => ends_of_lines(random, list),
        _ => {
            let count = random.below(8);
            (0..count).map(|_| random.below(len + 1)).collect()
        }
    };
    if random.once_in(3) {
        let count = random.between(1, 3);
        cuts.extend((0..count).map(|_| random.below(len + 1)));
        cuts.extend(cuts.last().copied());
    }
    if len > LONGEST_PIECE && random.once_in(2) {
        let size = random.between(1000, LONGEST_PIECE);
        cuts.extend((0..len).step_by(size));
    }
    cuts.sort_unstable();
    cuts
}

fn ends_of_lines(random: &mut Random, list: &[u8]) -> Vec<usize> {
    let ends = list.iter().enumerate().filter(|(_, byte)| **byte == b'\n');
    ends.map(|(at, _)| at + random.below(2)).collect()
}

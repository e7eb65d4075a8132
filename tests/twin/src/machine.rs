//! The machine as the comparer sees it: it is told something and does one act.

use crate::case::LONGEST_PIECE;
use crate::linked;

/// The machine's memory has this many numbers.
pub const MEMORY_LEN: usize = 262_144;

#[derive(Clone, Copy, Debug)]
pub enum Event<'a> {
    Program(&'a [u8]),
    Piece(&'a [u8]),
    NoMore,
    GoOn,
}

impl<'a> Event<'a> {
    fn kind(&self) -> u64 {
        match self {
            Event::Program(_) => 0,
            Event::Piece(_) => 1,
            Event::NoMore => 2,
            Event::GoOn => 3,
        }
    }

    fn bytes(&self) -> &'a [u8] {
        match self {
            Event::Program(bytes) | Event::Piece(bytes) => bytes,
            Event::NoMore | Event::GoOn => &[],
        }
    }
}

#[derive(Clone, Debug, PartialEq, Eq)]
pub enum Act {
    Ask,
    Write(Vec<u8>),
    Done(u64),
    Refused(u64),
    /// Something that is no act, or that touched what it must not.
    Fault(&'static str),
}

pub trait Machine {
    /// Makes the machine ready for a new run.
    fn restart(&mut self);
    fn step(&mut self, event: Event) -> Act;
}

const GUARD_WORDS: usize = 64;
const WORD_GUARD: [u64; GUARD_WORDS] = [0xA5A5_5A5A_C3C3_3C3C; GUARD_WORDS];
const GUARD_BYTES: usize = 256;
const ROW_LEN: usize = LONGEST_PIECE + 2 * GUARD_BYTES;

/// The row as it is lent, with its guards.
static CLEAN_ROW: [u8; ROW_LEN] = [0xB7; ROW_LEN];

/// The machine of the library, with guards around what is lent to it.
pub struct LinkedMachine {
    memory: Vec<u64>,
    out: Vec<u8>,
}

impl LinkedMachine {
    pub fn new() -> LinkedMachine {
        LinkedMachine {
            memory: [&WORD_GUARD[..], &vec![0; MEMORY_LEN], &WORD_GUARD].concat(),
            out: CLEAN_ROW.to_vec(),
        }
    }

    fn guards_stand(&self) -> bool {
        self.memory[..GUARD_WORDS] == WORD_GUARD && self.memory[GUARD_WORDS + MEMORY_LEN..] == WORD_GUARD
    }

    /// Whether the row is as it was lent but for so many bytes at its front.
    fn row_untouched_behind(&self, front: usize) -> bool {
        let behind = GUARD_BYTES + front;
        self.out[..GUARD_BYTES] == CLEAN_ROW[..GUARD_BYTES] && self.out[behind..] == CLEAN_ROW[behind..]
    }

    /// The bytes at the row's front; it is clean again afterwards.
    fn take_row(&mut self, len: usize) -> Vec<u8> {
        let span = GUARD_BYTES..GUARD_BYTES + len;
        let row = self.out[span.clone()].to_vec();
        self.out[span.clone()].copy_from_slice(&CLEAN_ROW[span]);
        row
    }
}

impl Machine for LinkedMachine {
    fn restart(&mut self) {
        self.memory[GUARD_WORDS..GUARD_WORDS + MEMORY_LEN].fill(0);
        // A run that was at fault may have left its marks.
        self.memory[..GUARD_WORDS].copy_from_slice(&WORD_GUARD);
        self.memory[GUARD_WORDS + MEMORY_LEN..].copy_from_slice(&WORD_GUARD);
        self.out.copy_from_slice(&CLEAN_ROW);
    }

    fn step(&mut self, event: Event) -> Act {
        let memory = &mut self.memory[GUARD_WORDS..GUARD_WORDS + MEMORY_LEN];
        let out = &mut self.out[GUARD_BYTES..GUARD_BYTES + LONGEST_PIECE];
        let answer = linked::step(memory, event.kind(), event.bytes(), out);
        if !self.guards_stand() {
            return Act::Fault("it wrote beyond its memory");
        }
        let front = if answer.act == 1 { answer.number as usize } else { 0 };
        if front > LONGEST_PIECE {
            return Act::Fault("it says that a row has more bytes than it can have");
        }
        if !self.row_untouched_behind(front) {
            return Act::Fault("it wrote into the row beyond what it says it wrote");
        }
        match answer.act {
            0 => Act::Ask,
            1 => Act::Write(self.take_row(front)),
            2 => Act::Done(answer.number),
            3 => Act::Refused(answer.number),
            _ => Act::Fault("that is no act"),
        }
    }
}

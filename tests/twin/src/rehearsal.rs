//! The twin's own worker dressed up as a machine, cut into steps at random, for checking
//! the comparer; and the same with flaws that the comparer must see.

use std::rc::Rc;

use crate::case::LONGEST_PIECE;
use crate::flaws::{changed_program, Flaw};
use crate::machine::{Act, Event, Machine};
use crate::meant::QUICK;
use crate::parse::parse;
use crate::random::Random;
use crate::worker::{Ending, Refusal, Worker};

pub struct Rehearsal {
    random: Random,
    flaw: Option<Flaw>,
    weight_checks: u32,
    worker: Option<Worker>,
    /// How much of the worker's output is written.
    sent: usize,
    /// The bytes of a line that has not ended yet.
    begun_line: Vec<u8>,
    ending: Option<Ending>,
    /// Whether it was said that there are no more pieces.
    all_given: bool,
    finished: bool,
}

impl Rehearsal {
    pub fn new(flaw: Option<Flaw>, weight_checks: u32) -> Rehearsal {
        Rehearsal {
            random: Random::new(99, 0),
            flaw,
            weight_checks,
            worker: None,
            sent: 0,
            begun_line: Vec::new(),
            ending: None,
            all_given: false,
            finished: false,
        }
    }

    fn has(&self, flaw: Flaw) -> bool {
        self.flaw == Some(flaw)
    }

    fn start(&mut self, text: &[u8]) {
        let Some(program) = parse(text) else {
            self.ending = Some(Ending::Refused(Refusal::NotAProgram));
            return;
        };
        let program = changed_program(program, self.flaw);
        let mut worker = Worker::new(Rc::new(program), QUICK);
        worker.state.weight_checks = self.weight_checks;
        if !self.has(Flaw::ReadsAllFirst) {
            self.ending = worker.begin();
        }
        self.worker = Some(worker);
    }

    fn take_piece(&mut self, piece: &[u8]) {
        self.begun_line.extend_from_slice(piece);
        if self.has(Flaw::ReadsAllFirst) {
            return;
        }
        if self.has(Flaw::EndsLinesAtCuts) && !self.begun_line.is_empty() && !piece.ends_with(b"\n") {
            self.begun_line.push(b'\n');
        }
        self.work_off_lines();
    }

    fn work_off_lines(&mut self) {
        let bytes = std::mem::take(&mut self.begun_line);
        let (lines, rest) = crate::case::cut_into_lines(&bytes);
        for line in lines {
            if self.ending.is_none() {
                self.line(line);
            }
        }
        self.begun_line = rest.to_vec();
    }

    fn line(&mut self, line: &[u8]) {
        if let Some(worker) = &mut self.worker {
            self.ending = worker.line(line);
        }
    }

    fn take_end(&mut self) {
        self.all_given = true;
        if self.has(Flaw::ReadsAllFirst) {
            self.ending = self.worker.as_mut().and_then(Worker::begin);
            self.work_off_lines();
        }
        let rest = std::mem::take(&mut self.begun_line);
        if self.ending.is_none() && !rest.is_empty() && !self.has(Flaw::DropsLastLine) {
            self.line(&rest);
        }
        if self.ending.is_none() {
            self.ending = self.worker.as_mut().map(Worker::end);
        }
    }

    /// What is still to be written.
    fn pending(&self) -> &[u8] {
        self.worker.as_ref().map_or(&[], |worker| &worker.state.out[self.sent..])
    }

    fn write_some(&mut self) -> Act {
        let pending = self.pending().len();
        let most = if self.has(Flaw::WritesLongRows) { 2 * LONGEST_PIECE } else { LONGEST_PIECE };
        let len = match self.random.below(6) {
            0 => 0,
            1 => self.random.between(1, pending.min(9)),
            2 => self.random.between(1, pending.min(most)),
            _ => pending.min(most),
        };
        let row = self.pending()[..len].to_vec();
        self.sent += len;
        Act::Write(row)
    }

    /// Whether to say that there is no room: an honest machine may once too much was held
    /// and all before that is written.
    fn says_no_room(&mut self) -> bool {
        let Some(worker) = &self.worker else { return false };
        let (heavy, full) = (worker.state.heavy, worker.state.out_when_full);
        match self.flaw {
            Some(Flaw::NoRoomTooEarly) => heavy > 2000,
            Some(Flaw::NoRoomByAByte) => heavy >= crate::state::ROOM && self.pending().is_empty(),
            Some(Flaw::NoRoomBeforeWriting) => full.is_some(),
            _ => full.is_some_and(|full| self.sent >= full) && self.random.once_in(20),
        }
    }

    fn act(&mut self) -> Act {
        if self.says_no_room() {
            return self.end(Act::Refused(Refusal::NoRoom as u64));
        }
        let hoards = self.has(Flaw::HoardsOutput) && self.ending.is_none() && !self.all_given;
        let forgets = self.has(Flaw::ForgetsBeforeRefusal) && matches!(self.ending, Some(Ending::Refused(_)));
        if !self.pending().is_empty() && !hoards && !forgets {
            return self.write_some();
        }
        match self.ending {
            None if self.has(Flaw::NeverAsks) => Act::Write(Vec::new()),
            None => Act::Ask,
            Some(ending) => self.act_at_end(ending),
        }
    }

    fn act_at_end(&mut self, ending: Ending) -> Act {
        match ending {
            Ending::Unfinished if self.has(Flaw::EndsEndless) => self.end(Act::Done(0)),
            Ending::Unfinished => Act::Write(Vec::new()),
            Ending::Done(_) if self.has(Flaw::AsksAfterExit) && !self.all_given => Act::Ask,
            Ending::Done(number) if self.has(Flaw::AddsToExit) => self.end(Act::Done(u64::from(number) + 1)),
            Ending::Done(number) => self.end(Act::Done(number.into())),
            Ending::Refused(_) if self.has(Flaw::WritesAfterRefusal) && !self.finished => {
                self.finished = true;
                Act::Write(b"0\n".to_vec())
            }
            Ending::Refused(refusal) => self.end(Act::Refused(refusal as u64)),
        }
    }

    fn end(&mut self, act: Act) -> Act {
        self.finished = true;
        act
    }
}

impl Machine for Rehearsal {
    fn restart(&mut self) {
        let random = Random::new(self.random.next(), 0);
        *self = Rehearsal { random, ..Rehearsal::new(self.flaw, self.weight_checks) };
    }

    fn step(&mut self, event: Event) -> Act {
        assert!(!self.finished || self.has(Flaw::WritesAfterRefusal), "it was told something after its end");
        if self.has(Flaw::RefusesEverything) {
            return self.end(Act::Refused(Refusal::NotKnown as u64));
        }
        match event {
            Event::Program(text) => self.start(text),
            Event::Piece(piece) => self.take_piece(piece),
            // Asking again is idle but allowed.
            Event::NoMore if self.random.once_in(5) && !self.all_given => return Act::Ask,
            Event::NoMore => self.take_end(),
            Event::GoOn => {}
        }
        self.act()
    }
}

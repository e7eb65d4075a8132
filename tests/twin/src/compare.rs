//! Running a machine on a case beside the twin, and judging every act.

use crate::case::{Case, LONGEST_PIECE};
use crate::known::Level;
use crate::machine::{Act, Event, Machine};
use crate::meant::{Meant, PATIENT, QUICK};
use crate::worker::{Ending, Refusal};

/// What kind of case it was, for the counts.
#[derive(Clone, Copy, Debug, PartialEq, Eq, PartialOrd, Ord)]
pub enum Outcome {
    Done,
    Refused(u64),
    Endless,
}

/// In what way the machine left what is meant. A case is made smaller only as long as the
/// way stays the same.
#[derive(Clone, Copy, Debug, PartialEq, Eq)]
pub enum Kind {
    /// What was done is no act, or touched what it must not.
    Fault(&'static str),
    /// A row or number is out of bounds, or something else was done than to refuse at once.
    NoAct,
    OtherBytes,
    TooManyBytes,
    TooFewBytes,
    AskedTooEarly,
    AskedAfterEnd,
    Done,
    Refused(u64),
    NoEnd,
}

/// Where the machine left what is meant.
#[derive(Clone, Debug)]
pub struct Difference {
    pub kind: Kind,
    pub what: String,
    pub written: Vec<u8>,
    pub pieces_given: usize,
    pub acts: u64,
    pub meant: Meant,
}

impl Difference {
    /// Whether another case shows the same: the machine does the same where the same kind
    /// of ending is meant.
    pub fn is_like(&self, other: &Difference) -> bool {
        use std::mem::discriminant;
        self.kind == other.kind && discriminant(&self.meant.ending) == discriminant(&other.meant.ending)
    }
}

/// What follows from an act.
enum Judged {
    GoOn,
    /// It asked, and may.
    Give,
    Right(Outcome),
    Wrong(Kind, String),
    /// The machine came to an end that the twin, within its bounds, has not seen.
    Undecided(Kind, String),
}

/// An endless run is followed for so many more acts when all that the twin wrote is written.
const ACTS_AFTER_ALL: u64 = 2_000;

/// Runs a case and judges it; with more patience if the twin gave up before the machine.
pub fn compare(case: &Case, machine: &mut dyn Machine, known: Level) -> Result<Outcome, Box<Difference>> {
    for bounds in [QUICK, PATIENT] {
        let meant = Meant::of(case, known, bounds);
        let mut run = Run::new(case, &meant, known);
        match run.follow(machine) {
            Judged::Right(outcome) => return Ok(outcome),
            Judged::Wrong(kind, what) => return Err(run.difference(kind, what)),
            Judged::Undecided(kind, what) if bounds.effort == PATIENT.effort => {
                return Err(run.difference(kind, format!("{what}, where the twin sees no end")));
            }
            _ => {}
        }
    }
    unreachable!("patience decides")
}

struct Run<'a> {
    case: &'a Case,
    meant: &'a Meant,
    known: Level,
    pieces: Vec<&'a [u8]>,
    pieces_given: usize,
    /// How many whole lines the pieces given so far have.
    lines_given: usize,
    written: Vec<u8>,
    acts: u64,
    /// After how many acts all was written that the twin wrote.
    complete_at: Option<u64>,
}

impl<'a> Run<'a> {
    fn new(case: &'a Case, meant: &'a Meant, known: Level) -> Run<'a> {
        Run {
            case,
            meant,
            known,
            pieces: case.pieces(),
            pieces_given: 0,
            lines_given: 0,
            written: Vec::new(),
            acts: 0,
            complete_at: None,
        }
    }

    fn difference(self, kind: Kind, what: String) -> Box<Difference> {
        Box::new(Difference {
            kind,
            what,
            written: self.written,
            pieces_given: self.pieces_given,
            acts: self.acts,
            meant: self.meant.clone(),
        })
    }

    fn follow(&mut self, machine: &mut dyn Machine) -> Judged {
        machine.restart();
        let mut event = Event::Program(&self.case.program);
        loop {
            let act = machine.step(event);
            self.acts += 1;
            event = match self.judge(act) {
                Judged::GoOn => Event::GoOn,
                Judged::Give => self.next_piece(),
                end => return end,
            };
            if let Some(end) = self.long_enough() {
                return end;
            }
        }
    }

    fn next_piece(&mut self) -> Event<'a> {
        match self.pieces.get(self.pieces_given) {
            None => Event::NoMore,
            Some(piece) => {
                self.pieces_given += 1;
                self.lines_given += piece.iter().filter(|byte| **byte == b'\n').count();
                Event::Piece(piece)
            }
        }
    }

    fn judge(&mut self, act: Act) -> Judged {
        if let Act::Fault(what) = act {
            return Judged::Wrong(Kind::Fault(what), what.into());
        }
        if self.known == Level::Nothing && act != Act::Refused(2) {
            let what = format!("it knows nothing, but its first act was {}", shown(&act));
            return Judged::Wrong(Kind::NoAct, what);
        }
        match act {
            Act::Ask => self.judge_asking(),
            Act::Write(row) => self.judge_writing(&row),
            Act::Done(number) if number > 255 => Judged::Wrong(Kind::NoAct, format!("done with {number}")),
            Act::Done(number) => self.judge_done(number as u8),
            Act::Refused(number) => self.judge_refusal(number),
            Act::Fault(_) => unreachable!("faults are seen first"),
        }
    }

    fn is_unfinished(&self) -> bool {
        self.meant.ending == Ending::Unfinished
    }

    fn judge_writing(&mut self, row: &[u8]) -> Judged {
        if row.len() > LONGEST_PIECE {
            return Judged::Wrong(Kind::NoAct, format!("a row of {} bytes", row.len()));
        }
        let begin = self.written.len();
        self.written.extend_from_slice(row);
        let expected = &self.meant.out[begin.min(self.meant.out.len())..];
        let both = expected.len().min(row.len());
        if let Some(at) = (0..both).find(|at| expected[*at] != row[*at]) {
            let what = format!("byte {} of what it wrote is another", begin + at);
            return Judged::Wrong(Kind::OtherBytes, what);
        }
        if row.len() > expected.len() && !self.is_unfinished() {
            return Judged::Wrong(Kind::TooManyBytes, "it wrote more than is meant".into());
        }
        Judged::GoOn
    }

    /// At an ask exactly that must be written which the whole lines so far are meant to write.
    fn judge_asking(&self) -> Judged {
        if self.meant.is_refused_unread() {
            return Judged::Give;
        }
        let lines = self.lines_given;
        match self.meant.out_after_lines.get(lines) {
            Some(expected) if self.written.len() == *expected => Judged::Give,
            Some(expected) => {
                let written = self.written.len();
                let what = format!("it asked after {lines} whole lines with {written} bytes written, and {expected} are meant");
                Judged::Wrong(Kind::AskedTooEarly, what)
            }
            None if self.is_unfinished() => Judged::Undecided(Kind::AskedAfterEnd, "it asked".into()),
            None => Judged::Wrong(Kind::AskedAfterEnd, "it asked though the run has ended".into()),
        }
    }

    fn judge_done(&self, number: u8) -> Judged {
        match self.meant.ending {
            Ending::Done(expected) if expected != number => {
                Judged::Wrong(Kind::Done, format!("done with {number}, and {expected} is meant"))
            }
            Ending::Done(_) => self.judge_completeness(Outcome::Done),
            Ending::Unfinished => Judged::Undecided(Kind::Done, format!("done with {number}")),
            Ending::Refused(_) => Judged::Wrong(Kind::Done, format!("done with {number}")),
        }
    }

    fn judge_refusal(&self, number: u64) -> Judged {
        if number == Refusal::NoRoom as u64 {
            return self.judge_no_room();
        }
        let what = format!("refused with {number}");
        match self.meant.ending {
            Ending::Refused(expected) if expected as u64 == number => {
                self.judge_completeness(Outcome::Refused(number))
            }
            Ending::Unfinished => Judged::Undecided(Kind::Refused(number), what),
            _ => Judged::Wrong(Kind::Refused(number), what),
        }
    }

    /// "No room" may be said only if more was to be held than there is room for, and when
    /// all is written that was meant before.
    fn judge_no_room(&self) -> Judged {
        let number = Refusal::NoRoom as u64;
        let written = self.written.len();
        match self.meant.out_when_full {
            Some(least) if written >= least => Judged::Right(Outcome::Refused(number)),
            Some(least) => {
                let what =
                    format!("it had no room with {written} bytes written, and {least} are meant before");
                Judged::Wrong(Kind::TooFewBytes, what)
            }
            None if self.is_unfinished() => Judged::Undecided(Kind::Refused(number), "it had no room".into()),
            None => {
                let what = format!("it had no room, but at most {} is held", self.meant.heavy);
                Judged::Wrong(Kind::Refused(number), what)
            }
        }
    }

    fn judge_completeness(&self, outcome: Outcome) -> Judged {
        if self.written.len() == self.meant.out.len() {
            Judged::Right(outcome)
        } else {
            let (written, meant) = (self.written.len(), self.meant.out.len());
            let what = format!("it ended with {written} bytes written, and {meant} are meant");
            Judged::Wrong(Kind::TooFewBytes, what)
        }
    }

    /// Whether the run was followed long enough: an endless one that wrote all the twin
    /// wrote, or one that should have got further by now.
    fn long_enough(&mut self) -> Option<Judged> {
        if self.is_unfinished() && self.written.len() >= self.meant.out.len() {
            let since = *self.complete_at.get_or_insert(self.acts);
            if self.acts - since >= ACTS_AFTER_ALL {
                return Some(Judged::Right(Outcome::Endless));
            }
        }
        let generous = 200_000 + 100 * self.meant.effort + 10 * self.pieces.len() as u64;
        (self.acts > generous).then(|| Judged::Wrong(Kind::NoEnd, "it does not come to an end".into()))
    }
}

fn shown(act: &Act) -> String {
    match act {
        Act::Ask => "to ask".into(),
        Act::Write(row) => format!("to write {} bytes", row.len()),
        Act::Done(number) => format!("to be done with {number}"),
        Act::Refused(number) => format!("to refuse with {number}"),
        Act::Fault(what) => (*what).into(),
    }
}

#[cfg(test)]
mod tests {
    use super::*;

    /// Does a list of acts, whatever it is told, and then writes nothing for ever.
    struct Scripted {
        acts: Vec<Act>,
        done: usize,
    }

    impl Machine for Scripted {
        fn restart(&mut self) {
            self.done = 0;
        }

        fn step(&mut self, _event: Event) -> Act {
            self.done += 1;
            self.acts.get(self.done - 1).cloned().unwrap_or(Act::Write(Vec::new()))
        }
    }

    fn write(text: &str) -> Act {
        Act::Write(text.as_bytes().to_vec())
    }

    fn judged(program: &str, list: &str, cuts: &[usize], acts: &[Act]) -> Result<Outcome, Kind> {
        let case = Case { program: program.into(), list: list.into(), cuts: cuts.to_vec() };
        let mut machine = Scripted { acts: acts.to_vec(), done: 0 };
        compare(&case, &mut machine, Level::Everything).map_err(|difference| difference.kind)
    }

    const COPY: &str = "{ print; } END { print NR; }";

    #[test]
    fn right_runs() {
        use Act::{Ask, Done};
        let whole = [Ask, write("a\nb\n"), Ask, Ask, write("2\n"), Done(0)];
        assert_eq!(judged(COPY, "a\nb\n", &[], &whole), Ok(Outcome::Done));
        let cut = [Ask, Ask, write("a\n"), Ask, Ask, write("b"), write(""), write("\n2\n"), Done(0)];
        assert_eq!(judged(COPY, "a\nb", &[1, 2], &cut), Ok(Outcome::Done));
        assert_eq!(judged("{", "", &[], &[Act::Refused(1)]), Ok(Outcome::Refused(1)));
        assert_eq!(judged("BEGIN { while (1) { } }", "", &[], &[]), Ok(Outcome::Endless));
    }

    #[test]
    fn wrong_runs() {
        use Act::{Ask, Done, Refused};
        let copied = |acts: &[Act]| judged(COPY, "a\nb\n", &[2], acts).expect_err("this is wrong");
        // The first line is whole, so it must be written before the next piece is asked for.
        assert_eq!(copied(&[Ask, Ask]), Kind::AskedTooEarly);
        assert_eq!(copied(&[Ask, write("b")]), Kind::OtherBytes);
        assert_eq!(copied(&[write("a\n"), Ask]), Kind::AskedTooEarly);
        assert_eq!(copied(&[Ask, write("a\n"), Done(0)]), Kind::TooFewBytes);
        assert_eq!(copied(&[Ask, write("a\n"), Refused(8)]), Kind::Refused(8));
        assert_eq!(copied(&[Ask, write("a\nb\n2\n3")]), Kind::TooManyBytes);
        assert_eq!(copied(&[Ask, write("a\nb\n2\n"), Done(1)]), Kind::Done);
        assert_eq!(copied(&[Ask, write("a\nb\n2\n"), Done(256)]), Kind::NoAct);
        assert_eq!(copied(&[Act::Write(vec![b'a'; 4097])]), Kind::NoAct);
        assert_eq!(copied(&[Ask]), Kind::NoEnd);
        let stopped = judged("{ exit; }", "a\nb\n", &[2], &[Ask, Ask]);
        assert_eq!(stopped, Err(Kind::AskedAfterEnd));
        assert_eq!(judged("{", "", &[], &[Refused(2)]), Err(Kind::Refused(2)));
        assert_eq!(judged("BEGIN { while (1) { } }", "", &[], &[Done(0)]), Err(Kind::Done));
        assert_eq!(judged("BEGIN { while (1) print 1; }", "", &[], &[write("1\n")]), Err(Kind::NoEnd));
    }
}

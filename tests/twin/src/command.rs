//! Doing what the command line asks for.

use std::fs;
use std::io::{self, Write};
use std::path::Path;
use std::process::ExitCode;
use std::rc::Rc;
use std::time::{Duration, Instant};

use crate::case::cut_into_lines;
use crate::examples;
use crate::generate::random_case;
use crate::kept;
use crate::linked;
use crate::machine::{LinkedMachine, Machine};
use crate::meant::{Meant, QUICK};
use crate::options::{Options, Task, USAGE};
use crate::parse::parse;
use crate::rehearsal::Rehearsal;
use crate::report::{save_case, shown_difference, shown_ending};
use crate::self_test;
use crate::session::{examine, random_cases, Finding};
use crate::watch::Watch;
use crate::worker::{Bounds, Ending, Refusal, Worker};

/// What went wrong, to be said; differences are said where they are found.
type Outcome = Result<ExitCode, String>;

const DIFFERENT: u8 = 1;
const MISUSED: u8 = 2;

pub fn run(arguments: &[String]) -> ExitCode {
    let options = match Options::parse(arguments) {
        Ok(options) => options,
        Err(error) => {
            eprintln!("twin: {error}\n{USAGE}");
            return ExitCode::from(MISUSED);
        }
    };
    let outcome = match &options.task {
        Task::Random { cases } => random(&options, *cases),
        Task::One { stem } => one(&options, stem),
        Task::Kept => kept_cases(&options),
        Task::Meant { cases } => say_meant(&options, *cases),
        Task::Run { program, list } => run_alone(program, list).map_err(|error| error.to_string()),
        Task::Examples => check_examples(),
        Task::SelfTest => self_test::run(),
    };
    outcome.unwrap_or_else(|error| {
        eprintln!("twin: {error}");
        ExitCode::from(MISUSED)
    })
}

/// The machine, unless only its stand-in is there and that won't do.
fn machine(options: &Options) -> Result<Box<dyn Machine>, String> {
    if options.rehearse {
        return Ok(Box::new(Rehearsal::new(None, 0)));
    }
    if !linked::IS_LINKED {
        eprintln!("twin: *** NO MACHINE IS LINKED IN: a stand-in refuses everything ***");
        eprintln!("twin: *** build with MOVKRESAN_LIB set to the folder of libmachine.a ***");
        if options.require_machine {
            return Err("a machine is required".into());
        }
    }
    Ok(Box::new(LinkedMachine::new()))
}

fn random(options: &Options, cases: u64) -> Outcome {
    let mut machine = machine(options)?;
    let begin = Instant::now();
    match random_cases(options, cases, &mut *machine) {
        Ok(counts) => {
            let seconds = begin.elapsed().as_secs_f64();
            let speed = cases as f64 / seconds.max(0.001);
            println!(
                "{cases} cases from {} of seed {}: no difference; {counts}; {seconds:.1} s, {speed:.0} a second",
                options.from, options.seed
            );
            Ok(ExitCode::SUCCESS)
        }
        Err(finding) => Ok(show(options, &finding)),
    }
}

/// Shows a difference, and leaves the small case where it can be run again.
fn show(options: &Options, finding: &Finding) -> ExitCode {
    println!("case {} of seed {}, made small:", finding.number, options.seed);
    print!("{}", shown_difference(&finding.case, &finding.difference));
    let stem = Path::new(env!("CARGO_MANIFEST_DIR")).join("target/difference");
    match save_case(&stem, &finding.case) {
        Ok(()) => println!("again: twin --case {}", stem.display()),
        Err(error) => eprintln!("twin: the case could not be saved: {error}"),
    }
    ExitCode::from(DIFFERENT)
}

fn one(options: &Options, stem: &Path) -> Outcome {
    let mut machine = machine(options)?;
    let watch = Watch::new(Duration::from_secs(options.patience));
    let case = kept::load(stem)?.case;
    match examine(&case, &mut *machine, options.known, &watch) {
        Ok(outcome) => {
            println!("no difference: {outcome:?}");
            Ok(ExitCode::SUCCESS)
        }
        Err((case, difference)) => {
            print!("{}", shown_difference(&case, &difference));
            Ok(ExitCode::from(DIFFERENT))
        }
    }
}

fn kept_cases(options: &Options) -> Outcome {
    let mut machine = machine(options)?;
    let watch = Watch::new(Duration::from_secs(options.patience));
    let stems = kept::stems(&kept::folder()).map_err(|error| error.to_string())?;
    for stem in &stems {
        let kept = kept::load(stem)?;
        if let Err(what) = kept::check_twin(&kept) {
            println!("{}: {what}", stem.display());
            return Ok(ExitCode::from(DIFFERENT));
        }
        // Without a machine there is the twin alone to be checked.
        if !linked::IS_LINKED {
            continue;
        }
        if let Err((case, difference)) = examine(&kept.case, &mut *machine, options.known, &watch) {
            println!("{}", stem.display());
            print!("{}", shown_difference(&case, &difference));
            return Ok(ExitCode::from(DIFFERENT));
        }
    }
    println!("{} kept cases: no difference", stems.len());
    Ok(ExitCode::SUCCESS)
}

/// One line for each case, with bytes in hexadecimal: the program, the list, what is
/// written, how it ends, the most that is held, how much was written when that went beyond
/// the room, and how much after each line. For another reader of the language to compare with.
fn say_meant(options: &Options, cases: u64) -> Outcome {
    let hex = |bytes: &[u8]| -> String { bytes.iter().map(|byte| format!("{byte:02x}")).collect() };
    for number in options.from..options.from + cases {
        let case = random_case(options.seed, number, options.level, options.known);
        let meant = Meant::of(&case, options.known, QUICK);
        println!(
            "{number}|{}|{}|{}|{}|{}|{:?}|{:?}|{}",
            hex(&case.program),
            hex(&case.list),
            hex(&meant.out),
            shown_ending(meant.ending),
            meant.heavy,
            meant.out_when_full,
            meant.out_after_lines,
            meant.effort,
        );
    }
    Ok(ExitCode::SUCCESS)
}

fn check_examples() -> Outcome {
    let wrong = examples::check();
    for example in &wrong {
        println!("{example}");
    }
    println!("{} examples, {} wrong", examples::count(), wrong.len());
    Ok(if wrong.is_empty() { ExitCode::SUCCESS } else { ExitCode::from(DIFFERENT) })
}

/// Runs a program by the twin alone: what it writes comes line by line, and a refusal is
/// said on the second output.
fn run_alone(program: &Path, list: &Path) -> io::Result<ExitCode> {
    let (text, list) = (fs::read(program)?, fs::read(list)?);
    let ending = match parse(&text) {
        None => Ending::Refused(Refusal::NotAProgram),
        Some(program) => {
            let mut worker = Worker::new(Rc::new(program), Bounds::UNBOUNDED);
            work_and_write(&mut worker, &list)?
        }
    };
    Ok(match ending {
        Ending::Done(number) => ExitCode::from(number),
        Ending::Refused(refusal) => {
            eprintln!("refused {}", refusal as u8);
            ExitCode::from(DIFFERENT)
        }
        Ending::Unfinished => {
            eprintln!("given up: too deep");
            ExitCode::from(DIFFERENT)
        }
    })
}

fn work_and_write(worker: &mut Worker, list: &[u8]) -> io::Result<Ending> {
    let mut output = io::stdout().lock();
    let mut flush = |worker: &mut Worker| -> io::Result<()> {
        output.write_all(&worker.state.out)?;
        worker.state.out.clear();
        output.flush()
    };
    let (mut lines, rest) = cut_into_lines(list);
    lines.extend((!rest.is_empty()).then_some(rest));
    let mut ending = worker.begin();
    flush(worker)?;
    for line in lines {
        if ending.is_some() {
            break;
        }
        ending = worker.line(line);
        flush(worker)?;
    }
    let ending = ending.unwrap_or_else(|| worker.end());
    flush(worker)?;
    Ok(ending)
}

//! An independent second reader and worker for the language, with random cases and a
//! comparer for the machine under test.

mod case;
mod command;
mod compare;
mod evaluate;
mod examples;
mod flaws;
mod generate;
mod kept;
mod known;
mod linked;
mod machine;
mod matcher;
mod meant;
mod options;
mod parse;
mod parse_expr;
#[cfg(test)]
mod parse_tests;
mod pattern;
mod random;
mod rehearsal;
mod report;
mod self_test;
mod session;
mod shrink;
mod state;
mod syntax;
mod token;
mod value;
mod watch;
mod worker;

use std::process::ExitCode;

/// Programs may be nested as deep as they have bytes, and calls deeper still: reading and
/// working are recursive, so they get a stack for that.
const STACK: usize = 512 << 20;

fn main() -> ExitCode {
    let arguments: Vec<String> = std::env::args().skip(1).collect();
    let work = std::thread::Builder::new().stack_size(STACK).spawn(move || command::run(&arguments));
    match work.map(std::thread::JoinHandle::join) {
        Ok(Ok(code)) => code,
        // The thread has said what was wrong.
        Ok(Err(_)) => ExitCode::from(101),
        Err(error) => {
            eprintln!("twin: no thread: {error}");
            ExitCode::from(101)
        }
    }
}

//! What the command line asks for.

use std::path::PathBuf;

use crate::known::Level;

pub const USAGE: &str = "usage:
  twin --cases N --seed S --known LEVEL [--level LEVEL] [--from K]
                        compare the machine with the twin on random cases
  twin --case STEM --known LEVEL
                        compare on one case, kept in STEM.program, STEM.list, STEM.cuts
  twin --kept [--known LEVEL]
                        compare on the kept cases, and check the twin on them
  twin --meant N --seed S --known LEVEL [--level LEVEL] [--from K]
                        say what random cases are meant to do, a line each
  twin --run PROGRAM FILE
                        run the program in a file by the twin alone
  twin --examples       check the twin on the worked examples
  twin --self-test      check the comparer on machines with known flaws
further:
  --require-machine     fail if no machine is linked in
  --rehearse            put the twin's own worker in the machine's place (everything is known)
  --trace               say the number of each case before it is run
  --patience SECONDS    how long one case may take (120)
LEVEL is nothing, core, tables, functions, patterns or everything";

/// What is to be done.
#[derive(Clone, Debug, PartialEq, Eq)]
pub enum Task {
    Random { cases: u64 },
    One { stem: PathBuf },
    Kept,
    Meant { cases: u64 },
    Run { program: PathBuf, list: PathBuf },
    Examples,
    SelfTest,
}

#[derive(Clone, Debug)]
pub struct Options {
    pub task: Task,
    pub seed: u64,
    pub from: u64,
    pub known: Level,
    pub level: Option<Level>,
    pub require_machine: bool,
    pub rehearse: bool,
    pub trace: bool,
    pub patience: u64,
}

struct Words<'a> {
    rest: std::slice::Iter<'a, String>,
}

impl<'a> Words<'a> {
    fn text(&mut self, option: &str) -> Result<&'a str, String> {
        self.rest.next().map(String::as_str).ok_or(format!("{option} needs a value"))
    }

    fn path(&mut self, option: &str) -> Result<PathBuf, String> {
        self.text(option).map(PathBuf::from)
    }

    fn number(&mut self, option: &str) -> Result<u64, String> {
        let text = self.text(option)?;
        text.parse().map_err(|_| format!("{option} needs a number, and {text} is none"))
    }

    fn level(&mut self, option: &str) -> Result<Level, String> {
        let text = self.text(option)?;
        Level::named(text).ok_or(format!("{option}: {text} is no level"))
    }
}

impl Options {
    pub fn parse(arguments: &[String]) -> Result<Options, String> {
        let mut words = Words { rest: arguments.iter() };
        let mut task = None;
        let mut options = Options {
            task: Task::Examples,
            seed: 1,
            from: 0,
            known: Level::Everything,
            level: None,
            require_machine: false,
            rehearse: false,
            trace: false,
            patience: 120,
        };
        while let Some(word) = words.rest.next() {
            match word.as_str() {
                "--seed" => options.seed = words.number(word)?,
                "--from" => options.from = words.number(word)?,
                "--known" => options.known = words.level(word)?,
                "--level" => options.level = Some(words.level(word)?),
                "--patience" => options.patience = words.number(word)?,
                "--require-machine" => options.require_machine = true,
                "--rehearse" => options.rehearse = true,
                "--trace" => options.trace = true,
                _ => task = Some(parse_task(word, &mut words)?),
            }
        }
        options.task = task.ok_or("nothing is asked for")?;
        if options.level == Some(Level::Nothing) {
            return Err("--level: there are no programs of the level nothing".into());
        }
        Ok(options)
    }
}

fn parse_task(word: &str, words: &mut Words) -> Result<Task, String> {
    Ok(match word {
        "--cases" => Task::Random { cases: words.number(word)? },
        "--case" => Task::One { stem: words.path(word)? },
        "--kept" => Task::Kept,
        "--meant" => Task::Meant { cases: words.number(word)? },
        "--run" => Task::Run { program: words.path(word)?, list: words.path(word)? },
        "--examples" => Task::Examples,
        "--self-test" => Task::SelfTest,
        _ => return Err(format!("{word} is not known")),
    })
}

#[cfg(test)]
mod tests {
    use super::*;

    fn parsed(line: &str) -> Result<Options, String> {
        let words: Vec<String> = line.split_whitespace().map(str::to_owned).collect();
        Options::parse(&words)
    }

    #[test]
    fn options() {
        let options = parsed("--cases 5 --seed 7 --known core --level tables").expect("these are right");
        assert_eq!(options.task, Task::Random { cases: 5 });
        assert_eq!((options.seed, options.known, options.level), (7, Level::Core, Some(Level::Tables)));
        assert!(parsed("").is_err());
        assert!(parsed("--cases").is_err());
        assert!(parsed("--cases x").is_err());
        assert!(parsed("--cases 1 --known all").is_err());
        assert!(parsed("--cases 1 --level nothing").is_err());
        assert!(parsed("--what").is_err());
    }
}

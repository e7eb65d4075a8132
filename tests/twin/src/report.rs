//! Showing cases, what was meant and what was done, so that a difference can be read and
//! run again.

use std::fs;
use std::io;
use std::path::{Path, PathBuf};

use crate::case::Case;
use crate::compare::Difference;
use crate::worker::Ending;

/// Bytes as one can type them in Rust or C, long ones cut.
pub fn shown(bytes: &[u8]) -> String {
    const MOST: usize = 2000;
    let text: String = bytes.iter().take(MOST).map(|b| b.escape_ascii().to_string()).collect();
    if bytes.len() > MOST {
        format!("\"{text}\"… ({} bytes)", bytes.len())
    } else {
        format!("\"{text}\"")
    }
}

pub fn shown_ending(ending: Ending) -> String {
    match ending {
        Ending::Done(number) => format!("done {number}"),
        Ending::Refused(refusal) => format!("refused {}", refusal as u8),
        Ending::Unfinished => "no end seen".into(),
    }
}

pub fn shown_case(case: &Case) -> String {
    format!(
        "program ({} bytes): {}\nlist ({} bytes): {}\ncuts: {:?}\n",
        case.program.len(),
        shown(&case.program),
        case.list.len(),
        shown(&case.list),
        case.cuts
    )
}

pub fn shown_difference(case: &Case, difference: &Difference) -> String {
    let meant = &difference.meant;
    let full = match meant.out_when_full {
        Some(len) => format!(", beyond the room when {len} bytes were written"),
        None => String::new(),
    };
    format!(
        "DIFFERENCE: {}\n{}meant: {}, then {}; held at most {}{}\ndone: {} after {} acts and {} pieces\n",
        difference.what,
        shown_case(case),
        shown(&meant.out),
        shown_ending(meant.ending),
        meant.heavy,
        full,
        shown(&difference.written),
        difference.acts,
        difference.pieces_given,
    )
}

fn with_ending(stem: &Path, ending: &str) -> PathBuf {
    let mut name = stem.as_os_str().to_owned();
    name.push(ending);
    PathBuf::from(name)
}

/// A kept case is up to five files with one stem: the program, the list, where it is cut,
/// what is to be written and how it is to end. All but the program may be missing.
pub struct Kept {
    pub case: Case,
    pub written: Option<Vec<u8>>,
    pub ending: Option<String>,
}

pub fn save_case(stem: &Path, case: &Case) -> io::Result<()> {
    fs::write(with_ending(stem, ".program"), &case.program)?;
    fs::write(with_ending(stem, ".list"), &case.list)?;
    let cuts: Vec<String> = case.cuts.iter().map(usize::to_string).collect();
    fs::write(with_ending(stem, ".cuts"), cuts.join(" ") + "\n")
}

fn read_if_there(path: &Path) -> io::Result<Option<Vec<u8>>> {
    match fs::read(path) {
        Ok(bytes) => Ok(Some(bytes)),
        Err(error) if error.kind() == io::ErrorKind::NotFound => Ok(None),
        Err(error) => Err(error),
    }
}

fn parse_cuts(text: &[u8]) -> io::Result<Vec<usize>> {
    let text = String::from_utf8_lossy(text);
    let cuts: Result<Vec<usize>, _> = text.split_whitespace().map(str::parse).collect();
    cuts.map_err(|error| io::Error::new(io::ErrorKind::InvalidData, error))
}

pub fn load_case(stem: &Path) -> io::Result<Kept> {
    let program = fs::read(with_ending(stem, ".program"))?;
    let list = read_if_there(&with_ending(stem, ".list"))?.unwrap_or_default();
    let cuts = read_if_there(&with_ending(stem, ".cuts"))?.unwrap_or_default();
    let ending = read_if_there(&with_ending(stem, ".end"))?;
    Ok(Kept {
        case: Case { program, list, cuts: parse_cuts(&cuts)? },
        written: read_if_there(&with_ending(stem, ".written"))?,
        ending: ending.map(|bytes| String::from_utf8_lossy(&bytes).trim().to_owned()),
    })
}

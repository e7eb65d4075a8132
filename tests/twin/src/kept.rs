//! Cases that are kept in files: each is run by the twin, and checked against what is
//! written beside it, and by the machine.

use std::ffi::OsStr;
use std::fs;
use std::io;
use std::path::{Path, PathBuf};

use crate::known::Level;
use crate::meant::{Meant, PATIENT, QUICK};
use crate::report::{load_case, shown, shown_ending, Kept};
use crate::worker::Ending;

pub fn folder() -> PathBuf {
    Path::new(env!("CARGO_MANIFEST_DIR")).join("cases")
}

/// The stems of all kept cases, in order.
pub fn stems(folder: &Path) -> io::Result<Vec<PathBuf>> {
    let mut stems = Vec::new();
    for entry in fs::read_dir(folder)? {
        let path = entry?.path();
        if path.extension() == Some(OsStr::new("program")) {
            stems.push(path.with_extension(""));
        }
    }
    stems.sort();
    Ok(stems)
}

pub fn load(stem: &Path) -> Result<Kept, String> {
    load_case(stem).map_err(|error| format!("{}: {error}", stem.display()))
}

/// Whether the twin does what is written beside the case.
pub fn check_twin(kept: &Kept) -> Result<(), String> {
    let endless = kept.ending.as_deref() == Some(&shown_ending(Ending::Unfinished));
    let bounds = if endless { QUICK } else { PATIENT };
    let meant = Meant::of(&kept.case, Level::Everything, bounds);
    if let Some(written) = kept.written.as_ref().filter(|written| **written != meant.out) {
        return Err(format!("the twin wrote {} and not {}", shown(&meant.out), shown(written)));
    }
    let ending = shown_ending(meant.ending);
    match &kept.ending {
        Some(expected) if *expected != ending => Err(format!("the twin came to {ending} and not {expected}")),
        _ => Ok(()),
    }
}

#[cfg(test)]
mod tests {
    use super::*;

    fn check_all() {
        let stems = stems(&folder()).expect("the folder is there");
        for stem in stems {
            let kept = load(&stem).expect("the case can be read");
            assert_eq!(check_twin(&kept), Ok(()), "{}", stem.display());
        }
    }

    #[test]
    fn the_twin_keeps_to_the_kept_cases() {
        let thread = std::thread::Builder::new().stack_size(256 << 20);
        thread.spawn(check_all).expect("a thread").join().expect("all are kept to");
    }
}

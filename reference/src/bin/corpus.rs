//! Writes the stored corpus of runs into a folder:
//!
//! ```text
//! corpus FOLDER
//! ```
//!
//! `stdin` holds the runs: of each its mode, seed, lengths and budget in 12 bytes, then its job. `stdout` holds what the
//! printing program prints for each, and a line `kept` or `changed`. Both are the same every time.

use std::io;
use std::path::{Path, PathBuf};
use std::process::ExitCode;

use flow_reference::corpus::{records, runs, texts};

fn folder() -> Option<PathBuf> {
    let mut arguments = std::env::args_os().skip(1);
    let folder = arguments.next()?;
    arguments.next().is_none().then(|| PathBuf::from(folder))
}

fn write_corpus(folder: &Path) -> io::Result<()> {
    let runs = runs();
    std::fs::write(folder.join("stdin"), records(&runs))?;
    std::fs::write(folder.join("stdout"), texts(&runs))
}

fn main() -> ExitCode {
    let Some(folder) = folder() else {
        eprintln!("usage: corpus FOLDER");
        return ExitCode::from(2);
    };
    match write_corpus(&folder) {
        Ok(()) => ExitCode::SUCCESS,
        Err(error) => {
            eprintln!("corpus: {error}");
            ExitCode::FAILURE
        }
    }
}

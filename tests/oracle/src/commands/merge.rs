//! `oracle merge FIRST SECOND SET` merges the two halves of a run in the files
//! FIRST and SECOND (Note 12) and prints the plain trace. A refusal is the line
//! `refused R` on standard error.

use oracle::whole::Whole;
use std::io::{self, Write};
use std::process::ExitCode;

pub fn run(words: &[String]) -> ExitCode {
    let [first, second, set] = words else {
        return usage();
    };
    let Some(set) = Whole::in_decimal(set) else {
        return usage();
    };
    match merged(first, second, set) {
        Ok(()) => ExitCode::SUCCESS,
        Err(error) => {
            eprintln!("merge: {error}");
            ExitCode::FAILURE
        }
    }
}

fn merged(first: &str, second: &str, set: Whole) -> io::Result<()> {
    let (first, second) = (std::fs::read(first)?, std::fs::read(second)?);
    let mut result = vec![0; first.len() + second.len()];
    match oracle::halves::merge::merge(&first, &second, set, &mut result) {
        Ok(length) => io::stdout().write_all(&result[..length]),
        Err(number) => writeln!(io::stderr(), "refused {number}"),
    }
}

fn usage() -> ExitCode {
    eprintln!("usage: oracle merge FIRST SECOND SET");
    ExitCode::from(2)
}

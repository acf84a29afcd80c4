//! `oracle replay` replays the trace on standard input and prints the listing up
//! to the first refusal, `oracle replay all` the whole listing. `oracle cases`
//! prints the exam text.

use oracle::replay::AfterRefusal;
use std::ffi::OsString;
use std::fs::File;
use std::io;
use std::os::fd::AsFd;
use std::process::ExitCode;

pub fn run(words: &[OsString]) -> ExitCode {
    ended(replay(AfterRefusal::asked_by(words)))
}

/// The command `cases`.
pub fn cases(_: &[OsString]) -> ExitCode {
    ended(print_cases())
}

/// A reader of the listing that has gone away is no news to anyone: no message,
/// only the status tells.
fn ended(outcome: io::Result<()>) -> ExitCode {
    match outcome {
        Ok(()) => ExitCode::SUCCESS,
        Err(_) => ExitCode::FAILURE,
    }
}

fn replay(after_refusal: AfterRefusal) -> io::Result<()> {
    oracle::replay::replay(after_refusal, standard_input()?, standard_output()?)
}

fn print_cases() -> io::Result<()> {
    oracle::cases::print(&mut standard_output()?)
}

/// Standard input without the standard library's buffer, which would read
/// ahead past the last record.
fn standard_input() -> io::Result<File> {
    Ok(File::from(io::stdin().as_fd().try_clone_to_owned()?))
}

/// Standard output without the standard library's buffer: the listing has its
/// own.
fn standard_output() -> io::Result<File> {
    Ok(File::from(io::stdout().as_fd().try_clone_to_owned()?))
}

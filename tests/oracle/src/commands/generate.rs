//! `oracle generate SEED [--n N] [--records COUNT] [--mix valid|recovering|mixed|damaged|limits|foreign]`
//! writes a random trace to standard output. `oracle::generate` says what the
//! mixes are and what is drawn where an option is not given.

use oracle::generate::{write_trace, Plan, MAX_RECORDS};
use std::fs::File;
use std::io;
use std::os::fd::AsFd;
use std::process::ExitCode;

pub fn run(words: &[String]) -> ExitCode {
    let Some(plan) = Plan::from_arguments(words) else {
        eprintln!(
            "usage: oracle generate SEED [--n N] [--records COUNT] [--mix valid|recovering|mixed|damaged|limits|foreign]\n\
             N is 1 to 16, COUNT 0 to {MAX_RECORDS}"
        );
        return ExitCode::from(2);
    };
    match standard_output().and_then(|output| write_trace(plan, output)) {
        Ok(()) => ExitCode::SUCCESS,
        Err(_) => ExitCode::FAILURE,
    }
}

fn standard_output() -> io::Result<File> {
    Ok(File::from(io::stdout().as_fd().try_clone_to_owned()?))
}

//! `oracle binding_calls COUNT SEED FOLDER [ABSENT..]` writes COUNT calls by seed, as a
//! driver of a binding takes them, and the answers to them into FOLDER: `calls`,
//! `answers`, for states that another binding has stored `loads` and `loaded`, and
//! these states, `states`. Calls of the names ABSENT are not made. It prints how
//! often each call gave each number. Of 100,000 calls and more every number that a
//! call can give is met; otherwise the status is 1.

use oracle::bindings::{pages, Pages};
use std::io;
use std::path::Path;
use std::process::ExitCode;

/// In a run of at least that many calls, everything that can be met is met.
const MANY: u64 = 100_000;

pub fn run(words: &[String]) -> ExitCode {
    let [count, seed, folder, absent @ ..] = words else {
        return usage();
    };
    let (Ok(count), Ok(seed)) = (count.parse(), seed.parse()) else {
        return usage();
    };
    let pages = pages(seed, count, absent);
    if let Err(error) = write(&pages, Path::new(folder)) {
        eprintln!("binding_calls: {error}");
        return ExitCode::FAILURE;
    }
    for ((name, number), many) in &pages.met {
        println!("{name} {number}: {many}");
    }
    match pages.missing(absent) {
        Some(what) if count >= MANY => {
            eprintln!("binding_calls: never met: {what}");
            ExitCode::FAILURE
        }
        _ => ExitCode::SUCCESS,
    }
}

fn write(pages: &Pages, folder: &Path) -> io::Result<()> {
    let files = [
        ("calls", &pages.calls),
        ("answers", &pages.answers),
        ("loads", &pages.loads),
        ("loaded", &pages.loaded),
        ("states", &pages.states),
    ];
    for (name, text) in files {
        std::fs::write(folder.join(name), text)?;
    }
    Ok(())
}

fn usage() -> ExitCode {
    eprintln!("usage: oracle binding_calls COUNT SEED FOLDER [ABSENT..]");
    ExitCode::from(2)
}

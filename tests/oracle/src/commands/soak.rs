//! `oracle soak COUNT FIRST PROGRAM` holds PROGRAM to the oracle on COUNT random
//! traces, of the seeds FIRST, FIRST + 1 and on. Every second trace is damaged,
//! the others are what their seed draws: valid, with many recoveries, mixed,
//! damaged or up to the limits.
//!
//! The traces and what is expected are made in this process; only PROGRAM is
//! started, twice for each trace: with the argument `all`, for the whole
//! listing, and without, for the listing up to the first refusal. It must print
//! the oracle's listing byte for byte, nothing on standard error, and end with
//! status 0. At the first trace where it does not, the arguments of `generate`
//! and the first line that differs are printed, and the status is 1.

use oracle::generate::{half_damaged, trace_in};
use oracle::hold::{asked, difference, on_seeds, run_on, Comparison};
use oracle::replay::{replay, AfterRefusal};
use std::io;
use std::path::{Path, PathBuf};
use std::process::ExitCode;
use std::sync::atomic::{AtomicU64, Ordering};

pub fn run(words: &[String]) -> ExitCode {
    let Some((count, first, [program])) = asked(words) else {
        eprintln!("usage: oracle soak COUNT FIRST PROGRAM");
        return ExitCode::from(2);
    };
    let soak = Soak {
        program,
        records: AtomicU64::new(0),
        bytes: AtomicU64::new(0),
    };
    if !on_seeds(first, count, &soak) {
        return ExitCode::FAILURE;
    }
    println!(
        "replay and oracle agree on {} traces, {} of them damaged by choice: {} records, {} bytes of text; up to the first refusal too",
        count,
        count / 2,
        soak.records.load(Ordering::Relaxed),
        soak.bytes.load(Ordering::Relaxed)
    );
    ExitCode::SUCCESS
}

struct Soak {
    program: PathBuf,
    records: AtomicU64,
    bytes: AtomicU64,
}

impl Comparison for Soak {
    fn input(&self, seed: u64) -> String {
        format!("oracle generate {}", half_damaged(seed).join(" "))
    }

    fn compare(&self, seed: u64, file: &Path) -> io::Result<Option<String>> {
        let trace = trace_in(file, &half_damaged(seed))?;
        let mut whole = Vec::new();
        replay(AfterRefusal::GoOn, trace.as_slice(), &mut whole)?;
        let lines = whole.iter().filter(|byte| **byte == b'\n').count();
        self.records.fetch_add(lines as u64, Ordering::Relaxed);
        self.bytes.fetch_add(whole.len() as u64, Ordering::Relaxed);
        let got = run_on(&self.program, &["all".to_string()], file)?;
        if let Some(difference) = difference(&whole, &got) {
            return Ok(Some(format!("with the argument all: {difference}")));
        }

        let mut stopped = Vec::new();
        replay(AfterRefusal::Stop, trace.as_slice(), &mut stopped)?;
        let got = run_on(&self.program, &[], file)?;
        Ok(difference(&stopped, &got))
    }
}

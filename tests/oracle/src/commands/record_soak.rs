//! `oracle record_soak COUNT FIRST PROGRAM REPLAY` holds PROGRAM, which plays a trace
//! through a recorder (Note 9) and prints what was recorded, to the oracle on COUNT random
//! traces, of the seeds FIRST, FIRST + 1 and on, those of `soak`. One trace in
//! four is recorded in a buffer that is mostly too small, whose size is PROGRAM's
//! argument. PROGRAM must print the oracle's bytes and its lines on standard
//! error, and end with status 0.
//!
//! REPLAY must then replay what PROGRAM printed without a refusal, and print what
//! the listing of the trace has for its accepted records, numbered anew.
//!
//! At the first difference the arguments of `generate` are printed, and the
//! status is 1.

use oracle::generate::{half_damaged, trace_in};
use oracle::hold::{asked, difference, on_seeds, run_on, Comparison};
use oracle::replay::{replay, AfterRefusal};
use oracle::run::record::recorded;
use std::io;
use std::path::{Path, PathBuf};
use std::process::{ExitCode, Output};
use std::sync::atomic::{AtomicU64, Ordering};

/// The buffer where no size is asked for.
const BUFFER: usize = 1 << 20;

pub fn run(words: &[String]) -> ExitCode {
    let Some((count, first, [program, replay])) = asked(words) else {
        eprintln!("usage: oracle record_soak COUNT FIRST PROGRAM REPLAY");
        return ExitCode::from(2);
    };
    let soak = Soak {
        program,
        replay,
        records: AtomicU64::new(0),
        recorded: AtomicU64::new(0),
        full: AtomicU64::new(0),
    };
    if !on_seeds(first, count, &soak) {
        return ExitCode::FAILURE;
    }
    println!(
        "record and oracle agree on {count} traces: {} records, {} recorded and replayed without a refusal; {} traces with too small a buffer",
        soak.records.load(Ordering::Relaxed),
        soak.recorded.load(Ordering::Relaxed),
        soak.full.load(Ordering::Relaxed)
    );
    ExitCode::SUCCESS
}

struct Soak {
    program: PathBuf,
    replay: PathBuf,
    records: AtomicU64,
    recorded: AtomicU64,
    full: AtomicU64,
}

impl Comparison for Soak {
    fn input(&self, seed: u64) -> String {
        format!("oracle generate {}", half_damaged(seed).join(" "))
    }

    fn compare(&self, seed: u64, file: &Path) -> io::Result<Option<String>> {
        let trace = trace_in(file, &half_damaged(seed))?;
        let room = (seed % 4 == 1).then(|| (seed / 4 % 400) as usize);
        let recording = recorded(&trace, room.unwrap_or(BUFFER));
        let expected = recording.bytes;
        self.full
            .fetch_add(room.is_some() as u64, Ordering::Relaxed);
        let records = trace.len() as u64 / 4;
        self.records.fetch_add(records, Ordering::Relaxed);
        let room: Vec<String> = room.iter().map(|room| room.to_string()).collect();
        let got = run_on(&self.program, &room, file)?;
        if let Some(difference) = difference_of_bytes(&expected, &recording.lines, &got) {
            return Ok(Some(format!("record {}: {difference}", room.join(" "))));
        }
        if expected.is_empty() {
            return Ok(None);
        }

        let accepted = (expected.len() - 1) / 4;
        self.recorded.fetch_add(accepted as u64, Ordering::Relaxed);
        std::fs::write(file, &got.stdout)?;
        let again = run_on(&self.replay, &[], file)?;
        let listing = accepted_lines(&trace, accepted)?;
        let outcome = difference(listing.as_bytes(), &again);
        Ok(outcome.map(|difference| format!("what was recorded, replayed: {difference}")))
    }
}

fn difference_of_bytes(expected: &[u8], lines: &str, got: &Output) -> Option<String> {
    if got.stdout != expected {
        let same = expected.iter().zip(&got.stdout).take_while(|(a, b)| a == b);
        return Some(format!(
            "{} bytes expected, {} got, the first {} the same",
            expected.len(),
            got.stdout.len(),
            same.count()
        ));
    }
    if got.stderr != lines.as_bytes() {
        let said = String::from_utf8_lossy(&got.stderr);
        return Some(format!("on standard error: expected {lines}, got {said}"));
    }
    (!got.status.success()).then(|| format!("ends with {}", got.status))
}

/// The lines of the first accepted records of a trace, numbered anew.
fn accepted_lines(trace: &[u8], most: usize) -> io::Result<String> {
    let mut listing = Vec::new();
    replay(AfterRefusal::GoOn, trace, &mut listing)?;
    let listing = String::from_utf8_lossy(&listing);
    let behind_number = listing.lines().filter_map(|line| line.split_once(' '));
    let accepted = behind_number.filter(|(_, answer)| answer.starts_with("0 "));
    Ok((1..=most)
        .zip(accepted)
        .map(|(number, (_, answer))| format!("{number} {answer}\n"))
        .collect())
}

//! `oracle judge_soak COUNT FIRST PROGRAM` holds PROGRAM to the oracle's verdicts on
//! COUNT foreign traces (Note 7), of the seeds FIRST, FIRST + 1 and on. PROGRAM gets each
//! trace on standard input and must print the oracle's one line, nothing on
//! standard error, and end with status 0. At the first trace where it does not,
//! the arguments of `generate` and both lines are printed, and the status is 1.

use oracle::generate::trace_in;
use oracle::hold::{asked, difference, on_seeds, refused_in_words, run_on, Comparison};
use oracle::judge::{judge, Verdict};
use std::collections::BTreeMap;
use std::io;
use std::path::{Path, PathBuf};
use std::process::ExitCode;
use std::sync::Mutex;

pub fn run(words: &[String]) -> ExitCode {
    let Some((count, first, [program])) = asked(words) else {
        eprintln!("usage: oracle judge_soak COUNT FIRST PROGRAM");
        return ExitCode::from(2);
    };
    let soak = Soak {
        program,
        met: Mutex::default(),
    };
    if !on_seeds(first, count, &soak) {
        return ExitCode::FAILURE;
    }
    let met = soak.met.into_inner().expect("no thread has failed");
    println!(
        "judge and oracle agree on {count} traces: {} trackable, {} break at {} pairs ({} of a checkpoint with itself, {} at a live state), refused {}",
        met.trackable,
        met.breaks,
        met.pairs.len(),
        met.cycles,
        met.live,
        refused_in_words(&met.refused)
    );
    ExitCode::SUCCESS
}

struct Soak {
    program: PathBuf,
    met: Mutex<Met>,
}

/// How often each verdict was met.
#[derive(Default)]
struct Met {
    trackable: usize,
    breaks: usize,
    pairs: BTreeMap<String, usize>,
    cycles: usize,
    live: usize,
    refused: BTreeMap<u8, usize>,
}

impl Met {
    fn count(&mut self, verdict: &Verdict, trace: &[u8]) {
        match verdict {
            Verdict::Trackable => self.trackable += 1,
            Verdict::Breaks { near, far } => {
                self.breaks += 1;
                *self.pairs.entry(verdict.to_string()).or_default() += 1;
                self.cycles += (near == far) as usize;
                self.live += (far.index > checkpoints(trace, far.process)) as usize;
            }
            Verdict::Refused(number) => *self.refused.entry(*number).or_default() += 1,
        }
    }
}

/// How many checkpoint records of this process an accepted trace has.
fn checkpoints(trace: &[u8], process: usize) -> usize {
    let records = trace[1..].chunks_exact(4);
    let bytes = [(process << 1) as u8, 0, 0, 0];
    records.filter(|record| **record == bytes).count()
}

impl Comparison for Soak {
    fn input(&self, seed: u64) -> String {
        format!("oracle generate {}", arguments_of(seed).join(" "))
    }

    fn compare(&self, seed: u64, file: &Path) -> io::Result<Option<String>> {
        let trace = trace_in(file, &arguments_of(seed))?;
        let verdict = judge(&trace);
        let mut met = self.met.lock().expect("no thread has failed");
        met.count(&verdict, &trace);
        drop(met);
        let expected = format!("{verdict}\n");
        let got = run_on(&self.program, &[], file)?;
        Ok(difference(expected.as_bytes(), &got))
    }
}

fn arguments_of(seed: u64) -> [String; 3] {
    [seed.to_string(), "--mix".to_string(), "foreign".to_string()]
}

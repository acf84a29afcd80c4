//! `oracle merge_soak COUNT FIRST PROGRAM REPLAY` holds PROGRAM to the oracle's merge
//! (Note 12) on COUNT pairs of halves, of the seeds FIRST, FIRST + 1 and on. PROGRAM gets
//! the names of two files and the set. Where the oracle accepts it must print
//! the very same trace and end with status 0; where the oracle refuses it must
//! print nothing, and the number on standard error.
//!
//! Where the halves are those of a whole run, PROGRAM also merges them the other
//! way round, and REPLAY replays the run itself and both merged traces, each
//! with the same records after it that show its state: recoveries of each
//! process, a sweep, checkpoints. If every record of two of them is accepted,
//! the lines of these last records must be the same.
//!
//! At the first difference the arguments of `halves` are printed, and the status
//! is 1.

use oracle::halves::draw::{drawn, Halves};
use oracle::halves::merge::merge;
use oracle::hold::{asked, on_seeds, refused_in_words, run_on, Comparison};
use oracle::whole::Whole;
use std::collections::BTreeMap;
use std::io;
use std::path::{Path, PathBuf};
use std::process::{Command, ExitCode, Output};
use std::sync::Mutex;

pub fn run(words: &[String]) -> ExitCode {
    let Some((count, first, [program, replay])) = asked(words) else {
        eprintln!("usage: oracle merge_soak COUNT FIRST PROGRAM REPLAY");
        return ExitCode::from(2);
    };
    let soak = Soak {
        program,
        replay,
        met: Mutex::default(),
    };
    if !on_seeds(first, count, &soak) {
        return ExitCode::FAILURE;
    }
    let met = soak.met.into_inner().expect("no thread has failed");
    println!(
        "merge and oracle agree on {count} pairs of halves: {} merged, {} records, refused {}; of {} whole runs and their merges both ways {} pairs of replays end alike, {} meet a refusal",
        met.merged,
        met.records,
        refused_in_words(&met.refused),
        met.whole,
        met.alike,
        met.stopped
    );
    ExitCode::SUCCESS
}

struct Soak {
    program: PathBuf,
    replay: PathBuf,
    met: Mutex<Met>,
}

#[derive(Default)]
struct Met {
    merged: usize,
    records: usize,
    refused: BTreeMap<u8, usize>,
    whole: usize,
    alike: usize,
    stopped: usize,
}

impl Comparison for Soak {
    fn input(&self, seed: u64) -> String {
        format!("oracle halves {seed} FIRST SECOND")
    }

    fn compare(&self, seed: u64, file: &Path) -> io::Result<Option<String>> {
        let halves = drawn(seed);
        let paths = [file.with_extension("1"), file.with_extension("2")];
        std::fs::write(&paths[0], &halves.first)?;
        std::fs::write(&paths[1], &halves.second)?;
        let outcome = self.compare_halves(&halves, &paths, file);
        for path in &paths {
            std::fs::remove_file(path)?;
        }
        outcome
    }
}

impl Soak {
    fn compare_halves(
        &self,
        halves: &Halves,
        [first, second]: &[PathBuf; 2],
        file: &Path,
    ) -> io::Result<Option<String>> {
        let got = self.output(first, second, &halves.word)?;
        let expected = self.expected(halves);
        if let Some(difference) = difference(&expected, &got) {
            return Ok(Some(format!("set {}: {difference}", halves.word)));
        }
        let (Ok(_), Some(whole)) = (expected, &halves.whole) else {
            return Ok(None);
        };
        let others = !halves.set & ((1 << whole[0]) - 1);
        let other_way = self.output(second, first, &others.to_string())?;
        let expected = merged(&halves.second, &halves.first, others);
        if let Some(difference) = difference(&expected, &other_way) {
            return Ok(Some(format!("the other way round: {difference}")));
        }
        self.replays([whole, &got.stdout, &other_way.stdout], file)
    }

    fn output(&self, first: &Path, second: &Path, set: &str) -> io::Result<Output> {
        Command::new(&self.program)
            .args([first, second])
            .arg(set)
            .output()
    }

    fn expected(&self, halves: &Halves) -> Result<Vec<u8>, u8> {
        let set = Whole::in_decimal(&halves.word).expect("it is drawn in digits");
        let expected = merged(&halves.first, &halves.second, set);
        let mut met = self.met.lock().expect("no thread has failed");
        match &expected {
            Ok(trace) => {
                met.merged += 1;
                met.records += trace.len() / 4;
            }
            Err(number) => *met.refused.entry(*number).or_default() += 1,
        }
        expected
    }

    /// What differs between the ends of the replays of three orders of one run.
    fn replays(&self, orders: [&[u8]; 3], file: &Path) -> io::Result<Option<String>> {
        let mut ends = Vec::new();
        for order in orders {
            ends.push(self.end_of_replay(order, file)?);
        }
        let mut met = self.met.lock().expect("no thread has failed");
        met.whole += 1;
        for (one, other) in [(0, 1), (0, 2), (1, 2)] {
            match (&ends[one], &ends[other]) {
                (Some(one), Some(other)) if one != other => {
                    return Ok(Some(format!("replayed they end:\n{one}and:\n{other}")));
                }
                (Some(_), Some(_)) => met.alike += 1,
                _ => met.stopped += 1,
            }
        }
        Ok(None)
    }

    /// The last lines of the listing of a trace with records after it that show
    /// the state. None if a record of the trace is refused.
    fn end_of_replay(&self, trace: &[u8], file: &Path) -> io::Result<Option<String>> {
        let mut bytes = trace.to_vec();
        let n = trace[0] as u32;
        for process in 0..n {
            bytes.extend((4 << 29 | 1u32 << process).to_be_bytes());
        }
        bytes.extend((4u32 << 29).to_be_bytes());
        for process in 0..n {
            bytes.extend((process << 25).to_be_bytes());
        }
        std::fs::write(file, &bytes)?;
        let output = run_on(&self.replay, &[], file)?;
        let listing = String::from_utf8_lossy(&output.stdout);
        let lines: Vec<&str> = listing.split_inclusive('\n').collect();
        let records = (bytes.len() - 1) / 4;
        let shown = 2 * n as usize + 1;
        Ok((lines.len() == records).then(|| lines[records - shown..].concat()))
    }
}

/// What the oracle makes of two halves.
fn merged(first: &[u8], second: &[u8], set: impl Into<Whole>) -> Result<Vec<u8>, u8> {
    let mut result = vec![0; first.len() + second.len()];
    let length = merge(first, second, set, &mut result)?;
    result.truncate(length);
    Ok(result)
}

fn difference(expected: &Result<Vec<u8>, u8>, got: &Output) -> Option<String> {
    let (trace, said) = match expected {
        Ok(trace) => (&trace[..], String::new()),
        Err(number) => (&[][..], format!("refused {number}\n")),
    };
    let got_said = String::from_utf8_lossy(&got.stderr);
    if got_said != said {
        return Some(format!(
            "on standard error: expected {said:?}, got {got_said:?}"
        ));
    }
    if got.stdout != trace {
        let same = trace.iter().zip(&got.stdout).take_while(|(a, b)| a == b);
        return Some(format!(
            "the trace: {} bytes expected, {} got, the first {} the same",
            trace.len(),
            got.stdout.len(),
            same.count()
        ));
    }
    if expected.is_ok() && !got.status.success() {
        return Some(format!("ends with {}", got.status));
    }
    None
}

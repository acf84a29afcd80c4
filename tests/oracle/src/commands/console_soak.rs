//! `oracle console_soak COUNT FIRST PROGRAM` holds PROGRAM to the oracle's console
//! (Note 13) on COUNT scripts, of the seeds FIRST, FIRST + 1 and on. PROGRAM gets each script
//! on standard input and must print the oracle's facts, nothing on standard
//! error, and end with status 0. At the first difference the seed of
//! `console` and the line are printed, and the status is 1.

use oracle::console::facts;
use oracle::console::scripts::script;
use oracle::hold::{asked, difference, on_seeds, refused_in_words, run_on, Comparison};
use std::collections::BTreeMap;
use std::io;
use std::path::{Path, PathBuf};
use std::process::ExitCode;
use std::sync::Mutex;

pub fn run(words: &[String]) -> ExitCode {
    let Some((count, first, [program])) = asked(words) else {
        eprintln!("usage: oracle console_soak COUNT FIRST PROGRAM");
        return ExitCode::from(2);
    };
    let soak = Soak {
        program,
        met: Mutex::default(),
    };
    if !on_seeds(first, count, &soak) {
        return ExitCode::FAILURE;
    }
    let mut met = soak.met.into_inner().expect("no thread has failed");
    let accepted = met.remove("0").unwrap_or(0);
    let denied = met.remove("25").unwrap_or(0);
    println!(
        "console and oracle agree on {count} scripts: {accepted} calls accepted, {denied} denied, {}",
        refused_in_words(&met)
    );
    ExitCode::SUCCESS
}

struct Soak {
    program: PathBuf,
    /// How often each number was met, 0 for accepted.
    met: Mutex<BTreeMap<String, usize>>,
}

impl Comparison for Soak {
    fn input(&self, seed: u64) -> String {
        format!("console {seed}")
    }

    fn compare(&self, seed: u64, file: &Path) -> io::Result<Option<String>> {
        let script = script(seed);
        std::fs::write(file, &script)?;
        let expected = facts(&script);
        let mut met = self.met.lock().expect("no thread has failed");
        for number in expected.lines().filter_map(|line| line.split(' ').nth(1)) {
            *met.entry(number.to_string()).or_default() += 1;
        }
        drop(met);
        let got = run_on(&self.program, &[], file)?;
        Ok(difference(expected.as_bytes(), &got))
    }
}

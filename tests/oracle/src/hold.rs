//! Holding another program to the oracle: many inputs by seed, one run of the
//! program each, and the first difference in words.

use std::collections::BTreeMap;
use std::fmt::Display;
use std::fs::File;
use std::io;
use std::path::{Path, PathBuf};
use std::process::{Command, Output};
use std::sync::atomic::{AtomicBool, AtomicU64, Ordering};
use std::thread;

/// What the words `COUNT FIRST PROGRAM ..` ask for: how many seeds, the
/// first of them, and N programs. None if it is another one.
pub fn asked<const N: usize>(words: &[String]) -> Option<(u64, u64, [PathBuf; N])> {
    let [count, first, programs @ ..] = words else {
        return None;
    };
    let programs: Vec<PathBuf> = programs.iter().map(PathBuf::from).collect();
    Some((
        count.parse().ok()?,
        first.parse().ok()?,
        programs.try_into().ok()?,
    ))
}

/// What a program prints with these arguments and this file as its input.
pub fn run_on(program: &Path, arguments: &[String], input: &Path) -> io::Result<Output> {
    Command::new(program)
        .args(arguments)
        .stdin(File::open(input)?)
        .output()
}

/// How often each number was met, in words.
pub fn refused_in_words<N: Display>(refused: &BTreeMap<N, usize>) -> String {
    let words: Vec<String> = refused
        .iter()
        .map(|(number, times)| format!("{times} with {number}"))
        .collect();
    words.join(", ")
}

/// What is compared for each seed. It is called from several threads at once,
/// and lent the name of a file for that thread alone.
pub trait Comparison: Sync {
    /// How the input of a seed is made again, in words.
    fn input(&self, seed: u64) -> String;

    /// What differs on the input of a seed, if anything does.
    fn compare(&self, seed: u64, file: &Path) -> io::Result<Option<String>>;
}

/// Compares on the seeds `first`, `first + 1` and on, `count` of them, or until
/// one differs. That one is printed. Says whether none did.
pub fn on_seeds(first: u64, count: u64, comparison: &impl Comparison) -> bool {
    let seeds = Seeds {
        first,
        count,
        given: AtomicU64::new(0),
        stopped: AtomicBool::new(false),
    };
    let workers = thread::available_parallelism().map_or(1, |count| count.get());
    thread::scope(|scope| {
        for worker in 0..workers {
            let seeds = &seeds;
            scope.spawn(move || seeds.work(worker, comparison));
        }
    });
    !seeds.stopped.load(Ordering::Relaxed)
}

struct Seeds {
    first: u64,
    count: u64,
    /// How many seeds were given out.
    given: AtomicU64,
    /// Something differed, or could not be done.
    stopped: AtomicBool,
}

impl Seeds {
    /// Takes one seed after the other until none is left, or one differs.
    fn work(&self, worker: usize, comparison: &impl Comparison) {
        let name = format!("oracle-{}-{worker}", std::process::id());
        let file = std::env::temp_dir().join(name);
        while !self.stopped.load(Ordering::Relaxed) {
            let turn = self.given.fetch_add(1, Ordering::Relaxed);
            if turn >= self.count {
                break;
            }
            let seed = self.first + turn;
            let differs = match comparison.compare(seed, &file) {
                Ok(difference) => difference,
                Err(error) => Some(error.to_string()),
            };
            if let Some(why) = differs {
                self.stop(&comparison.input(seed), &why);
            }
        }
        let _ = std::fs::remove_file(&file);
    }

    fn stop(&self, input: &str, why: &str) {
        if !self.stopped.swap(true, Ordering::Relaxed) {
            println!("differs: {input}\n{why}");
        }
    }
}

/// What differs between the text that is expected and what a program gave: it
/// must print that text, nothing on standard error, and end with status 0.
pub fn difference(expected: &[u8], got: &Output) -> Option<String> {
    if got.stdout != expected {
        return Some(first_difference(expected, &got.stdout));
    }
    if !got.stderr.is_empty() {
        let said = String::from_utf8_lossy(&got.stderr);
        return Some(format!("on standard error: {said}"));
    }
    if !got.status.success() {
        return Some(format!("ends with {}", got.status));
    }
    None
}

/// The first line that differs, in both texts. A text that has no such line,
/// not even an empty one, has nothing there.
fn first_difference(expected: &[u8], got: &[u8]) -> String {
    let mut wanted = expected.split_inclusive(|byte| *byte == b'\n');
    let mut there = got.split_inclusive(|byte| *byte == b'\n');
    let mut number = 0;
    loop {
        number += 1;
        let (want, is) = (wanted.next(), there.next());
        if want != is {
            return format!("line {number}: expected {}, got {}", shown(want), shown(is));
        }
    }
}

fn shown(line: Option<&[u8]>) -> String {
    match line {
        None => "nothing".to_string(),
        Some(text) => format!("{:?}", String::from_utf8_lossy(text)),
    }
}

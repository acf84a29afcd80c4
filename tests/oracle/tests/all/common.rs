//! What several tests use.

use oracle::replay::{replay, AfterRefusal};
use oracle::run::Run;
use std::process::Command;

/// Lists that are long enough for every run.
pub const DELETIONS: usize = 2 * 16 * 16;
pub const LINE: usize = 16;

pub fn record(kind: u32, process: u32, argument: u32) -> [u8; 4] {
    (kind << 29 | process << 25 | argument).to_be_bytes()
}

/// A trace of this first byte and these records (kind, process, argument).
pub fn trace(first: u8, records: &[(u32, u32, u32)]) -> Vec<u8> {
    let mut bytes = vec![first];
    for &(kind, process, argument) in records {
        bytes.extend_from_slice(&record(kind, process, argument));
    }
    bytes
}

/// The whole listing.
pub fn listing(trace: &[u8]) -> String {
    listing_of(AfterRefusal::GoOn, trace)
}

/// The listing up to the first refusal.
pub fn stopped_listing(trace: &[u8]) -> String {
    listing_of(AfterRefusal::Stop, trace)
}

fn listing_of(after_refusal: AfterRefusal, trace: &[u8]) -> String {
    let mut output = Vec::new();
    replay(after_refusal, trace, &mut output).expect("neither reading nor writing fails");
    String::from_utf8(output).expect("the listing is ASCII")
}

/// The lines of a listing up to the first that says a refusal.
pub fn up_to_first_refusal(listing: &str) -> String {
    let mut refused = false;
    listing
        .split_inclusive('\n')
        .take_while(|line| {
            let stopped = refused;
            refused = line.trim_end().split(' ').nth(1) != Some("0");
            !stopped
        })
        .collect()
}

pub fn line(run: &Run, failed: u64) -> Vec<u32> {
    let mut line = vec![0; run.count()];
    assert_eq!(run.line(failed, &mut line), Ok(()));
    line
}

pub fn kept(run: &Run, process: usize) -> Vec<u32> {
    run.kept(process).map(|(index, _)| index).collect()
}

pub fn pins(run: &Run, process: usize) -> Vec<Option<u32>> {
    (0..run.count()).map(|f| run.pin(process, f)).collect()
}

/// A small random number generator (splitmix64).
pub struct Random(pub u64);

impl Random {
    pub fn next(&mut self) -> u64 {
        self.0 = self.0.wrapping_add(0x9E37_79B9_7F4A_7C15);
        let mut mixed = self.0;
        mixed = (mixed ^ (mixed >> 30)).wrapping_mul(0xBF58_476D_1CE4_E5B9);
        mixed = (mixed ^ (mixed >> 27)).wrapping_mul(0x94D0_49BB_1331_11EB);
        mixed ^ (mixed >> 31)
    }

    pub fn below(&mut self, bound: usize) -> usize {
        (self.next() % bound as u64) as usize
    }
}

/// Note 5: "causes 0 to 2, 0 exactly at index 0, block counts from 1 to 65,535,
/// equal within a process, and that sum, within the bound of 16."
pub fn assert_disks_sound(run: &Run) {
    let mut sum = run.deleted();
    for i in 0..run.count() {
        let (_, first) = run.records(i).next().unwrap();
        for ((index, _), (cause, blocks)) in run.kept(i).zip(run.records(i)) {
            assert!(cause <= 2);
            assert_eq!(cause == 0, index == 0);
            assert!(blocks >= 1);
            assert_eq!(blocks, first);
            sum += blocks as u64;
        }
        assert_eq!(run.kept(i).count(), run.records(i).count());
    }
    assert_eq!(sum, run.written());
    assert!(sum <= 1_000_000_000_000_000);
}

/// Checks the state against the paper's section "A sound state".
pub fn assert_sound(run: &Run) {
    let n = run.count();
    assert!((1..=16).contains(&n));
    let bounded = |vector: &[u32]| (0..n).all(|f| vector[f] <= run.own_entry(f));
    for i in 0..n {
        assert!(run.own_entry(i) >= 1);
        assert!(bounded(run.vector(i)));
        let kept = kept(run, i);
        assert!((1..=n).contains(&kept.len()));
        assert!(kept.windows(2).all(|pair| pair[0] < pair[1]));
        for (index, vector) in run.kept(i) {
            assert!(bounded(vector));
            assert_eq!(vector[i], index);
        }
        assert_eq!(*kept.last().unwrap(), run.own_entry(i) - 1);
        assert_eq!(run.pin(i, i), kept.last().copied());
        let mut pinned: Vec<u32> = pins(run, i).into_iter().flatten().collect();
        pinned.sort();
        pinned.dedup();
        assert_eq!(pinned, kept, "the pins name exactly the kept ones");
    }
    assert_disks_sound(run);
    let messages = run.under_way();
    assert!(messages.len() <= 64);
    assert!(messages
        .windows(2)
        .all(|pair| pair[0].number < pair[1].number));
    for message in messages {
        assert!((1..=run.last_number()).contains(&message.number));
        assert!((message.sender as usize) < n && (message.receiver as usize) < n);
        assert_ne!(message.sender, message.receiver);
        assert!(bounded(&message.carried));
    }
    assert!(run.last_number() <= 1_000_000);
}

/// A command of the program `oracle`.
pub fn oracle(command: &str) -> Command {
    let mut program = Command::new(env!("CARGO_BIN_EXE_oracle"));
    program.arg(command);
    program
}

//! The programs as they are run.

use oracle::replay::AfterRefusal;
use std::ffi::OsStr;
use std::io::{Read, Write};
use std::os::unix::ffi::OsStrExt;
use std::process::{Child, Output, Stdio};
use std::thread;

fn generate(arguments: &[&str]) -> Vec<u8> {
    let output = crate::common::oracle("generate")
        .args(arguments)
        .output()
        .unwrap();
    assert!(output.status.success());
    output.stdout
}

/// The program with its input, output and messages at hand.
fn running_oracle(arguments: &[&OsStr]) -> Child {
    crate::common::oracle("replay")
        .args(arguments)
        .stdin(Stdio::piped())
        .stdout(Stdio::piped())
        .stderr(Stdio::piped())
        .spawn()
        .unwrap()
}

/// The program with the argument `all`.
fn oracle(trace: &[u8]) -> Output {
    oracle_with(&[OsStr::new("all")], trace)
}

fn oracle_with(arguments: &[&OsStr], trace: &[u8]) -> Output {
    let mut program = running_oracle(arguments);
    let mut input = program.stdin.take().unwrap();
    thread::scope(|scope| {
        scope.spawn(move || {
            // A bad first byte or a stop ends the program before all is read.
            let _ = input.write_all(trace);
        });
        program.wait_with_output().unwrap()
    })
}

fn numbers(trace: &[u8]) -> Vec<u8> {
    let output = oracle(trace);
    assert!(output.status.success());
    assert!(output.stderr.is_empty());
    let listing = String::from_utf8(output.stdout).unwrap();
    listing
        .lines()
        .map(|line| line.split(' ').nth(1).unwrap().parse().unwrap())
        .collect()
}

fn count(numbers: &[u8], wanted: u8) -> usize {
    numbers.iter().filter(|number| **number == wanted).count()
}

#[test]
fn the_program_prints_the_cases() {
    let output = crate::common::oracle("cases").output().unwrap();
    assert!(output.status.success());
    assert_eq!(
        String::from_utf8(output.stdout).unwrap(),
        oracle::cases::text()
    );
}

#[test]
fn the_program_and_the_function_agree() {
    for seed in 0..50 {
        let trace = generate(&[&seed.to_string(), "--mix", "damaged"]);
        for (after_refusal, arguments) in [
            (AfterRefusal::GoOn, &[OsStr::new("all")][..]),
            (AfterRefusal::Stop, &[]),
        ] {
            let mut expected = Vec::new();
            oracle::replay::replay(after_refusal, &trace[..], &mut expected).unwrap();
            assert_eq!(oracle_with(arguments, &trace).stdout, expected);
        }
    }
}

/// Note 11: "start it with the argument `all`, which goes on as before. Any
/// other argument, or more than one, counts as none."
#[test]
fn only_the_one_word_all_goes_on() {
    // The second of three records is refused.
    let mut trace = vec![1];
    for record in [0u32, 7 << 29, 0] {
        trace.extend(record.to_be_bytes());
    }
    let whole = b"1 0 1 1 0:0\n2 14\n3 0 2 1 0:1\n";
    let stopped = b"1 0 1 1 0:0\n2 14\n";
    assert_eq!(oracle(&trace).stdout, whole);
    let others: [&[&[u8]]; 16] = [
        &[],
        &[b""],
        &[b"a"],
        &[b"al"],
        &[b"allx"],
        &[b"xall"],
        &[b"ALL"],
        &[b"All"],
        &[b" all"],
        &[b"all "],
        &[b"--all"],
        &[b"al\xFF"],
        &[b"all", b"all"],
        &[b"all", b""],
        &[b"", b"all"],
        &[b"all", b"--cases"],
    ];
    for words in others {
        let arguments: Vec<&OsStr> = words.iter().map(|word| OsStr::from_bytes(word)).collect();
        let output = oracle_with(&arguments, &trace);
        assert_eq!(output.stdout, stopped, "{arguments:?}");
        assert!(output.status.success() && output.stderr.is_empty());
    }
}

/// The input is still open when the program ends.
#[test]
fn it_ends_at_the_stop_while_the_input_goes_on() {
    let mut program = running_oracle(&[]);
    let mut input = program.stdin.take().unwrap();
    input.write_all(&[1, 0, 0, 0, 0, 0xE0, 0, 0, 0, 0]).unwrap();
    let mut listing = String::new();
    let mut output = program.stdout.take().unwrap();
    output.read_to_string(&mut listing).unwrap();
    assert_eq!(listing, "1 0 1 1 0:0\n2 14\n");
    assert!(program.wait().unwrap().success());
    drop(input);
}

#[test]
fn no_input_at_all() {
    assert_eq!(oracle(&[]).stdout, b"0 12\n");
}

#[test]
fn a_reader_that_goes_away_ends_it_quietly() {
    let mut program = running_oracle(&[]);
    drop(program.stdout.take());
    let mut input = program.stdin.take().unwrap();
    let mut trace = vec![1];
    trace.extend(vec![0; 4_000_000]);
    let _ = input.write_all(&trace);
    drop(input);
    let mut message = String::new();
    program
        .stderr
        .take()
        .unwrap()
        .read_to_string(&mut message)
        .unwrap();
    assert!(!program.wait().unwrap().success());
    assert_eq!(message, "");
}

#[test]
fn the_same_seed_gives_the_same_trace() {
    for seed in ["0", "1", "18446744073709551615"] {
        assert_eq!(generate(&[seed]), generate(&[seed]));
    }
    assert_ne!(
        generate(&["1", "--mix", "valid"]),
        generate(&["2", "--mix", "valid"])
    );
}

/// Nothing is refused but messages that a recovery has lost.
fn assert_valid(numbers: &[u8]) {
    let (accepted, lost) = (count(numbers, 0), count(numbers, 8));
    assert_eq!(accepted + lost, numbers.len());
}

#[test]
fn valid_traces_are_accepted() {
    let mut all = Vec::new();
    for n in 1..=16 {
        for seed in 0..6 {
            let (seed, n) = (seed.to_string(), n.to_string());
            let trace = generate(&[&seed, "--n", &n, "--records", "500", "--mix", "valid"]);
            assert_eq!(trace.len(), 1 + 4 * 500);
            let numbers = numbers(&trace);
            assert_eq!(numbers.len(), 500);
            assert_valid(&numbers);
            all.extend(numbers);
        }
    }
    assert!(count(&all, 8) > 0 && count(&all, 8) < all.len() / 50);
}

#[test]
fn a_long_valid_trace_is_accepted() {
    for n in ["1", "2", "16"] {
        let trace = generate(&["7", "--n", n, "--records", "1200000", "--mix", "valid"]);
        let numbers = numbers(&trace);
        assert_eq!(numbers.len(), 1_200_000);
        assert_valid(&numbers);
        assert!(count(&numbers, 8) < 12_000);
    }
}

/// Messages outlive recoveries and are delivered: of the deliveries accepted,
/// these are those with a recovery since the send. And sweeps delete.
#[test]
fn recovering_traces_deliver_behind_recoveries() {
    for n in ["2", "3", "16"] {
        let trace = generate(&["1", "--n", n, "--records", "20000", "--mix", "recovering"]);
        let listing = String::from_utf8(oracle(&trace).stdout).unwrap();
        let (mut recoveries, mut deliveries, mut outlived) = (0, 0, 0);
        let (mut sweeps, mut deleting) = (0, 0);
        // How many recoveries came before each send, by number.
        let mut before = vec![0];
        for (record, line) in trace[1..].chunks_exact(4).zip(listing.lines()) {
            let record = u32::from_be_bytes(record.try_into().unwrap());
            let (kind, argument) = (record >> 29, record & 0x1FF_FFFF);
            match (kind, line.split(' ').nth(1)) {
                (1, Some("0")) => before.push(recoveries),
                (2, Some("0")) => {
                    deliveries += 1;
                    outlived += (before[argument as usize] < recoveries) as usize;
                }
                (4, Some("0")) if argument == 0 => {
                    let deletions = line.split(' ').nth(3);
                    sweeps += 1;
                    deleting += (deletions != Some("0")) as usize;
                }
                (4, Some("0")) => recoveries += 1,
                (2 | 3, Some("8")) => {}
                _ => assert_eq!(line.split(' ').nth(1), Some("0")),
            }
        }
        assert!(recoveries > 2000 && deliveries > 4000 && 3 * outlived > deliveries);
        assert!(sweeps > 200 && deleting > 20, "{deleting} of {sweeps}");
    }
}

#[test]
fn mixed_traces_are_refused_in_many_ways() {
    let mut all = Vec::new();
    for seed in 0..400 {
        all.extend(numbers(&generate(&[&seed.to_string(), "--mix", "mixed"])));
    }
    for number in [0, 4, 5, 7, 8, 9] {
        assert!(count(&all, number) > 20, "{number}");
    }
    for number in [1, 2, 3, 6, 12, 13, 14] {
        assert_eq!(count(&all, number), 0, "{number}");
    }
}

#[test]
fn damaged_traces_are_damaged_in_many_ways() {
    let mut all = Vec::new();
    let mut empty = 0;
    for seed in 0..400 {
        let trace = generate(&[&seed.to_string(), "--mix", "damaged"]);
        empty += (trace.len() == 1) as usize;
        all.extend(numbers(&trace));
    }
    assert!(empty > 5);
    for number in [0, 1, 4, 5, 7, 8, 12, 13, 14] {
        assert!(count(&all, number) > 5, "{number}");
    }
    assert_eq!(count(&all, 6), 0);
}

/// The limits: what is refused, and the few that must be accepted there.
#[test]
fn limits_are_reached() {
    for n in ["1", "2", "3", "16"] {
        for seed in ["1", "2", "3"] {
            let trace = generate(&[seed, "--n", n, "--mix", "limits"]);
            let listing = String::from_utf8(oracle(&trace).stdout).unwrap();
            let has = |end: &str| listing.lines().any(|line| line.contains(end));
            assert!(has(" 0 65534 "));
            let refused: Vec<usize> = (1..)
                .zip(listing.lines())
                .filter(|(_, line)| line.ends_with(" 11"))
                .map(|(record, _)| record)
                .collect();
            let kind = |record: usize| trace[4 * record - 3] >> 5;
            assert!(refused.iter().any(|record| kind(*record) == 0));
            assert!(n == "1" || refused.iter().any(|record| kind(*record) == 2));
        }
    }
}

#[test]
fn message_numbers_are_used_up() {
    for n in ["2", "16"] {
        let trace = generate(&["5", "--n", n, "--records", "2400000", "--mix", "limits"]);
        let numbers = numbers(&trace);
        assert!(count(&numbers, 9) > 0);
        assert!(count(&numbers, 10) > 0);
    }
}

#[test]
fn wrong_arguments() {
    let wrong: [&[&str]; 8] = [
        &[],
        &["x"],
        &["1", "--n"],
        &["1", "--n", "0"],
        &["1", "--n", "17"],
        &["1", "--records", "1000000001"],
        &["1", "--mix", "none"],
        &["1", "2", "3"],
    ];
    for arguments in wrong {
        let status = crate::common::oracle("generate")
            .args(arguments)
            .stderr(Stdio::null())
            .status()
            .unwrap();
        assert_eq!(status.code(), Some(2), "{arguments:?}");
    }
}

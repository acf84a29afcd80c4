//! Note 10, trying a checkpoint spacing: the generator, the figures against a
//! replay of the same events, the steps against the rules, the numbers.

use crate::common::listing;
use oracle::simulate::{simulate, text, trace, Figures, Generator, Parameters};

fn parameters(count: u64, spacing: u64, steps: u64, start: u32) -> Parameters {
    Parameters {
        count,
        spacing,
        steps,
        start,
    }
}

/// The five figures, in the note's order.
fn figures(count: u64, spacing: u64, steps: u64, start: u32) -> [u64; 5] {
    let figures = simulate(parameters(count, spacing, steps, start)).unwrap();
    let Figures {
        deliveries,
        forced,
        most_kept,
        quotient,
        remainder,
    } = figures;
    [deliveries, forced, most_kept, quotient, remainder]
}

#[test]
fn the_generator() {
    let mut generator = Generator(0);
    let mut drawn = || {
        let draw = generator.draw();
        (generator.0, draw)
    };
    assert_eq!(drawn(), (1_013_904_223, 15_470));
    assert_eq!(drawn(), (1_196_435_762, 18_256));
    assert_eq!(drawn(), (3_519_870_697, 53_708));
    assert_eq!(drawn(), (2_868_466_484, 43_769));
    assert_eq!(
        Generator((1 << 32) - 1).draw(),
        (1_013_904_223 - 1_664_525) >> 16
    );
}

/// Worked out by another program, which has its own vectors and pins.
#[test]
fn known_figures() {
    assert_eq!(figures(2, 3, 12, 1), [5, 1, 2, 200, 0]);
    assert_eq!(figures(3, 2, 40, 7), [15, 6, 3, 400, 0]);
    assert_eq!(figures(4, 5, 1000, 0), [474, 162, 4, 341, 366]);
    assert_eq!(figures(16, 10, 30_000, 2026), [11_916, 4936, 10, 414, 2776]);
    assert_eq!(
        figures(2, 1000, 30_000, u32::MAX),
        [14_363, 669, 2, 46, 8302]
    );
}

#[test]
fn one_process_does_nothing() {
    for spacing in [1, 1000] {
        assert_eq!(figures(1, spacing, 30_000, 42), [0, 0, 1, 0, 0]);
        assert_eq!(trace(parameters(1, spacing, 30_000, 42)), Ok(vec![1]));
    }
}

#[test]
fn out_of_range() {
    let ok = parameters(2, 1, 1, 0);
    assert!(simulate(ok).is_ok());
    for count in [0, 17, u64::MAX] {
        assert_eq!(simulate(Parameters { count, ..ok }), Err(22));
    }
    for spacing in [0, 1001, u64::MAX] {
        assert_eq!(simulate(Parameters { spacing, ..ok }), Err(22));
    }
    for steps in [0, 30_001, u64::MAX] {
        assert_eq!(simulate(Parameters { steps, ..ok }), Err(22));
    }
    for (count, spacing, steps) in [(1, 1, 1), (16, 1000, 30_000)] {
        let limit = parameters(count, spacing, steps, u32::MAX);
        assert!(simulate(limit).is_ok());
    }
}

fn records_of(trace: &[u8]) -> Vec<(u32, u32, u32)> {
    let records = trace[1..].chunks_exact(4);
    records
        .map(|record| u32::from_be_bytes(record.try_into().unwrap()))
        .map(|record| (record >> 29, record >> 25 & 15, record & 0x1FF_FFFF))
        .collect()
}

/// Forty sets of parameters and more.
fn sets() -> Vec<Parameters> {
    let mut sets = Vec::new();
    for count in [1, 2, 3, 4, 7, 16] {
        for spacing in [1, 2, 5, 31, 1000] {
            for (steps, start) in [(1, 5), (60, 0), (777, 123_456_789), (3000, u32::MAX)] {
                sets.push(parameters(count, spacing, steps, start));
            }
        }
    }
    sets.push(parameters(16, 3, 30_000, 1));
    sets.push(parameters(2, 1, 30_000, 1));
    sets
}

/// "It agrees with replaying the same events, and no step meets a refusal." All
/// figures come from the listing here: a checkpoint is kept until it is printed
/// as deleted, and a step ends before the next send or delivery.
#[test]
fn the_figures_are_those_of_a_replay() {
    let mut forced_in_all = 0;
    for parameters in sets() {
        let events = trace(parameters).unwrap();
        let mut kept = vec![1; parameters.count as usize];
        let (mut deliveries, mut forced, mut most) = (0, 0, 1);
        let mut receivers = vec![0];
        let listing = listing(&events);
        let records = records_of(&events);
        assert_eq!(listing.lines().count(), records.len());
        for (&(kind, process, argument), line) in records.iter().zip(listing.lines()) {
            let words: Vec<&str> = line.split(' ').collect();
            assert_eq!(words[1], "0", "no step meets a refusal");
            if kind != 0 {
                most = most.max(*kept.iter().max().unwrap());
            }
            match kind {
                0 => kept[process as usize] += 1,
                1 => receivers.push(argument as usize),
                _ => {
                    deliveries += 1;
                    if words[2] != "-" {
                        forced += 1;
                        kept[receivers[argument as usize]] += 1;
                    }
                }
            }
            for deleted in &words[4..] {
                let (process, _) = deleted.split_once(':').unwrap();
                kept[process.parse::<usize>().unwrap()] -= 1;
            }
        }
        most = most.max(*kept.iter().max().unwrap());
        let got = simulate(parameters).unwrap();
        assert_eq!(
            (got.deliveries, got.forced, got.most_kept),
            (deliveries, forced, most),
            "{parameters:?}"
        );
        if deliveries == 0 {
            assert_eq!((got.quotient, got.remainder), (0, 0));
        } else {
            assert_eq!(
                got.quotient * deliveries + got.remainder,
                1000 * forced,
                "{parameters:?}"
            );
            assert!(got.remainder < deliveries);
        }
        forced_in_all += forced;
    }
    assert!(forced_in_all > 5000);
}

/// Each step by the note's rules, from the draws and the events before it.
#[test]
fn the_steps_go_by_the_rules() {
    let (mut full, mut idle) = (0, 0);
    for parameters in sets() {
        let n = parameters.count as u32;
        let mut generator = Generator(parameters.start.into());
        let events = trace(parameters).unwrap();
        let mut records = records_of(&events).into_iter().peekable();
        // Number and receiver of each message under way, oldest first.
        let mut under_way: Vec<(u32, u32)> = Vec::new();
        let mut sends = 0;
        let mut done = vec![0; n as usize];
        for _ in 0..parameters.steps {
            let p = (generator.draw() % u64::from(n)) as u32;
            let d = generator.draw() as u32;
            let oldest = under_way.iter().position(|message| message.1 == p);
            if let (Some(place), true) = (oldest, d % 2 == 0) {
                let (number, _) = under_way.remove(place);
                assert_eq!(records.next(), Some((2, 0, number)));
            } else if n >= 2 && under_way.len() < 64 {
                let (kind, sender, receiver) = records.next().unwrap();
                assert_eq!((kind, sender), (1, p));
                assert_eq!((receiver + n - p - 1) % n, d / 2 % (n - 1));
                assert_ne!(receiver, p);
                sends += 1;
                under_way.push((sends, receiver));
            } else {
                full += (n >= 2) as usize;
                idle += 1;
                continue;
            }
            done[p as usize] += 1;
            if done[p as usize] % parameters.spacing == 0 {
                assert_eq!(records.next(), Some((0, p, 0)));
            } else {
                assert!(records.peek().is_none_or(|record| record.0 != 0));
            }
        }
        assert_eq!(records.next(), None);
    }
    assert!(full > 100 && idle > full, "{full} {idle}");
}

#[test]
fn the_text() {
    let said = |words: &str| text(&words.split(' ').collect::<Vec<_>>());
    assert_eq!(
        said("2 3 12 1").unwrap(),
        "deliveries 5\nforced 1\nmost-kept 2\nforced-per-thousand-deliveries 200\nremainder 0\n"
    );
    let table = said("2 3-5 12 1").unwrap();
    let rows: Vec<&str> = table.lines().collect();
    assert_eq!(rows.len(), 4);
    assert_eq!(
        rows[0],
        "# spacing deliveries forced most-kept forced-per-thousand-deliveries remainder"
    );
    assert_eq!(rows[1], "3 5 1 2 200 0");
    assert!(rows[3].starts_with("5 5 "));
    for refused in [
        "0 1 1 1",
        "17 1 1 1",
        "2 0 1 1",
        "2 1001 1 1",
        "2 1 0 1",
        "2 1 30001 1",
        "2 1 99999999999999999999999 1",
        "2 0-3 1 1",
        "2 999-1001 1 1",
        "2 5-4 1 1",
        "17 1-2 1 1",
        "2 1-2 0 1",
    ] {
        assert_eq!(said(refused).as_deref(), Some("refused 22\n"), "{refused}");
    }
    for wrong in [
        "",
        "2 1 1",
        "2 1 1 1 1",
        "x 1 1 1",
        "2 x 1 1",
        "2 1 x 1",
        "2 1 1 x",
        "2 1 1 -1",
        "2 1 1 +1",
        "2 1 1 4294967296",
        "2 1- 1 1",
        "2 -1 1 1",
        "2 1-2-3 1 1",
        "2 1 1 ",
    ] {
        assert_eq!(said(wrong), None, "{wrong}");
    }
    assert!(said("2 1 1 4294967295").is_some());
}

/// The program prints the text, or how it is used.
#[test]
fn the_program() {
    let output = |words: &[&str]| {
        let mut program = crate::common::oracle("simulate");
        program.args(words).output().unwrap()
    };
    for words in [
        ["2", "3", "12", "1"],
        ["4", "1-9", "50", "7"],
        ["0", "1", "1", "1"],
    ] {
        let output = output(&words);
        assert_eq!(String::from_utf8(output.stdout).ok(), text(&words));
        assert!(output.stderr.is_empty());
    }
    let wrong = output(&["2", "x", "1", "1"]);
    assert!(wrong.stdout.is_empty() && wrong.stderr.starts_with(b"usage: "));
}

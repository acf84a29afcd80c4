//! Note 12, two halves of one run: examples, the numbers in their order, what
//! holds of every merged trace, and that both ways round end alike.

use crate::common::{self, listing, trace, DELETIONS};
use oracle::halves::draw::{drawn, drawn_whole, Halves};
use oracle::halves::merge::merge;
use oracle::run::{Run, ONES};
use oracle::whole::Whole;

const CHECKPOINT: u32 = 0;
const SEND: u32 = 1;
const DELIVER: u32 = 2;
const LOSE: u32 = 3;
const RECOVER: u32 = 4;

type Records<'a> = &'a [(u32, u32, u32)];

/// A message by its sender and the sender's running count.
fn message(sender: u32, running: u32) -> u32 {
    sender << 21 | running
}

/// The merged trace, or the number. What lies after the trace in the buffer,
/// and all of it after a refusal, is unchanged.
fn merged(first: &[u8], second: &[u8], set: impl Into<Whole>) -> Result<Vec<u8>, u8> {
    let set: Whole = set.into();
    let room = first.len() + second.len();
    let mut result: Vec<u8> = (0..room + 7).map(|place| place as u8 ^ 0x5A).collect();
    let before = result.clone();
    let answer = merge(first, second, set.clone(), &mut result);
    let length = answer.unwrap_or(0);
    assert_eq!(result[length..], before[length..]);
    // A buffer of just both lengths does as well.
    let mut exact = before[..room].to_vec();
    assert_eq!(merge(first, second, set, &mut exact), answer);
    assert_eq!(exact[..], result[..room]);
    answer.map(|length| result[..length].to_vec())
}

fn number(first: &[u8], second: &[u8], set: impl Into<Whole>) -> u8 {
    merged(first, second, set).err().unwrap_or(0)
}

/// The set that a program is handed.
fn word_of(halves: &Halves) -> Whole {
    Whole::in_decimal(&halves.word).unwrap()
}

#[test]
fn the_first_half_goes_as_far_as_it_can() {
    // 0 and 2 are in the first half, 1 in the second.
    let first = [
        (SEND, 0, 1),
        (CHECKPOINT, 0, 0),
        (SEND, 2, 1),
        (DELIVER, 0, message(1, 2)),
        (SEND, 0, 2),
        (DELIVER, 0, message(0, 2)),
    ];
    let second = [
        (CHECKPOINT, 1, 0),
        (SEND, 1, 0),
        (SEND, 1, 2),
        (DELIVER, 0, message(2, 1)),
        (LOSE, 0, message(0, 1)),
    ];
    let expected = [
        (SEND, 0, 1),
        (CHECKPOINT, 0, 0),
        (SEND, 2, 1),
        (CHECKPOINT, 1, 0),
        (SEND, 1, 0),
        (SEND, 1, 2),
        // Message 2 of process 1 is the fourth of the run.
        (DELIVER, 0, 4),
        (SEND, 0, 2),
        (DELIVER, 0, 5),
        (DELIVER, 0, 2),
        (LOSE, 0, 1),
    ];
    let (first, second) = (trace(3, &first), trace(3, &second));
    assert_eq!(merged(&first, &second, 0b101), Ok(trace(3, &expected)));
    // The other way round.
    let expected = [
        (CHECKPOINT, 1, 0),
        (SEND, 1, 0),
        (SEND, 1, 2),
        (SEND, 0, 1),
        (CHECKPOINT, 0, 0),
        (SEND, 2, 1),
        (DELIVER, 0, 4),
        (LOSE, 0, 3),
        (DELIVER, 0, 2),
        (SEND, 0, 2),
        (DELIVER, 0, 5),
    ];
    assert_eq!(merged(&second, &first, 0b010), Ok(trace(3, &expected)));
}

/// "7 the set": every decimal number is judged whole, after 1, 12 and 23.
#[test]
fn a_set_of_any_length() {
    let set = |word: &str| Whole::in_decimal(word).unwrap();
    let (one, two) = (
        trace(2, &[(CHECKPOINT, 0, 0)]),
        trace(2, &[(CHECKPOINT, 1, 0)]),
    );
    let many = "9".repeat(5000);
    let zeros = "0".repeat(5000) + "1";
    for word in [
        "4",
        "65536",
        "65537",
        "4294967297",
        "18446744073709551617",
        &many,
    ] {
        assert_eq!(number(&one, &two, set(word)), 7, "{word}");
        assert_eq!(number(&[17], &two, set(word)), 1, "{word}");
        assert_eq!(number(&[], &two, set(word)), 12, "{word}");
        assert_eq!(number(&[3], &two, set(word)), 23, "{word}");
        assert_eq!(number(&[2, 0], &two, set(word)), 7, "{word}");
    }
    for word in ["1", "01", "000001", &zeros] {
        assert_eq!(number(&one, &two, set(word)), 0, "{word}");
    }
    // All 16 processes; one bit more.
    assert_eq!(number(&[16], &[16], set("65535")), 0);
    assert_eq!(number(&[16], &[16], set("65536")), 7);
    for word in [
        "", "x", "1x", "-1", "+1", " 1", "1 ", "1.0", "0x1", "\u{664}",
    ] {
        assert_eq!(Whole::in_decimal(word), None, "{word:?}");
    }
    for number in [0, 1, 2, 9, 10, 255, 65_535, 65_536, u32::MAX] {
        assert_eq!(set(&number.to_string()), Whole::from(number));
        assert_eq!(Whole::from(number).as_u64(), Some(number.into()));
    }
    assert_eq!(set(&u64::MAX.to_string()).as_u64(), Some(u64::MAX));
    assert_eq!(set("18446744073709551616").as_u64(), None);
}

#[test]
fn nothing_to_merge() {
    for n in 1..=16 {
        assert_eq!(merged(&[n], &[n], 0), Ok(vec![n]));
    }
    // All processes in one half: it is its own merge, save for the numbers.
    let records = [(SEND, 0, 1), (SEND, 1, 0), (DELIVER, 0, message(1, 1))];
    let plain = trace(2, &[(SEND, 0, 1), (SEND, 1, 0), (DELIVER, 0, 2)]);
    assert_eq!(merged(&trace(2, &records), &[2], 0b11), Ok(plain.clone()));
    assert_eq!(merged(&[2], &trace(2, &records), 0), Ok(plain));
}

/// "13, and after it 17, each half, all before any record"; 1, 3, 12, 23 and 7
/// come before.
#[test]
fn the_halves_are_judged_in_order() {
    let long = |n: u8, bytes: usize| {
        let mut half = vec![0; 1 + bytes];
        half[0] = n;
        half
    };
    let bad = trace(2, &[(7, 0, 0)]);
    // 1 of either half, where the other has no first byte, or another count.
    for other in [&[][..], &[2], &[3, 0], &[17], &bad] {
        for first in [0, 17, 255] {
            assert_eq!(number(&[first, 0], other, 1 << 16), 1);
            assert_eq!(number(other, &[first, 0], 1 << 16), 1);
        }
    }
    for other in [&[][..], &[2, 0], &bad] {
        assert_eq!(number(&[], other, 1 << 16), 12);
        assert_eq!(number(other, &[], 1 << 16), 12);
    }
    assert_eq!(number(&[2, 0], &[3], 1 << 16), 23);
    assert_eq!(number(&[3], &[2, 0], 1 << 16), 23);
    for set in [0b100, 0b111, 1 << 15, 1 << 16, u32::MAX] {
        assert_eq!(number(&[2, 0], &long(2, 4 * 4097), set), 7);
    }
    for left in 1..=3 {
        assert_eq!(number(&long(2, left), &bad, 3), 13);
        assert_eq!(number(&bad, &long(2, left), 3), 13);
        assert_eq!(number(&long(2, 4 * 4097), &long(2, left), 3), 13);
        assert_eq!(number(&long(2, 4 * 4097 + left), &bad, 3), 13);
        assert_eq!(number(&bad, &long(2, 4 * 4097 + left), 3), 13);
    }
    assert_eq!(number(&long(2, 4 * 4097), &bad, 3), 17);
    assert_eq!(number(&bad, &long(2, 4 * 4097), 3), 17);
    // 4,096 are not too many, in each half.
    let mut second = vec![2];
    second.extend(trace(2, &[(CHECKPOINT, 1, 0); 4096])[1..].iter());
    let whole = merged(&long(2, 4 * 4096), &second, 1).unwrap();
    assert_eq!(whole.len(), 1 + 8 * 4096);
}

#[test]
fn the_buffer_is_judged_behind_1_alone() {
    let half = trace(2, &[(CHECKPOINT, 0, 0)]);
    let of_room = |first: &[u8], second: &[u8], set, room: usize| {
        let mut result = vec![9; room];
        let answer = merge(first, second, set, &mut result);
        assert!(answer.is_ok() || result == vec![9; room]);
        answer
    };
    assert_eq!(of_room(&half, &[2], 1, 6), Ok(5));
    // The trace itself would fit.
    assert_eq!(of_room(&half, &[2], 1, 5), Err(3));
    assert_eq!(of_room(&half, &[3], 1, 5), Err(3));
    assert_eq!(of_room(&half, &[], 1, 4), Err(3));
    assert_eq!(of_room(&half, &[], 1, 5), Err(12));
    assert_eq!(of_room(&half, &[2], 1 << 5, 5), Err(3));
    assert_eq!(of_room(&[2, 0], &[2], 1, 2), Err(3));
    assert_eq!(of_room(&[0], &half, 1, 0), Err(1));
    assert_eq!(of_room(&[], &[], 1, 0), Err(12));
}

/// Of three processes 0 is in the first half. Each record alone in the first
/// half, after a send of 0 to 1 and one to 2, and a send of 1 to 0 and to 2 in
/// the second.
#[test]
fn a_taken_record_is_judged_in_order() {
    let numbers: [((u32, u32, u32), u8); 27] = [
        ((CHECKPOINT, 0, 0), 0),
        ((CHECKPOINT, 1, 0), 23),
        ((CHECKPOINT, 3, 0), 4),
        ((CHECKPOINT, 3, 1), 14),
        ((CHECKPOINT, 1, 1), 14),
        ((SEND, 0, 2), 0),
        ((SEND, 1, 2), 23),
        ((SEND, 1, 1), 5),
        ((SEND, 3, 3), 4),
        ((SEND, 1, 3), 4),
        ((SEND, 0, 1 << 24), 4),
        ((DELIVER, 0, message(1, 1)), 0),
        ((LOSE, 0, message(1, 1)), 0),
        // For a receiver of the other half, from a sender of either.
        ((DELIVER, 0, message(1, 2)), 23),
        ((LOSE, 0, message(0, 1)), 23),
        ((DELIVER, 1, message(1, 1)), 14),
        ((LOSE, 15, message(1, 2)), 14),
        // Not sent: never taken, so not judged.
        ((DELIVER, 0, message(1, 3)), 24),
        ((DELIVER, 0, message(1, 0)), 24),
        ((DELIVER, 0, 0), 24),
        ((LOSE, 0, message(2, 1)), 24),
        ((LOSE, 0, message(3, 1)), 24),
        ((DELIVER, 1, message(15, (1 << 21) - 1)), 24),
        ((RECOVER, 0, 1), 14),
        ((RECOVER, 0, 0), 14),
        ((RECOVER, 9, 1 << 24), 14),
        ((7, 15, 0x1FF_FFFF), 14),
    ];
    let second = trace(3, &[(SEND, 1, 0), (SEND, 1, 2)]);
    for (record, expected) in numbers {
        let first = trace(3, &[(SEND, 0, 1), (SEND, 0, 2), record]);
        assert_eq!(number(&first, &second, 0b001), expected, "{record:?}");
        // With the names of the halves changed.
        assert_eq!(number(&second, &first, 0b110), expected, "{record:?}");
    }
}

/// The first half's record is judged before the second's is looked at, and what
/// is not yet taken is not judged.
#[test]
fn the_first_refusal_is_the_result() {
    let bad: Records = &[(CHECKPOINT, 1, 0)];
    let worse: Records = &[(7, 0, 0)];
    assert_eq!(number(&trace(2, bad), &trace(2, worse), 1), 23);
    assert_eq!(number(&trace(2, worse), &trace(2, bad), 2), 14);
    // The first half waits, so the second is judged.
    let waiting: Records = &[(DELIVER, 0, message(1, 1)), (7, 0, 0)];
    assert_eq!(number(&trace(2, waiting), &trace(2, &[(SEND, 1, 1)]), 1), 5);
    assert_eq!(
        number(&trace(2, waiting), &trace(2, &[(SEND, 1, 0)]), 1),
        14
    );
    // Each waits for the other.
    let one = [(DELIVER, 0, message(1, 1)), (SEND, 0, 1)];
    let other = [(DELIVER, 0, message(0, 1)), (SEND, 1, 0)];
    assert_eq!(number(&trace(2, &one), &trace(2, &other), 1), 24);
    // The second is at its end.
    assert_eq!(number(&trace(2, &one), &[2], 1), 24);
    assert_eq!(number(&[2], &trace(2, &one), 2), 24);
}

/// 8 is not judged: a message may be delivered and lost over and over.
#[test]
fn a_message_is_delivered_twice() {
    let first = trace(2, &[(SEND, 0, 1)]);
    let twice = [(DELIVER, 0, message(0, 1)); 2];
    let plain = trace(2, &[(SEND, 0, 1), (DELIVER, 0, 1), (DELIVER, 0, 1)]);
    assert_eq!(merged(&first, &trace(2, &twice), 1), Ok(plain));
}

/// The merge lets one half run ahead: of a run that never has more than one
/// message under way it can make a trace that meets 9.
#[test]
fn a_merged_trace_can_meet_9() {
    let first = trace(2, &[(SEND, 0, 1); 65]);
    let receipts: Vec<_> = (1..=65).map(|k| (DELIVER, 0, message(0, k))).collect();
    let second = trace(2, &receipts);
    let plain = merged(&first, &second, 1).unwrap();
    let listed = listing(&plain);
    assert_eq!(listed.lines().nth(63), Some("64 0 64 0"));
    assert_eq!(listed.lines().nth(64), Some("65 9"));
    // The other way round every delivery follows its send.
    let plain = merged(&second, &first, 2).unwrap();
    assert!(listing(&plain)
        .lines()
        .all(|line| line.split(' ').nth(1) == Some("0")));
}

// --------------------------------------------------- what holds of every merge

fn records_of(half: &[u8]) -> Vec<(u32, u32, u32)> {
    let records = half[1..].chunks_exact(4);
    records
        .map(|record| u32::from_be_bytes(record.try_into().unwrap()))
        .map(|record| (record >> 29, record >> 25 & 15, record & 0x1FF_FFFF))
        .collect()
}

/// The two halves that a plain trace comes from, and whether each delivery and
/// loss is after its send.
fn split(plain: &[u8], set: u32) -> [Vec<u8>; 2] {
    let mut halves = [vec![plain[0]], vec![plain[0]]];
    // Sender, running count and receiver, by number from 1.
    let mut messages: Vec<(u32, u32, u32)> = Vec::new();
    for (kind, process, argument) in records_of(plain) {
        let (process, record) = match kind {
            CHECKPOINT => (process, (kind, process, argument)),
            SEND => {
                let earlier = messages.iter().filter(|sent| sent.0 == process);
                let running = earlier.count() as u32 + 1;
                messages.push((process, running, argument));
                (process, (kind, process, argument))
            }
            _ => {
                let (sender, running, receiver) = messages[argument as usize - 1];
                (receiver, (kind, 0, message(sender, running)))
            }
        };
        let half = if set >> process & 1 == 1 { 0 } else { 1 };
        halves[half].extend(common::record(record.0, record.1, record.2));
    }
    halves
}

#[test]
fn a_merged_trace_splits_into_its_halves() {
    let (mut both, mut waited) = (0, 0);
    for seed in 0..3000 {
        let halves = drawn(seed);
        let Ok(plain) = merged(&halves.first, &halves.second, word_of(&halves)) else {
            continue;
        };
        let set = word_of(&halves).as_u64().unwrap() as u32;
        let again = split(&plain, set);
        assert!(
            again == [halves.first.clone(), halves.second.clone()],
            "seed {seed}"
        );
        both += (halves.first.len() > 1 && halves.second.len() > 1) as usize;
        // Not just one half after the other.
        let first = records_of(&halves.first);
        let sends = first.iter().filter(|record| record.0 == SEND).count();
        let ahead = records_of(&plain)[..first.len().min(plain.len() / 4)].to_vec();
        waited += (ahead.iter().filter(|record| record.0 == SEND).count() != sends) as usize;
    }
    assert!(both > 500 && waited > 50, "{both} {waited}");
}

/// The state at the end of a trace, if every record is accepted.
fn end_of(plain: &[u8]) -> Option<Run> {
    let mut run = Run::start(plain[0] as usize, &ONES).unwrap();
    for (kind, process, argument) in records_of(plain) {
        let refused = match kind {
            CHECKPOINT => run.checkpoint(process as usize, &mut [0; DELETIONS]).err(),
            SEND => run.send(process as usize, argument as usize).err(),
            DELIVER => run.deliver(argument.into(), &mut [0; DELETIONS]).err(),
            LOSE => run.lose(argument.into()).err(),
            _ => panic!("a plain trace of halves has kinds 0 to 3"),
        };
        if refused.is_some() {
            return None;
        }
    }
    Some(run)
}

/// "Any two orders that keep both halves and send before delivering, if every
/// record is accepted in both, end with equal vectors, pins and kept
/// checkpoints."
#[test]
fn all_orders_end_alike() {
    let (mut alike, mut stopped, mut different) = (0, 0, 0);
    for seed in 0..2000 {
        let halves = drawn_whole(seed);
        let whole = halves.whole.unwrap();
        let others = !halves.set & ((1 << whole[0]) - 1);
        let one = merged(&halves.first, &halves.second, halves.set);
        let other = merged(&halves.second, &halves.first, others);
        let (Ok(one), Ok(other)) = (one, other) else {
            continue;
        };
        let expected = end_of(&whole).expect("a whole run is accepted");
        for order in [&one, &other] {
            let Some(run) = end_of(order) else {
                stopped += 1;
                continue;
            };
            for i in 0..run.count() {
                assert_eq!(run.vector(i), expected.vector(i), "seed {seed}");
                assert_eq!(common::pins(&run, i), common::pins(&expected, i));
                assert!(run.kept(i).eq(expected.kept(i)));
            }
            alike += 1;
            different += (*order != whole) as usize;
        }
    }
    let met = format!("{alike} {stopped} {different}");
    assert!(alike > 3000 && stopped > 2 && different > 2000, "{met}");
}

/// The pairs of halves have what they say.
#[test]
fn every_refusal_is_met() {
    let mut met = [0; 25];
    for seed in 0..3000 {
        let halves = drawn(seed);
        met[number(&halves.first, &halves.second, word_of(&halves)) as usize] += 1;
    }
    for expected in [0, 1, 4, 5, 7, 12, 13, 14, 17, 23, 24] {
        assert!(met[expected] > 20, "{expected}: {met:?}");
    }
}

/// The two programs, and the functions, on a few seeds.
#[test]
fn the_programs() {
    let folder = std::env::temp_dir().join(format!("merge-{}", std::process::id()));
    std::fs::create_dir_all(&folder).unwrap();
    let (first, second) = (folder.join("first"), folder.join("second"));
    let mut refused = 0;
    for seed in 0..40 {
        let output = crate::common::oracle("halves")
            .arg(seed.to_string())
            .args([&first, &second])
            .output()
            .unwrap();
        assert!(output.status.success());
        let set = String::from_utf8(output.stdout).unwrap();
        let halves = drawn(seed);
        assert_eq!(set, format!("{}\n", halves.word));
        assert!(std::fs::read(&first).unwrap() == halves.first);
        assert!(std::fs::read(&second).unwrap() == halves.second);

        let output = crate::common::oracle("merge")
            .args([&first, &second])
            .arg(set.trim())
            .output()
            .unwrap();
        let (trace, said) = match merged(&halves.first, &halves.second, word_of(&halves)) {
            Ok(trace) => (trace, String::new()),
            Err(number) => (Vec::new(), format!("refused {number}\n")),
        };
        assert!(output.stdout == trace);
        assert_eq!(String::from_utf8(output.stderr).unwrap(), said);
        refused += trace.is_empty() as usize;
    }
    assert!(refused > 5 && refused < 35);
    std::fs::remove_dir_all(&folder).unwrap();
}

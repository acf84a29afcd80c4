//! Note 7, the verdict on another run-time's trace: examples, the numbers in
//! their order, our own runs, and small traces held against the definitions by
//! the closure of relations.

use crate::common::{trace, Random, DELETIONS};
use oracle::generate::{write_trace, Plan};
use oracle::judge::judge;
use oracle::run::{Run, ONES};
use std::io::Write;
use std::process::Stdio;

const CHECKPOINT: u32 = 0;
const SEND: u32 = 1;
const DELIVER: u32 = 2;
const LOSE: u32 = 3;
const RECOVER: u32 = 4;

fn verdict(n: u8, records: &[(u32, u32, u32)]) -> String {
    judge(&trace(n, records)).to_string()
}

fn foreign(seed: u64, options: &[&str]) -> Vec<u8> {
    let mut arguments = vec![seed.to_string(), "--mix".into(), "foreign".into()];
    arguments.extend(options.iter().map(|option| option.to_string()));
    let mut bytes = Vec::new();
    let plan = Plan::from_arguments(&arguments).unwrap();
    write_trace(plan, &mut bytes).unwrap();
    bytes
}

#[test]
fn nothing_happens() {
    for n in 1..=16 {
        assert_eq!(verdict(n, &[]), "trackable");
    }
}

/// 1 sends, then receives in the same interval: [message of 0, message of 1] is
/// a path from 0's checkpoint 0 to 2's live state. Only where 1 sent first it
/// is not causal.
#[test]
fn sent_before_received_in_one_interval() {
    let early = [(SEND, 1, 2), (DELIVER, 0, 1), (SEND, 0, 1), (DELIVER, 0, 2)];
    assert_eq!(verdict(3, &early), "breaks 0:0 2:1");
    let late = [(SEND, 0, 1), (DELIVER, 0, 1), (SEND, 1, 2), (DELIVER, 0, 2)];
    assert_eq!(verdict(3, &late), "trackable");
    // A checkpoint between the two ends the path.
    let forced = [
        (SEND, 1, 2),
        (DELIVER, 0, 1),
        (SEND, 0, 1),
        (CHECKPOINT, 1, 0),
        (DELIVER, 0, 2),
    ];
    assert_eq!(verdict(3, &forced), "trackable");
    // 001, section 2.3: it is doubled by a causal path.
    let doubled = [
        (SEND, 0, 2),
        (DELIVER, 0, 1),
        (SEND, 1, 2),
        (DELIVER, 0, 2),
        (SEND, 0, 1),
        (DELIVER, 0, 3),
    ];
    assert_eq!(verdict(3, &doubled), "trackable");
    // A doubling message that is lost doubles nothing.
    let lost = [
        (SEND, 0, 2),
        (LOSE, 0, 1),
        (SEND, 1, 2),
        (DELIVER, 0, 2),
        (SEND, 0, 1),
        (DELIVER, 0, 3),
    ];
    assert_eq!(verdict(3, &lost), "breaks 0:0 2:1");
}

/// Lost messages and those under way are on no path.
#[test]
fn only_received_messages_count() {
    let start = [(SEND, 1, 2), (DELIVER, 0, 1), (SEND, 0, 1)];
    assert_eq!(verdict(3, &start), "trackable");
    let mut lost = start.to_vec();
    lost.push((LOSE, 0, 2));
    assert_eq!(verdict(3, &lost), "trackable");
}

/// 001, figure 2: a path from a checkpoint to itself.
#[test]
fn the_two_may_be_the_same_checkpoint() {
    let useless = [
        (SEND, 1, 0),
        (DELIVER, 0, 1),
        (CHECKPOINT, 0, 0),
        (SEND, 0, 1),
        (DELIVER, 0, 2),
    ];
    assert_eq!(verdict(2, &useless), "breaks 0:1 0:1");
    // One more round makes the other's checkpoint useless too; the first pair
    // is then from 0's first one still.
    let mut domino = useless.to_vec();
    domino.extend([(CHECKPOINT, 1, 0), (SEND, 1, 0), (DELIVER, 0, 3)]);
    assert_eq!(verdict(2, &domino), "breaks 0:1 0:1");
    // With the names changed the near end is first by process, then index.
    let renamed: Vec<_> = domino
        .iter()
        .map(|&(kind, process, argument)| match kind {
            SEND => (kind, 1 - process, 1 - argument),
            CHECKPOINT => (kind, 1 - process, argument),
            _ => (kind, process, argument),
        })
        .collect();
    assert_eq!(verdict(2, &renamed), "breaks 0:1 0:1");
    assert_eq!(verdict(2, &renamed[..5]), "breaks 1:1 1:1");
}

/// A path to 2's checkpoint 1 and one to 1's live state: by the far end's
/// process first, though its index is greater.
#[test]
fn first_by_near_then_far() {
    let records = [
        // 3 sends to 2 and to 1 before it hears of 0's checkpoint 1.
        (SEND, 3, 2),
        (DELIVER, 0, 1),
        (CHECKPOINT, 2, 0),
        (CHECKPOINT, 1, 0),
        (CHECKPOINT, 1, 0),
        (SEND, 3, 1),
        (DELIVER, 0, 2),
        (CHECKPOINT, 0, 0),
        (SEND, 0, 3),
        (DELIVER, 0, 3),
    ];
    assert_eq!(verdict(4, &records), "breaks 0:0 1:3");
    // After 0's checkpoint 0 comes another message that doubles both.
    let mut doubled = vec![(SEND, 0, 1), (SEND, 0, 2), (DELIVER, 0, 1), (DELIVER, 0, 2)];
    let shifted = records.iter().map(|&(kind, process, argument)| match kind {
        DELIVER => (kind, process, argument + 2),
        _ => (kind, process, argument),
    });
    doubled.extend(shifted);
    assert_eq!(verdict(4, &doubled), "breaks 0:1 1:3");
}

#[test]
fn the_first_byte_comes_first() {
    assert_eq!(judge(&[]).to_string(), "refused 12");
    for first in [0, 17, 255] {
        assert_eq!(judge(&[first]).to_string(), "refused 1");
        assert_eq!(judge(&[first, 255, 255]).to_string(), "refused 1");
        let mut long = vec![first];
        long.extend(vec![0; 4 * 4097]);
        assert_eq!(judge(&long).to_string(), "refused 1");
    }
}

/// "17, after the first byte is judged": before any record, and before the
/// left-over bytes.
#[test]
fn more_than_4096_records() {
    let bytes = |count: usize, byte: u8| {
        let mut bytes = vec![byte; 1 + count];
        bytes[0] = 1;
        bytes
    };
    let said = |count, byte| judge(&bytes(count, byte)).to_string();
    assert_eq!(said(4 * 4096, 0), "trackable");
    for left in 1..=3 {
        assert_eq!(said(4 * 4096 + left, 0), "refused 13");
        assert_eq!(said(4 * 4097 + left, 0), "refused 17");
    }
    assert_eq!(said(4 * 4097, 0), "refused 17");
    assert_eq!(said(4 * 4097, 255), "refused 17");
    assert_eq!(said(4 * 4096, 255), "refused 14");
    assert_eq!(said(4 * 100_000, 0), "refused 17");
}

#[test]
fn the_first_record_refused_is_the_result() {
    let refused = [
        ((CHECKPOINT, 3, 0), 4),
        ((CHECKPOINT, 3, 1), 14),
        ((CHECKPOINT, 0, 1), 14),
        ((SEND, 3, 3), 4),
        ((SEND, 0, 3), 4),
        ((SEND, 0, 1 << 24), 4),
        ((SEND, 2, 2), 5),
        ((DELIVER, 0, 0), 8),
        ((DELIVER, 0, 2), 8),
        ((LOSE, 0, 2), 8),
        ((LOSE, 0, 0x1FF_FFFF), 8),
        ((DELIVER, 1, 1), 14),
        ((LOSE, 1, 9), 14),
        ((RECOVER, 0, 1), 14),
        ((RECOVER, 0, 0), 14),
        ((RECOVER, 1, 1 << 24), 14),
        ((5, 0, 0), 14),
        ((7, 15, 0x1FF_FFFF), 14),
    ];
    for (bad, number) in refused {
        // What follows is not judged, left-over bytes neither.
        let mut bytes = trace(3, &[(SEND, 0, 1), bad, (SEND, 1, 1), (7, 0, 0)]);
        assert_eq!(judge(&bytes).to_string(), format!("refused {number}"));
        bytes.push(0);
        assert_eq!(judge(&bytes).to_string(), format!("refused {number}"));
    }
    let delivered = [(SEND, 0, 1), (DELIVER, 0, 1), (DELIVER, 0, 1)];
    assert_eq!(verdict(3, &delivered), "refused 8");
    let lost = [(SEND, 0, 1), (LOSE, 0, 1), (DELIVER, 0, 1)];
    assert_eq!(verdict(3, &lost), "refused 8");
    assert_eq!(judge(&[1, 0, 0, 0, 0, 0]).to_string(), "refused 13");
}

#[test]
fn sixty_four_under_way() {
    let mut records = vec![(SEND, 0, 1); 64];
    assert_eq!(verdict(2, &records), "trackable");
    records.push((SEND, 0, 1));
    assert_eq!(verdict(2, &records), "refused 9");
    records[64] = (SEND, 0, 2);
    assert_eq!(verdict(2, &records), "refused 4");
    records[64] = (SEND, 0, 0);
    assert_eq!(verdict(2, &records), "refused 5");
    // A place freed is used again.
    records[64] = (LOSE, 0, 30);
    records.push((SEND, 1, 0));
    assert_eq!(verdict(2, &records), "trackable");
    records.push((SEND, 1, 0));
    assert_eq!(verdict(2, &records), "refused 9");
}

/// What forcing is for: a run of ours without recoveries, its forced checkpoints
/// recorded as kind 0, is trackable. Without them it mostly is not.
#[test]
fn our_own_runs_are_trackable() {
    let (mut forced_ones, mut broken) = (0, 0);
    for seed in 0..400 {
        let mut random = Random(seed);
        let n = 2 + random.below(5);
        let mut run = Run::start(n, &ONES).unwrap();
        let (mut records, mut without) = (Vec::new(), Vec::new());
        for _ in 0..random.below(300) {
            let process = random.below(n);
            match random.below(8) {
                0 => {
                    run.checkpoint(process, &mut [0; DELETIONS]).unwrap();
                    records.push((CHECKPOINT, process as u32, 0));
                    without.push((CHECKPOINT, process as u32, 0));
                }
                1..=4 => {
                    let receiver = random.below(n);
                    if run.send(process, receiver).is_ok() {
                        records.push((SEND, process as u32, receiver as u32));
                        without.push((SEND, process as u32, receiver as u32));
                    }
                }
                _ if run.under_way().is_empty() => {}
                kind => {
                    let messages = run.under_way();
                    let message = messages[random.below(messages.len())];
                    if kind == 5 && random.below(4) == 0 {
                        run.lose(message.number).unwrap();
                        records.push((LOSE, 0, message.number as u32));
                        without.push((LOSE, 0, message.number as u32));
                        continue;
                    }
                    let answer = run.deliver(message.number, &mut [0; DELETIONS]).unwrap();
                    if answer.forced.is_some() {
                        records.push((CHECKPOINT, message.receiver as u32, 0));
                        forced_ones += 1;
                    }
                    records.push((DELIVER, 0, message.number as u32));
                    without.push((DELIVER, 0, message.number as u32));
                }
            }
        }
        assert_eq!(verdict(n as u8, &records), "trackable", "seed {seed}");
        broken += verdict(n as u8, &without).starts_with("breaks") as usize;
    }
    assert!(forced_ones > 1000 && broken > 200, "{forced_ones} {broken}");
}

// ------------------------------------------------ by the closure of relations

/// One event of an accepted trace, in the trace's order.
#[derive(Clone, Copy, PartialEq)]
enum Event {
    /// A checkpoint or, at the end, a live state, with its index.
    State(usize),
    Sent(u32),
    Received(u32),
}

/// All events with their processes: checkpoints 0, the records in order, live
/// states.
fn events_of(trace: &[u8]) -> Vec<(usize, Event)> {
    let n = trace[0] as usize;
    let mut next = vec![1; n];
    let mut receivers = Vec::new();
    let mut events: Vec<(usize, Event)> = (0..n).map(|p| (p, Event::State(0))).collect();
    for record in trace[1..].chunks_exact(4) {
        let record = u32::from_be_bytes(record.try_into().unwrap());
        let (process, argument) = ((record >> 25 & 15) as usize, record & 0x1FF_FFFF);
        match record >> 29 {
            CHECKPOINT => {
                events.push((process, Event::State(next[process])));
                next[process] += 1;
            }
            SEND => {
                receivers.push(argument as usize);
                events.push((process, Event::Sent(receivers.len() as u32)));
            }
            DELIVER => {
                let receiver = receivers[argument as usize - 1];
                events.push((receiver, Event::Received(argument)));
            }
            _ => {}
        }
    }
    events.extend((0..n).map(|p| (p, Event::State(next[p]))));
    events
}

/// The transitive closure of a relation.
fn closure(mut related: Vec<Vec<bool>>) -> Vec<Vec<bool>> {
    let size = related.len();
    for through in 0..size {
        for from in 0..size {
            if related[from][through] {
                for to in 0..size {
                    related[from][to] |= related[through][to];
                }
            }
        }
    }
    related
}

fn relation(size: usize, holds: impl Fn(usize, usize) -> bool) -> Vec<Vec<bool>> {
    let row = |from| (0..size).map(|to| holds(from, to)).collect();
    (0..size).map(row).collect()
}

/// The verdict on an accepted trace from the two relations, each as a matrix,
/// and all pairs in their order.
fn verdict_by_closure(trace: &[u8]) -> String {
    let events = events_of(trace);
    // The interval of an event: how many checkpoints of its process come before.
    let interval = |at: usize| {
        let before = events[..at].iter();
        let same = before.filter(|(process, event)| {
            *process == events[at].0 && matches!(event, Event::State(_))
        });
        same.count()
    };
    // Definition 1. Events of one process stand in their order.
    let precedes = closure(relation(events.len(), |from, to| {
        let same_process = events[from].0 == events[to].0 && from < to;
        let message = match (events[from].1, events[to].1) {
            (Event::Sent(sent), Event::Received(received)) => sent == received,
            _ => false,
        };
        same_process || message
    }));
    // Definition 3, of received messages: where each was sent and received.
    let mut messages = Vec::new();
    for (at, (_, event)) in events.iter().enumerate() {
        if let Event::Received(number) = event {
            let sent = events
                .iter()
                .position(|(_, other)| *other == Event::Sent(*number));
            messages.push((sent.unwrap(), at));
        }
    }
    // Paths of one message or more.
    let mut path = closure(relation(messages.len(), |one, next| {
        let (received, sent) = (messages[one].1, messages[next].0);
        events[received].0 == events[sent].0 && interval(received) <= interval(sent)
    }));
    for message in 0..messages.len() {
        path[message][message] = true;
    }
    let zigzag = |near: usize, far: usize| {
        let firsts = (0..messages.len())
            .filter(|m| events[messages[*m].0].0 == events[near].0 && messages[*m].0 > near);
        let mut pairs = firsts.flat_map(|first| (0..messages.len()).map(move |last| (first, last)));
        pairs.any(|(first, last)| {
            let received = messages[last].1;
            path[first][last] && events[received].0 == events[far].0 && received < far
        })
    };
    let mut states: Vec<(usize, usize, usize)> = events
        .iter()
        .enumerate()
        .filter_map(|(at, (process, event))| match event {
            Event::State(index) => Some((*process, *index, at)),
            _ => None,
        })
        .collect();
    states.sort();
    for &(near_process, near_index, near) in &states {
        for &(far_process, far_index, far) in &states {
            if zigzag(near, far) && !precedes[near][far] {
                return format!("breaks {near_process}:{near_index} {far_process}:{far_index}");
            }
        }
    }
    "trackable".to_string()
}

#[test]
fn small_traces_by_the_closure_of_relations() {
    let (mut trackable, mut broken, mut late) = (0, 0, 0);
    for seed in 0..6000 {
        let (n, records) = ((2 + seed % 4).to_string(), (seed % 40).to_string());
        let bytes = foreign(seed, &["--n", &n, "--records", &records]);
        let said = judge(&bytes).to_string();
        if said.starts_with("refused") {
            continue;
        }
        assert_eq!(said, verdict_by_closure(&bytes), "seed {seed}");
        trackable += (said == "trackable") as usize;
        broken += said.starts_with("breaks") as usize;
        late += (said.starts_with("breaks") && !said.starts_with("breaks 0:0 ")) as usize;
    }
    let met = format!("{trackable} {broken} {late}");
    assert!(trackable > 1000 && broken > 600 && late > 400, "{met}");
}

/// The mix has what it says.
#[test]
fn foreign_traces() {
    let (mut long, mut refused, mut pairs) = ([0; 3], [0; 18], Vec::new());
    for seed in 0..3000 {
        let bytes = foreign(seed, &[]);
        if bytes.len() > 4 * 4000 {
            long[(bytes.len() - 1) / 4 - 4095] += 1;
        }
        let said = judge(&bytes).to_string();
        match said.strip_prefix("refused ") {
            Some(number) => refused[number.parse::<usize>().unwrap()] += 1,
            None => pairs.push(said),
        }
    }
    assert!(long.iter().all(|times| *times > 5), "{long:?}");
    for number in [1, 4, 5, 8, 9, 12, 13, 14, 17] {
        assert!(refused[number] > 2, "{number}: {refused:?}");
    }
    pairs.sort();
    pairs.dedup();
    assert!(pairs.len() > 100, "{}", pairs.len());
}

/// The longest traces are judged too: domino patterns, and trackable ones.
#[test]
fn long_traces() {
    let (mut trackable, mut broken) = (0, 0);
    for seed in 0..200 {
        let said = judge(&foreign(seed, &["--records", "4096"])).to_string();
        trackable += (said == "trackable") as usize;
        broken += said.starts_with("breaks") as usize;
    }
    assert!(trackable > 30 && broken > 30, "{trackable} {broken}");
}

/// The program prints what the function says.
#[test]
fn the_program() {
    for seed in 0..50 {
        let bytes = foreign(seed, &[]);
        let mut program = crate::common::oracle("judge")
            .stdin(Stdio::piped())
            .stdout(Stdio::piped())
            .spawn()
            .unwrap();
        program.stdin.take().unwrap().write_all(&bytes).unwrap();
        let output = program.wait_with_output().unwrap();
        let line = format!("{}\n", judge(&bytes));
        assert_eq!(String::from_utf8(output.stdout).unwrap(), line);
        assert!(output.status.success());
    }
}

//! The exam text: the cases 1 to 10 of the exam sheet, one of the wrong marks
//! on past papers, two cases of messages that a recovery loses, a sweep,
//! what is on the disks, and earliest lines, by real calls.

use crate::run::{Counts, Entry, Named, Run, MAX_PROCESSES, MOST_WRITTEN, ONES};
use std::fmt::{Display, Write as _};
use std::io;

const DELETIONS: usize = 2 * MAX_PROCESSES * MAX_PROCESSES;

/// Prints the exam text. Another program that makes the same calls and follows
/// the same layout prints the very same bytes.
///
/// # Layout
///
/// ASCII, decimal numbers, single spaces, one fact a line, every line ended by
/// one LF, no blank lines. A failed set is printed as its number.
///
/// "The facts of a state", for a state of n processes, are these lines, first
/// all that concern process 0, then process 1 and so on, then the lines:
///
/// * for P = 0 .. n-1, five lines:
///   `vector P: e0 e1 ..`  the n entries of P's vector;
///   `pins P: x0 x1 ..`    P's pins for 0 .. n-1, a hyphen for none;
///   `kept P: i0 i1 ..`    the indexes of P's kept checkpoints, ascending;
///   `causes P: c0 c1 ..`  their causes, in the same order;
///   `counts P: b0 b1 ..`  their block counts, in the same order;
/// * `blocks: W D`         blocks written and blocks deleted;
/// * for F = 0 .. 2^n - 1, one line:
///   `line F: m0 m1 ..`    the n indexes that a line call for F writes.
///
/// "The facts of the disks" are of these only, for P = 0 .. n-1, the lines
/// `kept P: ..`, `causes P: ..` and `counts P: ..`, and then `blocks: W D`.
///
/// Every block count is 1 where no other is named.
///
/// "The facts of a delivery", of message M, are two lines:
///
/// * `deliver M: R`  0 if it is accepted, else the refusal number;
/// * `risen M: S`    the set of entries that rose, as its number; 0 with a
///   refusal.
///
/// # Cases 1 to 6
///
/// n = 2. The calls of the ten-record example are, by record:
/// 1 send 0 to 1; 2 deliver 1; 3 checkpoint 1; 4 checkpoint 0; 5 send 1 to 0;
/// 6 deliver 2; 7 send 0 to 1; 8 deliver 3; 9 recover 1, which is {0}.
/// Each case starts anew, makes the calls of the first r records, and prints
/// `case K`, then, if record r is a delivery (in the cases 1, 4 and 5), the
/// facts of that one, then the facts of the state. r is 2, 3, 4, 6, 8, 9 for
/// case 1, 2, 3, 4, 5, 6.
///
/// # Case 7
///
/// n = 2. The calls of records 1 to 4, then recover 2, which is {1}. Prints
/// `case 7`, `written 2: m0 m1` (the line that the recover wrote),
/// `recover 2: V C p:i ..` (V how many rolled back, C the count of deletions,
/// then each deletion), and the facts of the state.
///
/// # Case 8
///
/// n = 3. Send 0 to 1, deliver 1, send 1 to 2, deliver 2. Prints `case 8`, the
/// facts of the first delivery, those of the second, and the facts of the
/// state.
///
/// # Case 9
///
/// n = 2. Send 0 to 1, recover 2, deliver 1. Prints `case 9`, `written 2: ..`
/// and `recover 2: ..` as in case 7, the facts of the delivery, and the facts
/// of the state.
///
/// # Case 10
///
/// Prints `case 10`, then the lines below, in this order. R is 0 if the call is
/// accepted, else the refusal number. Every line that names a list length, and
/// every other bullet where it says so, starts anew. Lists that are not named
/// are long enough: the deletion list has 2 * n * n entries, the line list n.
///
/// * `start N: R` for N = 0, 1, 16, 17.
/// * For n = 1, then 2, then 16, with L = 2 * n * n, then L = 2 * n * n - 1:
///   `checkpoint n L: R`: new run, checkpoint 0 with a deletion list of L;
///   after both of them, and only for n >= 2,
///   `deliver n L: R`: new run, send 0 to 1, deliver 1 with a deletion list of
///   L; after both of them
///   `recover n L: R`: new run, recover 1 with a deletion list of L.
///   Then, still for this n, with L = n, then L = n - 1:
///   `line n L: R`: new run, line 1 with a line list of L; after both of them
///   `recoverline n L: R`: new run, recover 1 with a line list of L.
/// * New run, n = 2, 65 times send 0 to 1. `send 64: R` is the 64th of them,
///   `send 65: R` the 65th.
/// * New run, n = 1, 65,533 times checkpoint 0, so that the own entry is
///   65,534. `own 65534: R` is a further checkpoint 0, `own 65535: R` one
///   more after it.
/// * `forced 65534: R`: new run, n = 2, 65,533 times checkpoint 1, send 1 to 0
///   (message 1), send 0 to 1 (message 2), deliver 2.
/// * `forced 65535: R`: the same with 65,534 times checkpoint 1.
/// * `quiet 65535: R`: new run, n = 2, send 0 to 1 (message 1), send 0 to 1
///   (message 2), deliver 1, 65,534 times checkpoint 1, send 1 to 0
///   (message 3), deliver 2: the sent mark is set, nothing carried is newer.
///
/// # Mark 2
///
/// The second of the wrong marks on past papers: "Forcing whenever the sent
/// mark is set, though nothing carried is newer." n = 2. Send 0 to 1
/// (message 1), send 0 to 1 (message 2), deliver 1, send 1 to 0 (message 3),
/// deliver 2. Prints `mark 2`, the facts of the first delivery, those of the
/// second, and the facts of the state.
///
/// # Lost 1 and lost 2
///
/// Note 2. Each prints `lost M`, where M is the message that the recovery
/// loses, `written 1: ..` and `recover 1: ..` as in case 7, the facts of each
/// delivery, and the facts of the state. n = 2 in both.
///
/// * `lost 1`: send 0 to 1, recover 1, which is {0}, deliver 1. The sender
///   rolls back to before its send.
/// * `lost 2`: send 0 to 1 (message 1), checkpoint 0, send 0 to 1 (message 2),
///   recover 1, deliver 2, deliver 1. Message 1 outlives the recovery.
///
/// # Sweep 0
///
/// Note 4. n = 2. Send 0 to 1 (message 1), checkpoint 1, deliver 1,
/// checkpoint 1, checkpoint 0, send 0 to 1 (message 2), then recover 0, the
/// empty set: a sweep that deletes. Prints `sweep 0`, `written 0: ..` and
/// `recover 0: ..` as in case 7, the facts of the state, and then the facts of
/// delivery 2: messages under way stay.
///
/// # Disk 1
///
/// Note 5. n = 2, block counts 3 for process 0, 5 for process 1, and 0 for all
/// others, which are not judged. Prints `disk 1`, then after the start and after
/// each of the calls `step K`, for K = 0, 1 and on, and the facts of the disks,
/// and at the end the lines of the state (`line F: ..`, as in the facts of a
/// state). The calls are: 1 send 1 to 0 (message 1); 2 send 0 to 1 (message 2);
/// 3 deliver 2, which forces checkpoint 1 of process 1; 4 checkpoint 1;
/// 5 recover 1, which is {0}: process 1 rolls back past its checkpoint 2;
/// 6 checkpoint 1, again of index 2; 7 deliver 1; 8 checkpoint 0; 9 recover 0,
/// a sweep.
///
/// # Disk 2
///
/// Note 5. Prints `disk 2`, then the lines below, in this order; R is as in
/// case 10. T is 1,000,000,000,000,000. "With W written and D deleted" says that
/// these two are put into the state in the place of its own.
///
/// * `count N P C: R` for N, P = 1, 0; 1, 1; 2, 1; 2, 2; 16, 15 and for each of
///   them C = 0, 65535, 65536: start of n = N, the block count of P is C (and
///   all others 1).
/// * `outside N: R` for N = 0, 17: start of n = N, all block counts 0.
/// * `sum K: R` for K = 1 .. 9: new run, n = 2, block counts 1 and 65,535; with W
///   written and D deleted; checkpoint 0. W, D are, by K: 1: 65536, 0; 2: 65537,
///   1; 3: 65537, 0; 4: 65536, 1; 5: 65535, 2^64 - 1; 6: T - 1, T - 65537; 7: T,
///   T - 65536; 8: T + 1, T - 65535; 9: 0, 2^64 - 65536.
/// * For X = 65535, then X = 65534: new run, n = 2, block counts 1 and 65,535,
///   send 1 to 0 (message 1), send 0 to 1 (message 2); with T - X written and
///   T - X - 65536 deleted. `basic X: R` is a checkpoint 1 on this state,
///   `forced X: R`, also on this state, deliver 2.
/// * New run, n = 2, block counts 1 and 65,535, send 0 to 1 (message 1); with T
///   written and T - 65536 deleted. Each on this state: `unforced 0: R` is
///   deliver 1, `recovered F: R`, for F = 0, 1, recover F.
/// * `own E: R` for E = 65534, 65535: new run, n = 1, that many times checkpoint 0
///   that the own entry is E; with T written and T - 1 deleted; checkpoint 0.
///
/// # Earliest
///
/// Note 8. n = 3. Send 0 to 1 (message 1), deliver 1, send 1 to 2 (message 2),
/// checkpoint 1, deliver 2, checkpoint 2, send 1 to 2 (message 3), deliver 3,
/// checkpoint 2, checkpoint 0, checkpoint 0. Prints `note 8` and the facts of
/// the state. Then come the lists of `NAMED`, the K-th of them from 1, each with
/// two lines:
///
/// * `named K: p:i ..`        the list: process and index of each;
/// * `earliest K: R m0 m1 ..` 0 if the call is accepted, then the n indexes
///   that it writes, else only the refusal number.
///
/// Then, for n = 1, then 2, then 16, with L = n, then L = n - 1:
/// `earliestline n L: R`: new run, earliest of checkpoint 0 of process 0 alone,
/// with a line list of L.
pub fn print<W: io::Write>(output: &mut W) -> io::Result<()> {
    output.write_all(text().as_bytes())?;
    output.flush()
}

/// The exam text as a whole.
pub fn text() -> String {
    let mut text = String::new();
    cases_1_to_6(&mut text);
    case_7(&mut text);
    case_8(&mut text);
    case_9(&mut text);
    case_10(&mut text);
    mark_2(&mut text);
    lost_1(&mut text);
    lost_2(&mut text);
    sweep(&mut text);
    disk_1(&mut text);
    disk_2(&mut text);
    earliest(&mut text);
    text
}

/// The lists of the section "Earliest" of the exam text, as (process, index).
///
/// In its state process 0 keeps 2, process 1 keeps 0 and 1, process 2 keeps 0,
/// 1 and 2. Their vectors are (2,0,0); (0,0,0), (1,1,0); (0,0,0), (1,1,1),
/// (1,2,2).
pub const NAMED: [&[(usize, u64)]; 25] = [
    // One checkpoint: its own vector. The second line has process 1 live, all
    // but the first a deleted checkpoint of process 0.
    &[(0, 2)],
    &[(2, 2)],
    &[(2, 1)],
    &[(1, 1)],
    &[(2, 0)],
    // Several: for each process the greatest, be it the first's or the last's.
    &[(0, 2), (2, 1)],
    &[(2, 2), (0, 2)],
    &[(0, 2), (1, 1), (2, 0)],
    &[(2, 0), (1, 0)],
    // An entry equal to the index is not causally before.
    &[(1, 1), (2, 1)],
    &[(2, 1), (0, 2), (1, 1)],
    // One comes causally before another, first or last in the list.
    &[(1, 1), (2, 2)],
    &[(2, 2), (1, 1)],
    &[(1, 0), (0, 2), (2, 1)],
    // Not kept: deleted, the live state, never stored; before 20.
    &[(0, 1)],
    &[(1, 2)],
    &[(2, 65_535)],
    &[(1, 1), (2, 2), (0, 0)],
    // Empty, a process twice (before 19 and 20), longer than n.
    &[],
    &[(1, 1), (1, 1)],
    &[(0, 0), (1, 1), (0, 0)],
    &[(1, 0), (1, 1)],
    &[(0, 2), (1, 1), (2, 1), (0, 2)],
    // A process not below n, the last of a list that is too long, or twice.
    &[(0, 2), (1, 1), (2, 1), (3, 0)],
    &[(0, 0), (0, 0), (3, 0)],
];

/// The state after the first records of the ten-record example.
pub fn example(records: usize) -> Run {
    let mut run = new_run(2);
    for record in 1..=records {
        match record {
            1 => send(&mut run, 0, 1),
            2 => deliver(&mut run, 1),
            3 => checkpoint(&mut run, 1),
            4 => checkpoint(&mut run, 0),
            5 => send(&mut run, 1, 0),
            6 => deliver(&mut run, 2),
            7 => send(&mut run, 0, 1),
            8 => deliver(&mut run, 3),
            9 => recover(&mut run, 1),
            _ => panic!("the example has nine accepted records"),
        };
    }
    run
}

fn cases_1_to_6(text: &mut String) {
    for (case, records) in [(1, 2), (2, 3), (3, 4), (4, 6), (5, 8), (6, 9)] {
        fact(text, "case", [case]);
        // The deliveries of the example: records 2, 6 and 8.
        let delivery = [(2, 1), (6, 2), (8, 3)]
            .into_iter()
            .find(|(record, _)| *record == records);
        match delivery {
            Some((record, message)) => {
                let mut run = example(record - 1);
                facts_of_delivery(text, &mut run, message);
                facts_of_state(text, &run);
            }
            None => facts_of_state(text, &example(records)),
        }
    }
}

fn case_7(text: &mut String) {
    let mut run = example(4);
    fact(text, "case", [7]);
    facts_of_recover(text, &mut run, 2);
    facts_of_state(text, &run);
}

fn case_8(text: &mut String) {
    let mut run = new_run(3);
    fact(text, "case", [8]);
    send(&mut run, 0, 1);
    facts_of_delivery(text, &mut run, 1);
    send(&mut run, 1, 2);
    facts_of_delivery(text, &mut run, 2);
    facts_of_state(text, &run);
}

fn case_9(text: &mut String) {
    let mut run = new_run(2);
    send(&mut run, 0, 1);
    fact(text, "case", [9]);
    facts_of_recover(text, &mut run, 2);
    facts_of_delivery(text, &mut run, 1);
    facts_of_state(text, &run);
}

fn case_10(text: &mut String) {
    fact(text, "case", [10]);
    for count in [0, 1, 16, 17] {
        let started = number(Run::start(count, &ONES));
        fact(text, &format!("start {count}:"), [started]);
    }
    for count in [1, 2, 16] {
        facts_of_deletion_lists(text, count);
        facts_of_line_lists(text, count);
    }
    facts_of_messages_under_way(text);
    facts_of_last_intervals(text);
}

fn facts_of_deletion_lists(text: &mut String, count: usize) {
    let lengths = [2 * count * count, 2 * count * count - 1];
    for length in lengths {
        let answer = number(new_run(count).checkpoint(0, &mut vec![0; length]));
        fact(text, &format!("checkpoint {count} {length}:"), [answer]);
    }
    if count >= 2 {
        for length in lengths {
            let mut run = new_run(count);
            send(&mut run, 0, 1);
            let answer = number(run.deliver(1, &mut vec![0; length]));
            fact(text, &format!("deliver {count} {length}:"), [answer]);
        }
    }
    for length in lengths {
        let answer = number(new_run(count).recover(1, &mut vec![0; length], &mut vec![0; count]));
        fact(text, &format!("recover {count} {length}:"), [answer]);
    }
}

fn facts_of_line_lists(text: &mut String, count: usize) {
    let lengths = [count, count - 1];
    for length in lengths {
        let answer = number(new_run(count).line(1, &mut vec![0; length]));
        fact(text, &format!("line {count} {length}:"), [answer]);
    }
    for length in lengths {
        let mut deletions = vec![0; 2 * count * count];
        let answer = number(new_run(count).recover(1, &mut deletions, &mut vec![0; length]));
        fact(text, &format!("recoverline {count} {length}:"), [answer]);
    }
}

fn facts_of_messages_under_way(text: &mut String) {
    let mut run = new_run(2);
    for _ in 1..64 {
        send(&mut run, 0, 1);
    }
    fact(text, "send 64:", [send(&mut run, 0, 1)]);
    fact(text, "send 65:", [send(&mut run, 0, 1)]);
}

fn facts_of_last_intervals(text: &mut String) {
    let mut run = new_run(1);
    checkpoints(&mut run, 0, 65_533);
    fact(text, "own 65534:", [checkpoint(&mut run, 0)]);
    fact(text, "own 65535:", [checkpoint(&mut run, 0)]);

    for own_entry in [65_534, 65_535] {
        let mut run = new_run(2);
        checkpoints(&mut run, 1, own_entry - 1);
        send(&mut run, 1, 0);
        send(&mut run, 0, 1);
        fact(
            text,
            &format!("forced {own_entry}:"),
            [deliver(&mut run, 2)],
        );
    }

    let mut run = new_run(2);
    send(&mut run, 0, 1);
    send(&mut run, 0, 1);
    deliver(&mut run, 1);
    checkpoints(&mut run, 1, 65_534);
    send(&mut run, 1, 0);
    fact(text, "quiet 65535:", [deliver(&mut run, 2)]);
}

fn mark_2(text: &mut String) {
    let mut run = new_run(2);
    fact(text, "mark", [2]);
    send(&mut run, 0, 1);
    send(&mut run, 0, 1);
    facts_of_delivery(text, &mut run, 1);
    send(&mut run, 1, 0);
    facts_of_delivery(text, &mut run, 2);
    facts_of_state(text, &run);
}

fn lost_1(text: &mut String) {
    let mut run = new_run(2);
    fact(text, "lost", [1]);
    send(&mut run, 0, 1);
    facts_of_recover(text, &mut run, 1);
    facts_of_delivery(text, &mut run, 1);
    facts_of_state(text, &run);
}

fn lost_2(text: &mut String) {
    let mut run = new_run(2);
    fact(text, "lost", [2]);
    send(&mut run, 0, 1);
    checkpoint(&mut run, 0);
    send(&mut run, 0, 1);
    facts_of_recover(text, &mut run, 1);
    facts_of_delivery(text, &mut run, 2);
    facts_of_delivery(text, &mut run, 1);
    facts_of_state(text, &run);
}

fn sweep(text: &mut String) {
    let mut run = new_run(2);
    fact(text, "sweep", [0]);
    send(&mut run, 0, 1);
    checkpoint(&mut run, 1);
    deliver(&mut run, 1);
    checkpoint(&mut run, 1);
    checkpoint(&mut run, 0);
    send(&mut run, 0, 1);
    facts_of_recover(text, &mut run, 0);
    facts_of_state(text, &run);
    facts_of_delivery(text, &mut run, 2);
}

fn disk_1(text: &mut String) {
    let mut run = run_of_counts(2, &[(0, 3), (1, 5)], 0);
    fact(text, "disk", [1]);
    for step in 0..=9 {
        match step {
            0 => 0,
            1 => send(&mut run, 1, 0),
            2 => send(&mut run, 0, 1),
            3 => deliver(&mut run, 2),
            4 => checkpoint(&mut run, 1),
            5 => recover(&mut run, 1),
            6 => checkpoint(&mut run, 1),
            7 => deliver(&mut run, 1),
            8 => checkpoint(&mut run, 0),
            _ => recover(&mut run, 0),
        };
        fact(text, "step", [step]);
        facts_of_disks(text, &run);
    }
    facts_of_lines(text, &run);
}

fn disk_2(text: &mut String) {
    fact(text, "disk", [2]);
    for (count, process) in [(1, 0), (1, 1), (2, 1), (2, 2), (16, 15)] {
        for blocks in [0, 65_535, 65_536] {
            let mut counts = ONES;
            counts[process] = blocks;
            let started = number(Run::start(count, &counts));
            fact(
                text,
                &format!("count {count} {process} {blocks}:"),
                [started],
            );
        }
    }
    for count in [0, 17] {
        let started = number(Run::start(count, &[0; MAX_PROCESSES]));
        fact(text, &format!("outside {count}:"), [started]);
    }
    facts_of_sums(text);
    facts_of_last_blocks(text);
}

fn facts_of_sums(text: &mut String) {
    let sums = [
        (65_536, 0),
        (65_537, 1),
        (65_537, 0),
        (65_536, 1),
        (65_535, u64::MAX),
        (MOST_WRITTEN - 1, MOST_WRITTEN - 65_537),
        (MOST_WRITTEN, MOST_WRITTEN - 65_536),
        (MOST_WRITTEN + 1, MOST_WRITTEN - 65_535),
        (0, u64::MAX - 65_535),
    ];
    for (place, (written, deleted)) in sums.into_iter().enumerate() {
        let run = run_of_counts(2, &[(0, 1), (1, 65_535)], 1);
        let answer = match run.with_sums(written, deleted) {
            Ok(mut run) => checkpoint(&mut run, 0),
            Err(number) => number,
        };
        fact(text, &format!("sum {}:", place + 1), [answer]);
    }
}

fn facts_of_last_blocks(text: &mut String) {
    for left in [65_535, 65_534] {
        let mut run = run_of_counts(2, &[(0, 1), (1, 65_535)], 1);
        send(&mut run, 1, 0);
        send(&mut run, 0, 1);
        let written = MOST_WRITTEN - left;
        let run = must(run.with_sums(written, written - 65_536));
        let basic = checkpoint(&mut run.clone(), 1);
        fact(text, &format!("basic {left}:"), [basic]);
        let forced = deliver(&mut run.clone(), 2);
        fact(text, &format!("forced {left}:"), [forced]);
    }

    let mut run = run_of_counts(2, &[(0, 1), (1, 65_535)], 1);
    send(&mut run, 0, 1);
    let run = must(run.with_sums(MOST_WRITTEN, MOST_WRITTEN - 65_536));
    fact(text, "unforced 0:", [deliver(&mut run.clone(), 1)]);
    for failed in [0, 1] {
        let recovered = recover(&mut run.clone(), failed);
        fact(text, &format!("recovered {failed}:"), [recovered]);
    }

    for own_entry in [65_534, 65_535] {
        let mut run = new_run(1);
        checkpoints(&mut run, 0, own_entry - 1);
        let mut run = must(run.with_sums(MOST_WRITTEN, MOST_WRITTEN - 1));
        fact(
            text,
            &format!("own {own_entry}:"),
            [checkpoint(&mut run, 0)],
        );
    }
}

fn earliest(text: &mut String) {
    let mut run = new_run(3);
    send(&mut run, 0, 1);
    deliver(&mut run, 1);
    send(&mut run, 1, 2);
    checkpoint(&mut run, 1);
    deliver(&mut run, 2);
    checkpoint(&mut run, 2);
    send(&mut run, 1, 2);
    deliver(&mut run, 3);
    checkpoint(&mut run, 2);
    checkpoint(&mut run, 0);
    checkpoint(&mut run, 0);
    fact(text, "note", [8]);
    facts_of_state(text, &run);
    for (list, place) in NAMED.iter().zip(1..) {
        facts_of_earliest(text, &run, place, list);
    }
    for count in [1, 2, 16] {
        for length in [count, count - 1] {
            let first = named(&[(0, 0)]);
            let answer = number(new_run(count).earliest(&first, &mut vec![0; length]));
            fact(text, &format!("earliestline {count} {length}:"), [answer]);
        }
    }
}

fn facts_of_earliest(text: &mut String, run: &Run, place: usize, list: &[(usize, u64)]) {
    let pairs = list
        .iter()
        .map(|(process, index)| format!("{process}:{index}"));
    fact(text, &format!("named {place}:"), pairs);
    let mut line = [0; MAX_PROCESSES];
    let answer = run.earliest(&named(list), &mut line);
    let mut values = vec![Entry::from(number(answer))];
    if answer.is_ok() {
        values.extend(&line[..run.count()]);
    }
    fact(text, &format!("earliest {place}:"), values);
}

fn named(list: &[(usize, u64)]) -> Vec<Named> {
    let pairs = list.iter();
    pairs
        .map(|&(process, index)| Named { process, index })
        .collect()
}

fn facts_of_state(text: &mut String, run: &Run) {
    let count = run.count();
    for process in 0..count {
        fact(text, &format!("vector {process}:"), run.vector(process));
        let pins = (0..count).map(|f| match run.pin(process, f) {
            Some(index) => index.to_string(),
            None => "-".to_string(),
        });
        fact(text, &format!("pins {process}:"), pins);
        facts_of_kept(text, run, process);
    }
    facts_of_blocks(text, run);
    facts_of_lines(text, run);
}

fn facts_of_disks(text: &mut String, run: &Run) {
    for process in 0..run.count() {
        facts_of_kept(text, run, process);
    }
    facts_of_blocks(text, run);
}

fn facts_of_kept(text: &mut String, run: &Run, process: usize) {
    let kept = run.kept(process).map(|(index, _)| index);
    fact(text, &format!("kept {process}:"), kept);
    let causes = run.records(process).map(|(cause, _)| cause);
    fact(text, &format!("causes {process}:"), causes);
    let counts = run.records(process).map(|(_, blocks)| blocks);
    fact(text, &format!("counts {process}:"), counts);
}

fn facts_of_blocks(text: &mut String, run: &Run) {
    fact(text, "blocks:", [run.written(), run.deleted()]);
}

fn facts_of_lines(text: &mut String, run: &Run) {
    for failed in 0..1 << run.count() {
        let mut line = [0; MAX_PROCESSES];
        must(run.line(failed, &mut line));
        fact(text, &format!("line {failed}:"), &line[..run.count()]);
    }
}

fn facts_of_recover(text: &mut String, run: &mut Run, failed: u64) {
    let mut deletions = [0; DELETIONS];
    let mut line = [0; MAX_PROCESSES];
    let answer = must(run.recover(failed, &mut deletions, &mut line));
    fact(text, &format!("written {failed}:"), &line[..run.count()]);
    let pairs = deletions[..2 * answer.deletions].chunks_exact(2);
    let mut values = vec![answer.rolled_back.to_string(), answer.deletions.to_string()];
    values.extend(pairs.map(|pair| format!("{}:{}", pair[0], pair[1])));
    fact(text, &format!("recover {failed}:"), values);
}

fn facts_of_delivery(text: &mut String, run: &mut Run, message: u64) {
    let answer = run.deliver(message, &mut [0; DELETIONS]);
    let rose = answer.map_or(0, |done| done.rose);
    fact(text, &format!("deliver {message}:"), [number(answer)]);
    fact(text, &format!("risen {message}:"), [rose]);
}

/// One line: the heading, then each value after a space.
fn fact<V: Display>(text: &mut String, heading: &str, values: impl IntoIterator<Item = V>) {
    text.push_str(heading);
    for value in values {
        write!(text, " {value}").expect("a string takes every text");
    }
    text.push('\n');
}

/// 0 if accepted, else the refusal number.
fn number<T>(answer: Result<T, u8>) -> u8 {
    answer.err().unwrap_or(0)
}

fn must<T>(answer: Result<T, u8>) -> T {
    answer.unwrap_or_else(|number| panic!("refused with {number}"))
}

fn new_run(count: usize) -> Run {
    must(Run::start(count, &ONES))
}

/// A new run of these block counts, by process, and of another for all others.
fn run_of_counts(count: usize, named: &[(usize, u32)], other: u32) -> Run {
    let mut counts: Counts = [other; MAX_PROCESSES];
    for &(process, blocks) in named {
        counts[process] = blocks;
    }
    must(Run::start(count, &counts))
}

fn checkpoint(run: &mut Run, process: usize) -> u8 {
    number(run.checkpoint(process, &mut [0; DELETIONS]))
}

fn checkpoints(run: &mut Run, process: usize, times: u32) {
    for _ in 0..times {
        checkpoint(run, process);
    }
}

fn send(run: &mut Run, sender: usize, receiver: usize) -> u8 {
    number(run.send(sender, receiver))
}

fn deliver(run: &mut Run, message: u64) -> u8 {
    number(run.deliver(message, &mut [0; DELETIONS]))
}

fn recover(run: &mut Run, failed: u64) -> u8 {
    number(run.recover(failed, &mut [0; DELETIONS], &mut [0; MAX_PROCESSES]))
}

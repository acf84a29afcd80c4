//! Note 9, a recorder: what it writes, where there is no room, and that a replay
//! of what was recorded ends in the same state.

use crate::common::{listing, stopped_listing, trace, Random, DELETIONS, LINE};
use oracle::run::record::{recorded, Recorder};
use oracle::run::{Run, ONES};
use std::io::Write;
use std::process::Stdio;

const CHECKPOINT: u32 = 0;
const SEND: u32 = 1;
const DELIVER: u32 = 2;
const LOSE: u32 = 3;
const RECOVER: u32 = 4;

#[test]
fn the_start_writes_the_count() {
    for count in [0, 17, 256, usize::MAX] {
        let mut buffer = [7; 4];
        assert_eq!(Recorder::start(count, &ONES, &mut buffer).err(), Some(1));
        assert_eq!(Recorder::start(count, &ONES, &mut []).err(), Some(1));
        assert_eq!(buffer, [7; 4]);
    }
    assert_eq!(Recorder::start(3, &ONES, &mut []).err(), Some(21));
    // A block count is judged as in the call.
    assert_eq!(Recorder::start(3, &[0; 16], &mut []).err(), Some(15));
    assert_eq!(Recorder::start(0, &[0; 16], &mut []).err(), Some(1));
    let mut buffer = [7; 4];
    assert_eq!(Recorder::start(16, &ONES, &mut buffer).unwrap().place(), 1);
    assert_eq!(buffer, [16, 7, 7, 7]);
    assert!(Recorder::start(1, &ONES, &mut buffer[..1]).is_ok());
}

#[test]
fn each_call_writes_its_record() {
    let mut buffer = [7; 30];
    let mut recorder = Recorder::start(3, &ONES, &mut buffer).unwrap();
    assert_eq!(recorder.send(2, 0), Ok(1));
    assert_eq!(recorder.send(0, 1), Ok(2));
    recorder.checkpoint(1, &mut [0; 18]).unwrap();
    recorder.deliver(2, &mut [0; 18]).unwrap();
    // A line request writes none, and neither does a refused call.
    assert_eq!(recorder.line(0b11, &mut [0; 3]), Ok(()));
    assert_eq!(recorder.deliver(2, &mut [0; 18]), Err(8));
    assert_eq!(recorder.deliver(1, &mut [0; 17]), Err(3));
    assert_eq!(recorder.send(1, 1), Err(5));
    recorder.lose(1).unwrap();
    recorder.recover(0b101, &mut [0; 18], &mut [0; 3]).unwrap();
    recorder.recover(0, &mut [0; 18], &mut [0; 3]).unwrap();
    assert_eq!(recorder.place(), 29);
    let expected = trace(
        3,
        &[
            (SEND, 2, 0),
            (SEND, 0, 1),
            (CHECKPOINT, 1, 0),
            (DELIVER, 0, 2),
            (LOSE, 0, 1),
            (RECOVER, 0, 0b101),
            (RECOVER, 0, 0),
        ],
    );
    assert_eq!(buffer[..29], expected);
    assert_eq!(buffer[29], 7);
}

/// 21 comes after all numbers of the call itself, and then nothing is done.
#[test]
fn no_room() {
    for left in 0..=4 {
        let mut buffer = vec![7; 9 + left];
        let mut recorder = Recorder::start(2, &ONES, &mut buffer).unwrap();
        recorder.send(0, 1).unwrap();
        recorder.checkpoint(1, &mut [0; 8]).unwrap();
        let before = recorder.run().clone();
        assert_eq!(recorder.checkpoint(0, &mut [0; 7]), Err(3));
        assert_eq!(recorder.checkpoint(2, &mut [0; 8]), Err(4));
        assert_eq!(recorder.send(1, 1), Err(5));
        assert_eq!(recorder.deliver(2, &mut [0; 8]), Err(8));
        assert_eq!(recorder.lose(0), Err(8));
        assert_eq!(recorder.recover(4, &mut [0; 8], &mut [0; 2]), Err(7));
        assert_eq!(recorder.line(1, &mut [0; 2]), Ok(()));
        let (mut deletions, mut line) = ([9; 10], [9; 3]);
        if left < 4 {
            assert_eq!(recorder.recover(3, &mut deletions, &mut line), Err(21));
            assert_eq!(recorder.deliver(1, &mut deletions), Err(21));
            assert_eq!(recorder.checkpoint(0, &mut deletions), Err(21));
            assert_eq!(recorder.lose(1), Err(21));
            assert_eq!(recorder.send(1, 0), Err(21));
            assert_eq!((deletions, line), ([9; 10], [9; 3]));
            assert_eq!(*recorder.run(), before);
            assert_eq!(recorder.place(), 9);
            assert_eq!(buffer[9..], vec![7; left]);
        } else {
            let answer = recorder.recover(3, &mut deletions, &mut line);
            assert_eq!(answer.unwrap().rolled_back, 2);
            assert_eq!(recorder.place(), 13);
            assert_eq!(recorder.send(0, 1), Err(21));
        }
    }
}

/// Random calls, refused ones and line requests among them, through a recorder:
/// the replay of what it wrote ends in the same state, and has the same answers.
#[test]
fn a_replay_ends_in_the_same_state() {
    let (mut refused, mut full) = (0, 0);
    for seed in 0..2000 {
        let mut random = Random(seed);
        let n = 1 + random.below(5);
        let mut buffer = vec![0; 1 + random.below(300)];
        let size = buffer.len();
        let mut recorder = Recorder::start(n, &ONES, &mut buffer).unwrap();
        let mut answers = Vec::new();
        for _ in 0..80 {
            let (mut deletions, mut line) = ([0; DELETIONS], [0; LINE]);
            let (p, q) = (random.below(n + 1), random.below(n + 1));
            let number = random.below(recorder.run().last_number() as usize + 2) as u64;
            let failed = random.below(1 << n) as u64;
            let answer = match random.below(9) {
                0 | 1 => recorder
                    .checkpoint(p, &mut deletions)
                    .map(|done| format!("{} {}", done.index, done.deletions)),
                2..=4 => recorder.send(p, q).map(|number| format!("{number} 0")),
                5 | 6 => recorder.deliver(number, &mut deletions).map(|done| {
                    let forced = done
                        .forced
                        .map_or("-".to_string(), |index| index.to_string());
                    format!("{forced} {}", done.deletions)
                }),
                7 if random.below(3) == 0 => recorder.lose(number).map(|()| "- 0".to_string()),
                7 => {
                    assert_eq!(recorder.line(failed, &mut line), Ok(()));
                    continue;
                }
                _ => recorder
                    .recover(failed, &mut deletions, &mut line)
                    .map(|done| format!("{} {}", done.rolled_back, done.deletions)),
            };
            match answer {
                Ok(text) => answers.push(text),
                Err(21) => full += 1,
                Err(_) => refused += 1,
            }
        }
        let run = recorder.run().clone();
        let place = recorder.place();
        assert_eq!(place, 1 + 4 * answers.len());
        assert!(buffer[place..].iter().all(|byte| *byte == 0) && place <= size);

        let bytes = &buffer[..place];
        let listed = stopped_listing(bytes);
        assert_eq!(listed.lines().count(), answers.len());
        for (line, answer) in listed.lines().zip(&answers) {
            let (_, behind) = line.split_once(" 0 ").unwrap();
            assert!(format!("{behind} ").starts_with(&format!("{answer} ")));
        }
        assert_eq!(replayed(bytes), run);
        assert_eq!(recorded(bytes, place).bytes, bytes, "recorded again");
    }
    assert!(refused > 10_000 && full > 10_000, "{refused} {full}");
}

/// The state at the end of a trace whose records are all accepted.
fn replayed(bytes: &[u8]) -> Run {
    let mut run = Run::start(bytes[0] as usize, &ONES).unwrap();
    for record in bytes[1..].chunks_exact(4) {
        let record = u32::from_be_bytes(record.try_into().unwrap());
        let (process, argument) = ((record >> 25 & 15) as usize, record & 0x1FF_FFFF);
        let (mut deletions, mut line) = ([0; DELETIONS], [0; LINE]);
        let refused = match record >> 29 {
            CHECKPOINT => run.checkpoint(process, &mut deletions).err(),
            SEND => run.send(process, argument as usize).err(),
            DELIVER => run.deliver(argument.into(), &mut deletions).err(),
            LOSE => run.lose(argument.into()).err(),
            _ => run
                .recover(argument.into(), &mut deletions, &mut line)
                .err(),
        };
        assert_eq!(refused, None);
    }
    run
}

/// A trace played through a recorder: its accepted records remain, by the
/// listing of the trace.
#[test]
fn of_a_trace_the_accepted_records_remain() {
    let (mut left_out, mut kept) = (0, 0);
    for seed in 0..400 {
        for mix in ["mixed", "damaged"] {
            let arguments = [seed.to_string(), "--mix".into(), mix.into()];
            let plan = oracle::generate::Plan::from_arguments(&arguments).unwrap();
            let mut bytes = Vec::new();
            oracle::generate::write_trace(plan, &mut bytes).unwrap();
            let mut expected = Vec::new();
            let listed = listing(&bytes);
            if !listed.starts_with("0 ") {
                expected.push(bytes[0]);
                for (record, line) in bytes[1..].chunks_exact(4).zip(listed.lines()) {
                    if line.split(' ').nth(1) == Some("0") {
                        expected.extend(record);
                        kept += 1;
                    } else {
                        left_out += 1;
                    }
                }
            }
            assert!(recorded(&bytes, bytes.len()).bytes == expected, "seed {seed}");
            // In a smaller buffer: as many whole records as there is room for.
            let room = seed as usize % 200;
            let whole = if room == 0 { 0 } else { 1 + (room - 1) / 4 * 4 };
            let fits = whole.min(expected.len());
            assert!(recorded(&bytes, room).bytes == expected[..fits], "seed {seed}");
        }
    }
    assert!(left_out > 10_000 && kept > 50_000, "{left_out} {kept}");
}

/// The program prints what the function says.
#[test]
fn the_program() {
    let bytes = trace(2, &[(SEND, 0, 1), (SEND, 1, 1), (DELIVER, 0, 1), (7, 0, 0)]);
    for room in [None, Some(0), Some(1), Some(8), Some(9)] {
        let mut program = crate::common::oracle("record")
            .args(room.map(|room: usize| room.to_string()))
            .stdin(Stdio::piped())
            .stdout(Stdio::piped())
            .spawn()
            .unwrap();
        program.stdin.take().unwrap().write_all(&bytes).unwrap();
        let output = program.wait_with_output().unwrap();
        assert_eq!(output.stdout, recorded(&bytes, room.unwrap_or(bytes.len())).bytes);
    }
}

//! The ten-record example and the exam sheet.

use crate::common::{self, kept, line, pins, DELETIONS, LINE};
use oracle::cases::example;
use oracle::run::{Checkpointed, Delivered, Recovered, Run, ONES};

const EXAMPLE: [u32; 10] = [
    0x20000001, 0x40000001, 0x02000000, 0x00000000, 0x22000000, 0x40000002, 0x20000001, 0x40000003,
    0x80000001, 0x40000003,
];

const EXAMPLE_LISTING: &str = "\
1 0 1 0
2 0 - 0
3 0 1 0
4 0 1 1 0:0
5 0 2 0
6 0 - 0
7 0 3 0
8 0 2 2 1:0 1:1
9 0 2 0
10 8
";

fn sets(run: &Run) -> Vec<Vec<u32>> {
    (0..1 << run.count())
        .map(|failed| line(run, failed))
        .collect()
}

#[test]
fn the_ten_record_example() {
    let mut trace = vec![2];
    for record in EXAMPLE {
        trace.extend_from_slice(&record.to_be_bytes());
    }
    assert_eq!(common::listing(&trace), EXAMPLE_LISTING);
    // Its only refusal is its last record.
    assert_eq!(common::stopped_listing(&trace), EXAMPLE_LISTING);
}

#[test]
fn the_start() {
    for n in 1..=16 {
        let run = Run::start(n, &ONES).unwrap();
        for i in 0..n {
            for f in 0..n {
                assert_eq!(run.vector(i)[f], (i == f) as u32);
                assert_eq!(run.pin(i, f), (i == f).then_some(0));
            }
            assert_eq!(run.kept(i).collect::<Vec<_>>(), [(0, &vec![0; n][..])]);
            assert!(!run.sent_mark(i));
        }
        assert!(run.under_way().is_empty());
        assert_eq!(run.last_number(), 0);
        common::assert_sound(&run);
    }
}

#[test]
fn case_1() {
    let run = example(2);
    assert_eq!(run.vector(0), [1, 0]);
    assert_eq!(run.vector(1), [1, 1]);
    assert_eq!(pins(&run, 1), [Some(0), Some(0)]);
    assert_eq!(line(&run, 0b01), [0, 0]);
    assert_eq!(line(&run, 0b10), [1, 0]);
}

#[test]
fn case_2() {
    let run = example(3);
    assert_eq!(kept(&run, 1), [0, 1]);
    assert_eq!(line(&run, 0b01), [0, 0]);
    assert_eq!(line(&run, 0b10), [1, 1]);
}

#[test]
fn case_3() {
    let run = example(4);
    assert_eq!(line(&run, 0b01), [1, 2]);
    assert_eq!(line(&run, 0b10), [2, 1]);
}

#[test]
fn case_4() {
    let run = example(6);
    assert_eq!(run.vector(0), [2, 2]);
    assert_eq!(pins(&run, 0), [Some(1), Some(1)]);
    assert_eq!(line(&run, 0b10), [1, 1]);
}

#[test]
fn case_5() {
    let run = example(8);
    assert_eq!(run.vector(1), [2, 3]);
    assert_eq!(kept(&run, 1), [2]);
    assert_eq!(line(&run, 0b10), [2, 2]);
    assert_eq!(line(&run, 0b01), [1, 2]);
}

#[test]
fn case_6() {
    let run = example(9);
    assert_eq!(run.vector(0), [2, 0]);
    assert_eq!(run.vector(1), [1, 3]);
    assert_eq!(kept(&run, 0).len(), 1);
    assert_eq!(kept(&run, 1).len(), 1);
}

#[test]
fn case_7() {
    let mut run = example(4);
    let (mut deletions, mut written) = ([77; DELETIONS], [77; LINE]);
    let answer = run.recover(0b10, &mut deletions, &mut written);
    assert_eq!(
        answer,
        Ok(Recovered {
            rolled_back: 1,
            deletions: 1
        })
    );
    assert_eq!(written[..3], [2, 1, 77]);
    assert_eq!(deletions[..3], [1, 0, 77]);
    assert_eq!(run.vector(1), [1, 2]);
}

#[test]
fn case_8() {
    let mut run = Run::start(3, &ONES).unwrap();
    assert_eq!(run.send(0, 1), Ok(1));
    assert!(run.deliver(1, &mut [0; DELETIONS]).is_ok());
    assert_eq!(run.send(1, 2), Ok(2));
    assert!(run.deliver(2, &mut [0; DELETIONS]).is_ok());
    assert_eq!(line(&run, 0b001), [0, 0, 0]);
    assert_eq!(line(&run, 0b010), [1, 0, 0]);
    assert_eq!(line(&run, 0b100), [1, 1, 0]);
}

#[test]
fn case_9() {
    let mut run = Run::start(2, &ONES).unwrap();
    assert_eq!(run.send(0, 1), Ok(1));
    let mut written = [0; LINE];
    let answer = run.recover(0b10, &mut [0; DELETIONS], &mut written);
    assert_eq!(
        answer,
        Ok(Recovered {
            rolled_back: 1,
            deletions: 0
        })
    );
    assert_eq!(written[..2], [1, 0]);
    // "Others stay live, mark included."
    assert!(run.sent_mark(0));
    assert!(!run.sent_mark(1));
    // Note 2: "Case 9 changes: deliver 1 is then accepted."
    let answer = run.deliver(1, &mut [0; DELETIONS]);
    assert_eq!(
        answer,
        Ok(Delivered {
            forced: None,
            deletions: 0,
            rose: 0b01
        })
    );
    assert_eq!(run.deliver(1, &mut [0; DELETIONS]), Err(8));
}

fn numbers_under_way(run: &Run) -> Vec<u64> {
    let messages = run.under_way().iter();
    messages.map(|message| message.number).collect()
}

/// Note 2: a message is lost "exactly if its sender's entry in the carried
/// vector is above the sender's index in the line".
#[test]
fn what_a_recovery_loses() {
    let mut run = Run::start(3, &ONES).unwrap();
    // In 0's intervals 1, 2 and 3, and in 1's and 2's interval 1.
    assert_eq!(run.send(0, 1), Ok(1));
    assert_eq!(run.send(2, 0), Ok(2));
    run.checkpoint(0, &mut [0; 18]).unwrap();
    assert_eq!(run.send(0, 1), Ok(3));
    assert_eq!(run.send(1, 0), Ok(4));
    run.checkpoint(0, &mut [0; 18]).unwrap();
    assert_eq!(run.send(0, 1), Ok(5));
    assert_eq!(run.send(0, 2), Ok(6));
    let sent = run.under_way().to_vec();

    // 0 goes back to checkpoint 2, which ends interval 2: what was sent in
    // interval 2 stays, and so does all that is under way to 0.
    let mut line = [0; 3];
    run.recover(0b001, &mut [0; 18], &mut line).unwrap();
    assert_eq!(line, [2, 1, 1]);
    assert_eq!(run.under_way(), &sent[..4]);
    // The numbers of the lost ones are not used again.
    assert_eq!(run.send(0, 1), Ok(7));
    assert_eq!(run.lose(6), Err(8));

    // 1 goes back to its start: what it sent is lost, what is under way to it
    // is not.
    run.recover(0b010, &mut [0; 18], &mut line).unwrap();
    assert_eq!(line, [3, 0, 1]);
    assert_eq!(numbers_under_way(&run), [1, 2, 3, 7]);

    // A message that was received does not come back with its receipt undone.
    assert!(run.deliver(3, &mut [0; 18]).is_ok());
    run.recover(0b011, &mut [0; 18], &mut line).unwrap();
    assert_eq!(line, [2, 0, 1]);
    assert_eq!(numbers_under_way(&run), [1, 2]);
    common::assert_sound(&run);
}

/// Note 4: "the line has every process live, nobody rolls back, and recover's
/// pin step deletes what no failure could use. Messages under way stay".
#[test]
fn a_sweep() {
    let mut run = Run::start(2, &ONES).unwrap();
    run.send(0, 1).unwrap();
    run.checkpoint(1, &mut [0; 8]).unwrap();
    run.deliver(1, &mut [0; 8]).unwrap();
    run.checkpoint(1, &mut [0; 8]).unwrap();
    run.checkpoint(0, &mut [0; 8]).unwrap();
    run.send(0, 1).unwrap();
    assert_eq!(kept(&run, 1), [1, 2]);
    let before = run.clone();

    let (mut deletions, mut written) = ([77; 9], [77; 3]);
    let answer = run.recover(0, &mut deletions, &mut written);
    assert_eq!(
        answer,
        Ok(Recovered {
            rolled_back: 0,
            deletions: 1
        })
    );
    assert_eq!(written, [2, 3, 77]);
    assert_eq!(deletions[..3], [1, 1, 77]);
    assert_eq!(kept(&run, 0), [1]);
    assert_eq!(kept(&run, 1), [2]);
    for i in 0..2 {
        assert_eq!(run.vector(i), before.vector(i));
        assert_eq!(run.sent_mark(i), before.sent_mark(i));
    }
    assert_eq!(run.under_way(), before.under_way());
    assert_eq!(sets(&run), sets(&before), "the same lines as without it");
    // A second one finds nothing more.
    let swept = run.clone();
    assert_eq!(
        run.recover(0, &mut [0; 8], &mut [0; 2]).unwrap().deletions,
        0
    );
    assert_eq!(run, swept);
    common::assert_sound(&run);
}

/// Places freed by a recovery are used again, those of survivors are not.
#[test]
fn survivors_count_against_64() {
    let mut run = Run::start(2, &ONES).unwrap();
    for _ in 0..40 {
        run.send(0, 1).unwrap();
    }
    for _ in 0..24 {
        run.send(1, 0).unwrap();
    }
    run.recover(0b10, &mut [0; 8], &mut [0; 2]).unwrap();
    assert_eq!(run.under_way().len(), 40);
    for number in 65..=88 {
        assert_eq!(run.send(0, 1), Ok(number));
    }
    assert_eq!(run.send(1, 0), Err(9));
    assert_eq!(run.lose(64), Err(8));
    assert!(run.deliver(40, &mut [0; 8]).is_ok());
    assert_eq!(run.send(1, 0), Ok(89));
    common::assert_sound(&run);
}

#[test]
fn case_10_counts() {
    assert_eq!(Run::start(0, &ONES).err(), Some(1));
    assert_eq!(Run::start(17, &ONES).err(), Some(1));
    assert!(Run::start(1, &ONES).is_ok());
    assert!(Run::start(16, &ONES).is_ok());
    assert_eq!(Run::start(usize::MAX, &ONES).err(), Some(1));
}

#[test]
fn case_10_lists() {
    for n in 1..=16 {
        let (enough, few) = (2 * n * n, 2 * n * n - 1);
        let new = || Run::start(n, &ONES).unwrap();
        assert!(new().checkpoint(0, &mut vec![0; enough]).is_ok());
        assert_eq!(new().checkpoint(0, &mut vec![0; few]), Err(3));
        assert!(new()
            .recover(1, &mut vec![0; enough], &mut vec![0; n])
            .is_ok());
        assert_eq!(new().recover(1, &mut vec![0; few], &mut vec![0; n]), Err(3));
        assert_eq!(
            new().recover(1, &mut vec![0; enough], &mut vec![0; n - 1]),
            Err(3)
        );
        assert_eq!(new().line(1, &mut vec![0; n]), Ok(()));
        assert_eq!(new().line(1, &mut vec![0; n - 1]), Err(3));
        if n > 1 {
            let mut run = new();
            run.send(0, 1).unwrap();
            assert_eq!(run.deliver(1, &mut vec![0; few]), Err(3));
            assert!(run.deliver(1, &mut vec![0; enough]).is_ok());
        }
    }
}

#[test]
fn case_10_messages_under_way() {
    let mut run = Run::start(2, &ONES).unwrap();
    for number in 1..=64 {
        assert_eq!(run.send(0, 1), Ok(number));
    }
    assert_eq!(run.send(0, 1), Err(9));
    // "a place freed by a delivery or loss is used again", the number is not.
    assert_eq!(run.lose(30), Ok(()));
    assert_eq!(run.send(0, 1), Ok(65));
    assert_eq!(run.send(0, 1), Err(9));
    assert!(run.deliver(65, &mut [0; DELETIONS]).is_ok());
    assert_eq!(run.send(1, 0), Ok(66));
    assert_eq!(run.lose(30), Err(8));
    common::assert_sound(&run);
}

#[test]
fn case_10_last_intervals() {
    let mut run = Run::start(1, &ONES).unwrap();
    for index in 1..=65_533 {
        let answer = run.checkpoint(0, &mut [0; 2]);
        assert_eq!(
            answer,
            Ok(Checkpointed {
                index,
                deletions: 1
            })
        );
    }
    assert_eq!(run.own_entry(0), 65_534);
    assert!(run.checkpoint(0, &mut [0; 2]).is_ok());
    assert_eq!(run.own_entry(0), 65_535);
    assert_eq!(run.checkpoint(0, &mut [0; 2]), Err(11));
    // Rolled back to 65,534, it is again in its last interval.
    assert!(run.recover(1, &mut [0; 2], &mut [0; 1]).is_ok());
    assert_eq!(run.own_entry(0), 65_535);
    assert_eq!(run.checkpoint(0, &mut [0; 2]), Err(11));
    common::assert_sound(&run);
}

/// Process 1 at this own entry, sent mark set, message 2 to it under way.
fn about_to_force(own_entry: u32) -> Run {
    let mut run = Run::start(2, &ONES).unwrap();
    for _ in 1..own_entry {
        run.checkpoint(1, &mut [0; 8]).unwrap();
    }
    run.send(1, 0).unwrap();
    run.send(0, 1).unwrap();
    run
}

#[test]
fn a_forced_checkpoint_at_the_last_intervals() {
    let mut run = about_to_force(65_534);
    let answer = run.deliver(2, &mut [0; 8]).unwrap();
    assert_eq!(answer.forced, Some(65_534));

    let mut run = about_to_force(65_535);
    assert_eq!(run.deliver(2, &mut [0; 8]), Err(11));
    // The message stays under way.
    assert_eq!(run.deliver(2, &mut [0; 8]), Err(11));
    assert_eq!(run.lose(2), Ok(()));
}

#[test]
fn a_delivery_without_news_in_the_last_interval() {
    let mut run = Run::start(2, &ONES).unwrap();
    run.send(0, 1).unwrap();
    run.send(0, 1).unwrap();
    run.deliver(1, &mut [0; 8]).unwrap();
    for _ in 1..65_535 {
        run.checkpoint(1, &mut [0; 8]).unwrap();
    }
    run.send(1, 0).unwrap();
    let answer = run.deliver(2, &mut [0; 8]);
    assert_eq!(
        answer,
        Ok(Delivered {
            forced: None,
            deletions: 0,
            rose: 0
        })
    );
}

#[test]
fn a_mark_without_news_and_news_without_a_mark_force_nothing() {
    let mut run = Run::start(2, &ONES).unwrap();
    run.send(0, 1).unwrap();
    run.send(0, 1).unwrap();
    let unforced = |rose| {
        Ok(Delivered {
            forced: None,
            deletions: 0,
            rose,
        })
    };
    assert_eq!(run.deliver(1, &mut [0; 8]), unforced(0b01));
    run.send(1, 0).unwrap();
    assert_eq!(run.deliver(2, &mut [0; 8]), unforced(0));
    assert!(run.sent_mark(1));
}

#[test]
fn a_rolled_back_process_loses_its_mark() {
    let mut run = Run::start(2, &ONES).unwrap();
    run.send(0, 1).unwrap();
    run.send(1, 0).unwrap();
    run.recover(0b01, &mut [0; 8], &mut [0; 2]).unwrap();
    assert!(!run.sent_mark(0));
    assert!(run.sent_mark(1));
    // So the next news forces nothing at 0, but does at 1.
    run.send(1, 0).unwrap();
    let answer = run.deliver(3, &mut [0; 8]);
    assert_eq!(
        answer,
        Ok(Delivered {
            forced: None,
            deletions: 0,
            rose: 0b10
        })
    );
    run.send(0, 1).unwrap();
    let answer = run.deliver(4, &mut [0; 8]);
    assert_eq!(
        answer,
        Ok(Delivered {
            forced: Some(1),
            deletions: 1,
            rose: 0b01
        })
    );
}

/// The text has every fact of the exam sheet where its layout says.
#[test]
fn the_exam_text() {
    let text = oracle::cases::text();
    assert!(text.is_ascii() && text.ends_with('\n'));
    assert!(text
        .lines()
        .all(|line| !line.is_empty() && line.trim() == line));
    assert!(!text.contains("  "));
    let (cases, rest) = text.split_once("mark ").unwrap();
    let parts: Vec<&str> = rest.split("lost ").collect();
    let [mark, lost_1, lost_2] = parts[..] else {
        panic!("one mark and two cases of lost messages");
    };
    let (lost_2, rest) = lost_2.split_once("sweep ").unwrap();
    let (sweep, rest) = rest.split_once("disk 1\n").unwrap();
    let (disks, earliest) = rest.split_once("note ").unwrap();
    the_disks(disks);
    let cases: Vec<&str> = cases.split("case ").skip(1).collect();
    assert_eq!(cases.len(), 10);

    assert_eq!(
        cases[0],
        "1\ndeliver 1: 0\nrisen 1: 1\n\
         vector 0: 1 0\npins 0: 0 -\nkept 0: 0\ncauses 0: 0\ncounts 0: 1\n\
         vector 1: 1 1\npins 1: 0 0\nkept 1: 0\ncauses 1: 0\ncounts 1: 1\nblocks: 2 0\n\
         line 0: 1 1\nline 1: 0 0\nline 2: 1 0\nline 3: 0 0\n"
    );
    let holds = |case: usize, facts: &[&str]| {
        for fact in facts {
            let found = cases[case - 1].lines().filter(|line| line == fact).count();
            assert_eq!(found, 1, "case {case}: {fact}");
        }
    };
    holds(2, &["kept 1: 0 1", "line 1: 0 0", "line 2: 1 1"]);
    holds(3, &["line 1: 1 2", "line 2: 2 1"]);
    assert!(cases[3].starts_with("4\ndeliver 2: 0\nrisen 2: 2\nvector 0: 2 2\n"));
    holds(4, &["vector 0: 2 2", "pins 0: 1 1", "line 2: 1 1"]);
    assert!(cases[4].starts_with("5\ndeliver 3: 0\nrisen 3: 1\nvector 0: "));
    holds(
        5,
        &["vector 1: 2 3", "kept 1: 2", "line 2: 2 2", "line 1: 1 2"],
    );
    holds(
        6,
        &["vector 0: 2 0", "vector 1: 1 3", "kept 0: 1", "kept 1: 2"],
    );
    assert!(cases[6].starts_with("7\nwritten 2: 2 1\nrecover 2: 1 1 1:0\nvector 0: 2 0\n"));
    holds(7, &["vector 1: 1 2"]);
    assert!(cases[7].starts_with("8\ndeliver 1: 0\nrisen 1: 1\ndeliver 2: 0\nrisen 2: 3\nvector "));
    holds(8, &["line 1: 0 0 0", "line 2: 1 0 0", "line 4: 1 1 0"]);
    assert!(cases[8]
        .starts_with("9\nwritten 2: 1 0\nrecover 2: 1 0\ndeliver 1: 0\nrisen 1: 1\nvector 0: "));
    holds(
        9,
        &["vector 1: 1 1", "pins 1: 0 0", "line 1: 0 0", "line 2: 1 0"],
    );
    holds(
        10,
        &["start 0: 1", "start 1: 0", "start 16: 0", "start 17: 1"],
    );
    holds(
        10,
        &[
            "checkpoint 16 512: 0",
            "checkpoint 16 511: 3",
            "deliver 2 8: 0",
        ],
    );
    holds(
        10,
        &[
            "deliver 2 7: 3",
            "recover 1 1: 3",
            "line 2 1: 3",
            "recoverline 16 15: 3",
        ],
    );
    holds(
        10,
        &["send 64: 0", "send 65: 9", "own 65534: 0", "own 65535: 11"],
    );
    holds(
        10,
        &["forced 65534: 0", "forced 65535: 11", "quiet 65535: 0"],
    );
    assert_eq!(cases[9].lines().count(), 1 + 4 + 8 + 10 + 10 + 2 + 2 + 3);
    assert_eq!(
        mark,
        "2\ndeliver 1: 0\nrisen 1: 1\ndeliver 2: 0\nrisen 2: 0\n\
         vector 0: 1 0\npins 0: 0 -\nkept 0: 0\ncauses 0: 0\ncounts 0: 1\n\
         vector 1: 1 1\npins 1: 0 0\nkept 1: 0\ncauses 1: 0\ncounts 1: 1\nblocks: 2 0\n\
         line 0: 1 1\nline 1: 0 0\nline 2: 1 0\nline 3: 0 0\n"
    );
    assert_eq!(
        lost_1,
        "1\nwritten 1: 0 1\nrecover 1: 1 0\ndeliver 1: 8\nrisen 1: 0\n\
         vector 0: 1 0\npins 0: 0 -\nkept 0: 0\ncauses 0: 0\ncounts 0: 1\n\
         vector 1: 0 1\npins 1: - 0\nkept 1: 0\ncauses 1: 0\ncounts 1: 1\nblocks: 2 0\n\
         line 0: 1 1\nline 1: 0 1\nline 2: 1 0\nline 3: 0 0\n"
    );
    assert_eq!(
        lost_2,
        "2\nwritten 1: 1 1\nrecover 1: 1 0\n\
         deliver 2: 8\nrisen 2: 0\ndeliver 1: 0\nrisen 1: 1\n\
         vector 0: 2 0\npins 0: 1 -\nkept 0: 1\ncauses 0: 1\ncounts 0: 1\n\
         vector 1: 1 1\npins 1: 0 0\nkept 1: 0\ncauses 1: 0\ncounts 1: 1\nblocks: 3 1\n\
         line 0: 2 1\nline 1: 1 1\nline 2: 2 0\nline 3: 1 0\n"
    );
    assert_eq!(
        sweep,
        "0\nwritten 0: 2 3\nrecover 0: 0 1 1:1\n\
         vector 0: 2 0\npins 0: 1 -\nkept 0: 1\ncauses 0: 1\ncounts 0: 1\n\
         vector 1: 1 3\npins 1: - 2\nkept 1: 2\ncauses 1: 1\ncounts 1: 1\nblocks: 5 3\n\
         line 0: 2 3\nline 1: 1 3\nline 2: 2 2\nline 3: 1 2\n\
         deliver 2: 0\nrisen 2: 1\n"
    );
    the_earliest_lines(earliest);
}

/// The section of Note 8, line by line.
fn the_earliest_lines(section: &str) {
    let (state, facts) = section.split_once("named 1:").unwrap();
    let state: Vec<&str> = state.lines().collect();
    for fact in [
        "vector 0: 3 0 0",
        "pins 0: 2 - -",
        "kept 0: 2",
        "vector 1: 1 2 0",
        "pins 1: 0 1 -",
        "kept 1: 0 1",
        "vector 2: 1 2 3",
        "pins 2: 0 1 2",
        "kept 2: 0 1 2",
        "blocks: 8 2",
    ] {
        assert!(state.contains(&fact), "{fact}");
    }
    let answers: Vec<&str> = facts
        .lines()
        .filter_map(|line| line.strip_prefix("earliest "))
        .map(|line| line.split_once(": ").unwrap().1)
        .collect();
    let mut expected = vec!["0 2 0 0", "0 1 2 2", "0 1 1 1", "0 1 1 0", "0 0 0 0"];
    expected.extend(["0 2 1 1", "0 2 2 2", "0 2 1 0", "0 0 0 0"]);
    expected.extend(["0 1 1 1", "0 2 1 1"]);
    expected.extend(["20", "20", "20", "19", "19", "19", "19"]);
    expected.extend(["18", "18", "18", "18", "18", "4", "4"]);
    assert_eq!(answers, expected);
    assert!(facts.contains("\nnamed 19:\nearliest 19: 18\n"));
    assert!(facts.contains("\nnamed 25: 0:0 0:0 3:0\nearliest 25: 4\nearliestline 1 1: 0\n"));
    assert!(facts.ends_with("\nearliestline 16 16: 0\nearliestline 16 15: 3\n"));
    assert_eq!(facts.lines().count(), 2 * 25 + 6);
}

/// The exam text from the first line after `disk 1` on.
fn the_disks(text: &str) {
    let (steps, limits) = text.split_once("disk 2\n").unwrap();
    // By step: what 0 and 1 keep, the causes, blocks written and deleted.
    let expected = [
        ("0", "0", "0", "0", 8, 0),
        ("0", "0", "0", "0", 8, 0),
        ("0", "0", "0", "0", 8, 0),
        ("0", "0", "1", "2", 13, 5),
        ("0", "0", "1 2", "2 1", 18, 5),
        ("0", "0", "1", "2", 18, 10),
        ("0", "0", "2", "1", 23, 15),
        ("0", "0", "2", "1", 23, 15),
        ("0 1", "0 1", "2", "1", 26, 15),
        ("1", "1", "2", "1", 26, 18),
    ];
    let counts = |kept: &str, count: &str| vec![count; kept.split(' ').count()].join(" ");
    let mut wanted = String::new();
    for (step, (kept_0, causes_0, kept_1, causes_1, written, deleted)) in
        expected.into_iter().enumerate()
    {
        wanted += &format!(
            "step {step}\nkept 0: {kept_0}\ncauses 0: {causes_0}\ncounts 0: {}\n\
             kept 1: {kept_1}\ncauses 1: {causes_1}\ncounts 1: {}\n\
             blocks: {written} {deleted}\n",
            counts(kept_0, "3"),
            counts(kept_1, "5"),
        );
    }
    wanted += "line 0: 2 3\nline 1: 1 3\nline 2: 2 2\nline 3: 1 2\n";
    assert_eq!(steps, wanted);
    assert_eq!(
        limits,
        "count 1 0 0: 15\ncount 1 0 65535: 0\ncount 1 0 65536: 15\n\
         count 1 1 0: 0\ncount 1 1 65535: 0\ncount 1 1 65536: 0\n\
         count 2 1 0: 15\ncount 2 1 65535: 0\ncount 2 1 65536: 15\n\
         count 2 2 0: 0\ncount 2 2 65535: 0\ncount 2 2 65536: 0\n\
         count 16 15 0: 15\ncount 16 15 65535: 0\ncount 16 15 65536: 15\n\
         outside 0: 1\noutside 17: 1\n\
         sum 1: 0\nsum 2: 0\nsum 3: 2\nsum 4: 2\nsum 5: 2\nsum 6: 0\nsum 7: 16\n\
         sum 8: 2\nsum 9: 2\n\
         basic 65535: 0\nforced 65535: 0\nbasic 65534: 16\nforced 65534: 16\n\
         unforced 0: 0\nrecovered 0: 0\nrecovered 1: 0\nown 65534: 16\nown 65535: 11\n"
    );
}

/// A state is looked at in all its lines: every set has one.
#[test]
fn every_failed_set_has_a_line() {
    for records in 0..=9 {
        let run = example(records);
        let lines = sets(&run);
        assert_eq!(lines.len(), 4);
        // Note 4: of the empty set "the line has every process live".
        assert_eq!(lines[0], [run.own_entry(0), run.own_entry(1)]);
    }
}

//! Which refusal, in which order, and that a refused call changes nothing.

use crate::common::{self, Random, DELETIONS, LINE};
use oracle::run::{Named, Run, ONES};

const MOST_WRITTEN: u64 = 1_000_000_000_000_000;

fn run_of(count: usize) -> Run {
    Run::start(count, &ONES).unwrap()
}

/// Note 5: "15, at the start after 1, for a block count outside 1 to 65,535";
/// "those at n and above are neither judged nor stored."
#[test]
fn block_counts() {
    for n in 1..=16 {
        for process in 0..16 {
            for (blocks, fits) in [
                (0, false),
                (1, true),
                (65_535, true),
                (65_536, false),
                (65_537, false),
                (u32::MAX, false),
            ] {
                let mut counts = ONES;
                counts[process] = blocks;
                let started = Run::start(n, &counts);
                if fits || process >= n {
                    let run = started.unwrap();
                    common::assert_sound(&run);
                    let first = if process == 0 { blocks } else { 1 };
                    assert_eq!(run.records(0).next(), Some((0, first as u32)));
                    if process >= n {
                        assert_eq!(run, run_of(n));
                    }
                } else {
                    assert_eq!(started.err(), Some(15));
                }
            }
        }
    }
    for n in [0, 17, usize::MAX] {
        assert_eq!(Run::start(n, &[0; 16]).err(), Some(1));
    }
    let run = Run::start(16, &[65_535; 16]).unwrap();
    assert_eq!((run.written(), run.deleted()), (16 * 65_535, 0));
}

/// A run of two, whose counts are 7 and 9, with that many blocks left to write.
/// Process 1 has sent, and message 2 forces a checkpoint there.
fn run_with_blocks_left(left: u64) -> Run {
    let mut counts = [0; 16];
    counts[..2].copy_from_slice(&[7, 9]);
    let mut run = Run::start(2, &counts).unwrap();
    run.send(1, 0).unwrap();
    run.send(0, 1).unwrap();
    let written = MOST_WRITTEN - left;
    run.with_sums(written, written - 16).unwrap()
}

/// Note 5: "16, after 11, for a stored checkpoint that would take written past
/// 1,000,000,000,000,000."
#[test]
fn blocks_used_up() {
    for left in 0..20 {
        let run = run_with_blocks_left(left);
        common::assert_sound(&run);
        for (process, blocks) in [(0, 7), (1, 9)] {
            let mut other = run.clone();
            let answer = other.checkpoint(process, &mut [0; 8]);
            if left < blocks {
                assert_eq!(answer, Err(16));
                assert_eq!(other, run);
            } else {
                assert!(answer.is_ok());
                assert_eq!(other.written(), MOST_WRITTEN - left + blocks);
            }
        }
        let mut other = run.clone();
        let answer = other.deliver(2, &mut [0; 8]);
        if left < 9 {
            assert_eq!(answer, Err(16));
            assert_eq!(other, run);
        } else {
            assert_eq!(answer.unwrap().forced, Some(1));
            assert_eq!(other.written(), MOST_WRITTEN - left + 9);
            common::assert_sound(&other);
        }
    }
    // The lower numbers come first.
    let mut run = run_with_blocks_left(0);
    assert_eq!(run.checkpoint(0, &mut [0; 7]), Err(3));
    assert_eq!(run.checkpoint(2, &mut [0; 8]), Err(4));
    assert_eq!(run.deliver(2, &mut [0; 7]), Err(3));
    assert_eq!(run.deliver(3, &mut [0; 8]), Err(8));
    // Nothing is stored, so nothing is refused.
    assert_eq!(run.send(0, 1), Ok(3));
    assert_eq!(run.lose(3), Ok(()));
    assert!(run.recover(0, &mut [0; 8], &mut [0; 2]).is_ok());
    assert!(run.recover(2, &mut [0; 8], &mut [0; 2]).is_ok());
    // Process 1 has not sent since: its news forces nothing now.
    assert_eq!(run.deliver(2, &mut [0; 8]).unwrap().forced, None);
    assert_eq!(run.written(), MOST_WRITTEN);
    common::assert_sound(&run);
}

#[test]
fn intervals_used_up_comes_before_blocks_used_up() {
    let mut run = run_of(1);
    for _ in 1..65_534 {
        run.checkpoint(0, &mut [0; 2]).unwrap();
    }
    let mut full = run.with_sums(MOST_WRITTEN, MOST_WRITTEN - 1).unwrap();
    assert_eq!(full.checkpoint(0, &mut [0; 2]), Err(16));
    run.checkpoint(0, &mut [0; 2]).unwrap();
    let mut full = run.with_sums(MOST_WRITTEN, MOST_WRITTEN - 1).unwrap();
    assert_eq!(full.checkpoint(0, &mut [0; 2]), Err(11));
}

/// "a state that is not sound": a wrong sum, one that is right only around
/// 2 to the 64, and a right one past the bound.
#[test]
fn sums_that_are_not_sound() {
    let run = run_of(3);
    let judge = |written, deleted| run.with_sums(written, deleted).map(|_| ());
    for deleted in [0, 1, 1000, MOST_WRITTEN - 3] {
        assert_eq!(judge(deleted + 3, deleted), Ok(()));
        assert_eq!(judge(deleted + 2, deleted), Err(2));
        assert_eq!(judge(deleted + 4, deleted), Err(2));
    }
    assert_eq!(judge(MOST_WRITTEN + 1, MOST_WRITTEN - 2), Err(2));
    for deleted in [u64::MAX, u64::MAX - 2, u64::MAX - 3] {
        assert_eq!(judge(deleted.wrapping_add(3), deleted), Err(2));
    }
}

#[test]
fn the_list_comes_before_everything() {
    let mut run = run_of(2);
    assert_eq!(run.checkpoint(9, &mut [0; 7]), Err(3));
    assert_eq!(run.checkpoint(9, &mut [0; 8]), Err(4));
    assert_eq!(run.deliver(1, &mut [0; 7]), Err(3));
    assert_eq!(run.deliver(1, &mut [0; 8]), Err(8));
    assert_eq!(run.recover(0, &mut [0; 7], &mut [0; 2]), Err(3));
    assert_eq!(run.recover(0, &mut [0; 8], &mut [0; 1]), Err(3));
    assert_eq!(run.recover(4, &mut [0; 8], &mut [0; 1]), Err(3));
    assert_eq!(run.recover(4, &mut [0; 8], &mut [0; 2]), Err(7));
    assert_eq!(run.line(0, &mut [0; 1]), Err(3));
    assert_eq!(run.line(4, &mut [0; 1]), Err(3));
    assert_eq!(run.line(4, &mut [0; 2]), Err(7));
    assert_eq!(run, run_of(2));
}

#[test]
fn a_process_not_in_the_run() {
    let mut run = run_of(3);
    for process in [3, 4, 15, 16, 17, 1 << 16, usize::MAX] {
        assert_eq!(run.checkpoint(process, &mut [0; DELETIONS]), Err(4));
        assert_eq!(run.send(process, 0), Err(4));
        assert_eq!(run.send(0, process), Err(4));
        // 4 before 5.
        assert_eq!(run.send(process, process), Err(4));
    }
    assert_eq!(run.send(2, 2), Err(5));
    assert_eq!(run, run_of(3));
}

#[test]
fn the_failed_set() {
    let run = run_of(3);
    let judge = |failed| run.line(failed, &mut [0; 3]);
    // The empty set is a sweep.
    for failed in 0..8 {
        assert_eq!(judge(failed), Ok(()));
    }
    // Only bits at n and above: no empty set.
    for failed in [
        8,
        9,
        1 << 15,
        1 << 16,
        1 << 24,
        0x1FF_0000,
        0x1FF_FFFF,
        u64::MAX,
    ] {
        assert_eq!(judge(failed), Err(7));
    }
    let run = run_of(16);
    assert_eq!(run.line(0xFFFF, &mut [0; LINE]), Ok(()));
    assert_eq!(run.line(0x1_0000, &mut [0; LINE]), Err(7));
    assert_eq!(run.line(0x1_0001, &mut [0; LINE]), Err(7));
}

#[test]
fn a_message_not_under_way() {
    let mut run = run_of(2);
    run.send(0, 1).unwrap();
    for number in [0, 2, 65_537, 1 << 24 | 1, 1_000_001, 1 << 32 | 1, u64::MAX] {
        assert_eq!(run.deliver(number, &mut [0; 8]), Err(8));
        assert_eq!(run.lose(number), Err(8));
    }
    assert_eq!(run.lose(1), Ok(()));
    assert_eq!(run.lose(1), Err(8));
    assert_eq!(run.deliver(1, &mut [0; 8]), Err(8));
}

#[test]
fn a_send_is_judged_in_order() {
    let mut run = run_of(2);
    for _ in 0..64 {
        run.send(0, 1).unwrap();
    }
    assert_eq!(run.send(0, 1), Err(9));
    assert_eq!(run.send(1, 1), Err(5));
    assert_eq!(run.send(0, 2), Err(4));
    assert_eq!(run.send(2, 0), Err(4));

    // All numbers used, 64 of them under way.
    for number in 65..=1_000_000 {
        run.lose(number - 64).unwrap();
        assert_eq!(run.send(0, 1), Ok(number));
    }
    assert_eq!(run.send(0, 1), Err(9));
    assert_eq!(run.lose(1_000_000), Ok(()));
    assert_eq!(run.send(0, 1), Err(10));
    assert_eq!(run.send(1, 1), Err(5));
    assert_eq!(run.send(1, 2), Err(4));
    assert_eq!(run.last_number(), 1_000_000);
    common::assert_sound(&run);
    // The number is used up for good, over recoveries too.
    run.recover(3, &mut [0; 8], &mut [0; 2]).unwrap();
    assert_eq!(run.send(0, 1), Err(10));
}

#[test]
fn intervals_used_up_comes_last() {
    let mut run = run_of(1);
    for _ in 1..65_535 {
        run.checkpoint(0, &mut [0; 2]).unwrap();
    }
    assert_eq!(run.checkpoint(0, &mut [0; 2]), Err(11));
    assert_eq!(run.checkpoint(1, &mut [0; 2]), Err(4));
    assert_eq!(run.checkpoint(0, &mut [0; 1]), Err(3));
}

/// Makes one call, mostly one that is refused. Gives the refusal, if any.
fn any_call(
    run: &mut Run,
    random: &mut Random,
    deletions: &mut [u32],
    line: &mut [u32],
) -> Option<u8> {
    let n = run.count();
    let p = random.below(n + 2);
    let q = random.below(n + 2);
    let number = random.below(run.last_number() as usize + 3) as u64;
    let failed = random.below(1 << (n + 1)) as u64;
    // Now and then a list that is too short.
    let short = random.below(8) == 0;
    let most_deletions = if short {
        2 * n * n - 1
    } else {
        deletions.len()
    };
    let most_line = if random.below(8) == 0 {
        n - 1
    } else {
        line.len()
    };
    let deletions = &mut deletions[..most_deletions];
    let line = &mut line[..most_line];
    match random.below(10) {
        0 | 1 => run.checkpoint(p, deletions).err(),
        2..=4 => run.send(p, q).err(),
        5..=7 => run.deliver(number, deletions).err(),
        8 if random.below(2) == 0 => run.lose(number).err(),
        8 => run.line(failed, line).err(),
        _ if random.below(4) == 0 => run.recover(failed, deletions, line).err(),
        _ => run.recover(0, deletions, line).err(),
    }
}

#[test]
fn a_refused_call_changes_nothing_and_an_accepted_one_leaves_the_rest_of_the_lists() {
    let mut met = [0; 17];
    for seed in 0..2000 {
        let mut random = Random(seed);
        let n = 1 + random.below(6);
        let mut run = run_of(n);
        for _ in 0..60 {
            let before = run.clone();
            let mut deletions: Vec<u32> = (0..DELETIONS).map(|_| random.next() as u32).collect();
            let mut line: Vec<u32> = (0..LINE).map(|_| random.next() as u32).collect();
            let (old_deletions, old_line) = (deletions.clone(), line.clone());
            match any_call(&mut run, &mut random, &mut deletions, &mut line) {
                Some(number) => {
                    assert_eq!(run, before);
                    assert_eq!(deletions, old_deletions);
                    assert_eq!(line, old_line);
                    met[number as usize] += 1;
                }
                None => {
                    assert_eq!(deletions[2 * n * n..], old_deletions[2 * n * n..]);
                    assert_eq!(line[n..], old_line[n..]);
                    common::assert_sound(&run);
                    met[0] += 1;
                }
            }
        }
    }
    for number in [0, 3, 4, 5, 7, 8] {
        assert!(met[number] > 100, "{number} was met {} times", met[number]);
    }
    assert_eq!(met[2], 0);
    // Note 4: "Refusal 6 never occurs any more."
    assert_eq!(met[6], 0);
}

/// Note 8: the line list, then 4 over the whole list, 18, 19, 20.
#[test]
fn named_checkpoints_are_judged_in_order() {
    let mut run = run_of(2);
    run.send(0, 1).unwrap();
    run.deliver(1, &mut [0; 8]).unwrap();
    run.checkpoint(1, &mut [0; 8]).unwrap();
    run.checkpoint(0, &mut [0; 8]).unwrap();
    assert_eq!(
        (common::kept(&run, 0), common::kept(&run, 1)),
        (vec![1], vec![0, 1])
    );
    let judged = |list: &[(usize, u64)], line: &mut [u32]| {
        let named = list
            .iter()
            .map(|&(process, index)| Named { process, index });
        run.earliest(&named.collect::<Vec<_>>(), line)
    };
    let refused: [(&[(usize, u64)], u8); 12] = [
        (&[(2, 0)], 4),
        (&[(0, 0), (0, 0), (2, 0)], 4),
        (&[(usize::MAX, 0)], 4),
        (&[], 18),
        (&[(0, 1), (0, 1)], 18),
        (&[(0, 0), (0, 0)], 18),
        (&[(0, 1), (1, 1), (1, 0)], 18),
        (&[(0, 0)], 19),
        (&[(0, 2)], 19),
        (&[(1, 2)], 19),
        (&[(1, 1), (0, 2)], 19),
        (&[(1, 1), (0, 65_535)], 19),
    ];
    for (list, number) in refused {
        let mut line = [7, 7, 7];
        assert_eq!(judged(list, &mut line), Err(number), "{list:?}");
        assert_eq!(judged(list, &mut line[..1]), Err(3), "{list:?}");
        assert_eq!(line, [7, 7, 7]);
    }
    let accepted: [(&[(usize, u64)], [u32; 2]); 5] = [
        (&[(0, 1)], [1, 0]),
        (&[(1, 0)], [0, 0]),
        (&[(1, 1)], [1, 1]),
        (&[(0, 1), (1, 0)], [1, 0]),
        // Entry 0 of the one equals the index of the other.
        (&[(1, 1), (0, 1)], [1, 1]),
    ];
    for (list, expected) in accepted {
        let mut line = [7, 7, 7];
        assert_eq!(judged(list, &mut line), Ok(()), "{list:?}");
        assert_eq!(line[..2], expected);
        assert_eq!(line[2], 7);
        assert_eq!(judged(list, &mut line[..1]), Err(3));
    }

    // A checkpoint of 1 that knows 0's next interval.
    run.send(0, 1).unwrap();
    run.deliver(2, &mut [0; 8]).unwrap();
    run.checkpoint(1, &mut [0; 8]).unwrap();
    for list in [[(0, 1), (1, 2)], [(1, 2), (0, 1)]] {
        let named = list.map(|(process, index)| Named { process, index });
        assert_eq!(run.earliest(&named, &mut [0; 2]), Err(20));
    }
}

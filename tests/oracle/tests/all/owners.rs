//! Note 13 over whole lists of calls: two runs in which the same is done to an
//! owner's processes, and the leaks have the same values at its calls, answer it
//! the same, whatever the others do.

use crate::common::{self, Random};
use oracle::console::Caller::{Operator, Owner};
use oracle::console::{Caller, Console};
use oracle::run::{Message, Run, ONES};

const N: usize = 4;
const LISTS: usize = 2 * N * N;

/// The owner has processes 0 and 1, its neighbour 2 and 3.
const OWNER: Caller = Owner(0b0011);
const NEIGHBOUR: Caller = Owner(0b1100);
const OWN: [usize; 2] = [0, 1];

/// A call of the owner's: what it asks.
#[derive(Clone, Copy, Debug)]
enum Asked {
    Checkpoint(usize),
    Send(usize, usize),
    Deliver(u64),
    Lose(u64),
    Line(u64),
    List,
}

fn asks(random: &mut Random, last: u64) -> Asked {
    let (p, q) = (random.below(N + 1), random.below(N + 1));
    let number = random.below(last as usize + 2) as u64;
    match random.below(9) {
        0 | 1 => Asked::Checkpoint(p),
        2 => Asked::Send(p, q),
        3..=5 => Asked::Deliver(number),
        6 => Asked::Lose(number),
        7 => Asked::Line(random.below(1 << (N + 1)) as u64),
        _ => Asked::List,
    }
}

fn to_own(run: &Run, number: u64) -> Option<&Message> {
    let own = |m: &&Message| m.number == number && OWN.contains(&(m.receiver as usize));
    run.under_way().iter().find(own)
}

/// What the leaks are worth at a call. 10 and 16 are out of reach here.
fn leak(run: &Run, asked: Asked) -> Vec<u64> {
    match asked {
        Asked::Send(i, _) if OWN.contains(&i) => {
            vec![(run.under_way().len() == 64) as u64, run.last_number()]
        }
        Asked::Deliver(number) => match to_own(run, number) {
            Some(m) => {
                let carried = m.carried[..N].iter().map(|&e| e as u64);
                [m.receiver as u64].into_iter().chain(carried).collect()
            }
            None => vec![],
        },
        Asked::Lose(number) => vec![to_own(run, number).is_some() as u64],
        Asked::Line(failed) if failed < 1 << N => {
            let line = common::line(run, failed);
            OWN.map(|p| line[p] as u64).to_vec()
        }
        _ => vec![],
    }
}

/// All that the owner gets: the answer, and the lent lists as they then stand.
fn answer(c: &mut Console, asked: Asked) -> (String, [u32; LISTS], [u32; N]) {
    let (mut deletions, mut line) = ([9; LISTS], [9; N]);
    let said = match asked {
        Asked::Checkpoint(p) => format!("{:?}", c.checkpoint(OWNER, p, &mut deletions)),
        Asked::Send(p, q) => format!("{:?}", c.send(OWNER, p, q)),
        Asked::Deliver(number) => format!("{:?}", c.deliver(OWNER, number, &mut deletions)),
        Asked::Lose(number) => format!("{:?}", c.lose(OWNER, number)),
        Asked::Line(failed) => format!("{:?}", c.line(OWNER, failed, &mut line)),
        Asked::List => format!("{:?}", c.list(OWNER, &mut deletions)),
    };
    (said, deletions, line)
}

/// Something that exposes nothing: a checkpoint of the neighbour's, a delivery to
/// it, a loss, or a refused call.
fn unexposed(c: &mut Console, random: &mut Random) {
    let number = random.below(c.run().last_number() as usize + 2) as u64;
    let (mut deletions, mut line) = ([0; LISTS], [0; N]);
    match random.below(6) {
        0 | 1 => _ = c.checkpoint(NEIGHBOUR, 2 + random.below(2), &mut deletions),
        2 | 3 => _ = c.deliver(NEIGHBOUR, number, &mut deletions),
        4 => {
            _ = c.lose(
                if random.below(2) == 0 {
                    Operator
                } else {
                    NEIGHBOUR
                },
                number,
            )
        }
        _ => _ = c.recover(NEIGHBOUR, 1, &mut deletions, &mut line),
    }
}

/// What a recovery or sweep shows of the owner's processes: where it puts them,
/// and which of their pins name a checkpoint.
fn restarted(c: &mut Console, failed: u64) -> Vec<(u32, Vec<bool>)> {
    let (mut deletions, mut line) = ([0; LISTS], [0; N]);
    c.recover(Operator, failed, &mut deletions, &mut line)
        .unwrap();
    let pinned = |p| {
        common::pins(c.run(), p)
            .iter()
            .map(|k| k.is_some())
            .collect()
    };
    OWN.map(|p| (line[p], pinned(p))).to_vec()
}

fn differs_elsewhere(a: &Run, b: &Run) -> bool {
    (2..N).any(|p| a.vector(p) != b.vector(p) || common::kept(a, p) != common::kept(b, p))
}

#[test]
fn an_owner_learns_nothing_but_the_leaks() {
    let (mut compared, mut elsewhere, mut recoveries) = (0, 0, 0);
    for seed in 0..6_000 {
        let mut random = Random(seed);
        let mut runs = [0; 2].map(|_| Console::start(Operator, N, &ONES).unwrap());
        for _ in 0..60 {
            match random.below(8) {
                // Others, differently in the two runs. A send in one is a send in
                // the other, so that numbers go on being the same.
                0 | 1 => runs.iter_mut().for_each(|c| unexposed(c, &mut random)),
                2 => unexposed(&mut runs[random.below(2)], &mut random),
                3 => {
                    for c in &mut runs {
                        let from = 2 + random.below(2);
                        _ = c.send(NEIGHBOUR, from, (from + 1 + random.below(N - 1)) % N);
                    }
                }
                // The operator, to the owner's processes and to all.
                4 if random.below(4) == 0 => {
                    let failed = random.below(1 << N) as u64;
                    let [a, b] = &mut runs;
                    if restarted(a, failed) != restarted(b, failed) {
                        break;
                    }
                    recoveries += 1;
                }
                4 => {
                    let p = OWN[random.below(2)];
                    let stored = runs
                        .each_mut()
                        .map(|c| c.checkpoint(Operator, p, &mut [0; LISTS]));
                    assert_eq!(stored[0], stored[1]);
                }
                _ => {
                    let asked = asks(&mut random, runs[0].run().last_number());
                    let [a, b] = &mut runs;
                    if leak(a.run(), asked) != leak(b.run(), asked) {
                        break;
                    }
                    elsewhere += differs_elsewhere(a.run(), b.run()) as usize;
                    compared += 1;
                    assert_eq!(answer(a, asked), answer(b, asked), "{seed} {asked:?}");
                }
            }
        }
    }
    assert!(
        compared > 50_000 && elsewhere > 40_000 && recoveries > 5_000,
        "{compared} {elsewhere} {recoveries}"
    );
}

/// A leak that Note 13 does not name: a sweep deletes an owner's checkpoint, or
/// not, by what another has stored; and a recovery rolls it back, or not.
#[test]
fn a_recovery_shows_what_others_stored() {
    let listed = |failed: u64, stored: bool| {
        let mut c = Console::start(Operator, N, &ONES).unwrap();
        c.send(NEIGHBOUR, 2, 0).unwrap();
        c.deliver(OWNER, 1, &mut [0; LISTS]).unwrap();
        c.checkpoint(OWNER, 0, &mut [0; LISTS]).unwrap();
        if stored {
            c.checkpoint(NEIGHBOUR, 2, &mut [0; LISTS]).unwrap();
        }
        restarted(&mut c, failed);
        let mut list = [9; LISTS];
        let count = c.list(OWNER, &mut list).unwrap();
        list[..2 * count].to_vec()
    };
    assert_eq!(listed(0, false), [0, 0, 0, 1, 1, 0]);
    assert_eq!(listed(0, true), [0, 1, 1, 0]);
    assert_eq!(listed(0b0100, false), [0, 0, 1, 0]);
    assert_eq!(listed(0b0100, true), [0, 1, 1, 0]);
}

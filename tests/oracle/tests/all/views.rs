//! Note 14: "for each kept checkpoint of a process there is a run, accepted by
//! the same rules, in which this process sees the same own events and the same
//! carried vectors, message numbers set aside, and some one process's failure
//! puts that checkpoint in the best line."
//!
//! The other run is built and looked at: for random runs, at the limits of the
//! paper and at lower ones, which small runs reach.

use crate::common::{self, Random, DELETIONS};
use oracle::run::refusal::{INTERVALS_USED_UP, NUMBERS_USED_UP, TOO_MANY_UNDER_WAY};
use oracle::run::{Message, Run, Vector, LAST_ENTRY, LAST_MESSAGE_NUMBER, MAX_UNDER_WAY, ONES};

/// How many messages may be under way, which number is the last, which entry.
#[derive(Clone, Copy)]
struct Limits {
    under_way: usize,
    numbers: u64,
    entries: u32,
}

const OF_THE_PAPER: Limits = Limits {
    under_way: MAX_UNDER_WAY,
    numbers: LAST_MESSAGE_NUMBER,
    entries: LAST_ENTRY,
};

/// A call of a run without recovery or sweep; a line call changes nothing.
#[derive(Clone, Copy)]
enum Call {
    Checkpoint(usize),
    Send(usize, usize),
    Deliver(u64),
    Lose(u64),
}

/// What a process sees: its own events, a receipt with the message's sender and
/// the vector that it carried. No number of a message is in it.
#[derive(Clone, Debug, PartialEq)]
enum Seen {
    Took,
    Forced,
    SentTo(usize),
    Got(usize, Vector),
}

/// An event of the surviving history, which loses nothing in such a run.
#[derive(Clone, Copy, PartialEq)]
enum Event {
    Checkpoint,
    Sent(u64),
    Received(u64),
}

/// A run with what each process saw and its history.
struct Watched {
    run: Run,
    limits: Limits,
    seen: Vec<Vec<Seen>>,
    lists: Vec<Vec<Event>>,
}

impl Watched {
    fn start(n: usize, limits: Limits) -> Self {
        Watched {
            run: Run::start(n, &ONES).unwrap(),
            limits,
            seen: vec![Vec::new(); n],
            lists: vec![vec![Event::Checkpoint]; n],
        }
    }

    fn message(&self, number: u64) -> Option<Message> {
        let under_way = self.run.under_way();
        under_way.iter().copied().find(|x| x.number == number)
    }

    /// Entry f of process p.
    fn known(&self, p: usize, f: usize) -> u32 {
        self.run.vector(p)[f]
    }

    fn stores(&mut self, p: usize, seen: Seen) {
        self.seen[p].push(seen);
        self.lists[p].push(Event::Checkpoint);
    }

    fn call(&mut self, call: Call) -> Result<(), u8> {
        match call {
            Call::Checkpoint(p) => self.checkpoint(p),
            Call::Send(p, q) => self.send(p, q).map(|_| ()),
            Call::Deliver(number) => self.deliver(number),
            Call::Lose(number) => self.run.lose(number),
        }
    }

    fn checkpoint(&mut self, p: usize) -> Result<(), u8> {
        if self.run.own_entry(p) == self.limits.entries {
            return Err(INTERVALS_USED_UP);
        }
        self.run.checkpoint(p, &mut [0; DELETIONS])?;
        self.stores(p, Seen::Took);
        Ok(())
    }

    fn send(&mut self, p: usize, q: usize) -> Result<u64, u8> {
        // 4 and 5 come before 9 and 10; no process here is outside the run.
        if p != q && self.run.under_way().len() == self.limits.under_way {
            return Err(TOO_MANY_UNDER_WAY);
        }
        if p != q && self.run.last_number() == self.limits.numbers {
            return Err(NUMBERS_USED_UP);
        }
        let number = self.run.send(p, q)?;
        self.seen[p].push(Seen::SentTo(q));
        self.lists[p].push(Event::Sent(number));
        Ok(number)
    }

    fn deliver(&mut self, number: u64) -> Result<(), u8> {
        let message = self.message(number);
        let mut after = self.run.clone();
        let answer = after.deliver(number, &mut [0; DELETIONS])?;
        let message = message.expect("it was under way");
        let p = message.receiver as usize;
        if answer.forced.is_some() && self.run.own_entry(p) == self.limits.entries {
            return Err(INTERVALS_USED_UP);
        }
        self.run = after;
        if answer.forced.is_some() {
            self.stores(p, Seen::Forced);
        }
        let sender = message.sender as usize;
        self.seen[p].push(Seen::Got(sender, message.carried));
        self.lists[p].push(Event::Received(number));
        Ok(())
    }

    /// The best line where f alone failed, by the messages: all are live and f
    /// at its last checkpoint; as long as a message was sent after its sender's
    /// state and received before its receiver's, the receiver goes back to its
    /// last checkpoint before the receipt. Whoever goes back had to.
    fn best_line(&self, f: usize) -> Vec<usize> {
        let checkpoints = |list: &[Event]| {
            let of_it = list.iter().filter(|event| **event == Event::Checkpoint);
            of_it.count()
        };
        // How many events of each list come before the line's state.
        let mut places: Vec<usize> = self.lists.iter().map(Vec::len).collect();
        places[f] = last_checkpoint(&self.lists[f]);
        while let Some((p, place)) = self.orphan(&places) {
            places[p] = last_checkpoint(&self.lists[p][..place]);
        }
        let before = self.lists.iter().zip(places);
        before
            .map(|(list, place)| checkpoints(&list[..place]))
            .collect()
    }

    /// A message received before the line and sent after it: its receiver and
    /// the place of the receipt.
    fn orphan(&self, places: &[usize]) -> Option<(usize, usize)> {
        for (p, list) in self.lists.iter().enumerate() {
            for (place, event) in list[..places[p]].iter().enumerate() {
                if let Event::Received(number) = event {
                    let sent = Event::Sent(*number);
                    let sender = self.lists.iter().position(|list| list.contains(&sent));
                    let sender = sender.expect("what was received was sent");
                    let list = &self.lists[sender];
                    let sent_at = list.iter().position(|event| *event == sent).unwrap();
                    if sent_at >= places[sender] {
                        return Some((p, place));
                    }
                }
            }
        }
        None
    }
}

/// The place of the last checkpoint in a part of a list. The state at a
/// checkpoint has the events before its place.
fn last_checkpoint(list: &[Event]) -> usize {
    let place = list.iter().rposition(|event| *event == Event::Checkpoint);
    place.expect("checkpoint 0 comes before everything")
}

/// What was met, so that no test passes by meeting nothing.
#[derive(Default)]
struct Met {
    /// Other runs that were built; those for a checkpoint that no failure of one
    /// process would use in the run itself; those for an own pin.
    built: usize,
    in_vain: usize,
    own: usize,
    /// Calls that the other run leaves out, and deliveries that are losses there.
    left_out: usize,
    losses: usize,
    /// Refusals in the runs themselves: 9, 10 and 11.
    refused: [usize; 3],
}

/// The run without checkpoint g of f and all that comes causally after it: a
/// call at a process stays if the process knows at most interval g of f after
/// it. A delivery that goes is a loss there if the message itself is there.
fn other_run(n: usize, calls: &[Call], limits: Limits, f: usize, g: u32, met: &mut Met) -> Watched {
    let mut run = Watched::start(n, limits);
    let mut other = Watched::start(n, limits);
    // The number in the other run of each message that it sent.
    let mut numbers: Vec<Option<u64>> = vec![None];
    for &call in calls {
        let message = match call {
            Call::Deliver(number) | Call::Lose(number) => run.message(number),
            _ => None,
        };
        if run.call(call).is_err() {
            continue;
        }
        // "accepted by the same rules": no call of the other run is refused.
        let counterpart = message.and_then(|x| numbers[x.number as usize]);
        if let Some(x) = message {
            assert_eq!(counterpart.is_some(), x.carried[f] <= g);
        }
        match call {
            Call::Checkpoint(p) if run.known(p, f) <= g => other.checkpoint(p).unwrap(),
            Call::Send(p, q) if run.known(p, f) <= g => {
                numbers.push(Some(other.send(p, q).unwrap()));
            }
            Call::Send(..) => {
                numbers.push(None);
                met.left_out += 1;
            }
            Call::Deliver(_) if run.known(message.unwrap().receiver as usize, f) <= g => {
                other.deliver(counterpart.unwrap()).unwrap();
            }
            Call::Deliver(_) | Call::Lose(_) => match counterpart {
                Some(number) => {
                    other.run.lose(number).unwrap();
                    met.losses += matches!(call, Call::Deliver(_)) as usize;
                }
                None => met.left_out += 1,
            },
            Call::Checkpoint(_) => met.left_out += 1,
        }
    }
    other
}

/// Each kept checkpoint of each process, for each pin that names it.
fn check(n: usize, calls: &[Call], limits: Limits, met: &mut Met) {
    let mut run = Watched::start(n, limits);
    for &call in calls {
        if let Err(number @ TOO_MANY_UNDER_WAY..=INTERVALS_USED_UP) = run.call(call) {
            met.refused[(number - TOO_MANY_UNDER_WAY) as usize] += 1;
        }
    }
    let lines: Vec<Vec<usize>> = (0..n).map(|f| run.best_line(f)).collect();
    for i in 0..n {
        for k in common::kept(&run.run, i) {
            let pinned = (0..n).filter(|&f| run.run.pin(i, f) == Some(k));
            let pinned: Vec<usize> = pinned.collect();
            assert!(!pinned.is_empty(), "{i}:{k} has its other run");
            let used = lines.iter().any(|line| line[i] == k as usize);
            for f in pinned {
                let other = other_run(n, calls, limits, f, run.known(i, f), met);
                assert_eq!(other.seen[i], run.seen[i], "{i} sees the same");
                let line = other.best_line(f);
                assert_eq!(line[i], k as usize, "{i}:{k} is in the best line");
                assert!(other.run.own_entry(i) > k, "it is a checkpoint");
                let reported: Vec<u32> = common::line(&other.run, 1 << f);
                assert!(reported.iter().map(|x| *x as usize).eq(line));
                met.built += 1;
                met.in_vain += !used as usize;
                met.own += (f == i) as usize;
            }
        }
    }
}

/// One call, some of which are refused. Half of the time it names a message that
/// is under way; `weights` are those of checkpoint, send, deliver and lose.
fn any_call(run: &Run, weights: &[usize; 4], random: &mut Random) -> Call {
    let (p, q) = (random.below(run.count()), random.below(run.count()));
    let under_way = run.under_way();
    let number = match under_way.len() {
        0 => run.last_number(),
        _ if random.below(2) == 0 => run.last_number() + 1 - random.below(2) as u64,
        len => under_way[random.below(len)].number,
    };
    let mut drawn = random.below(weights.iter().sum());
    let mut kind = 0;
    while drawn >= weights[kind] {
        drawn -= weights[kind];
        kind += 1;
    }
    match kind {
        0 => Call::Checkpoint(p),
        1 => Call::Send(p, q),
        2 => Call::Deliver(number),
        _ => Call::Lose(number),
    }
}

const EVEN: [usize; 4] = [3, 6, 6, 1];
const BUSY: [usize; 4] = [1, 8, 4, 1];

fn any_calls(
    n: usize,
    count: usize,
    limits: Limits,
    weights: &[usize; 4],
    random: &mut Random,
) -> Vec<Call> {
    let mut run = Watched::start(n, limits);
    let mut calls = Vec::new();
    for _ in 0..count {
        let call = any_call(&run.run, weights, random);
        let _ = run.call(call);
        calls.push(call);
    }
    calls
}

#[test]
fn small_runs() {
    let mut met = Met::default();
    for seed in 0..1500 {
        let mut random = Random(seed);
        let n = 1 + seed as usize % 6;
        let count = 10 + random.below(40);
        let calls = any_calls(n, count, OF_THE_PAPER, &EVEN, &mut random);
        check(n, &calls, OF_THE_PAPER, &mut met);
    }
    assert!(met.built > 5_000, "met {} times", met.built);
    assert!(met.in_vain > 1_000, "met {} times", met.in_vain);
    assert!(met.own > 2_000, "met {} times", met.own);
    assert!(met.losses > 1_000, "met {} times", met.losses);
    assert!(met.left_out > 1_000, "met {} times", met.left_out);
}

/// "accepted by the same rules": the limits too. Here they are lower, so that
/// the runs meet them.
#[test]
fn lower_limits() {
    let mut met = Met::default();
    for seed in 0..1500 {
        let mut random = Random(seed);
        let n = 2 + seed as usize / 2 % 4;
        let limits = Limits {
            under_way: 1 + random.below(5),
            numbers: 3 + random.below(38) as u64,
            entries: 2 + random.below(7) as u32,
        };
        let count = 20 + random.below(60);
        let weights = [EVEN, BUSY][seed as usize % 2];
        let calls = any_calls(n, count, limits, &weights, &mut random);
        check(n, &calls, limits, &mut met);
    }
    assert!(met.built > 5_000, "met {} times", met.built);
    assert!(met.losses > 1_000, "met {} times", met.losses);
    for count in met.refused {
        assert!(count > 1_000, "met {count} times");
    }
}

/// Long runs in which 64 messages are under way.
#[test]
fn sixty_four_under_way() {
    let mut met = Met::default();
    for seed in 0..8 {
        let mut random = Random(seed);
        let calls = any_calls(3, 800, OF_THE_PAPER, &BUSY, &mut random);
        check(3, &calls, OF_THE_PAPER, &mut met);
    }
    assert!(met.built > 30, "met {} times", met.built);
    assert!(met.refused[0] > 100, "met {} times", met.refused[0]);
}

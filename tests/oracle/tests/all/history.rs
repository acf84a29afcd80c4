//! Small random runs against the surviving history, by brute force.
//!
//! The history is kept as the paper's section "The surviving history" says:
//! "It is built from the calls and their answers, and from nothing in the
//! state". The reported lines are then held against all lines there are, and
//! what is on the disks is counted from it after every call.

use crate::common::{self, Random, DELETIONS, LINE};
use oracle::run::{Counts, Named, Run, ONES};
use std::collections::HashMap;

#[derive(Clone, Copy, PartialEq)]
enum Event {
    Checkpoint { number: u32, kept: bool, cause: u8 },
    Sent(u64),
    Received(u64),
}

/// A state of a process that a line can name: its index, and how many events
/// of the list come before it.
#[derive(Clone, Copy)]
struct State {
    index: u32,
    place: usize,
    live: bool,
    kept: bool,
}

/// A message in the surviving history that was received there.
struct Received {
    sender: usize,
    sent_at: usize,
    receiver: usize,
    received_at: usize,
}

struct History {
    lists: Vec<Vec<Event>>,
    /// The receiver that each send named, by number from 1.
    receivers: Vec<usize>,
    /// The numbers under way, ascending: sent, and neither received nor lost,
    /// nor is the send gone from its list.
    under_way: Vec<u64>,
    /// The last number used when a process last rolled back.
    sent_before_rollback: u64,
    /// Note 5: the block counts, "each checkpoint ever stored, rolled back or
    /// not, counts once", and blocks deleted "from the pairs handed out."
    counts: Counts,
    written: u64,
    deleted: u64,
}

impl History {
    /// "After the start each list is checkpoint 0."
    fn start(n: usize, counts: &Counts) -> Self {
        let first = Event::Checkpoint {
            number: 0,
            kept: true,
            cause: 0,
        };
        History {
            lists: vec![vec![first]; n],
            receivers: Vec::new(),
            under_way: Vec::new(),
            sent_before_rollback: 0,
            counts: *counts,
            written: counts[..n].iter().map(|&blocks| blocks as u64).sum(),
            deleted: 0,
        }
    }

    fn last_checkpoint(&self, i: usize) -> u32 {
        let numbers = self.lists[i].iter().rev().filter_map(|event| match event {
            Event::Checkpoint { number, .. } => Some(*number),
            _ => None,
        });
        numbers
            .into_iter()
            .next()
            .expect("checkpoint 0 is never lost")
    }

    /// "the next checkpoint, numbered one above the last there."
    fn add_checkpoint(&mut self, i: usize, cause: u8) -> u32 {
        let number = self.last_checkpoint(i) + 1;
        self.lists[i].push(Event::Checkpoint {
            number,
            kept: true,
            cause,
        });
        self.written += self.counts[i] as u64;
        number
    }

    /// "number m adds "sent m" to its sender's list."
    fn add_send(&mut self, sender: usize, receiver: usize) -> u64 {
        self.receivers.push(receiver);
        let number = self.receivers.len() as u64;
        self.lists[sender].push(Event::Sent(number));
        self.under_way.push(number);
        number
    }

    /// "An accepted delivery of m adds to the list of the receiver its send
    /// named the next checkpoint, if the answer names a forced one, then
    /// "received m"."
    fn add_delivery(&mut self, number: u64, forced: Option<u32>) {
        let receiver = self.receivers[number as usize - 1];
        if let Some(index) = forced {
            assert_eq!(self.add_checkpoint(receiver, 2), index);
        }
        self.lists[receiver].push(Event::Received(number));
        self.no_longer_under_way(number);
    }

    fn no_longer_under_way(&mut self, number: u64) {
        self.under_way.retain(|other| *other != number);
    }

    fn stands(&self, wanted: Event) -> bool {
        self.lists.iter().flatten().any(|event| *event == wanted)
    }

    /// "A checkpoint in a list is kept until a pair handed out after it was
    /// stored names it".
    fn delete(&mut self, pairs: &[u32]) {
        // "by process, then index, ascending"
        let pairs: Vec<&[u32]> = pairs.chunks_exact(2).collect();
        assert!(pairs.windows(2).all(|two| two[0] < two[1]));
        for pair in pairs {
            let (process, index) = (pair[0] as usize, pair[1]);
            let mut found = 0;
            for event in &mut self.lists[process] {
                if let Event::Checkpoint { number, kept, .. } = event {
                    if *number == index {
                        assert!(*kept, "{process}:{index} is handed out twice");
                        *kept = false;
                        found += 1;
                    }
                }
            }
            assert_eq!(found, 1, "{process}:{index} is in the list once");
            self.deleted += self.counts[process] as u64;
        }
    }

    /// "where the index written for a process is that of a checkpoint in its
    /// list, all after that checkpoint goes from the list. Other lists stay."
    /// Gives how many processes rolled back.
    fn recover(&mut self, line: &[u32]) -> usize {
        let mut rolled_back = 0;
        for (list, index) in self.lists.iter_mut().zip(line) {
            let place = list.iter().position(
                |event| matches!(event, Event::Checkpoint { number, .. } if number == index),
            );
            if let Some(place) = place {
                list.truncate(place + 1);
                rolled_back += 1;
            }
        }
        // Note 2, by the history alone: "The surviving history counts these
        // sends", and the others are gone from their lists.
        let mut under_way = std::mem::take(&mut self.under_way);
        under_way.retain(|number| self.stands(Event::Sent(*number)));
        self.under_way = under_way;
        if rolled_back > 0 {
            self.sent_before_rollback = self.receivers.len() as u64;
        }
        rolled_back
    }

    /// All states of process i, the live one last: "A live state stands at the
    /// end of its list; its index is one above the last checkpoint there."
    fn states(&self, i: usize) -> Vec<State> {
        let mut states = Vec::new();
        for (place, event) in self.lists[i].iter().enumerate() {
            if let Event::Checkpoint { number, kept, .. } = *event {
                states.push(State {
                    index: number,
                    place,
                    live: false,
                    kept,
                });
            }
        }
        let (index, place) = (self.last_checkpoint(i) + 1, self.lists[i].len());
        states.push(State {
            index,
            place,
            live: true,
            kept: false,
        });
        states
    }

    /// What the live state of process i knows of each process.
    fn known(&self, i: usize) -> Vec<u32> {
        self.known_at(i, self.lists[i].len())
    }

    /// What process i knows of each process at a place of its list: entry f of
    /// its vector there. "Checkpoint a of f comes causally before a state
    /// exactly if a is less than that state's entry f", so it is how many of
    /// them do.
    fn known_at(&self, i: usize, place: usize) -> Vec<u32> {
        // How many events of each list come causally before the state, and
        // those of them that are still to be followed back.
        let mut before = vec![0; self.lists.len()];
        let mut to_follow = vec![(i, place)];
        while let Some((p, count)) = to_follow.pop() {
            for place in before[p]..count {
                if let Event::Received(number) = self.lists[p][place] {
                    let (sender, sent_at) = self.find(Event::Sent(number));
                    to_follow.push((sender, sent_at + 1));
                }
            }
            before[p] = before[p].max(count);
        }
        let checkpoints = |list: &[Event]| {
            list.iter()
                .filter(|event| matches!(event, Event::Checkpoint { .. }))
                .count() as u32
        };
        self.lists
            .iter()
            .zip(before)
            .map(|(list, count)| checkpoints(&list[..count]))
            .collect()
    }

    fn received(&self) -> Vec<Received> {
        let mut all = Vec::new();
        for (receiver, list) in self.lists.iter().enumerate() {
            for (received_at, event) in list.iter().enumerate() {
                if let Event::Received(number) = event {
                    let (sender, sent_at) = self.find(Event::Sent(*number));
                    all.push(Received {
                        sender,
                        sent_at,
                        receiver,
                        received_at,
                    });
                }
            }
        }
        all
    }

    fn find(&self, wanted: Event) -> (usize, usize) {
        for (process, list) in self.lists.iter().enumerate() {
            if let Some(place) = list.iter().position(|event| *event == wanted) {
                return (process, place);
            }
        }
        panic!("a message was received and no longer has a sender");
    }
}

/// "It is consistent if no message was sent after its sender's state in the
/// line and received before its receiver's."
fn consistent(line: &[State], messages: &[Received]) -> bool {
    !messages.iter().any(|message| {
        message.sent_at > line[message.sender].place
            && message.received_at < line[message.receiver].place
    })
}

/// All lines: every choice of one state for each process.
fn for_every_line(states: &[Vec<State>], mut visit: impl FnMut(&[State])) {
    let mut choice = vec![0; states.len()];
    let mut line: Vec<State> = states.iter().map(|of_one| of_one[0]).collect();
    loop {
        visit(&line);
        let mut i = 0;
        loop {
            if i == states.len() {
                return;
            }
            choice[i] = (choice[i] + 1) % states[i].len();
            line[i] = states[i][choice[i]];
            if choice[i] != 0 {
                break;
            }
            i += 1;
        }
    }
}

/// What is under way, by the history and by the state: each of them stands as
/// sent in its sender's list, and none as received.
fn check_messages(run: &Run, history: &History) {
    let numbers: Vec<u64> = run.under_way().iter().map(|x| x.number).collect();
    assert_eq!(history.under_way, numbers, "by history and by state");
    for message in run.under_way() {
        let (sender, sent_at) = history.find(Event::Sent(message.number));
        assert_eq!(sender, message.sender as usize);
        let receiver = history.receivers[message.number as usize - 1];
        assert_eq!(receiver, message.receiver as usize);
        assert!(!history.stands(Event::Received(message.number)));
        let known = history.known_at(sender, sent_at);
        assert_eq!(message.carried[..run.count()], known);
    }
}

/// The best line for each failed set, as indexes: of the consistent lines in
/// which the failed processes are at stored checkpoints, the one that is
/// nowhere earlier than any of them. By the lists alone: all lines are tried.
fn best_lines(states: &[Vec<State>], messages: &[Received]) -> Vec<Vec<u32>> {
    let n = states.len();
    let mut latest = vec![vec![0; n]; 1 << n];
    let mut possible = vec![Vec::new(); 1 << n];
    for_every_line(states, |line| {
        if !consistent(line, messages) {
            return;
        }
        for failed in 0..1 << n {
            if (0..n).any(|i| failed >> i & 1 == 1 && line[i].live) {
                continue;
            }
            for i in 0..n {
                latest[failed][i] = line[i].index.max(latest[failed][i]);
            }
            if (0..n).all(|i| line[i].index == latest[failed][i]) {
                possible[failed] = latest[failed].clone();
            }
        }
    });
    // The latest index of each process makes a line that is itself possible.
    assert_eq!(possible, latest, "one line is the latest everywhere");
    latest
}

/// Note 5: what each kept checkpoint records, and the two sums, by the history
/// and by the state. "At every moment written equals blocks of all kept
/// checkpoints plus blocks deleted".
fn check_disks(run: &Run, history: &History) {
    let mut kept_blocks = 0;
    for (i, list) in history.lists.iter().enumerate() {
        let recorded: Vec<(u8, u32)> = list
            .iter()
            .filter_map(|event| match *event {
                Event::Checkpoint { kept, cause, .. } => kept.then_some((cause, history.counts[i])),
                _ => None,
            })
            .collect();
        kept_blocks += recorded.len() as u64 * history.counts[i] as u64;
        assert_eq!(recorded, run.records(i).collect::<Vec<_>>());
    }
    assert_eq!(history.written, run.written());
    assert_eq!(history.deleted, run.deleted());
    assert_eq!(history.written, kept_blocks + history.deleted);
}

/// Counts from the least to the greatest; those that are not in the run are
/// not looked at.
fn any_counts(n: usize, random: &mut Random) -> Counts {
    std::array::from_fn(|i| match random.below(4) {
        _ if i >= n => random.next() as u32,
        0 => 1,
        1 => 65_535,
        _ => 1 + random.below(65_535) as u32,
    })
}

/// The demands on the reported lines and on what is kept.
fn check(run: &Run, history: &History, after_recover: bool, met: &mut Met) {
    let n = run.count();
    check_messages(run, history);
    let states: Vec<Vec<State>> = (0..n).map(|i| history.states(i)).collect();
    let messages = history.received();

    for i in 0..n {
        let kept: Vec<u32> = states[i]
            .iter()
            .filter(|s| s.kept)
            .map(|s| s.index)
            .collect();
        assert_eq!(kept, common::kept(run, i), "kept by pairs and by state");
        assert!(kept.len() <= n, "at most n are kept");
        assert_eq!(states[i].last().unwrap().index, run.own_entry(i));
        assert_eq!(history.known(i), run.vector(i), "by events and by state");
    }
    common::assert_sound(run);

    let best = best_lines(&states, &messages);
    for failed in 0..1 << n {
        let reported = common::line(run, failed as u64);
        assert_eq!(reported, best[failed], "the reported line is the best line");
        for i in 0..n {
            let member = states[i]
                .iter()
                .find(|state| state.index == reported[i])
                .unwrap();
            let has_failed = failed >> i & 1 == 1;
            assert!(member.kept || member.live && !has_failed);
        }
    }
    check_kept(&states, &best, after_recover, met);
}

/// Note 6: "straight after an accepted recovery or sweep, a checkpoint is kept
/// exactly if some non-empty failed set would have it in its best line". After
/// other calls more may be kept; how often is counted.
fn check_kept(states: &[Vec<State>], best: &[Vec<u32>], after_recover: bool, met: &mut Met) {
    for (i, of_one) in states.iter().enumerate() {
        for checkpoint in of_one.iter().filter(|state| !state.live) {
            let used = best[1..].iter().any(|line| line[i] == checkpoint.index);
            if after_recover {
                assert_eq!(
                    checkpoint.kept, used,
                    "kept exactly if some failure would use it"
                );
                met.cleaned += 1;
            } else {
                met.in_vain += (checkpoint.kept && !used) as usize;
            }
        }
    }
}

/// How often each kind of event comes, relative to the others: checkpoint,
/// send, deliver, lose, recover.
const WEIGHTS: [[usize; 5]; 5] = [
    [3, 6, 6, 1, 1],
    [1, 8, 8, 0, 1],
    [6, 6, 6, 1, 0],
    [2, 6, 6, 1, 4],
    [4, 4, 8, 0, 2],
];

fn draw_kind(random: &mut Random, weights: &[usize; 5]) -> usize {
    let mut drawn = random.below(weights.iter().sum());
    for (kind, weight) in weights.iter().enumerate() {
        if drawn < *weight {
            return kind;
        }
        drawn -= weight;
    }
    unreachable!()
}

/// What the calls of several runs met, so that no test passes by meeting
/// nothing.
#[derive(Default)]
struct Met {
    /// All entries that rose.
    risen: u64,
    /// Deliveries by which none rose, and those that forced a checkpoint.
    no_news: usize,
    forced: usize,
    /// Recoveries that lost a message and left one under way, and deliveries of
    /// messages with a rollback since they were sent.
    sifted: usize,
    outlived: usize,
    /// Sweeps, and those that deleted.
    sweeps: usize,
    deleting: usize,
    /// Checkpoints that were judged straight after a recovery or sweep, and
    /// those that were kept after another call though no failure would use them.
    cleaned: usize,
    in_vain: usize,
}

impl Met {
    fn assert_all(&self, n: usize) {
        let everyone = (1 << n) - 1;
        assert_eq!(self.risen, everyone, "every entry rose somewhere");
        assert!(self.no_news > 100, "met {} times", self.no_news);
        assert!(self.forced > 100, "met {} times", self.forced);
        assert!(self.sifted > 100, "met {} times", self.sifted);
        assert!(self.outlived > 300, "met {} times", self.outlived);
        assert!(self.sweeps > 200, "met {} times", self.sweeps);
        assert!(self.deleting > 30, "met {} times", self.deleting);
    }

    /// Where the lines are tried out: what Note 6 says was asked, and does not
    /// hold by itself.
    fn assert_judged(&self) {
        assert!(self.cleaned > 10_000, "met {} times", self.cleaned);
        assert!(self.in_vain > 1_000, "met {} times", self.in_vain);
    }
}

/// One recovery in four is a sweep.
fn any_failed_set(n: usize, random: &mut Random) -> u64 {
    match random.below(4) {
        0 => 0,
        _ => 1 + random.below((1 << n) - 1) as u64,
    }
}

/// Half of the time a number that is under way, else any late one.
fn any_number(history: &History, random: &mut Random) -> u64 {
    let under_way = &history.under_way;
    if !under_way.is_empty() && random.below(2) == 0 {
        return under_way[random.below(under_way.len())];
    }
    history.receivers.len().saturating_sub(random.below(5)) as u64
}

/// One call, drawn at random (some are refused), and its place in the history.
/// Says whether it was a recovery or sweep.
fn step(
    run: &mut Run,
    history: &mut History,
    random: &mut Random,
    weights: &[usize; 5],
    met: &mut Met,
) -> bool {
    let n = run.count();
    let (p, q) = (random.below(n), random.below(n));
    let number = any_number(history, random);
    let mut deletions = [0; DELETIONS];
    let mut line = [0; LINE];
    let kind = draw_kind(random, weights);
    match kind {
        0 => {
            let answer = run.checkpoint(p, &mut deletions).unwrap();
            assert_eq!(history.add_checkpoint(p, 1), answer.index);
            history.delete(&deletions[..2 * answer.deletions]);
        }
        1 => {
            if let Ok(number) = run.send(p, q) {
                assert_eq!(history.add_send(p, q), number);
            }
        }
        2 => {
            let answer = run.deliver(number, &mut deletions);
            assert_eq!(answer.is_ok(), history.under_way.contains(&number));
            if let Ok(answer) = answer {
                let receiver = history.receivers[number as usize - 1];
                let before = history.known(receiver);
                history.add_delivery(number, answer.forced);
                history.delete(&deletions[..2 * answer.deletions]);
                let after = history.known(receiver);
                assert_eq!(answer.rose, set_of_risen(receiver, &before, &after));
                met.risen |= answer.rose;
                met.no_news += (answer.rose == 0) as usize;
                met.forced += answer.forced.is_some() as usize;
                met.outlived += (number <= history.sent_before_rollback) as usize;
            }
        }
        3 => {
            // "Lose, line and every refused call change nothing" in the lists.
            let answer = run.lose(number);
            assert_eq!(answer.is_ok(), history.under_way.contains(&number));
            history.no_longer_under_way(number);
        }
        _ => {
            let failed = any_failed_set(n, random);
            let reported = common::line(run, failed);
            let answer = run.recover(failed, &mut deletions, &mut line).unwrap();
            assert_eq!(
                line[..n],
                reported,
                "recover writes the line that line reports"
            );
            history.delete(&deletions[..2 * answer.deletions]);
            let before = history.under_way.len();
            assert_eq!(history.recover(&line[..n]), answer.rolled_back);
            let after = history.under_way.len();
            met.sifted += (0 < after && after < before) as usize;
            if failed == 0 {
                // Note 4: "nobody rolls back", "Messages under way stay".
                assert_eq!((answer.rolled_back, after), (0, before));
                met.sweeps += 1;
                met.deleting += (answer.deletions > 0) as usize;
            }
        }
    }
    check_disks(run, history);
    kind == 4
}

/// Note 1, by the events alone: whose later interval the receiver knows after
/// a delivery and did not before. Its own is no news, also where a forced
/// checkpoint begins the next one.
fn set_of_risen(receiver: usize, before: &[u32], after: &[u32]) -> u64 {
    (0..before.len())
        .filter(|&f| f != receiver && before[f] < after[f])
        .map(|f| 1 << f)
        .sum()
}

fn brute_force(seed: u64, n: usize, every_step: bool, met: &mut Met) {
    let mut random = Random(seed);
    let weights = WEIGHTS[random.below(WEIGHTS.len())];
    let events = 10 + random.below(16);
    let counts = any_counts(n, &mut random);
    let mut run = Run::start(n, &counts).unwrap();
    let mut history = History::start(n, &counts);
    for _ in 0..events {
        let after_recover = step(&mut run, &mut history, &mut random, &weights, met);
        if every_step || after_recover {
            check(&run, &history, after_recover, met);
        }
    }
    if !every_step {
        check(&run, &history, false, met);
    }
}

#[test]
fn two_processes() {
    let mut met = Met::default();
    for seed in 0..4000 {
        brute_force(seed, 2, true, &mut met);
    }
    met.assert_all(2);
    met.assert_judged();
}

#[test]
fn three_processes() {
    let mut met = Met::default();
    for seed in 0..4000 {
        brute_force(seed, 3, true, &mut met);
    }
    met.assert_all(3);
    met.assert_judged();
}

#[test]
fn four_processes() {
    let mut met = Met::default();
    for seed in 0..6000 {
        brute_force(seed, 4, seed % 4 == 0, &mut met);
    }
    met.assert_all(4);
    met.assert_judged();
}

/// More processes have too many lines: here only what each call answers and
/// what each process knows is held against the history.
#[test]
fn many_processes() {
    let mut met = Met::default();
    for seed in 0..120 {
        let mut random = Random(seed);
        let n = 5 + seed as usize % 12;
        let mut run = Run::start(n, &ONES).unwrap();
        let mut history = History::start(n, &ONES);
        for _ in 0..150 {
            step(&mut run, &mut history, &mut random, &WEIGHTS[1], &mut met);
        }
        for i in 0..n {
            assert_eq!(history.known(i), run.vector(i), "by events and by state");
        }
    }
    met.assert_all(16);
}

// ------------------------------------------------------------------- Note 8

/// Lists of named checkpoints that were tried, those of which one comes causally
/// before another, and lines with a live state in them or a deleted checkpoint.
#[derive(Default)]
struct Earliest {
    lists: usize,
    ordered: usize,
    through_live: usize,
    through_deleted: usize,
}

/// Note 8, for every list that names a kept checkpoint of some of the
/// processes: the line "is consistent by messages, passes through every named
/// one, and is nowhere later than any other consistent line that does", and 20
/// is given exactly where there is no such line.
fn check_earliest(run: &Run, history: &History, met: &mut Earliest) {
    let n = run.count();
    let states: Vec<Vec<State>> = (0..n).map(|i| history.states(i)).collect();
    let messages = history.received();
    // For each list, the least index of each process in any consistent line
    // through all that it names. A list is known by its places: for each process
    // none or a state.
    let mut least: HashMap<Vec<Option<u32>>, Vec<u32>> = HashMap::new();
    for_every_line(&states, |line| {
        if !consistent(line, &messages) {
            return;
        }
        for through in 1..1 << n {
            if (0..n).any(|i| through >> i & 1 == 1 && !line[i].kept) {
                continue;
            }
            let places = |i: usize| (through >> i & 1 == 1).then_some(line[i].index);
            let found = least.entry((0..n).map(places).collect());
            let line: Vec<u32> = line.iter().map(|state| state.index).collect();
            let earliest = found.or_insert(line.clone());
            for i in 0..n {
                earliest[i] = earliest[i].min(line[i]);
            }
        }
    });

    for list in lists_of_kept(&states) {
        let mut named: Vec<Named> = (0..n)
            .filter_map(|process| {
                list[process].map(|index| Named {
                    process,
                    index: index.into(),
                })
            })
            .collect();
        // The order of a list plays no part.
        if met.lists % 2 == 0 {
            named.reverse();
        }
        let mut line = vec![77; n + 1];
        let answer = run.earliest(&named, &mut line);
        met.lists += 1;
        let Some(least) = least.get(&list) else {
            assert_eq!(answer, Err(20), "no consistent line passes through all");
            assert_eq!(line, vec![77; n + 1]);
            met.ordered += 1;
            continue;
        };
        assert_eq!(answer, Ok(()));
        assert_eq!(line[..n], least[..], "nowhere later than another line");
        assert_eq!(line[n], 77, "the rest is unchanged");
        let line: Vec<State> = (0..n)
            .map(|i| {
                let mut states = states[i].iter();
                *states.find(|state| state.index == line[i]).unwrap()
            })
            .collect();
        assert!(consistent(&line, &messages));
        for one in &named {
            assert_eq!(
                u64::from(line[one.process].index),
                one.index,
                "passes through it"
            );
        }
        met.through_live += line.iter().any(|state| state.live) as usize;
        met.through_deleted += line.iter().any(|state| !state.live && !state.kept) as usize;
    }
}

/// Every choice of one kept checkpoint or none for each process, not none for
/// all.
fn lists_of_kept(states: &[Vec<State>]) -> Vec<Vec<Option<u32>>> {
    let mut lists = vec![Vec::new()];
    for of_one in states {
        let kept = of_one.iter().filter(|state| state.kept);
        let choices: Vec<Option<u32>> = [None]
            .into_iter()
            .chain(kept.map(|state| Some(state.index)))
            .collect();
        lists = lists
            .iter()
            .flat_map(|list| {
                choices
                    .iter()
                    .map(|choice| [&list[..], &[*choice]].concat())
            })
            .collect();
    }
    lists.retain(|list| list.iter().any(|place| place.is_some()));
    lists
}

#[test]
fn earliest_lines() {
    for n in 2..=4 {
        let mut met = Earliest::default();
        for seed in 0..2500 {
            let mut random = Random(seed);
            let weights = WEIGHTS[random.below(WEIGHTS.len())];
            let mut run = Run::start(n, &ONES).unwrap();
            let mut history = History::start(n, &ONES);
            for _ in 0..10 + random.below(16) {
                let calls = &mut Met::default();
                step(&mut run, &mut history, &mut random, &weights, calls);
                if n < 4 || seed % 4 == 0 {
                    check_earliest(&run, &history, &mut met);
                }
            }
            check_earliest(&run, &history, &mut met);
        }
        assert!(met.lists > 100_000, "{} lists", met.lists);
        assert!(met.ordered > 2_000, "met {} times", met.ordered);
        assert!(met.through_live > 2_000, "met {} times", met.through_live);
        let deleted = met.through_deleted;
        assert!(deleted > 30_000, "met {deleted} times");
    }
}

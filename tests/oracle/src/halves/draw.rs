//! Random pairs of halves by seed (Note 12): runs split by process, whole or
//! damaged. Nothing is known here of how they are merged.

use crate::generate::Random;

/// The most records that a half may have.
const MOST: usize = 4096;

const CHECKPOINT: u32 = 0;
const SEND: u32 = 1;
const DELIVER: u32 = 2;
const LOSE: u32 = 3;
const RECOVER: u32 = 4;

/// Two halves, and which processes belong to the first. Where nothing is
/// damaged, also the plain trace of the run that was split.
pub struct Halves {
    pub first: Vec<u8>,
    pub second: Vec<u8>,
    pub set: u32,
    /// The set in decimal, as a program is handed it. Of damaged halves it may be
    /// another one, of many digits.
    pub word: String,
    pub whole: Option<Vec<u8>>,
}

/// The halves of a seed: three in eight whole, the others damaged in one way or
/// more.
pub fn drawn(seed: u64) -> Halves {
    let mut random = Random::of_seed(seed);
    if random.below(8) < 3 {
        return whole(&mut random);
    }
    let mut halves = run_of(&mut random).split();
    for _ in 0..random.one_of(&[1, 1, 1, 2, 3]) {
        halves.damage(&mut random);
    }
    Halves {
        first: halves.bytes(0),
        second: halves.bytes(1),
        set: halves.set,
        word: halves.word.unwrap_or(halves.set.to_string()),
        whole: None,
    }
}

/// The halves of a seed, none damaged.
pub fn drawn_whole(seed: u64) -> Halves {
    whole(&mut Random::of_seed(seed))
}

fn whole(random: &mut Random) -> Halves {
    let run = run_of(random);
    let plain = run.plain();
    let halves = run.split();
    Halves {
        first: halves.bytes(0),
        second: halves.bytes(1),
        set: halves.set,
        word: zeros(random) + &halves.set.to_string(),
        whole: Some(plain),
    }
}

/// Mostly none: a number is the same with zeros before it.
fn zeros(random: &mut Random) -> String {
    "0".repeat(random.one_of(&[0, 0, 0, 0, 0, 1, 5, 40]))
}

// ------------------------------------------------------------------ a run

#[derive(Clone, Copy)]
enum Event {
    Checkpoint(u32),
    Send { sender: u32, receiver: u32 },
    Deliver(Message),
    Lose(Message),
}

#[derive(Clone, Copy)]
struct Message {
    /// Run-wide.
    number: u32,
    sender: u32,
    /// Of its sender, from 1.
    running: u32,
    receiver: u32,
}

struct Run {
    n: u32,
    set: u32,
    events: Vec<Event>,
}

/// A run of one count of processes, mostly short. At most 60 sends, or rarely
/// more: a merge can have every message of one half under way at once.
fn run_of(random: &mut Random) -> Run {
    let n = random.one_of(&[1, 2, 2, 3, 3, 4, 5, 8, 16, 16]);
    let set = random.below(1 << n);
    let (length, most_sends) = match random.below(64) {
        0 => (6000 + random.below(3000), 4000),
        1..=4 => (random.below(400), 400),
        5..=24 => (random.below(13), 60),
        _ => (random.below(160), 60),
    };
    let (send, deliver) = random.one_of(&[(2, 2), (2, 3), (1, 4), (3, 1)]);
    let mut sent = [0; 16];
    let mut sends = 0;
    let mut under_way: Vec<Message> = Vec::new();
    let mut events = Vec::new();
    for _ in 0..length {
        let process = random.below(n);
        let drawn = random.below(1 + send + deliver);
        if drawn == 0 {
            events.push(Event::Checkpoint(process));
        } else if drawn <= deliver && !under_way.is_empty() {
            let place = random.below(under_way.len() as u32) as usize;
            let message = under_way.remove(place);
            let lost = random.once_in(8);
            events.push(if lost {
                Event::Lose(message)
            } else {
                Event::Deliver(message)
            });
        } else if n > 1 && sends < most_sends && under_way.len() < 64 {
            let receiver = (process + 1 + random.below(n - 1)) % n;
            sends += 1;
            sent[process as usize] += 1;
            under_way.push(Message {
                number: sends,
                sender: process,
                running: sent[process as usize],
                receiver,
            });
            events.push(Event::Send {
                sender: process,
                receiver,
            });
        }
    }
    Run { n, set, events }
}

fn record(kind: u32, process: u32, argument: u32) -> u32 {
    kind << 29 | process << 25 | argument
}

impl Run {
    /// The run as a plain trace.
    fn plain(&self) -> Vec<u8> {
        let mut bytes = vec![self.n as u8];
        for event in &self.events {
            let record = match *event {
                Event::Checkpoint(process) => record(CHECKPOINT, process, 0),
                Event::Send { sender, receiver } => record(SEND, sender, receiver),
                Event::Deliver(message) => record(DELIVER, 0, message.number),
                Event::Lose(message) => record(LOSE, 0, message.number),
            };
            bytes.extend(record.to_be_bytes());
        }
        bytes
    }

    /// Each event goes to the half of its process; a delivery's and a loss's is
    /// the receiver.
    fn split(&self) -> Split {
        let mut records = [Vec::new(), Vec::new()];
        for event in &self.events {
            let (process, record) = match *event {
                Event::Checkpoint(process) => (process, record(CHECKPOINT, process, 0)),
                Event::Send { sender, receiver } => (sender, record(SEND, sender, receiver)),
                Event::Deliver(message) => (message.receiver, message.record(DELIVER)),
                Event::Lose(message) => (message.receiver, message.record(LOSE)),
            };
            let half = if self.set >> process & 1 == 1 { 0 } else { 1 };
            records[half].push(record);
        }
        Split {
            n: self.n,
            set: self.set,
            word: None,
            first_bytes: [Some(self.n as u8); 2],
            records,
            left_over: [Vec::new(), Vec::new()],
        }
    }
}

impl Message {
    fn record(&self, kind: u32) -> u32 {
        record(kind, 0, self.sender << 21 | self.running)
    }
}

// ------------------------------------------------------------------ damage

/// The halves of a run while they are damaged.
struct Split {
    n: u32,
    set: u32,
    word: Option<String>,
    first_bytes: [Option<u8>; 2],
    records: [Vec<u32>; 2],
    left_over: [Vec<u8>; 2],
}

impl Split {
    /// A half without a first byte has nothing.
    fn bytes(&self, half: usize) -> Vec<u8> {
        let Some(first) = self.first_bytes[half] else {
            return Vec::new();
        };
        let mut bytes = vec![first];
        for record in &self.records[half] {
            bytes.extend(record.to_be_bytes());
        }
        bytes.extend(&self.left_over[half]);
        bytes
    }

    fn damage(&mut self, random: &mut Random) {
        let half = random.below(2) as usize;
        match random.below(21) {
            0 => self.first_bytes[half] = None,
            1 => self.first_bytes[half] = Some(random.one_of(&[0, 17, 255])),
            2 => self.first_bytes[half] = Some(1 + random.below(16) as u8),
            3 => self.set |= 1 << (self.n + random.below(32 - self.n)),
            4 => self.set = random.below(1 << 16),
            5 => self.left_over[half] = vec![random.below(256) as u8; 1 + random.below(3) as usize],
            6 => self.lengthen(random, half),
            7 => self.move_record(random, half),
            8 => self.swap_records(random, half),
            9 => self.drop_record(random, half),
            10 => self.records.swap(0, 1),
            11 => self.word = Some(self.any_word(random)),
            _ => self.insert_bad_record(random, half),
        }
    }

    /// The set, or one that has the same bits below 16 and any above, or many
    /// digits.
    fn any_word(&self, random: &mut Random) -> String {
        let set = u64::from(self.set);
        let high = u64::from(random.below(1 << 20)) << random.one_of(&[16, 20, 32, 44]);
        let digits = random.one_of(&[5, 6, 9, 10, 11, 19, 20, 30, 80]);
        let number = match random.below(3) {
            0 => set.to_string(),
            1 => (high | set).to_string(),
            _ => (0..digits)
                .map(|_| char::from(b'0' + random.below(10) as u8))
                .collect(),
        };
        zeros(random) + &number
    }

    /// Checkpoints at the end, up to 4,095 to 4,097 records, or far more.
    fn lengthen(&mut self, random: &mut Random, half: usize) {
        let process = (0..self.n).find(|p| (self.set >> p & 1 == 1) == (half == 0));
        let length = random.one_of(&[MOST - 1, MOST, MOST, MOST + 1, MOST + 1, 5 * MOST]);
        let padding = record(CHECKPOINT, process.unwrap_or(0), 0);
        let records = &mut self.records[half];
        records.resize(length.max(records.len()), padding);
    }

    fn any_place(&self, random: &mut Random, half: usize) -> Option<usize> {
        let length = self.records[half].len() as u32;
        (length > 0).then(|| random.below(length) as usize)
    }

    /// To the other half, anywhere.
    fn move_record(&mut self, random: &mut Random, half: usize) {
        if let Some(place) = self.any_place(random, half) {
            let record = self.records[half].remove(place);
            let other = &mut self.records[1 - half];
            let place = random.below(other.len() as u32 + 1) as usize;
            other.insert(place, record);
        }
    }

    /// Two records of a half change places: perhaps neither half is ready then.
    fn swap_records(&mut self, random: &mut Random, half: usize) {
        for _ in 0..1 + random.below(4) {
            let places = (self.any_place(random, half), self.any_place(random, half));
            if let (Some(one), Some(other)) = places {
                self.records[half].swap(one, other);
            }
        }
    }

    /// Where it was a send, the last of its sender's messages is never sent.
    fn drop_record(&mut self, random: &mut Random, half: usize) {
        if let Some(place) = self.any_place(random, half) {
            self.records[half].remove(place);
        }
    }

    fn insert_bad_record(&mut self, random: &mut Random, half: usize) {
        let place = random.below(self.records[half].len() as u32 + 1) as usize;
        let inside = random.below(self.n);
        let outside = self.n + random.below(16);
        let any = random.below(1 << 25);
        let bad = match random.below(14) {
            0 => record(RECOVER, 0, random.below(1 << self.n)),
            1 => record(5 + random.below(3), random.below(16), any),
            2 => record(CHECKPOINT, inside, 1 + random.below((1 << 25) - 1)),
            // A delivery or loss of a message that was perhaps sent: twice, or
            // with a process that is not zero.
            3 | 4 => {
                let running = 1 + random.below(4);
                let kind = random.one_of(&[DELIVER, LOSE]);
                let process = random.one_of(&[0, 0, 1, 15]);
                record(kind, process, inside << 21 | running)
            }
            5 => record(CHECKPOINT, outside.min(15), 0),
            6 => record(SEND, outside.min(15), random.one_of(&[0, outside.min(15)])),
            7 => record(SEND, inside, outside),
            8 => record(SEND, inside, 1 << 16 | inside),
            9 => record(SEND, inside, inside),
            // Of any process: perhaps of the other half.
            10 => record(CHECKPOINT, inside, 0),
            11 if self.n > 1 => {
                let receiver = (inside + 1 + random.below(self.n - 1)) % self.n;
                record(SEND, inside, receiver)
            }
            // Never sent: count 0, a late count, a sender that is no process.
            12 => {
                let running = random.one_of(&[0, 5000, (1 << 21) - 1]);
                let sender = random.one_of(&[inside, outside.min(15)]);
                let process = random.one_of(&[0, 0, 3]);
                record(
                    random.one_of(&[DELIVER, LOSE]),
                    process,
                    sender << 21 | running,
                )
            }
            _ => record(random.one_of(&[DELIVER, LOSE]), 0, any),
        };
        self.records[half].insert(place, bad);
    }
}

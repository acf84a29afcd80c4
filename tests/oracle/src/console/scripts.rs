//! Random scripts of console calls by seed (Note 13); `console` says how a script
//! is laid out. Nothing is known here of who may do what, nor of the rules of a
//! run.

use crate::generate::Random;

const CHECKPOINT: u32 = 0;
const SEND: u32 = 1;
const DELIVER: u32 = 2;
const LOSE: u32 = 3;
const RECOVER: u32 = 4;
const LINE: u32 = 5;
const EARLIEST: u32 = 6;
const LIST: u32 = 7;
const COUNTS: u32 = 8;
const START: u32 = 9;

/// How often each operation comes, but the start.
const OPERATIONS: [u32; 22] = [
    CHECKPOINT, CHECKPOINT, CHECKPOINT, SEND, SEND, SEND, SEND, SEND, DELIVER, DELIVER, DELIVER,
    DELIVER, DELIVER, LOSE, RECOVER, LINE, LINE, EARLIEST, LIST, LIST, COUNTS, COUNTS,
];

/// The script of a seed: an operator, two owners and a viewer; calls that are
/// mostly good, and some that are denied or refused.
pub fn script(seed: u64) -> Vec<u8> {
    let mut random = Random::of_seed(seed);
    let count = match random.below(40) {
        0 => return Vec::new(),
        1 => random.one_of(&[0, 17, 255]),
        _ => random.one_of(&[1, 2, 2, 3, 3, 4, 5, 8, 16]),
    };
    // Mostly every process is one of the two owners'.
    let one = random.below(1 << 16);
    let other = random.below(1 << 16);
    let owners = [one, random.one_of(&[!one & 0xFFFF, other])];
    let mut script = Script {
        random,
        n: count.clamp(1, 16),
        owners,
        sends: 0,
        under_way: Vec::new(),
        bytes: vec![count as u8],
    };
    // One in 24 first sends until too many are under way.
    if script.random.once_in(24) {
        for _ in 0..100 {
            script.call(SEND);
        }
    }
    // One in 600 first takes a process to the last entry that there is.
    if script.random.once_in(600) {
        let process = script.random.below(script.n);
        for _ in 0..65_534 {
            script.write_plain(OPERATOR, 0, CHECKPOINT, process, 0);
        }
        script.write_plain(OPERATOR, 0, LINE, 0, 0);
        script.write_plain(OPERATOR, 0, CHECKPOINT, process, 0);
    }
    for _ in 0..script.random.one_of(&[5, 40, 120, 120]) {
        let operation = match script.random.once_in(64) {
            true => START,
            false => script.random.one_of(&OPERATIONS),
        };
        script.call(operation);
    }
    let left_over = script.random.one_of(&[0, 0, 0, 0, 1, 4, 7]);
    for _ in 0..left_over {
        let byte = script.random.below(256);
        script.bytes.push(byte as u8);
    }
    script.bytes
}

const OPERATOR: u32 = 0;
const OWNER: u32 = 1;
const VIEWER: u32 = 2;

struct Script {
    random: Random,
    n: u32,
    owners: [u32; 2],
    /// The messages that were sent since the last start, if no send was refused.
    sends: u32,
    /// Those of them that are under way, if nothing was refused: number and
    /// receiver.
    under_way: Vec<(u32, u32)>,
    bytes: Vec<u8>,
}

impl Script {
    fn call(&mut self, operation: u32) {
        match operation {
            CHECKPOINT => {
                let (role, set, process) = self.caller_and_process();
                self.write(role, set, operation, process, 0);
            }
            SEND => self.send(),
            DELIVER | LOSE => self.deliver_or_lose(operation),
            RECOVER | LINE => {
                let role = match operation {
                    RECOVER => self.random.one_of(&[OPERATOR, OPERATOR, OWNER, VIEWER]),
                    _ => self.random.one_of(&[OPERATOR, OWNER, OWNER, OWNER, VIEWER]),
                };
                let set = self.random.one_of(&self.owners);
                let some = self.random.below(1 << self.n);
                let one = 1 << self.random.below(16);
                let any = self.random.below(1 << 16);
                let failed = self.random.one_of(&[some, some, some, some, 0, one, any]);
                self.write(role, set, operation, 0, failed);
            }
            EARLIEST => {
                let role = self.random.one_of(&[OPERATOR, OPERATOR, OWNER, VIEWER]);
                let (_, set, process) = self.caller_and_process();
                let any = self.random.below(1 << 16);
                let near = self.random.below(6);
                let index = self.random.one_of(&[near, near, near, any, 65_535]);
                self.write(role, set, operation, process, index);
            }
            LIST => {
                let role = self.random.one_of(&[OPERATOR, OWNER, OWNER, OWNER, VIEWER]);
                let set = self.random.one_of(&self.owners);
                self.write(role, set, operation, 0, 0);
            }
            COUNTS => {
                let role = self.random.one_of(&[OPERATOR, OWNER, VIEWER, VIEWER, 77]);
                self.write(role, 0xFFFF, operation, 0, 0);
            }
            _ => self.start(),
        }
    }

    /// An operator or an owner, and mostly a process that is its own.
    fn caller_and_process(&mut self) -> (u32, u32, u32) {
        let role = self.random.one_of(&[OPERATOR, OWNER, OWNER, OWNER]);
        let set = self.random.one_of(&self.owners);
        let own: Vec<u32> = (0..self.n).filter(|p| set >> p & 1 == 1).collect();
        let process = match self.random.below(16) {
            0 => self.random.below(256),
            1 => self.random.below(self.n),
            _ if role == OWNER && !own.is_empty() => self.random.one_of(&own),
            _ => self.random.below(self.n),
        };
        let role = if self.random.once_in(24) {
            VIEWER
        } else {
            role
        };
        (role, set, process)
    }

    fn send(&mut self) {
        let (role, set, sender) = self.caller_and_process();
        let (n, any) = (self.n, self.random.below(1 << 24));
        let next = (sender + 1 + self.random.below(n.max(2) - 1)) % n;
        let receiver = match self.random.below(16) {
            0 => self.random.one_of(&[n, sender, any]),
            _ => next,
        };
        let may = role == OPERATOR || role == OWNER && sender < 16 && set >> sender & 1 == 1;
        if may && sender < n && receiver < n && sender != receiver && self.under_way.len() < 64 {
            self.sends += 1;
            self.under_way.push((self.sends, receiver));
        }
        self.write(role, set, SEND, sender, receiver);
    }

    /// Mostly by the operator or by the owner of the receiver.
    fn deliver_or_lose(&mut self, operation: u32) {
        let any = self.random.below(1 << 24);
        let drawn = self.random.below(self.sends + 2);
        let other = self.random.one_of(&[drawn, drawn, any]);
        let set = self.random.one_of(&self.owners);
        let role = self.random.one_of(&[OPERATOR, OWNER, OWNER, OWNER]);
        if self.under_way.is_empty() || self.random.once_in(8) {
            return self.write(role, set, operation, 0, other);
        }
        let place = self.random.below(self.under_way.len() as u32) as usize;
        let (number, receiver) = self.under_way[place];
        let mut owners = self.owners.into_iter();
        let owner = owners.find(|owner| owner >> receiver & 1 == 1);
        let set = match (self.random.once_in(8), owner) {
            (false, Some(owner)) => owner,
            _ => set,
        };
        if role == OPERATOR || set >> receiver & 1 == 1 {
            self.under_way.remove(place);
        }
        self.write(role, set, operation, 0, number);
    }

    fn start(&mut self) {
        let role = self.random.one_of(&[OPERATOR, OPERATOR, OWNER, VIEWER]);
        let count = self.random.one_of(&[0, 1, 3, 16, 17, self.n]);
        if role == OPERATOR && (1..=16).contains(&count) {
            self.n = count;
            self.sends = 0;
            self.under_way.clear();
        }
        self.write(role, 0xFFFF, START, count, 0);
    }

    /// One call in 24 comes with lists that are too short, one in 32 with a byte
    /// that is perhaps not what it must be.
    fn write(&mut self, role: u32, set: u32, operation: u32, process: u32, argument: u32) {
        let short_lists = if self.random.once_in(24) { 128 } else { 0 };
        self.write_plain(short_lists + role, set, operation, process, argument);
        if self.random.once_in(32) {
            let any = 1 + self.random.below(255);
            let byte = self.random.one_of(&[1, 2, 9, 10, 14, 128, any]);
            let place = self.random.one_of(&[3, 3, 4, 5, 5, 6, 7]);
            let start = self.bytes.len() - 8;
            self.bytes[start + place] = byte as u8;
        }
    }

    fn write_plain(&mut self, who: u32, set: u32, operation: u32, process: u32, argument: u32) {
        self.bytes.push(who as u8);
        self.bytes.extend((set as u16).to_be_bytes());
        self.bytes.extend([operation as u8, process as u8]);
        self.bytes.extend(&argument.to_be_bytes()[1..]);
    }
}

//! Note 7: is the trace of another run-time trackable?
//!
//! Plainly by the definitions of source document 001, "Optimal Asynchronous
//! Garbage Collection for RDT Checkpointing Protocols": from each checkpoint a
//! search over messages for zigzag paths and a search over events for causal
//! precedence. It shares nothing with `run` and `replay`, and has no vectors.

use std::fmt;

/// "17, after the first byte is judged, for more than 4,096 records."
pub const MAX_RECORDS: usize = 4096;

const MAX_PROCESSES: usize = 16;
const MAX_UNDER_WAY: usize = 64;

mod refusal {
    pub const COUNT_OUTSIDE: u8 = 1;
    pub const NO_SUCH_PROCESS: u8 = 4;
    pub const SENDER_IS_RECEIVER: u8 = 5;
    pub const NOT_UNDER_WAY: u8 = 8;
    pub const TOO_MANY_UNDER_WAY: u8 = 9;
    pub const NO_FIRST_BYTE: u8 = 12;
    pub const BYTES_LEFT_OVER: u8 = 13;
    pub const BAD_RECORD: u8 = 14;
    pub const TOO_MANY_RECORDS: u8 = 17;
}
use refusal::*;

/// A checkpoint, or the live end state, whose index is one above the last
/// checkpoint's.
#[derive(Clone, Copy, Debug, PartialEq, Eq)]
pub struct State {
    pub process: usize,
    pub index: usize,
}

#[derive(Clone, Copy, Debug, PartialEq, Eq)]
pub enum Verdict {
    Trackable,
    /// "If not, it names the first pair that breaks this, by process and index
    /// of the near end, then of the far end".
    Breaks {
        near: State,
        far: State,
    },
    Refused(u8),
}

/// The one line of the program `judge`.
impl fmt::Display for Verdict {
    fn fmt(&self, line: &mut fmt::Formatter) -> fmt::Result {
        match self {
            Verdict::Trackable => write!(line, "trackable"),
            Verdict::Breaks { near, far } => write!(
                line,
                "breaks {}:{} {}:{}",
                near.process, near.index, far.process, far.index
            ),
            Verdict::Refused(number) => write!(line, "refused {number}"),
        }
    }
}

/// "A new part reads such a trace (kinds 0 to 3) and says whether it is
/// trackable".
pub fn judge(trace: &[u8]) -> Verdict {
    match read(trace) {
        Err(number) => Verdict::Refused(number),
        Ok(pattern) => match pattern.first_break() {
            None => Verdict::Trackable,
            Some((near, far)) => Verdict::Breaks { near, far },
        },
    }
}

// ---------------------------------------------------------------- the trace

/// An event of a process. Messages are named by their number less 1.
#[derive(Clone, Copy, Debug, PartialEq, Eq)]
enum Event {
    Checkpoint,
    Sent(usize),
    Received(usize),
    /// The live state: it stands at the end of its list.
    Live,
}

/// An event by its process and its place in the process's list.
type Place = (usize, usize);

#[derive(Clone, Copy, Debug, PartialEq, Eq)]
enum Fate {
    UnderWay,
    Lost,
    Received(Place),
}

struct Message {
    receiver: usize,
    fate: Fate,
}

/// The events of each process, and what became of each message: 001's
/// "Checkpoint and Communication Pattern".
struct Pattern {
    lists: Vec<Vec<Event>>,
    messages: Vec<Message>,
}

fn read(trace: &[u8]) -> Result<Pattern, u8> {
    let (first, rest) = trace.split_first().ok_or(NO_FIRST_BYTE)?;
    let count = *first as usize;
    if !(1..=MAX_PROCESSES).contains(&count) {
        return Err(COUNT_OUTSIDE);
    }
    let records = rest.chunks_exact(4);
    if records.len() > MAX_RECORDS {
        return Err(TOO_MANY_RECORDS);
    }
    let left_over = records.remainder();

    // Each process starts with checkpoint 0.
    let mut pattern = Pattern {
        lists: vec![vec![Event::Checkpoint]; count],
        messages: Vec::new(),
    };
    // "the first one refused ends the reading and its number is the result."
    for bytes in records {
        pattern.take(u32::from_be_bytes([bytes[0], bytes[1], bytes[2], bytes[3]]))?;
    }
    // "Left-over bytes are judged after the last record."
    if !left_over.is_empty() {
        return Err(BYTES_LEFT_OVER);
    }
    for list in &mut pattern.lists {
        list.push(Event::Live);
    }
    Ok(pattern)
}

impl Pattern {
    /// "Records are judged by the refusals of document 01". Of these, 10 and 11
    /// need more records than there may be.
    fn take(&mut self, record: u32) -> Result<(), u8> {
        let kind = record >> 29;
        let process = (record >> 25 & 0b1111) as usize;
        let argument = (record & 0x1FF_FFFF) as usize;
        // "14: unused kind, or a field that must be zero is not; given before
        // any other number for that record." "A record of kind 4 is refused
        // with 14."
        let well_formed = match kind {
            0 => argument == 0,
            1 => true,
            2 | 3 => process == 0,
            _ => false,
        };
        if !well_formed {
            return Err(BAD_RECORD);
        }
        match kind {
            0 => self.take_checkpoint(process),
            1 => self.take_send(process, argument),
            2 => self.take_delivery(argument),
            _ => self.take_loss(argument),
        }
    }

    fn take_checkpoint(&mut self, process: usize) -> Result<(), u8> {
        let list = self.lists.get_mut(process).ok_or(NO_SUCH_PROCESS)?;
        list.push(Event::Checkpoint);
        Ok(())
    }

    fn take_send(&mut self, sender: usize, receiver: usize) -> Result<(), u8> {
        if sender >= self.lists.len() || receiver >= self.lists.len() {
            return Err(NO_SUCH_PROCESS);
        }
        if sender == receiver {
            return Err(SENDER_IS_RECEIVER);
        }
        let is_under_way = |message: &&Message| message.fate == Fate::UnderWay;
        if self.messages.iter().filter(is_under_way).count() == MAX_UNDER_WAY {
            return Err(TOO_MANY_UNDER_WAY);
        }
        self.lists[sender].push(Event::Sent(self.messages.len()));
        self.messages.push(Message {
            receiver,
            fate: Fate::UnderWay,
        });
        Ok(())
    }

    /// "No delivery forces here."
    fn take_delivery(&mut self, number: usize) -> Result<(), u8> {
        let message = self.find_under_way(number)?;
        let receiver = self.messages[message].receiver;
        let place = self.lists[receiver].len();
        self.lists[receiver].push(Event::Received(message));
        self.messages[message].fate = Fate::Received((receiver, place));
        Ok(())
    }

    fn take_loss(&mut self, number: usize) -> Result<(), u8> {
        let message = self.find_under_way(number)?;
        self.messages[message].fate = Fate::Lost;
        Ok(())
    }

    fn find_under_way(&self, number: usize) -> Result<usize, u8> {
        let message = number.checked_sub(1).ok_or(NOT_UNDER_WAY)?;
        match self.messages.get(message) {
            Some(found) if found.fate == Fate::UnderWay => Ok(message),
            _ => Err(NOT_UNDER_WAY),
        }
    }
}

// ------------------------------------------------------------- the verdict

impl Pattern {
    /// "each zigzag path, as source document 001 defines it, between two
    /// checkpoints goes with causal precedence from the one to the other. Live
    /// end states count as far ends." The first pair for which it does not.
    fn first_break(&self) -> Option<(State, State)> {
        for process in 0..self.lists.len() {
            for (index, place) in self.checkpoints(process) {
                let near = State { process, index };
                if let Some(far) = self.first_break_from((process, place)) {
                    return Some((near, far));
                }
            }
        }
        None
    }

    /// The first far end of a zigzag path from the checkpoint in this place
    /// that the checkpoint does not causally precede.
    fn first_break_from(&self, near: Place) -> Option<State> {
        let on_path = self.on_zigzag_paths_from(near);
        let preceded = self.causally_preceded_by(near);
        for process in 0..self.lists.len() {
            // "(iii) p_b receives m_k before c_b"
            let mut received = false;
            let mut index = 0;
            for (place, event) in self.lists[process].iter().enumerate() {
                match event {
                    Event::Sent(_) => {}
                    Event::Received(message) => received |= on_path[*message],
                    Event::Checkpoint | Event::Live => {
                        if received && !preceded[process][place] {
                            return Some(State { process, index });
                        }
                        index += 1;
                    }
                }
            }
        }
        None
    }

    /// The checkpoints of a process with their places, the live state not
    /// among them.
    fn checkpoints(&self, process: usize) -> impl Iterator<Item = (usize, usize)> + '_ {
        let places = self.lists[process].iter().enumerate();
        places
            .filter(|(_, event)| **event == Event::Checkpoint)
            .map(|(place, _)| place)
            .enumerate()
    }

    /// Which messages are the last of a zigzag path (001, definition 3) that
    /// starts at this checkpoint. A message that was not received is on no path:
    /// the pattern is formed "excluding lost and in-transit messages".
    fn on_zigzag_paths_from(&self, (process, checkpoint): Place) -> Vec<bool> {
        let mut on_path = vec![false; self.messages.len()];
        // From which place on every message that a process sent is on a path,
        // and places that are still to be looked at.
        let mut sent_from: Vec<usize> = self.lists.iter().map(|list| list.len()).collect();
        // "(i) p_a sends m_1 after c_a"
        let mut to_follow = vec![(process, checkpoint)];
        while let Some((process, from)) = to_follow.pop() {
            for place in from..sent_from[process] {
                let Event::Sent(message) = self.lists[process][place] else {
                    continue;
                };
                if let Fate::Received(received) = self.messages[message].fate {
                    on_path[message] = true;
                    // "(ii) if m_i [...] is received by p_c, then m_(i+1) is
                    // sent by p_c in the same or a later checkpoint interval"
                    to_follow.push(self.start_of_interval(received));
                }
            }
            sent_from[process] = from.min(sent_from[process]);
        }
        on_path
    }

    /// The last checkpoint before this place: the interval is "the set of
    /// events occurred [...] between checkpoints".
    fn start_of_interval(&self, (process, place): Place) -> Place {
        let before = &self.lists[process][..place];
        let checkpoint = before.iter().rposition(|event| *event == Event::Checkpoint);
        (process, checkpoint.expect("checkpoint 0 is first"))
    }

    /// Which events this one causally precedes (001, definition 1).
    fn causally_preceded_by(&self, event: Place) -> Vec<Vec<bool>> {
        let lists = self.lists.iter();
        let mut preceded: Vec<Vec<bool>> = lists.map(|list| vec![false; list.len()]).collect();
        let mut to_follow = vec![event];
        while let Some((process, place)) = to_follow.pop() {
            let mut follow = |(process, place): Place| {
                if !preceded[process][place] {
                    preceded[process][place] = true;
                    to_follow.push((process, place));
                }
            };
            // The next one of its process, and the receipt of what it sent.
            if place + 1 < self.lists[process].len() {
                follow((process, place + 1));
            }
            if let Event::Sent(message) = self.lists[process][place] {
                if let Fate::Received(received) = self.messages[message].fate {
                    follow(received);
                }
            }
        }
        preceded
    }
}

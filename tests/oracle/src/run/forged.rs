//! Whole states, sound or not, and a run from any sound one: also from a state
//! that no calls from a start leave. "2: a state that is not sound".

use super::{
    Checkpoint, Entry, Kept, Message, Pins, Run, Vector, LAST_MESSAGE_NUMBER, MAX_PROCESSES,
    MAX_STORED, MAX_UNDER_WAY, MOST_BLOCKS_EACH, MOST_WRITTEN, NO_CHECKPOINT, NO_MESSAGE,
};

/// A kept checkpoint as a state has it, whatever its numbers.
#[derive(Clone, Copy, Debug, PartialEq, Eq)]
pub struct Stored {
    pub index: Entry,
    pub vector: Vector,
    pub cause: Entry,
    pub blocks: u32,
}

/// What a state has of one process.
#[derive(Clone, Debug, PartialEq, Eq)]
pub struct Process {
    pub vector: Vector,
    pub pins: Pins,
    pub sent: bool,
    /// How many checkpoints it is said to keep.
    pub held: u64,
    /// The places of those, as far as there are places. None: nothing is stored
    /// in the place.
    pub kept: Vec<Option<Stored>>,
}

/// A state of a whole run, whatever its numbers. Nothing of a process at n or
/// above is in it: those places are not used.
#[derive(Clone, Debug, PartialEq, Eq)]
pub struct State {
    pub count: u64,
    pub processes: Vec<Process>,
    pub messages: Vec<Message>,
    /// How many messages are said to be under way.
    pub under_way: u64,
    pub last_number: u64,
    pub written: u64,
    pub deleted: u64,
}

/// "A sound state", sentence by sentence.
impl State {
    pub fn is_sound(&self) -> bool {
        // "Count 1 to 16."
        let most = MAX_PROCESSES as u64;
        if self.count < 1 || self.count > most || self.processes.len() as u64 != self.count {
            return false;
        }
        // "Own entries at least 1."
        let own: Vec<Entry> = (0..self.processes.len())
            .map(|p| self.processes[p].vector[p])
            .collect();
        own.iter().all(|entry| *entry >= 1)
            && (0..own.len()).all(|p| self.processes[p].is_sound(p, &own))
            && self.are_messages_sound(&own)
            && self.are_blocks_sound()
    }

    /// "Messages ascend by number, from 1 to the last used, at most 64; sender
    /// and receiver are in the run and differ. The last used number is at most
    /// 1,000,000." Those that are said to be under way are all there are.
    fn are_messages_sound(&self, own: &[Entry]) -> bool {
        let ascend = self
            .messages
            .windows(2)
            .all(|two| two[0].number < two[1].number);
        let sound = |message: &Message| {
            (1..=self.last_number).contains(&message.number)
                && message.sender < own.len()
                && message.receiver < own.len()
                && message.sender != message.receiver
                && is_within(&message.carried, own)
        };
        ascend
            && self.messages.iter().all(sound)
            && self.messages.len() <= MAX_UNDER_WAY
            && self.messages.len() as u64 == self.under_way
            && self.last_number <= LAST_MESSAGE_NUMBER
    }

    /// Note 5: "written equals blocks of all kept checkpoints plus blocks
    /// deleted", "that sum, within the bound of 16."
    fn are_blocks_sound(&self) -> bool {
        let kept = self.processes.iter().flat_map(|process| &process.kept);
        let blocks: u128 = kept.flatten().map(|one| u128::from(one.blocks)).sum();
        u128::from(self.written) == blocks + u128::from(self.deleted)
            && self.written <= MOST_WRITTEN
    }
}

impl Process {
    /// The sentences on process p.
    fn is_sound(&self, p: usize, own: &[Entry]) -> bool {
        // "Each process keeps 1 to n checkpoints".
        let count = own.len();
        if self.held < 1 || self.held > count as u64 || self.kept.len() as u64 != self.held {
            return false;
        }
        let Some(kept) = self.kept.iter().copied().collect::<Option<Vec<Stored>>>() else {
            return false;
        };
        // "indexes ascending, each one's own entry equal to its index; the last
        // is the own entry minus 1 and the own pin names it."
        let ascending = kept.windows(2).all(|two| two[0].index < two[1].index);
        let last = kept[kept.len() - 1].index;
        if !ascending || last + 1 != own[p] || self.pins[p] != Some(last) {
            return false;
        }
        // "Every pin is none or names a kept one; every kept one is pinned."
        // "unused pins, in rows or columns at n and above, are none."
        let names_kept =
            |pin: &Option<Entry>| pin.is_none_or(|index| kept.iter().any(|one| one.index == index));
        let pinned = |one: &Stored| self.pins.contains(&Some(one.index));
        // Note 5: "block counts from 1 to 65,535, equal within a process".
        let blocks = |one: &Stored| {
            (1..=MOST_BLOCKS_EACH).contains(&one.blocks) && one.blocks == kept[0].blocks
        };
        // Note 5: "causes 0 to 2, 0 exactly at index 0".
        let cause = |one: &Stored| one.cause <= 2 && (one.cause == 0) == (one.index == 0);
        self.pins.iter().all(names_kept)
            && self.pins[count..].iter().all(Option::is_none)
            && is_within(&self.vector, own)
            && kept.iter().all(|one| {
                one.vector[p] == one.index
                    && pinned(one)
                    && blocks(one)
                    && cause(one)
                    && is_within(&one.vector, own)
            })
    }
}

/// "No vector (current, stored or carried) has an entry for f above f's own
/// current entry." "Unused places hold zero".
fn is_within(vector: &Vector, own: &[Entry]) -> bool {
    (0..MAX_PROCESSES).all(|f| vector[f] <= own.get(f).copied().unwrap_or(0))
}

/// Runs from states and back.
impl Run {
    /// The run of a sound state.
    pub fn forged(state: &State) -> Run {
        let mut run = Run {
            count: state.processes.len(),
            vectors: [[0; MAX_PROCESSES]; MAX_PROCESSES],
            pins: [[None; MAX_PROCESSES]; MAX_PROCESSES],
            sent: [false; MAX_PROCESSES],
            kept: std::array::from_fn(|_| Kept {
                len: 0,
                places: [NO_CHECKPOINT; MAX_STORED],
            }),
            under_way: state.messages.len(),
            messages: [NO_MESSAGE; MAX_UNDER_WAY],
            last_number: state.last_number,
            blocks: [0; MAX_PROCESSES],
            written: state.written,
            deleted: state.deleted,
        };
        for (p, process) in state.processes.iter().enumerate() {
            run.vectors[p] = process.vector;
            run.pins[p] = process.pins;
            run.sent[p] = process.sent;
            for one in process.kept.iter().flatten() {
                run.blocks[p] = one.blocks;
                run.kept[p].add(Checkpoint {
                    index: one.index,
                    vector: one.vector,
                    cause: u8::try_from(one.cause).expect("a sound cause is at most 2"),
                    blocks: one.blocks,
                });
            }
        }
        run.messages[..run.under_way].copy_from_slice(&state.messages);
        run
    }

    /// The state of a run, all of it.
    pub fn state(&self) -> State {
        let process = |p: usize| Process {
            vector: self.vectors[p],
            pins: self.pins[p],
            sent: self.sent[p],
            held: self.kept[p].len as u64,
            kept: self.kept[p].checkpoints().iter().map(stored).collect(),
        };
        State {
            count: self.count as u64,
            processes: (0..self.count).map(process).collect(),
            messages: self.under_way().to_vec(),
            under_way: self.under_way as u64,
            last_number: self.last_number,
            written: self.written,
            deleted: self.deleted,
        }
    }
}

fn stored(one: &Checkpoint) -> Option<Stored> {
    Some(Stored {
        index: one.index,
        vector: one.vector,
        cause: Entry::from(one.cause),
        blocks: one.blocks,
    })
}

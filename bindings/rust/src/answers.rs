//! What calls answer, and an answer's fields.

use crate::{Checkpoint, Refusal};

/// A checkpoint was stored.
#[derive(Clone, Debug, PartialEq, Eq)]
pub struct Stored {
    /// Its index.
    pub index: u16,
    /// The checkpoints that were deleted, by process, then index.
    pub deleted: Vec<Checkpoint>,
}

/// A message has reached its receiver.
#[derive(Clone, Debug, PartialEq, Eq)]
pub struct Delivered {
    /// The index of the checkpoint that it forced, if it forced one: it is stored before the message is taken in.
    pub forced: Option<u16>,
    /// The checkpoints that were deleted, by process, then index.
    pub deleted: Vec<Checkpoint>,
    /// The entries of the receiver's vector that rose: bit f stands for entry f.
    pub rose: u16,
}

/// The processes have gone back to a line.
#[derive(Clone, Debug, PartialEq, Eq)]
pub struct Recovered {
    /// The index of each process's checkpoint that it restarts from. That of a process which stays live is its own entry.
    pub line: Vec<u16>,
    /// How many processes went back.
    pub rolled_back: usize,
    /// The checkpoints that were deleted, by process, then index.
    pub deleted: Vec<Checkpoint>,
}

/// What a block of records came to.
#[derive(Clone, Debug, PartialEq, Eq)]
pub struct Replayed {
    /// How many records were taken.
    pub taken: usize,
    /// Their lines, as the program `replay` prints them.
    pub lines: String,
    /// Whether the replay goes on after them.
    pub goes_on: bool,
}

/// A checkpoint that is kept.
#[derive(Clone, Copy, Debug, PartialEq, Eq)]
pub struct Kept {
    /// Its index.
    pub index: u16,
    /// Why it was stored.
    pub cause: Cause,
    /// How many disk blocks it takes.
    pub blocks: u32,
}

/// Why a checkpoint was stored.
#[derive(Clone, Copy, Debug, PartialEq, Eq)]
pub enum Cause {
    /// It is the first of its process, from the start.
    Initial,
    /// The process took it.
    Basic,
    /// A delivery forced it.
    Forced,
}

/// A message under way.
#[derive(Clone, Copy, Debug, PartialEq, Eq)]
pub struct Message {
    /// Its number.
    pub number: u32,
    /// The process that sent it.
    pub sender: usize,
    /// The process that it is sent to.
    pub receiver: usize,
}

/// The numbers of a run.
#[derive(Clone, Copy, Debug, PartialEq, Eq)]
pub struct Numbers {
    /// How many processes it has.
    pub processes: usize,
    /// The last message number used, 0 if none was.
    pub last_message: u32,
    /// How many messages are under way.
    pub under_way: usize,
    /// The disk blocks written.
    pub written: u64,
    /// The disk blocks deleted.
    pub deleted: u64,
}

/// An accepted answer of the library: one number with fields.
pub struct Answer(u64);

/// The answer, if the call was accepted.
pub fn accepted(answer: u64) -> Result<Answer, Refusal> {
    match answer as u8 {
        0 => Ok(Answer(answer)),
        number => Err(Refusal::with_number(number).expect("the library gives no other number")),
    }
}

/// That many pairs of a process and an index.
fn pairs(list: &[u16], many: usize) -> Vec<Checkpoint> {
    let pairs = list.chunks_exact(2).take(many);
    pairs.map(|pair| (usize::from(pair[0]), pair[1])).collect()
}

impl Answer {
    /// How many checkpoints were deleted.
    fn deletions(&self) -> usize {
        (self.0 >> 8 & 0x7fff) as usize
    }

    /// The value; 0 if there is none.
    pub fn value(&self) -> u32 {
        (self.0 >> 24 & 0xff_ffff) as u32
    }

    /// The value as the index of a checkpoint, which has 16 bits.
    fn index(&self) -> u16 {
        self.value() as u16
    }

    /// The pairs at the front of a list of deletions.
    fn deleted(&self, list: &[u16]) -> Vec<Checkpoint> {
        pairs(list, self.deletions())
    }

    /// What a checkpoint came to, with the list that it was lent.
    pub fn stored(&self, list: &[u16]) -> Stored {
        Stored {
            index: self.index(),
            deleted: self.deleted(list),
        }
    }

    /// What a delivery came to, with the list that it was lent.
    pub fn delivered(&self, list: &[u16]) -> Delivered {
        Delivered {
            forced: (self.0 >> 23 & 1 == 1).then(|| self.index()),
            deleted: self.deleted(list),
            rose: (self.0 >> 48) as u16,
        }
    }

    /// What a recovery came to, with the lists that it was lent and the numbers of the run before it: a recovery of forged words may leave some that stand for no sound
    /// state.
    pub fn recovered(
        &self,
        list: &[u16],
        line: &[u16],
        before: Result<Numbers, Refusal>,
    ) -> Result<Recovered, Refusal> {
        Ok(Recovered {
            line: line[..before?.processes].to_vec(),
            rolled_back: self.value() as usize,
            deleted: self.deleted(list),
        })
    }

    /// The pairs at the front of a list of checkpoints: as many as the value says.
    pub fn listed(&self, list: &[u16]) -> Vec<Checkpoint> {
        pairs(list, self.value() as usize)
    }

    /// As many groups of three numbers at the front of a list as the value says.
    pub fn threes<T>(&self, list: &[u32], of: impl Fn(u32, u32, u32) -> T) -> Vec<T> {
        let groups = list.chunks_exact(3).take(self.value() as usize);
        groups
            .map(|group| of(group[0], group[1], group[2]))
            .collect()
    }
}

impl Cause {
    /// The cause that a number stands for.
    pub(crate) fn of(number: u32) -> Cause {
        match number {
            0 => Cause::Initial,
            1 => Cause::Basic,
            _ => Cause::Forced,
        }
    }
}

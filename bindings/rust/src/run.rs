//! A run that owns its state.

use crate::answers::{
    accepted, Cause, Delivered, Kept, Message, Numbers, Recovered, Replayed, Stored,
};
use crate::{library, Refusal, MESSAGES, PROCESSES, SAVED, WORDS};
use std::fmt;

/// The bytes of lines that are written at a time: many of the longest line.
const TEXT: usize = 1 << 16;

/// The room of a deletion list that is enough for every run.
pub(crate) const DELETIONS: usize = 2 * PROCESSES * PROCESSES;

/// The state of a run of up to 16 processes.
///
/// A call that is refused leaves the state as it was. Every call judges the state first: [`Refusal::UnsoundState`] is given where the words came from elsewhere and
/// stand for no sound state.
#[derive(Clone)]
pub struct Run {
    pub(crate) words: Box<[u16]>,
}

/// The calls.
impl Run {
    /// A run begins: each process has the block count of its checkpoints, and stores its checkpoint 0.
    ///
    /// Refused: `CountOutsideRange`, `BlockCountOutsideRange`.
    pub fn start(counts: &[u32]) -> Result<Run, Refusal> {
        let mut words = vec![0; WORDS].into_boxed_slice();
        accepted(library::start(&mut words, counts.len(), counts))?;
        Ok(Run { words })
    }

    /// A process takes a checkpoint.
    ///
    /// Refused: `NoSuchProcess`, `IntervalsUsed`, `BlocksUsed`.
    pub fn checkpoint(&mut self, process: usize) -> Result<Stored, Refusal> {
        let mut list = [0; DELETIONS];
        let answer = accepted(library::checkpoint(&mut self.words, process, &mut list))?;
        Ok(answer.stored(&list))
    }

    /// A process sends a message to another; what is answered is the message's number.
    ///
    /// Refused: `NoSuchProcess`, `SenderIsReceiver`, `TooManyUnderWay`, `MessageNumbersUsed`.
    pub fn send(&mut self, sender: usize, receiver: usize) -> Result<u32, Refusal> {
        let answer = accepted(library::send(&mut self.words, sender, receiver))?;
        Ok(answer.value())
    }

    /// A message reaches its receiver, which takes in the vector that it carries.
    ///
    /// Refused: `NotUnderWay`, `IntervalsUsed`, `BlocksUsed`.
    pub fn deliver(&mut self, message: u32) -> Result<Delivered, Refusal> {
        let mut list = [0; DELETIONS];
        let answer = accepted(library::deliver(&mut self.words, message, &mut list))?;
        Ok(answer.delivered(&list))
    }

    /// A message is lost.
    ///
    /// Refused: `NotUnderWay`.
    pub fn lose(&mut self, message: u32) -> Result<(), Refusal> {
        accepted(library::lose(&mut self.words, message))?;
        Ok(())
    }

    /// The processes of a failed set, bit p of which stands for process p, go back to the line, and others with them where the line says so; what no failure can need
    /// any more is deleted. An empty set is a sweep: nobody goes back.
    ///
    /// Refused: `NoSuchFailedProcess`.
    ///
    /// ```
    /// # use lemidrosy::{Refusal, Run};
    /// # fn main() -> Result<(), Refusal> {
    /// let mut run = Run::start(&[1, 1])?;
    /// let message = run.send(0, 1)?;
    /// // process 0 fails before it has stored what it sent
    /// assert_eq!(run.lost(1 << 0)?[0].number, message);
    /// let recovered = run.recover(1 << 0)?;
    /// assert_eq!((recovered.line, recovered.rolled_back), (vec![0, 1], 1));
    /// assert_eq!(run.deliver(message), Err(Refusal::NotUnderWay));
    /// # Ok(())
    /// # }
    /// ```
    pub fn recover(&mut self, failed: u32) -> Result<Recovered, Refusal> {
        let (mut list, mut line) = ([0; DELETIONS], [0; PROCESSES]);
        let before = self.numbers();
        let answer = accepted(library::recover(
            &mut self.words,
            failed,
            &mut list,
            &mut line,
        ))?;
        answer.recovered(&list, &line, before)
    }

    /// The messages under way that a recovery of this failed set would lose, ascending by number: to be asked before the recovery.
    ///
    /// Refused: `NoSuchFailedProcess`.
    ///
    /// ```
    /// # use lemidrosy::{Refusal, Run};
    /// # fn main() -> Result<(), Refusal> {
    /// let mut run = Run::start(&[1, 1])?;
    /// let message = run.send(0, 1)?;
    /// assert_eq!(run.lost(1 << 0)?[0].number, message);
    /// assert!(run.lost(1 << 1)?.is_empty());
    /// # Ok(())
    /// # }
    /// ```
    pub fn lost(&self, failed: u32) -> Result<Vec<Message>, Refusal> {
        let mut list = [0; 3 * MESSAGES];
        let answer = accepted(library::lost(&self.words, failed, &mut list))?;
        Ok(answer.threes(&list, message))
    }

    /// Records of a trace, four bytes each and without its first byte, as calls on the state; `done` says how many were before them. It stops after a refusal, unless
    /// `all` is asked for, and after record 1,000,000,000; bytes that are left over are not looked at.
    ///
    /// ```
    /// # use lemidrosy::{Refusal, Run};
    /// # fn main() -> Result<(), Refusal> {
    /// let mut run = Run::start(&[1, 1])?;
    /// // a send from 0 to 1, the delivery of message 1, the same once more, a checkpoint of 0
    /// let records = [32, 0, 0, 1, 64, 0, 0, 1, 64, 0, 0, 1, 0, 0, 0, 0];
    /// let replayed = run.replay(false, 0, &records)?;
    /// assert_eq!((replayed.taken, replayed.goes_on), (3, false));
    /// assert_eq!(replayed.lines, "1 0 1 0\n2 0 - 0\n3 8\n");
    /// # Ok(())
    /// # }
    /// ```
    pub fn replay(&mut self, all: bool, done: u64, records: &[u8]) -> Result<Replayed, Refusal> {
        let mut text = vec![0; TEXT];
        let mut replayed = Replayed {
            taken: 0,
            lines: String::new(),
            goes_on: true,
        };
        loop {
            let mut progress = [0; 3];
            accepted(library::replay(
                &mut self.words,
                all,
                done.saturating_add(replayed.taken as u64),
                &records[4 * replayed.taken..],
                &mut text,
                &mut progress,
            ))?;
            let [taken, written, going] = progress;
            let lines = String::from_utf8_lossy(&text[..written as usize]);
            replayed.lines.push_str(&lines);
            replayed.taken += taken as usize;
            replayed.goes_on = going == 1;
            if taken == 0 || !replayed.goes_on {
                return Ok(replayed);
            }
        }
    }

    /// The line for a failed set, bit p of which stands for process p: the index of each process's checkpoint to restart from. That of a process which stays live is its
    /// own entry.
    ///
    /// Refused: `NoSuchFailedProcess`.
    pub fn line(&self, failed: u32) -> Result<Vec<u16>, Refusal> {
        let mut line = [0; PROCESSES];
        accepted(library::line(&self.words, failed, &mut line))?;
        self.row(line)
    }

    /// The earliest consistent line through the named checkpoints, each a process and an index. It may name deleted checkpoints, so it is to be shown, not restarted from.
    ///
    /// Refused: `NoSuchProcess`, `UnfitNamedList`, `NotKept`, `CausallyOrdered`.
    pub fn earliest(&self, named: &[(u32, u32)]) -> Result<Vec<u16>, Refusal> {
        let mut line = [0; PROCESSES];
        accepted(library::earliest(&self.words, &numbers(named), &mut line))?;
        self.row(line)
    }
}

/// What can be read of the state.
///
/// ```
/// # use lemidrosy::{Cause, Kept, Message, Refusal, Run};
/// # fn main() -> Result<(), Refusal> {
/// let mut run = Run::start(&[5, 7])?;
/// let number = run.send(0, 1)?;
/// assert_eq!(run.messages()?, [Message { number, sender: 0, receiver: 1 }]);
/// assert_eq!(run.carried(number)?, [1, 0]);
/// run.deliver(number)?;
/// assert_eq!(run.vector(1)?, [1, 1]);
/// assert_eq!(run.pins(1)?, [Some(0), Some(0)]);
/// assert_eq!(run.kept(1)?, [Kept { index: 0, cause: Cause::Initial, blocks: 7 }]);
/// assert_eq!(run.numbers()?.written, 12);
/// assert_eq!(run.vector(2), Err(Refusal::NoSuchProcess));
/// # Ok(())
/// # }
/// ```
impl Run {
    /// The numbers of the run.
    pub fn numbers(&self) -> Result<Numbers, Refusal> {
        let mut numbers = [0; 5];
        accepted(library::numbers(&self.words, &mut numbers))?;
        let [processes, last_message, under_way, written, deleted] = numbers;
        // n is at most 16, a message number at most 1,000,000, and 64 are under way at most.
        Ok(Numbers {
            processes: processes as usize,
            last_message: last_message as u32,
            under_way: under_way as usize,
            written,
            deleted,
        })
    }

    /// The vector of a process.
    ///
    /// Refused: `NoSuchProcess`.
    pub fn vector(&self, process: usize) -> Result<Vec<u16>, Refusal> {
        let mut vector = [0; PROCESSES];
        accepted(library::vector(&self.words, process, &mut vector))?;
        self.row(vector)
    }

    /// The pins of a process: which checkpoint it keeps for the failure of each process, if any.
    ///
    /// Refused: `NoSuchProcess`.
    pub fn pins(&self, process: usize) -> Result<Vec<Option<u16>>, Refusal> {
        let mut pins = [0; PROCESSES];
        accepted(library::pins(&self.words, process, &mut pins))?;
        // one more than the index of the checkpoint, 0 for none
        let pins = self.row(pins)?.into_iter();
        Ok(pins.map(|pin| pin.checked_sub(1)).collect())
    }

    /// The checkpoints that a process keeps, ascending.
    ///
    /// Refused: `NoSuchProcess`.
    pub fn kept(&self, process: usize) -> Result<Vec<Kept>, Refusal> {
        let mut list = [0; 3 * PROCESSES];
        let answer = accepted(library::kept(&self.words, process, &mut list))?;
        Ok(answer.threes(&list, |index, cause, blocks| Kept {
            index: index as u16,
            cause: Cause::of(cause),
            blocks,
        }))
    }

    /// The messages under way, ascending by number.
    pub fn messages(&self) -> Result<Vec<Message>, Refusal> {
        let mut list = [0; 3 * MESSAGES];
        let answer = accepted(library::messages(&self.words, &mut list))?;
        Ok(answer.threes(&list, message))
    }

    /// The vector that a message under way carries.
    ///
    /// Refused: `NotUnderWay`.
    pub fn carried(&self, message: u32) -> Result<Vec<u16>, Refusal> {
        let mut vector = [0; PROCESSES];
        accepted(library::carried(&self.words, message, &mut vector))?;
        self.row(vector)
    }

    /// Whether the words stand for a sound state. Those of a run from [`Run::start`] always do.
    pub fn is_sound(&self) -> bool {
        library::is_sound(&self.words)
    }

    /// The first n entries of a row.
    pub(crate) fn row(&self, row: [u16; PROCESSES]) -> Result<Vec<u16>, Refusal> {
        let processes = self.numbers()?.processes;
        Ok(row[..processes].to_vec())
    }
}

/// The words.
impl Run {
    /// The words of the state, to be stored.
    pub fn words(&self) -> &[u16] {
        &self.words
    }

    /// A run with these words, whatever they are. Calls on words that stand for no sound state are refused with [`Refusal::UnsoundState`].
    ///
    /// ```
    /// # use lemidrosy::{Refusal, Run};
    /// let run = Run::start(&[1, 1]).unwrap();
    /// assert!(Run::from_words(run.words()).is_sound());
    /// assert_eq!(Run::from_words(&[1, 2, 3]).send(0, 1), Err(Refusal::UnsoundState));
    /// ```
    pub fn from_words(words: &[u16]) -> Run {
        Run {
            words: words.into(),
        }
    }

    /// The state as bytes that are the same on every machine, to be stored.
    ///
    /// Refused: `UnsoundState`.
    ///
    /// ```
    /// # use lemidrosy::{Refusal, Run};
    /// let run = Run::start(&[1, 1])?;
    /// let mut bytes = run.save()?;
    /// assert_eq!(Run::load(&bytes)?.words(), run.words());
    /// bytes[100] ^= 1;
    /// assert_eq!(Run::load(&bytes).unwrap_err(), Refusal::UnsoundState);
    /// # Ok::<(), Refusal>(())
    /// ```
    pub fn save(&self) -> Result<Vec<u8>, Refusal> {
        let mut bytes = vec![0; SAVED];
        let answer = accepted(library::save(&self.words, &mut bytes))?;
        bytes.truncate(answer.value() as usize);
        Ok(bytes)
    }

    /// The state that was saved. Any bytes may be handed in.
    ///
    /// Refused: `UnsoundState` for bytes that are no saved sound state.
    pub fn load(bytes: &[u8]) -> Result<Run, Refusal> {
        let mut words = vec![0; WORDS].into_boxed_slice();
        accepted(library::load(bytes, &mut words))?;
        Ok(Run { words })
    }
}

/// A message by the three numbers that the library tells of it.
/// Named checkpoints as the library takes them: pairs of numbers, one after the other.
pub(crate) fn numbers(named: &[(u32, u32)]) -> Vec<u32> {
    named.iter().flat_map(|one| [one.0, one.1]).collect()
}

fn message(number: u32, sender: u32, receiver: u32) -> Message {
    Message {
        number,
        sender: sender as usize,
        receiver: receiver as usize,
    }
}

impl fmt::Debug for Run {
    fn fmt(&self, to: &mut fmt::Formatter) -> fmt::Result {
        match self.numbers() {
            Ok(numbers) => write!(to, "Run({numbers:?})"),
            Err(refusal) => write!(to, "Run({refusal:?})"),
        }
    }
}

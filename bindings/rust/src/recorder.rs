//! A run whose accepted calls are recorded.

use crate::answers::{accepted, Delivered, Recovered, Stored};
use crate::library::{self, Tape};
use crate::run::DELETIONS;
use crate::{Refusal, Run, PROCESSES, WORDS};

/// The bytes of a record.
const RECORD: usize = 4;

/// A run, and the trace of its accepted calls: the first byte is n, then a record of four bytes for each. A replay of the trace, from a start with the same block counts,
/// ends in the same state and answers the same.
///
/// Questions write no record: they are asked of [`Recorder::run`].
///
/// ```
/// use lemidrosy::{Recorder, Refusal};
///
/// # fn main() -> Result<(), Refusal> {
/// let mut recorder = Recorder::start(&[1, 1])?;
/// let message = recorder.send(0, 1)?;
/// recorder.deliver(message)?;
/// // a refused call is not recorded
/// assert_eq!(recorder.lose(message), Err(Refusal::NotUnderWay));
/// recorder.checkpoint(1)?;
/// assert_eq!(recorder.trace(), [2, 0x20, 0, 0, 1, 0x40, 0, 0, 1, 2, 0, 0, 0]);
/// assert_eq!(recorder.run().vector(1)?, [1, 2]);
/// # Ok(())
/// # }
/// ```
#[derive(Clone)]
pub struct Recorder {
    run: Run,
    tape: Tape,
}

impl Recorder {
    /// A run begins, as by [`Run::start`].
    pub fn start(counts: &[u32]) -> Result<Recorder, Refusal> {
        let mut words = vec![0; WORDS].into_boxed_slice();
        let mut tape = Tape {
            bytes: vec![0; 1],
            place: 0,
        };
        let n = counts.len();
        accepted(library::record_start(&mut words, n, counts, &mut tape))?;
        Ok(Recorder {
            run: Run { words },
            tape,
        })
    }

    /// The words and the tape, which has room for a record.
    fn lent(&mut self) -> (&mut [u16], &mut Tape) {
        self.tape.bytes.resize(self.trace().len() + RECORD, 0);
        (&mut self.run.words, &mut self.tape)
    }

    /// A process takes a checkpoint, as by [`Run::checkpoint`].
    pub fn checkpoint(&mut self, process: usize) -> Result<Stored, Refusal> {
        let mut list = [0; DELETIONS];
        let (words, tape) = self.lent();
        let answer = accepted(library::record_checkpoint(words, process, &mut list, tape))?;
        Ok(answer.stored(&list))
    }

    /// A process sends a message to another, as by [`Run::send`].
    pub fn send(&mut self, sender: usize, receiver: usize) -> Result<u32, Refusal> {
        let (words, tape) = self.lent();
        let answer = accepted(library::record_send(words, sender, receiver, tape))?;
        Ok(answer.value())
    }

    /// A message reaches its receiver, as by [`Run::deliver`].
    pub fn deliver(&mut self, message: u32) -> Result<Delivered, Refusal> {
        let mut list = [0; DELETIONS];
        let (words, tape) = self.lent();
        let answer = accepted(library::record_deliver(words, message, &mut list, tape))?;
        Ok(answer.delivered(&list))
    }

    /// A message is lost, as by [`Run::lose`].
    pub fn lose(&mut self, message: u32) -> Result<(), Refusal> {
        let (words, tape) = self.lent();
        accepted(library::record_lose(words, message, tape))?;
        Ok(())
    }

    /// The processes of a failed set go back to the line, as by [`Run::recover`].
    pub fn recover(&mut self, failed: u32) -> Result<Recovered, Refusal> {
        let (mut list, mut line) = ([0; DELETIONS], [0; PROCESSES]);
        let before = self.run.numbers();
        let (words, tape) = self.lent();
        let answer = accepted(library::record_recover(
            words, failed, &mut list, &mut line, tape,
        ))?;
        answer.recovered(&list, &line, before)
    }

    /// The run, to be read and asked.
    pub fn run(&self) -> &Run {
        &self.run
    }

    /// The trace so far.
    pub fn trace(&self) -> &[u8] {
        &self.tape.bytes[..self.tape.place as usize]
    }

    /// The run and its trace; what is called then is not recorded.
    pub fn into_parts(mut self) -> (Run, Vec<u8>) {
        self.tape.bytes.truncate(self.tape.place as usize);
        (self.run, self.tape.bytes)
    }
}

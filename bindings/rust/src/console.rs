//! A run with a console in front of it, where each caller may do what its role allows.

use crate::answers::{accepted, Delivered, Recovered, Stored};
use crate::library::{self, Asker};
use crate::run::{numbers, DELETIONS};
use crate::{Checkpoint, Refusal, Run, PROCESSES, WORDS};

/// Who calls.
#[derive(Clone, Copy, Debug, PartialEq, Eq)]
pub enum Caller {
    /// It may do everything.
    Operator,
    /// It may checkpoint, send from, deliver to, lose to and list its own processes, and see its own members of a line. Bit p of its set stands for process p; bits at n
    /// and above count for nothing.
    JobOwner(u32),
    /// It may see how many checkpoints each process keeps.
    Viewer,
}

impl Caller {
    fn asker(self) -> Asker {
        match self {
            Caller::Operator => Asker { role: 0, owned: 0 },
            Caller::JobOwner(owned) => Asker { role: 1, owned },
            Caller::Viewer => Asker { role: 2, owned: 0 },
        }
    }
}

/// A run as a caller of the console meets it: the calls of [`Run`], and two more. What the caller may not do is refused with [`Refusal::Denied`], before any other refusal,
/// and changes nothing; to an owner that is also a process that is not its own (the receiver of a send may be anyone's) and a message that is not under way to one of its own.
///
/// ```
/// use lemidrosy::{Caller, Console, Refusal};
///
/// # fn main() -> Result<(), Refusal> {
/// let mut run = Console::start(Caller::Operator, &[1, 1, 1])?;
/// let owner = Caller::JobOwner(0b011);
/// let message = run.console(owner).send(0, 2)?;
/// // process 2 is another owner's
/// assert_eq!(run.console(owner).deliver(message), Err(Refusal::Denied));
/// run.console(owner).checkpoint(1)?;
/// assert_eq!(run.console(owner).list()?, [(0, 0), (1, 1)]);
/// assert_eq!(run.console(owner).line(1 << 0)?, [Some(0), Some(2), None]);
/// assert_eq!(run.console(Caller::Viewer).counts()?, [1, 1, 1]);
/// assert_eq!(run.console(Caller::Viewer).list(), Err(Refusal::Denied));
/// # Ok(())
/// # }
/// ```
pub struct Console<'a> {
    run: &'a mut Run,
    asker: Asker,
}

impl Run {
    /// The run as this caller meets it.
    pub fn console(&mut self, caller: Caller) -> Console<'_> {
        Console {
            run: self,
            asker: caller.asker(),
        }
    }
}

impl Console<'_> {
    /// A run begins, as by [`Run::start`]: for an operator alone.
    pub fn start(caller: Caller, counts: &[u32]) -> Result<Run, Refusal> {
        let mut words = vec![0; WORDS].into_boxed_slice();
        let n = counts.len();
        accepted(library::console_start(
            caller.asker(),
            &mut words,
            n,
            counts,
        ))?;
        Ok(Run { words })
    }

    /// A process takes a checkpoint, as by [`Run::checkpoint`].
    pub fn checkpoint(&mut self, process: usize) -> Result<Stored, Refusal> {
        let mut list = [0; DELETIONS];
        let words = &mut self.run.words;
        let answer = accepted(library::console_checkpoint(
            self.asker, words, process, &mut list,
        ))?;
        Ok(answer.stored(&list))
    }

    /// A process sends a message to another, which may be anyone's, as by [`Run::send`].
    pub fn send(&mut self, sender: usize, receiver: usize) -> Result<u32, Refusal> {
        let words = &mut self.run.words;
        let answer = accepted(library::console_send(self.asker, words, sender, receiver))?;
        Ok(answer.value())
    }

    /// A message reaches its receiver, as by [`Run::deliver`].
    pub fn deliver(&mut self, message: u32) -> Result<Delivered, Refusal> {
        let mut list = [0; DELETIONS];
        let words = &mut self.run.words;
        let answer = accepted(library::console_deliver(
            self.asker, words, message, &mut list,
        ))?;
        Ok(answer.delivered(&list))
    }

    /// A message is lost, as by [`Run::lose`].
    pub fn lose(&mut self, message: u32) -> Result<(), Refusal> {
        accepted(library::console_lose(
            self.asker,
            &mut self.run.words,
            message,
        ))?;
        Ok(())
    }

    /// The processes of a failed set go back to the line, as by [`Run::recover`]: for an operator alone.
    pub fn recover(&mut self, failed: u32) -> Result<Recovered, Refusal> {
        let (mut list, mut line) = ([0; DELETIONS], [0; PROCESSES]);
        let before = self.run.numbers();
        let answer = accepted(library::console_recover(
            self.asker,
            &mut self.run.words,
            failed,
            &mut list,
            &mut line,
        ))?;
        answer.recovered(&list, &line, before)
    }

    /// The caller's own members of the line for a failed set, as by [`Run::line`]; none for the processes of others.
    pub fn line(&self, failed: u32) -> Result<Vec<Option<u16>>, Refusal> {
        // A place that is left as it was lent, once with 0 and once with 1, is not the caller's.
        let (mut one, mut other) = ([0; PROCESSES], [1; PROCESSES]);
        for line in [&mut one, &mut other] {
            let words = &self.run.words;
            accepted(library::console_line(self.asker, words, failed, line))?;
        }
        let members = one.iter().zip(&other);
        let seen = members.map(|(one, other)| (one == other).then_some(*one));
        Ok(seen.take(self.run.numbers()?.processes).collect())
    }

    /// The earliest consistent line through the named checkpoints, as by [`Run::earliest`]: for an operator alone.
    pub fn earliest(&self, named: &[(u32, u32)]) -> Result<Vec<u16>, Refusal> {
        let mut line = [0; PROCESSES];
        accepted(library::console_earliest(
            self.asker,
            &self.run.words,
            &numbers(named),
            &mut line,
        ))?;
        self.run.row(line)
    }

    /// The checkpoints that the caller's own processes keep, to an operator those of all.
    pub fn list(&self) -> Result<Vec<Checkpoint>, Refusal> {
        let mut list = [0; DELETIONS];
        let answer = accepted(library::console_list(
            self.asker,
            &self.run.words,
            &mut list,
        ))?;
        Ok(answer.listed(&list))
    }

    /// How many checkpoints each process keeps.
    pub fn counts(&self) -> Result<Vec<usize>, Refusal> {
        let mut counts = [0; PROCESSES];
        accepted(library::console_counts(
            self.asker,
            &self.run.words,
            &mut counts,
        ))?;
        let counts = self.run.row(counts)?;
        Ok(counts.into_iter().map(usize::from).collect())
    }
}

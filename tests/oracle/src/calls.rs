//! The calls on words that a caller lends: what each must answer and leave, on
//! any words, with any lists and numbers.
//!
//! * `console`: the same calls through the console, and two more.
//! * `draw`: random calls, and words that calls did not leave.
//! * `hold`: a library held to this.

pub mod console;
pub mod draw;
pub mod hold;

use crate::run::forged::State;
use crate::run::refusal::{
    COUNT_OUTSIDE, LIST_TOO_SHORT, NOT_SOUND, NOT_UNDER_WAY, NO_SUCH_PROCESS,
};
use crate::run::{Counts, Entry, Message, Named, Run, MAX_PROCESSES, MAX_UNDER_WAY};
use crate::words::SIZE;

/// A call and the numbers that it is handed.
#[derive(Clone, Copy, Debug, PartialEq, Eq)]
pub enum Call {
    /// The block counts are in the lent numbers.
    Start {
        count: u64,
    },
    Checkpoint {
        process: u64,
    },
    Send {
        from: u64,
        to: u64,
    },
    Deliver {
        number: u64,
    },
    Lose {
        number: u64,
    },
    Line {
        failed: u64,
    },
    Recover {
        failed: u64,
    },
    /// The named checkpoints are pairs in the lent numbers.
    Earliest,
    IsSound,
    /// What is read of a state: the numbers of the run, ..
    Numbers,
    /// .. the vector, the pins and the kept checkpoints of a process, ..
    Vector {
        process: u64,
    },
    Pins {
        process: u64,
    },
    Kept {
        process: u64,
    },
    /// .. the messages under way, ..
    Messages,
    /// .. those of them that a recovery would lose, ..
    Lost {
        failed: u64,
    },
    /// .. and the vector that one of them carries.
    Carried {
        number: u64,
    },
}

impl Call {
    /// The call with numbers that its parameters in C have room for: 32 bits of a
    /// message and of a failed set.
    pub fn fitted(self) -> Call {
        let cut = |number: u64| number & u64::from(u32::MAX);
        match self {
            Call::Deliver { number } => Call::Deliver {
                number: cut(number),
            },
            Call::Lose { number } => Call::Lose {
                number: cut(number),
            },
            Call::Line { failed } => Call::Line {
                failed: cut(failed),
            },
            Call::Recover { failed } => Call::Recover {
                failed: cut(failed),
            },
            Call::Lost { failed } => Call::Lost {
                failed: cut(failed),
            },
            Call::Carried { number } => Call::Carried {
                number: cut(number),
            },
            _ => self,
        }
    }

    /// It leaves every word as it is, accepted or refused.
    fn only_reads(self) -> bool {
        !matches!(
            self,
            Call::Start { .. }
                | Call::Checkpoint { .. }
                | Call::Send { .. }
                | Call::Deliver { .. }
                | Call::Lose { .. }
                | Call::Recover { .. }
        )
    }
}

/// The lists that are lent to a call besides the words.
#[derive(Clone, Debug, PartialEq, Eq)]
pub struct Lists {
    pub deletions: Vec<u16>,
    pub line: Vec<u16>,
    pub numbers: Vec<u32>,
    pub sums: Vec<u64>,
}

/// What a call leaves of the words.
#[derive(Clone, Debug, PartialEq, Eq)]
pub enum Left {
    /// "the state as it came": every word.
    Same,
    /// "A refused start returns a state of zeros": every word.
    Zeros,
    /// Words that stand for this state.
    State(State),
}

/// What a call answers and leaves; the lists are those that were lent, as they
/// then stand.
pub struct Outcome {
    pub answer: u64,
    pub left: Left,
    pub lists: Lists,
}

/// What an accepted call says besides 0.
#[derive(Default)]
struct Said {
    value: Option<u64>,
    deletions: usize,
    rose: u64,
}

impl Said {
    /// The answer of a call as one number: bits 0 to 7 the refusal, 0 if
    /// accepted, 8 to 22 how many deletions, 23 whether there is a value, 24 to
    /// 47 the value, 48 to 63 the set of entries that rose.
    fn code(&self) -> u64 {
        let value = self.value.map_or(0, |value| value << 24 | 1 << 23);
        (self.deletions as u64) << 8 | value | self.rose << 48
    }
}

/// What a call must do on these words: `run` is that of their state if it is
/// sound.
pub fn outcome(size: usize, run: Option<&Run>, call: Call, lists: &Lists) -> Outcome {
    let mut lists = lists.clone();
    if let Call::Start { count } = call {
        return started(size, count, lists);
    }
    // "2: a state that is not sound" is judged first: no other number below it
    // is one of these calls.
    let Some(run) = run else {
        let answer = match call {
            Call::IsSound => 0,
            _ => u64::from(NOT_SOUND),
        };
        return Outcome {
            answer,
            left: Left::Same,
            lists,
        };
    };
    if call == Call::IsSound {
        return Outcome {
            answer: 1,
            left: Left::Same,
            lists,
        };
    }
    let mut after = run.clone();
    match answered(&mut after, call, &mut lists) {
        Err(number) => refused(number, Left::Same, lists),
        Ok(said) => {
            let left = if call.only_reads() {
                Left::Same
            } else {
                Left::State(after.state())
            };
            Outcome {
                answer: said.code(),
                left,
                lists,
            }
        }
    }
}

fn refused(number: u8, left: Left, lists: Lists) -> Outcome {
    Outcome {
        answer: u64::from(number),
        left,
        lists,
    }
}

/// A start: 1, then 2 for words of another length, which stay as they are, 3 for
/// fewer than n block counts, 15.
fn started(size: usize, count: u64, lists: Lists) -> Outcome {
    let left = if size == SIZE {
        Left::Zeros
    } else {
        Left::Same
    };
    if !(1..=MAX_PROCESSES as u64).contains(&count) {
        return refused(COUNT_OUTSIDE, left, lists);
    }
    if size != SIZE {
        return refused(NOT_SOUND, left, lists);
    }
    let count = as_number(count);
    if lists.numbers.len() < count {
        return refused(LIST_TOO_SHORT, left, lists);
    }
    // "those at n and above are neither judged nor stored."
    let counts: Counts = std::array::from_fn(|p| if p < count { lists.numbers[p] } else { 0 });
    match Run::start(count, &counts) {
        Err(number) => refused(number, left, lists),
        Ok(run) => Outcome {
            answer: Said::default().code(),
            left: Left::State(run.state()),
            lists,
        },
    }
}

/// A call on a sound state.
fn answered(run: &mut Run, call: Call, lists: &mut Lists) -> Result<Said, u8> {
    let mut deletions = wide(&lists.deletions);
    let mut line = wide(&lists.line);
    let said = match call {
        Call::Start { .. } | Call::IsSound => Said::default(),
        Call::Numbers => {
            let numbers = [
                run.count() as u64,
                run.last_number(),
                run.under_way().len() as u64,
                run.written(),
                run.deleted(),
            ];
            write(&numbers, numbers.len(), &mut lists.sums)?;
            return Ok(Said::default());
        }
        Call::Vector { process } => {
            let vector = of_process(run, process, |p| narrow(run.vector(p)));
            return read(&vector, run.count(), &mut lists.line);
        }
        Call::Pins { process } => {
            // each as one more than the index, 0 for none
            let pin = |p: usize, f: usize| run.pin(p, f).map_or(0, |index| index + 1);
            let pins = |p: usize| (0..run.count()).map(|f| pin(p, f)).collect::<Vec<_>>();
            let pins = of_process(run, process, |p| narrow(&pins(p)));
            return read(&pins, run.count(), &mut lists.line);
        }
        Call::Kept { process } => {
            let three = |((index, _), (cause, blocks)): ((Entry, &[Entry]), (u8, u32))| {
                [index, u32::from(cause), blocks]
            };
            let kept = of_process(run, process, |p| {
                run.kept(p).zip(run.records(p)).flat_map(three).collect()
            });
            read(&kept, 3 * run.count(), &mut lists.numbers)?;
            return Ok(counted(kept.map_or(0, |kept| kept.len()) / 3));
        }
        Call::Messages => {
            let messages: Vec<u32> = run.under_way().iter().flat_map(message_numbers).collect();
            write(&messages, 3 * MAX_UNDER_WAY, &mut lists.numbers)?;
            return Ok(counted(messages.len() / 3));
        }
        Call::Lost { failed } => {
            let lost =
                lost(run, failed).map(|lost| lost.iter().flat_map(message_numbers).collect());
            read(&lost, 3 * MAX_UNDER_WAY, &mut lists.numbers)?;
            return Ok(counted(lost.map_or(0, |lost: Vec<u32>| lost.len()) / 3));
        }
        Call::Carried { number } => {
            let mut under_way = run.under_way().iter();
            let found = under_way.find(|message| message.number == number);
            let carried = found
                .map(|message| narrow(&message.carried[..run.count()]))
                .ok_or(NOT_UNDER_WAY);
            return read(&carried, run.count(), &mut lists.line);
        }
        Call::Checkpoint { process } => {
            let done = run.checkpoint(as_number(process), &mut deletions)?;
            Said {
                value: Some(u64::from(done.index)),
                deletions: done.deletions,
                rose: 0,
            }
        }
        Call::Send { from, to } => Said {
            value: Some(run.send(as_number(from), as_number(to))?),
            ..Said::default()
        },
        Call::Deliver { number } => {
            let done = run.deliver(number, &mut deletions)?;
            Said {
                value: done.forced.map(u64::from),
                deletions: done.deletions,
                rose: done.rose,
            }
        }
        Call::Lose { number } => {
            run.lose(number)?;
            Said::default()
        }
        Call::Line { failed } => {
            run.line(failed, &mut line)?;
            Said::default()
        }
        Call::Recover { failed } => {
            let done = run.recover(failed, &mut deletions, &mut line)?;
            Said {
                value: Some(done.rolled_back as u64),
                deletions: done.deletions,
                rose: 0,
            }
        }
        Call::Earliest => {
            run.earliest(&named(&lists.numbers), &mut line)?;
            Said::default()
        }
    };
    lists.deletions = narrow(&deletions);
    lists.line = narrow(&line);
    Ok(said)
}

/// The three numbers of a message.
fn message_numbers(message: &Message) -> [u32; 3] {
    let number = u32::try_from(message.number).expect("at most 1,000,000");
    [number, message.sender as u32, message.receiver as u32]
}

/// The messages that are under way before a recovery and not after it.
fn lost(run: &Run, failed: u64) -> Result<Vec<Message>, u8> {
    let mut after = run.clone();
    let mut deletions = vec![0; 2 * run.count() * run.count()];
    let mut line = vec![0; run.count()];
    after.recover(failed, &mut deletions, &mut line)?;
    let is_left = |number| after.under_way().iter().any(|left| left.number == number);
    let under_way = run.under_way().iter();
    Ok(under_way
        .filter(|message| !is_left(message.number))
        .copied()
        .collect())
}

/// What is read of a process: 4 if it is not below n.
fn of_process<T>(run: &Run, process: u64, of: impl Fn(usize) -> Vec<T>) -> Result<Vec<T>, u8> {
    let process = as_number(process);
    if process >= run.count() {
        return Err(NO_SUCH_PROCESS);
    }
    Ok(of(process))
}

/// What was read goes to the front of a list: 3 if the list has less room than is
/// asked for, which is judged before all other numbers.
fn read<T: Copy>(what: &Result<Vec<T>, u8>, asked: usize, list: &mut [T]) -> Result<Said, u8> {
    if list.len() < asked {
        return Err(LIST_TOO_SHORT);
    }
    let what = what.as_ref().map_err(|number| *number)?;
    write(what, asked, list)?;
    Ok(Said::default())
}

fn write<T: Copy>(what: &[T], asked: usize, list: &mut [T]) -> Result<(), u8> {
    if list.len() < asked {
        return Err(LIST_TOO_SHORT);
    }
    list[..what.len()].copy_from_slice(what);
    Ok(())
}

/// That many were read.
fn counted(many: usize) -> Said {
    Said {
        value: Some(many as u64),
        ..Said::default()
    }
}

/// Note 8's list as pairs of numbers. Numbers of which one is left over are no
/// pairs, and name nothing.
fn named(numbers: &[u32]) -> Vec<Named> {
    if numbers.len() % 2 == 1 {
        return Vec::new();
    }
    let name = |pair: &[u32]| Named {
        process: as_number(u64::from(pair[0])),
        index: u64::from(pair[1]),
    };
    numbers.chunks(2).map(name).collect()
}

/// A process, or a count, as the rules take it.
fn as_number(number: u64) -> usize {
    usize::try_from(number).expect("a number of 64 bits")
}

fn wide(list: &[u16]) -> Vec<Entry> {
    list.iter().copied().map(Entry::from).collect()
}

fn narrow(list: &[Entry]) -> Vec<u16> {
    let narrowed = list.iter().copied().map(u16::try_from);
    narrowed.collect::<Result<_, _>>().expect("16 bits")
}

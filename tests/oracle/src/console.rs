//! Note 13: a console for shared clusters, over the calls of `run`, and the
//! scripts by which another program is compared.

pub mod scripts;

use crate::run::{as_entry, Checkpointed, Counts, Delivered, Entry, Named, Recovered, Run, ONES};
use std::fmt::Write;

/// "25, before every other, for an operation the table denies the caller."
pub const DENIED: u8 = 25;
/// "3 for a shorter one"; "with 3 as for theirs".
const LIST_TOO_SHORT: u8 = 3;
/// "12: no first byte."
const NO_FIRST_BYTE: u8 = 12;
/// 13, of a trace: "one to three bytes left over"; here one to seven.
const BYTES_LEFT_OVER: u8 = 13;
/// 14, of a record: "unused kind, or a field that must be zero is not; given
/// before any other number for that record." So of a call, and before 25 too.
const BAD_CALL: u8 = 14;

/// "gives each caller a role, and a job owner a set of processes".
#[derive(Clone, Copy, Debug, PartialEq, Eq)]
pub enum Caller {
    Operator,
    Owner(u64),
    Viewer,
}
use Caller::*;

#[derive(Clone, Copy, Debug, PartialEq, Eq)]
pub enum Operation {
    Checkpoint,
    Send,
    Deliver,
    Lose,
    Recover,
    Line,
    Earliest,
    List,
    Counts,
    Start,
}

/// "A table of roles and operations says who may do what: an operator
/// everything; a job owner checkpoint, send from, deliver to, lose to and list
/// its own processes, and see its own members of a line for a failed set [...];
/// a viewer the number of checkpoints kept at each process".
pub fn may(caller: Caller, operation: Operation) -> bool {
    use Operation::*;
    match caller {
        Operator => true,
        Owner(_) => matches!(operation, Checkpoint | Send | Deliver | Lose | List | Line),
        Viewer => matches!(operation, Counts),
    }
}

/// The run behind the console.
pub struct Console {
    run: Run,
}

/// The calls, each with its caller.
impl Console {
    /// Gives the console over a new run.
    pub fn start(caller: Caller, count: usize, counts: &Counts) -> Result<Console, u8> {
        judge(caller, Operation::Start)?;
        Ok(Console {
            run: Run::start(count, counts)?,
        })
    }

    /// A door for tests: number 16 is too far away to be reached by calls.
    pub fn over(run: Run) -> Console {
        Console { run }
    }

    pub fn checkpoint(
        &mut self,
        caller: Caller,
        i: usize,
        deletions: &mut [Entry],
    ) -> Result<Checkpointed, u8> {
        judge(caller, Operation::Checkpoint)?;
        self.judge_own(caller, i)?;
        self.run.checkpoint(i, deletions)
    }

    /// "(a send's receiver and a failed set aside)"
    pub fn send(&mut self, caller: Caller, i: usize, j: usize) -> Result<u64, u8> {
        judge(caller, Operation::Send)?;
        self.judge_own(caller, i)?;
        self.run.send(i, j)
    }

    pub fn deliver(
        &mut self,
        caller: Caller,
        number: u64,
        deletions: &mut [Entry],
    ) -> Result<Delivered, u8> {
        judge(caller, Operation::Deliver)?;
        self.judge_message(caller, number)?;
        self.run.deliver(number, deletions)
    }

    pub fn lose(&mut self, caller: Caller, number: u64) -> Result<(), u8> {
        judge(caller, Operation::Lose)?;
        self.judge_message(caller, number)?;
        self.run.lose(number)
    }

    pub fn recover(
        &mut self,
        caller: Caller,
        failed: u64,
        deletions: &mut [Entry],
        line: &mut [Entry],
    ) -> Result<Recovered, u8> {
        judge(caller, Operation::Recover)?;
        self.run.recover(failed, deletions, line)
    }

    /// "see its own members of a line for a failed set, other places left
    /// unchanged".
    pub fn line(&self, caller: Caller, failed: u64, line: &mut [Entry]) -> Result<(), u8> {
        judge(caller, Operation::Line)?;
        let mut whole = line.to_vec();
        self.run.line(failed, &mut whole)?;
        for i in 0..self.run.count() {
            if self.may_see(caller, i) {
                line[i] = whole[i];
            }
        }
        Ok(())
    }

    pub fn earliest(&self, caller: Caller, named: &[Named], line: &mut [Entry]) -> Result<(), u8> {
        judge(caller, Operation::Earliest)?;
        self.run.earliest(named, line)
    }

    /// "A list gives exactly the kept checkpoints of the owner's processes, to
    /// an operator of all, written as deletions are, with 3 as for theirs, and
    /// their count."
    pub fn list(&self, caller: Caller, list: &mut [Entry]) -> Result<usize, u8> {
        judge(caller, Operation::List)?;
        let count = self.run.count();
        if list.len() < 2 * count * count {
            return Err(LIST_TOO_SHORT);
        }
        let mut listed = 0;
        for i in 0..count {
            if !self.may_see(caller, i) {
                continue;
            }
            for (index, _) in self.run.kept(i) {
                list[2 * listed] = as_entry(i);
                list[2 * listed + 1] = index;
                listed += 1;
            }
        }
        Ok(listed)
    }

    /// "the number of checkpoints kept at each process, written as n entries to
    /// a lent line list, with 3 for a shorter one."
    pub fn counts(&self, caller: Caller, line: &mut [Entry]) -> Result<(), u8> {
        judge(caller, Operation::Counts)?;
        if line.len() < self.run.count() {
            return Err(LIST_TOO_SHORT);
        }
        for i in 0..self.run.count() {
            line[i] = as_entry(self.run.kept(i).count());
        }
        Ok(())
    }

    pub fn run(&self) -> &Run {
        &self.run
    }
}

/// What is denied.
impl Console {
    /// "To an owner, a process not its own [...] count[s] as denied." A process
    /// that is none is nobody's: "a set of processes whose bits at n or above
    /// count for nothing".
    fn judge_own(&self, caller: Caller, process: usize) -> Result<(), u8> {
        match caller {
            Owner(_) if !self.may_see(caller, process) => Err(DENIED),
            _ => Ok(()),
        }
    }

    /// "and a message not under way to its own processes".
    fn judge_message(&self, caller: Caller, number: u64) -> Result<(), u8> {
        let mut messages = self.run.under_way().iter();
        let to_own = messages
            .any(|message| message.number == number && self.may_see(caller, message.receiver));
        match caller {
            Owner(_) if !to_own => Err(DENIED),
            _ => Ok(()),
        }
    }

    fn may_see(&self, caller: Caller, process: usize) -> bool {
        match caller {
            Operator => true,
            Owner(set) => process < self.run.count() && set >> process & 1 == 1,
            Viewer => false,
        }
    }
}

fn judge(caller: Caller, operation: Operation) -> Result<(), u8> {
    if may(caller, operation) {
        Ok(())
    } else {
        Err(DENIED)
    }
}

// ----------------------------------------------------------------- scripts

/// What a place of a lent list holds before a call. No call writes it: entries
/// and indexes end at 65,535.
const UNTOUCHED: Entry = Entry::MAX;

const CALL: usize = 8;

/// The facts of a script, one line for each call.
///
/// # Script
///
/// The first byte is n, and the operator's start of n, with block counts 1, comes
/// first; where it is refused, or there is no first byte, the one line is `0 R`. Then come calls of
/// 8 bytes; 1 to 7 left over at the end are 13, under the number of the call that
/// they begin. Numbers of more than one byte have the high byte first.
///
/// * byte 0: the caller, 0 operator, 1 owner, 2 to 127 viewer; 128 added means
///   lent lists that are one entry too short;
/// * bytes 1 and 2: the set of an owner; of another caller it is not looked at;
/// * byte 3: the operation;
/// * byte 4: the process;
/// * bytes 5 to 7: the argument.
///
/// | operation    | process           | argument                              |
/// |--------------|-------------------|---------------------------------------|
/// | 0 checkpoint | of the checkpoint | zero                                  |
/// | 1 send       | the sender        | the receiver                          |
/// | 2 deliver    | zero              | the message number                    |
/// | 3 lose       | zero              | the message number                    |
/// | 4 recover    | zero              | the failed set, 16 bits: byte 5 zero  |
/// | 5 line       | zero              | the failed set, 16 bits: byte 5 zero  |
/// | 6 earliest   | the named one     | its index, 16 bits: byte 5 zero       |
/// | 7 list       | zero              | zero                                  |
/// | 8 counts     | zero              | zero                                  |
/// | 9 start      | the count         | zero                                  |
///
/// Any other operation, and any byte that must be zero and is not, is 14, before
/// every other number of the call.
///
/// The deletion list has 2 * n * n entries and the line list n, or one fewer
/// each. A refused start leaves the state as it was.
///
/// # Facts
///
/// The number of the call from 1, then 0 or the refusal number. If it is
/// accepted, then, each after one space:
///
/// * checkpoint: index, count of deletions, each as process:index;
/// * send: the message number;
/// * deliver: forced index or a hyphen, the set of entries that rose, count of
///   deletions, each;
/// * recover: the n entries of the line list, how many rolled back, count of
///   deletions, each;
/// * line: the n entries of the line list, a hyphen where nothing was written;
/// * earliest, counts: the n entries of the line list;
/// * list: the count, each as process:index;
/// * lose, start: nothing.
pub fn facts(script: &[u8]) -> String {
    let Some((first, calls)) = script.split_first() else {
        return format!("0 {NO_FIRST_BYTE}\n");
    };
    let mut console = match Console::start(Operator, usize::from(*first), &ONES) {
        Ok(console) => console,
        Err(number) => return format!("0 {number}\n"),
    };
    let mut facts = String::new();
    for (bytes, number) in calls.chunks(CALL).zip(1..) {
        let Some(bytes) = bytes.first_chunk() else {
            facts += &format!("{number} {BYTES_LEFT_OVER}\n");
            break;
        };
        let answer = Call::of(bytes)
            .ok_or(BAD_CALL)
            .and_then(|call| made(&mut console, &call));
        facts += &match answer {
            Ok(values) if values.is_empty() => format!("{number} 0\n"),
            Ok(values) => format!("{number} 0 {values}\n"),
            Err(refusal) => format!("{number} {refusal}\n"),
        };
    }
    facts
}

/// One call of a script.
struct Call {
    caller: Caller,
    short_lists: bool,
    asked: Asked,
}

/// The operation with what it names.
enum Asked {
    Checkpoint(usize),
    Send(usize, usize),
    Deliver(u64),
    Lose(u64),
    Recover(u64),
    Line(u64),
    Earliest(Named),
    List,
    Counts,
    Start(usize),
}

impl Call {
    fn of(bytes: &[u8; CALL]) -> Option<Call> {
        let [who, high, low, ..] = *bytes;
        let (short_lists, role) = match who {
            0..=127 => (false, who),
            128.. => (true, who - 128),
        };
        Some(Call {
            caller: match role {
                0 => Operator,
                1 => Owner(number_of(&[high, low])),
                _ => Viewer,
            },
            short_lists,
            asked: Asked::of(bytes)?,
        })
    }
}

impl Asked {
    /// None: an operation that there is not, or a byte that must be zero and is
    /// not.
    fn of(bytes: &[u8; CALL]) -> Option<Asked> {
        let [_, _, _, operation, process, argument @ ..] = *bytes;
        let process = usize::from(process);
        let whole = number_of(&argument);
        let asked = match (operation, process, argument) {
            (0, _, [0, 0, 0]) => Asked::Checkpoint(process),
            (1, _, _) => Asked::Send(process, usize::try_from(whole).expect("24 bits fit")),
            (2, 0, _) => Asked::Deliver(whole),
            (3, 0, _) => Asked::Lose(whole),
            (4, 0, [0, _, _]) => Asked::Recover(whole),
            (5, 0, [0, _, _]) => Asked::Line(whole),
            (6, _, [0, _, _]) => Asked::Earliest(Named {
                process,
                index: whole,
            }),
            (7, 0, [0, 0, 0]) => Asked::List,
            (8, 0, [0, 0, 0]) => Asked::Counts,
            (9, _, [0, 0, 0]) => Asked::Start(process),
            _ => return None,
        };
        Some(asked)
    }
}

/// The number that bytes are, the high byte first.
fn number_of(bytes: &[u8]) -> u64 {
    bytes
        .iter()
        .fold(0, |high, low| 256 * high + u64::from(*low))
}

/// Makes the call. Gives the values of an accepted one.
fn made(console: &mut Console, call: &Call) -> Result<String, u8> {
    let count = console.run.count();
    let fewer = usize::from(call.short_lists);
    let deletions = &mut vec![UNTOUCHED; 2 * count * count - fewer][..];
    let line = &mut vec![UNTOUCHED; count - fewer][..];
    let caller = call.caller;
    let mut values = Values(String::new());
    match call.asked {
        Asked::Checkpoint(process) => {
            let done = console.checkpoint(caller, process, deletions)?;
            values.number(done.index);
            values.pairs(done.deletions, deletions);
        }
        Asked::Send(sender, receiver) => values.number(console.send(caller, sender, receiver)?),
        Asked::Deliver(number) => {
            let done = console.deliver(caller, number, deletions)?;
            match done.forced {
                Some(index) => values.number(index),
                None => values.number('-'),
            }
            values.number(done.rose);
            values.pairs(done.deletions, deletions);
        }
        Asked::Lose(number) => console.lose(caller, number)?,
        Asked::Recover(failed) => {
            let done = console.recover(caller, failed, deletions, line)?;
            values.line(line);
            values.number(done.rolled_back);
            values.pairs(done.deletions, deletions);
        }
        Asked::Line(failed) => {
            console.line(caller, failed, line)?;
            values.line(line);
        }
        Asked::Earliest(named) => {
            console.earliest(caller, &[named], line)?;
            values.line(line);
        }
        Asked::List => {
            let listed = console.list(caller, deletions)?;
            values.pairs(listed, deletions);
        }
        Asked::Counts => {
            console.counts(caller, line)?;
            values.line(line);
        }
        Asked::Start(count) => *console = Console::start(caller, count, &ONES)?,
    }
    Ok(values.0)
}

/// The values of a line, single spaces between them.
struct Values(String);

impl Values {
    fn number(&mut self, value: impl std::fmt::Display) {
        let space = if self.0.is_empty() { "" } else { " " };
        write!(self.0, "{space}{value}").expect("a string takes every text");
    }

    fn pairs(&mut self, count: usize, list: &[Entry]) {
        self.number(count);
        for pair in list[..2 * count].chunks_exact(2) {
            self.number(format_args!("{}:{}", pair[0], pair[1]));
        }
    }

    fn line(&mut self, line: &[Entry]) {
        for entry in line {
            match *entry {
                UNTOUCHED => self.number('-'),
                index => self.number(index),
            }
        }
    }
}

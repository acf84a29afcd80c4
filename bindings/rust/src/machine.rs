//! The programs as machines: each asks for one thing at a time, and the caller does that with its own files.

use crate::library;
use crate::WORDS;
use std::ffi::OsStr;
use std::fs::File;
use std::io::{self, ErrorKind, Read, Write};
use std::os::unix::ffi::OsStrExt;

/// What a machine asks for.
#[derive(Debug, PartialEq, Eq)]
pub enum Request<'a> {
    /// Nothing any more: it has stopped.
    Stop,
    /// Bytes are to be read to the front of these, one at least.
    Read(&'a mut [u8]),
    /// These bytes are to be written to standard output, all of them.
    Write(&'a [u8]),
    /// These bytes are to be written to standard error; what comes of it counts for nothing.
    Say(&'a [u8]),
    /// These bytes name what failed: they are to be written to standard error with the system's reason.
    Fail(&'a [u8]),
    /// How many words the program was started with, its own name among them.
    Count,
    /// The word of this number, to the front of these bytes, the whole of it. Word 0 is the program's name.
    Argument(usize, &'a mut [u8]),
    /// The file of this name is to be opened, as the input from then on.
    Open(&'a [u8]),
}

/// What came of a request. One that does not fit it counts as [`Answered::Failed`].
#[derive(Clone, Copy, Debug, PartialEq, Eq)]
pub enum Answered {
    /// That many bytes were brought.
    Bytes(usize),
    /// There are no more bytes.
    End,
    /// It is written, said or opened.
    Done,
    /// That many words.
    Number(usize),
    /// The system could not do it.
    Failed,
}

/// Which program a machine is.
#[derive(Clone, Copy)]
enum Program {
    Judge,
    Replay,
    Record,
    Merge,
    Simulate,
    Console,
}

/// A program of the library that asks for one thing at a time and takes what came of it: [`drive`] obeys it with files. What is read, written and reported, the machine decides.
///
/// ```
/// use lemidrosy::{Answered, Machine, Request};
///
/// let mut judge = Machine::judge();
/// match judge.request() {
///     Request::Read(to) => to[0] = 17,
///     other => panic!("{other:?}"),
/// }
/// judge.answer(Answered::Bytes(1));
/// assert_eq!(judge.request(), Request::Write(b"refused 1\n"));
/// judge.answer(Answered::Done);
/// assert_eq!(judge.request(), Request::Stop);
/// ```
#[derive(Clone)]
pub struct Machine {
    program: Program,
    lent: library::Lent,
    asked: [u64; 4],
}

impl Machine {
    /// A machine that has begun, with that many numbers, words and bytes lent.
    fn begun(program: Program, sizes: [usize; 5]) -> Machine {
        let [memory, words, input, out, lines] = sizes;
        let mut machine = Machine {
            program,
            lent: library::Lent {
                memory: vec![0; memory],
                words: vec![0; words],
                input: vec![0; input],
                out: vec![0; out],
                lines: vec![0; lines],
            },
            asked: [0; 4],
        };
        let (lent, asked) = (&mut machine.lent, &mut machine.asked);
        let refused = match program {
            Program::Judge => library::judge_begin(lent, asked),
            Program::Replay => library::replay_begin(lent, asked),
            Program::Record => library::record_begin(lent, asked),
            Program::Merge => library::merge_begin(lent, asked),
            Program::Simulate => library::simulate_begin(lent, asked),
            Program::Console => library::console_begin(lent, asked),
        };
        assert_eq!(refused, 0, "the lists are as long as lemidrosy.h says");
        machine
    }

    /// The program `judge`.
    pub fn judge() -> Machine {
        Machine::begun(Program::Judge, [2, 0, 16389, 96, 0])
    }

    /// The program `replay`.
    pub fn replay() -> Machine {
        Machine::begun(Program::Replay, [6, WORDS, 65536, 65536, 0])
    }

    /// The program `record`.
    pub fn record() -> Machine {
        Machine::begun(Program::Record, [6, WORDS, 4099, 67584, 67584])
    }

    /// The program `merge`.
    pub fn merge() -> Machine {
        Machine::begun(Program::Merge, [7, 0, 131072, 32784, 0])
    }

    /// The program `simulate`.
    pub fn simulate() -> Machine {
        Machine::begun(Program::Simulate, [8, 0, 65536, 260, 0])
    }

    /// The program `console`.
    pub fn console() -> Machine {
        Machine::begun(Program::Console, [4, WORDS, 8, 12000, 0])
    }

    /// The program's name.
    pub fn name(&self) -> &'static str {
        match self.program {
            Program::Judge => "judge",
            Program::Replay => "replay",
            Program::Record => "record",
            Program::Merge => "merge",
            Program::Simulate => "simulate",
            Program::Console => "console",
        }
    }

    /// What it asks for.
    pub fn request(&mut self) -> Request<'_> {
        let [kind, size, place, word] = self.asked.map(|number| number as usize);
        let library::Lent { input, out, .. } = &mut self.lent;
        match kind {
            1 => Request::Read(&mut input[place..place + size]),
            2 => Request::Write(&out[..size]),
            3 => Request::Say(&out[..size]),
            4 => Request::Fail(&out[..size]),
            5 => Request::Count,
            6 => Request::Argument(word, &mut input[place..place + size]),
            7 => Request::Open(&out[..size]),
            _ => Request::Stop,
        }
    }

    /// Takes what came of the request, any answer at all; then there is the next request.
    pub fn answer(&mut self, answered: Answered) {
        let (kind, number) = match answered {
            Answered::Failed => (0, 0),
            Answered::Bytes(size) => (1, size),
            Answered::End => (2, 0),
            Answered::Done => (3, 0),
            Answered::Number(number) => (4, number),
        };
        let (lent, asked) = (&mut self.lent, &mut self.asked);
        match self.program {
            Program::Judge => library::judge_step(lent, kind, number, asked),
            Program::Replay => library::replay_step(lent, kind, number, asked),
            Program::Record => library::record_step(lent, kind, number, asked),
            Program::Merge => library::merge_step(lent, kind, number, asked),
            Program::Simulate => library::simulate_step(lent, kind, number, asked),
            Program::Console => library::console_step(lent, kind, number, asked),
        };
    }
}

/// The files that a machine is driven with.
struct Files<'a> {
    started: Vec<&'a [u8]>,
    input: &'a mut dyn Read,
    opened: Option<File>,
    output: &'a mut dyn Write,
    errors: &'a mut dyn Write,
    /// Why a call failed last.
    reason: Option<io::Error>,
    /// Whether the machine said so.
    failed: bool,
}

fn read(source: &mut dyn Read, to: &mut [u8]) -> io::Result<Answered> {
    loop {
        match source.read(to) {
            Ok(0) => return Ok(Answered::End),
            Ok(size) => return Ok(Answered::Bytes(size)),
            Err(error) if error.kind() == ErrorKind::Interrupted => (),
            Err(error) => return Err(error),
        }
    }
}

fn write(output: &mut dyn Write, bytes: &[u8]) -> io::Result<Answered> {
    output.write_all(bytes)?;
    output.flush()?;
    Ok(Answered::Done)
}

/// The system's number for a name that is too long.
const ENAMETOOLONG: i32 = 36;

/// A word, if it is there and has room.
fn word(word: Option<&&[u8]>, to: &mut [u8]) -> io::Result<Answered> {
    let word = word.ok_or(ErrorKind::InvalidInput)?;
    let front = to
        .get_mut(..word.len())
        .ok_or_else(|| io::Error::from_raw_os_error(ENAMETOOLONG))?;
    front.copy_from_slice(word);
    Ok(Answered::Bytes(word.len()))
}

/// What the system says of an error, without its number.
fn reason_text(error: &io::Error) -> String {
    let text = error.to_string();
    match text.split_once(" (os error ") {
        Some((reason, _)) => reason.to_string(),
        None => text,
    }
}

impl Files<'_> {
    fn source(&mut self) -> &mut dyn Read {
        match &mut self.opened {
            Some(file) => file,
            None => self.input,
        }
    }

    /// What failed, and why; what comes of saying so counts for nothing.
    fn fail(&mut self, name: &[u8]) -> io::Result<Answered> {
        self.failed = true;
        let reason = self
            .reason
            .get_or_insert_with(|| ErrorKind::InvalidInput.into());
        let line = [name, b": ", reason_text(reason).as_bytes(), b"\n"].concat();
        write(self.errors, &line)
    }

    /// Does what is asked for.
    fn obey(&mut self, request: Request<'_>) -> io::Result<Answered> {
        match request {
            Request::Stop => Ok(Answered::Done),
            Request::Read(to) => read(self.source(), to),
            Request::Write(bytes) => write(self.output, bytes),
            Request::Say(bytes) => write(self.errors, bytes),
            Request::Fail(name) => self.fail(name),
            Request::Count => Ok(Answered::Number(self.started.len())),
            Request::Argument(number, to) => word(self.started.get(number), to),
            Request::Open(name) => {
                self.opened = Some(File::open(OsStr::from_bytes(name))?);
                Ok(Answered::Done)
            }
        }
    }
}

/// Obeys a machine until it stops: reads from the input, or from the file that it last asked to open, writes to the output and says on the errors. The words are the
/// arguments that the program is started with, without its name. Answers the error that the machine ended with, if it did: then it has said so.
///
/// ```
/// use lemidrosy::{drive, Machine};
///
/// let trace = [2, 0x20, 0, 0, 1, 0x40, 0, 0, 7];
/// let (mut output, mut errors) = (Vec::new(), Vec::new());
/// drive(&mut Machine::record(), &[b"100"], &mut &trace[..], &mut output, &mut errors)?;
/// assert_eq!(output, [2, 0x20, 0, 0, 1]);
/// assert_eq!(errors, b"record: record 2: refused 8\n");
/// # Ok::<(), std::io::Error>(())
/// ```
pub fn drive(
    machine: &mut Machine,
    words: &[&[u8]],
    input: &mut dyn Read,
    output: &mut dyn Write,
    errors: &mut dyn Write,
) -> io::Result<()> {
    let mut files = Files {
        started: [&[machine.name().as_bytes()], words].concat(),
        input,
        opened: None,
        output,
        errors,
        reason: None,
        failed: false,
    };
    loop {
        let answered = match machine.request() {
            Request::Stop => break,
            request => files.obey(request),
        };
        machine.answer(answered.unwrap_or_else(|error| {
            files.reason = Some(error);
            Answered::Failed
        }));
    }
    match files.reason {
        Some(error) if files.failed => Err(error),
        _ => Ok(()),
    }
}

//! The replay: a trace in, a listing out, in constant memory.

use crate::run::forged::State;
use crate::run::refusal::NOT_SOUND;
use crate::run::{Entry, Run, MAX_PROCESSES, ONES};
use std::ffi::OsString;
use std::io::{self, ErrorKind, Read, Write};

/// "The program ends after record 1,000,000,000 and reads nothing past it."
pub const LAST_RECORD: u64 = 1_000_000_000;

/// "12: no first byte."
const NO_FIRST_BYTE: u8 = 12;
/// "13: one to three bytes left over."
const BYTES_LEFT_OVER: u8 = 13;
/// "14: unused kind, or a field that must be zero is not"
const BAD_RECORD: u8 = 14;

const INPUT_BUFFER: usize = 1 << 16;
const OUTPUT_BUFFER: usize = 1 << 16;

/// Note 11: "The replay program now stops after printing the first refusal."
/// With the argument `all` it "goes on as before."
#[derive(Clone, Copy, Debug, PartialEq, Eq)]
pub enum AfterRefusal {
    Stop,
    GoOn,
}

impl AfterRefusal {
    /// "Any other argument, or more than one, counts as none."
    pub fn asked_by(arguments: &[OsString]) -> AfterRefusal {
        match arguments {
            [word] if word == "all" => AfterRefusal::GoOn,
            _ => AfterRefusal::Stop,
        }
    }
}

/// "The replay program reads a trace from standard input. Each record gives
/// one line".
pub fn replay<R: Read, W: Write>(
    after_refusal: AfterRefusal,
    input: R,
    output: W,
) -> io::Result<()> {
    replay_up_to(LAST_RECORD, after_refusal, input, output)
}

/// The same, ending after the given record.
///
/// After a reading error the listing so far is still written.
pub fn replay_up_to<R: Read, W: Write>(
    last: u64,
    after_refusal: AfterRefusal,
    input: R,
    output: W,
) -> io::Result<()> {
    let mut source = Source::new(last, input);
    let mut listing = Listing::new(output);
    let outcome = list_trace(last, after_refusal, &mut source, &mut listing);
    listing.flush()?;
    outcome
}

fn list_trace<R: Read, W: Write>(
    last: u64,
    after_refusal: AfterRefusal,
    source: &mut Source<R>,
    listing: &mut Listing<W>,
) -> io::Result<()> {
    // "The first byte is n." "A bad first byte prints record number 0 and the
    // refusal and ends".
    let started = match source.first_byte()? {
        None => Err(NO_FIRST_BYTE),
        // Note 5: "a trace run uses 1."
        Some(count) => Run::start(usize::from(count), &ONES),
    };
    let mut run = match started {
        Ok(run) => run,
        Err(number) => return listing.refused(0, number),
    };

    let mut lists = Lists::new();
    for record_number in 1..=last {
        match source.next_record()? {
            Part::Record(record) => match apply(&mut run, record, &mut lists) {
                Ok(answer) => listing.accepted(record_number, &answer, &lists)?,
                Err(number) => {
                    listing.refused(record_number, number)?;
                    // What follows is neither judged nor read.
                    if after_refusal == AfterRefusal::Stop {
                        return Ok(());
                    }
                }
            },
            // "13 prints under the next record number and ends".
            Part::LeftOver => return listing.refused(record_number, BYTES_LEFT_OVER),
            Part::End => return Ok(()),
        }
    }
    Ok(())
}

/// No line has more bytes: 10 digits of the record number, 3 of the refusal
/// number, 10 of the value, 3 of the count, 12 bytes for each of 256 deletions,
/// three spaces and the line feed.
const LONGEST_LINE: usize = 3102;

/// What a block of records comes to.
pub struct Block {
    pub taken: usize,
    pub lines: Vec<u8>,
    /// Whether the replay goes on after them.
    pub going: bool,
    /// The state after them; none if it is the one that came, which is not sound.
    pub left: Option<State>,
}

/// A block of records, where that many were taken before it and their lines have that
/// much room: one is taken as long as the replay goes on, it is not past the last
/// record, the longest line fits, and a whole one is left. `state` is that of a
/// sound state. Once it is not sound each record is refused, with 14 or else 2.
pub fn block(
    state: Option<&State>,
    after_refusal: AfterRefusal,
    done: u64,
    records: &[u8],
    room: usize,
) -> Block {
    let mut run = state.map(Run::forged);
    let mut is_sound = run.is_some();
    let mut lists = Lists::new();
    let mut listing = Listing::new(Vec::new());
    let (mut taken, mut going) = (0, true);
    for bytes in records.chunks_exact(4) {
        let lines = listing.output.len();
        let past = done >= LAST_RECORD || LAST_RECORD - done <= taken as u64;
        if !going || past || room - lines < LONGEST_LINE {
            break;
        }
        let record = u32::from_be_bytes([bytes[0], bytes[1], bytes[2], bytes[3]]);
        taken += 1;
        let number = done + taken as u64;
        let answered = match &mut run {
            Some(run) if is_sound => apply(run, record, &mut lists),
            _ if is_well_formed(record) => Err(NOT_SOUND),
            _ => Err(BAD_RECORD),
        };
        match answered {
            Ok(answer) => listing.accepted(number, &answer, &lists),
            Err(refusal) => {
                going = after_refusal == AfterRefusal::GoOn;
                listing.refused(number, refusal)
            }
        }
        .and_then(|()| listing.write_out())
        .expect("a line in memory");
        // Only a recovery of a state that calls from a start did not leave can
        // leave one that is not sound.
        is_sound = is_sound && run.as_ref().is_some_and(|run| run.state().is_sound());
    }
    Block {
        taken,
        lines: listing.output,
        going,
        left: run.map(|run| run.state()),
    }
}

/// The lists lent to every call, long enough for every n.
struct Lists {
    deletions: [Entry; 2 * MAX_PROCESSES * MAX_PROCESSES],
    line: [Entry; MAX_PROCESSES],
}

impl Lists {
    fn new() -> Self {
        Lists {
            deletions: [0; 2 * MAX_PROCESSES * MAX_PROCESSES],
            line: [0; MAX_PROCESSES],
        }
    }
}

/// What the line of an accepted record shows; the deletions are in the list.
struct Answer {
    /// None prints a hyphen.
    value: Option<u64>,
    deletions: usize,
}

/// "Then records of 32 bits, most significant bit first: kind 3 bits, process
/// 4 bits, argument 25 bits."
fn fields(record: u32) -> (u32, usize, u32) {
    let process = (record >> 25 & 0b1111) as usize;
    (record >> 29, process, record & 0x1FF_FFFF)
}

fn is_well_formed(record: u32) -> bool {
    let (kind, process, argument) = fields(record);
    well_formed(kind, process, argument)
}

fn apply(run: &mut Run, record: u32, lists: &mut Lists) -> Result<Answer, u8> {
    let (kind, process, argument) = fields(record);
    // "14: [...] given before any other number for that record."
    if !well_formed(kind, process, argument) {
        return Err(BAD_RECORD);
    }
    // "If accepted, then a value (checkpoint: index; send: message number;
    // deliver: forced index or a hyphen; lose: a hyphen; recover: how many
    // rolled back), the count of deletions, and each as process:index."
    let (value, deletions) = match kind {
        0 => {
            let done = run.checkpoint(process, &mut lists.deletions)?;
            (Some(done.index.into()), done.deletions)
        }
        1 => {
            let number = run.send(process, argument as usize)?;
            (Some(number), 0)
        }
        2 => {
            let done = run.deliver(argument.into(), &mut lists.deletions)?;
            (done.forced.map(u64::from), done.deletions)
        }
        3 => {
            run.lose(argument.into())?;
            (None, 0)
        }
        4 => {
            let done = run.recover(argument.into(), &mut lists.deletions, &mut lists.line)?;
            (Some(done.rolled_back as u64), done.deletions)
        }
        _ => return Err(BAD_RECORD),
    };
    Ok(Answer { value, deletions })
}

/// "Kinds: 0 checkpoint (argument zero); 1 send (argument is the receiver); 2
/// deliver and 3 lose (process zero, argument is the message number); 4
/// recover (process zero, argument is the failed set); 5 to 7 unused."
fn well_formed(kind: u32, process: usize, argument: u32) -> bool {
    match kind {
        0 => argument == 0,
        1 => true,
        2..=4 => process == 0,
        _ => false,
    }
}

/// What comes next in the trace after the first byte.
enum Part {
    Record(u32),
    LeftOver,
    End,
}

/// Hands out the trace piece by piece, however short the reads are, and never
/// asks for a byte past the last record.
struct Source<R> {
    input: R,
    buffer: Box<[u8]>,
    /// The bytes read and not yet handed out are `buffer[start..end]`.
    start: usize,
    end: usize,
    /// How many bytes may still be read.
    allowed: u64,
}

impl<R: Read> Source<R> {
    fn new(last: u64, input: R) -> Self {
        Source {
            input,
            buffer: vec![0; INPUT_BUFFER].into_boxed_slice(),
            start: 0,
            end: 0,
            allowed: 1 + 4 * last,
        }
    }

    fn first_byte(&mut self) -> io::Result<Option<u8>> {
        self.next_byte()
    }

    fn next_record(&mut self) -> io::Result<Part> {
        if let Some(bytes) = self.buffer[self.start..self.end].first_chunk::<4>() {
            self.start += 4;
            return Ok(Part::Record(u32::from_be_bytes(*bytes)));
        }
        self.next_record_across_reads()
    }

    /// A record that is not yet in the buffer as a whole.
    fn next_record_across_reads(&mut self) -> io::Result<Part> {
        let mut bytes = [0; 4];
        for taken in 0..4 {
            match self.next_byte()? {
                Some(byte) => bytes[taken] = byte,
                None if taken == 0 => return Ok(Part::End),
                None => return Ok(Part::LeftOver),
            }
        }
        Ok(Part::Record(u32::from_be_bytes(bytes)))
    }

    fn next_byte(&mut self) -> io::Result<Option<u8>> {
        if self.start == self.end && !self.refill()? {
            return Ok(None);
        }
        let byte = self.buffer[self.start];
        self.start += 1;
        Ok(Some(byte))
    }

    /// Reads on into the empty buffer. False at the end of the input, or when
    /// no more may be read.
    fn refill(&mut self) -> io::Result<bool> {
        let most = self.allowed.min(self.buffer.len() as u64) as usize;
        if most == 0 {
            return Ok(false);
        }
        loop {
            match self.input.read(&mut self.buffer[..most]) {
                Ok(got) => {
                    self.start = 0;
                    self.end = got;
                    self.allowed -= got as u64;
                    return Ok(got > 0);
                }
                Err(error) if error.kind() == ErrorKind::Interrupted => {}
                Err(error) => return Err(error),
            }
        }
    }
}

/// Writes the listing: "one line, decimal, single spaces".
struct Listing<W> {
    output: W,
    buffer: Vec<u8>,
}

impl<W: Write> Listing<W> {
    fn new(output: W) -> Self {
        Listing {
            output,
            buffer: Vec::with_capacity(OUTPUT_BUFFER),
        }
    }

    fn refused(&mut self, record_number: u64, refusal_number: u8) -> io::Result<()> {
        self.number(record_number);
        self.sign(b' ');
        self.number(refusal_number.into());
        self.end_line()
    }

    fn accepted(&mut self, record_number: u64, answer: &Answer, lists: &Lists) -> io::Result<()> {
        self.number(record_number);
        self.buffer.extend_from_slice(b" 0 ");
        match answer.value {
            Some(value) => self.number(value),
            None => self.sign(b'-'),
        }
        self.sign(b' ');
        self.number(answer.deletions as u64);
        for pair in lists.deletions[..2 * answer.deletions].chunks_exact(2) {
            self.sign(b' ');
            self.number(pair[0].into());
            self.sign(b':');
            self.number(pair[1].into());
        }
        self.end_line()
    }

    fn sign(&mut self, sign: u8) {
        self.buffer.push(sign);
    }

    /// The digits are found from the last one to the first.
    fn number(&mut self, mut value: u64) {
        let mut digits = [0; 20];
        let mut first = digits.len();
        loop {
            first -= 1;
            digits[first] = b'0' + (value % 10) as u8;
            value /= 10;
            if value == 0 {
                break;
            }
        }
        self.buffer.extend_from_slice(&digits[first..]);
    }

    fn end_line(&mut self) -> io::Result<()> {
        self.sign(b'\n');
        // The longest line has some 2,400 bytes.
        if self.buffer.len() > OUTPUT_BUFFER - 4096 {
            self.write_out()?;
        }
        Ok(())
    }

    /// Empties the buffer also after a writing error, so that no line is
    /// ever written twice.
    fn write_out(&mut self) -> io::Result<()> {
        let outcome = self.output.write_all(&self.buffer);
        self.buffer.clear();
        outcome
    }

    fn flush(&mut self) -> io::Result<()> {
        self.write_out()?;
        self.output.flush()
    }
}

//! Note 12: two halves of one run, merged into one plain trace.
//!
//! Plainly by the note's sentences: it shares nothing with `run` and `replay`.

use crate::whole::Whole;

/// A half has at most that many records, else 17.
pub const MAX_RECORDS: usize = 4096;

const MAX_PROCESSES: usize = 16;

mod refusal {
    pub const COUNT_OUTSIDE: u8 = 1;
    pub const BUFFER_TOO_SHORT: u8 = 3;
    pub const NO_SUCH_PROCESS: u8 = 4;
    pub const SENDER_IS_RECEIVER: u8 = 5;
    pub const SET_OUTSIDE: u8 = 7;
    pub const NO_FIRST_BYTE: u8 = 12;
    pub const BYTES_LEFT_OVER: u8 = 13;
    pub const BAD_RECORD: u8 = 14;
    pub const TOO_MANY_RECORDS: u8 = 17;
    pub const HALVES_MISMATCH: u8 = 23;
    pub const NEITHER_READY: u8 = 24;
}
use refusal::*;

const CHECKPOINT: u32 = 0;
const SEND: u32 = 1;
const DELIVER: u32 = 2;
const LOSE: u32 = 3;

/// Merges two halves into the result buffer. "a set says which processes belong
/// to the first half", bit p for process p. Gives how many bytes it wrote; "the
/// rest of the buffer is unchanged."
pub fn merge(
    first: &[u8],
    second: &[u8],
    set: impl Into<Whole>,
    result: &mut [u8],
) -> Result<usize, u8> {
    let trace = merged(first, second, &set.into(), result.len())?;
    result[..trace.len()].copy_from_slice(&trace);
    Ok(trace.len())
}

fn merged(first: &[u8], second: &[u8], set: &Whole, room: usize) -> Result<Vec<u8>, u8> {
    let count = judge_halves(first, second, set, room)?;
    let mut merge = Merge {
        count,
        set,
        halves: [&first[1..], &second[1..]],
        sent: vec![Vec::new(); count],
        sends: 0,
        trace: vec![first[0]],
    };
    // "The merge takes the next record from the first half if it is ready,
    // otherwise from the second".
    while !merge.halves.iter().all(|half| half.is_empty()) {
        if merge.is_ready(0) {
            merge.take(0)?;
        } else if merge.is_ready(1) {
            merge.take(1)?;
        } else {
            // "24 when records are left and neither half is ready."
            return Err(NEITHER_READY);
        }
    }
    Ok(merge.trace)
}

/// What is judged "all before any record". Gives the count of processes.
fn judge_halves(first: &[u8], second: &[u8], set: &Whole, room: usize) -> Result<usize, u8> {
    let halves = [first, second];
    let some_half = |is_so: fn(&[u8]) -> bool| halves.iter().any(|half| is_so(half));
    if some_half(|half| !half.is_empty() && !(1..=MAX_PROCESSES).contains(&(half[0] as usize))) {
        return Err(COUNT_OUTSIDE);
    }
    // "Number 3 covers a result buffer shorter than both halves together".
    if room < first.len() + second.len() {
        return Err(BUFFER_TOO_SHORT);
    }
    if some_half(|half| half.is_empty()) {
        return Err(NO_FIRST_BYTE);
    }
    // "23, right after 12, for unequal counts".
    if first[0] != second[0] {
        return Err(HALVES_MISMATCH);
    }
    let count = first[0] as usize;
    // "7 the set (judged only after 1, 12 and 23 have passed both halves)".
    if set.has_bit_at_or_above(count) {
        return Err(SET_OUTSIDE);
    }
    // "13, and after it 17, each half".
    if some_half(|half| (half.len() - 1) % 4 != 0) {
        return Err(BYTES_LEFT_OVER);
    }
    if some_half(|half| (half.len() - 1) / 4 > MAX_RECORDS) {
        return Err(TOO_MANY_RECORDS);
    }
    Ok(count)
}

/// A message that was sent: its run-wide number and its receiver.
#[derive(Clone, Copy)]
struct Message {
    number: u32,
    receiver: usize,
}

struct Merge<'a> {
    count: usize,
    set: &'a Whole,
    /// The records that are left of each half.
    halves: [&'a [u8]; 2],
    /// The messages of each sender, in the order of its sends.
    sent: Vec<Vec<Message>>,
    /// How many were sent in all.
    sends: u32,
    trace: Vec<u8>,
}

#[derive(Clone, Copy)]
struct Record {
    kind: u32,
    process: usize,
    argument: u32,
}

impl Record {
    fn first_of(half: &[u8]) -> Option<Record> {
        let word = u32::from_be_bytes(*half.first_chunk()?);
        Some(Record {
            kind: word >> 29,
            process: (word >> 25 & 0b1111) as usize,
            argument: word & 0x1FF_FFFF,
        })
    }

    fn bytes(&self) -> [u8; 4] {
        (self.kind << 29 | (self.process as u32) << 25 | self.argument).to_be_bytes()
    }
}

impl Merge<'_> {
    /// "A delivery or loss is ready once its message was sent, any other record
    /// always."
    fn is_ready(&self, half: usize) -> bool {
        match Record::first_of(self.halves[half]) {
            None => false,
            Some(record) => match record.kind {
                DELIVER | LOSE => self.message_of(record.argument).is_some(),
                _ => true,
            },
        }
    }

    /// "the argument names a message by 4 bits of sender, then 21 bits of that
    /// sender's running count from 1". None while it is not sent.
    fn message_of(&self, argument: u32) -> Option<Message> {
        let (sender, running) = (argument >> 21, argument & 0x1F_FFFF);
        let place = (running as usize).checked_sub(1)?;
        self.sent.get(sender as usize)?.get(place).copied()
    }

    /// Takes the next record of a half, which is ready.
    fn take(&mut self, half: usize) -> Result<(), u8> {
        let record = Record::first_of(self.halves[half]).expect("a record is left");
        self.halves[half] = &self.halves[half][4..];
        judge_form(&record)?;
        let plain = match record.kind {
            CHECKPOINT => {
                self.judge_process(record.process)?;
                self.judge_half(half, record.process)?;
                record
            }
            SEND => {
                let receiver = record.argument as usize;
                self.judge_process(record.process)?;
                self.judge_process(receiver)?;
                if record.process == receiver {
                    return Err(SENDER_IS_RECEIVER);
                }
                self.judge_half(half, record.process)?;
                self.sends += 1;
                self.sent[record.process].push(Message {
                    number: self.sends,
                    receiver,
                });
                record
            }
            _ => {
                let message = self.message_of(record.argument);
                let Message { number, receiver } = message.expect("it is ready");
                self.judge_half(half, receiver)?;
                // "The result is a plain trace with run-wide numbers".
                Record {
                    argument: number,
                    ..record
                }
            }
        };
        self.trace.extend(plain.bytes());
        Ok(())
    }

    fn judge_process(&self, process: usize) -> Result<(), u8> {
        if process >= self.count {
            return Err(NO_SUCH_PROCESS);
        }
        Ok(())
    }

    /// "23, [...] right after 5 for a taken record of a process, or a delivery
    /// or loss for a receiver, outside that half".
    fn judge_half(&self, half: usize, process: usize) -> Result<(), u8> {
        let belongs_to_first = self.set.has_bit(process);
        if belongs_to_first != (half == 0) {
            return Err(HALVES_MISMATCH);
        }
        Ok(())
    }
}

/// "In a half, kinds 0 to 3 occur, and in deliver and lose the process is zero".
/// "14 (kind 4 too)".
fn judge_form(record: &Record) -> Result<(), u8> {
    let well_formed = match record.kind {
        CHECKPOINT => record.argument == 0,
        SEND => true,
        DELIVER | LOSE => record.process == 0,
        _ => false,
    };
    if !well_formed {
        return Err(BAD_RECORD);
    }
    Ok(())
}

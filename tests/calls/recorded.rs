//! The calls through the recorder (document 02, Note 9), made from C and held to
//! the oracle. What a call answers and leaves is that of the call without the
//! recorder, which `hold` compares; here are the buffer, the place and the two
//! refusals more: 21, where the record has no room and the call would be
//! accepted, and 3, where no place is lent.

use crate::guarded::{about_to, lent, returned};
use crate::{numbers, take_all_back, Archive, Lent, SUMS};
use oracle::calls::draw::Draws;
use oracle::calls::hold::{hold, place, Library, CALLS};
use oracle::calls::{Call, Lists};
use oracle::words::SIZE;
use std::ffi::c_int;

extern "C" {
    fn record_from_c(
        call: *const Lent,
        buffer: *mut u8,
        size: usize,
        place: *mut u64,
        places: usize,
    ) -> u64;
}

/// The number of `driver.c`'s buffer for bytes.
const BYTES: c_int = 5;

const LIST_TOO_SHORT: u64 = 3;
const BUFFER_TOO_SHORT: u64 = 21;

/// In a run of at least that many calls, every number is met at least that many
/// times.
const MANY: u64 = 200_000;
const LEAST: u64 = 10;

/// The calls that the recorder has: the first of `CALLS`.
const RECORDED: usize = 8;

struct Recorder {
    archive: Archive,
    draws: Draws,
    /// The buffer and the place as the calls before left them.
    bytes: Vec<u8>,
    at: u64,
    calls: u64,
    /// 21, by call; and how often no place was lent.
    short: [u64; RECORDED],
    placeless: u64,
    /// How many records were written.
    records: u64,
}

/// The record of a call: kind, process and argument in 3, 4 and 25 bits.
fn record(call: Call) -> Option<[u8; 4]> {
    let (kind, process, argument) = match call {
        Call::Checkpoint { process } => (0, process, 0),
        Call::Send { from, to } => (1, from, to),
        Call::Deliver { number } => (2, 0, number),
        Call::Lose { number } => (3, 0, number),
        Call::Recover { failed } => (4, 0, failed),
        _ => return None,
    };
    Some(((kind << 29 | process << 25 | argument) as u32).to_be_bytes())
}

impl Recorder {
    /// Mostly the buffer and the place go on, until there is no room; now and
    /// then the buffer has another length, and the place is anywhere, or there is
    /// none.
    fn draw(&mut self) -> Vec<u64> {
        let full = self.bytes.len() as u64 <= self.at;
        if self.draws.once_in(if full { 4 } else { 40 }) {
            let size = self.draws.one_of(&[0, 1, 3, 4, 5, 9, 40, 100, 200, 400]);
            self.bytes = (0..size).map(|_| self.draws.word() as u8).collect();
            self.at = match self.draws.below(8) {
                0 => self.draws.number(),
                1 => size as u64 + self.draws.below(5),
                _ => self.draws.below(size as u64 + 1),
            };
        }
        if self.draws.once_in(64) {
            return Vec::new();
        }
        let mut places = vec![self.at];
        if self.draws.once_in(16) {
            places.push(self.draws.number());
        }
        places
    }

    fn made(
        &mut self,
        call: Call,
        words: &mut [u16],
        lists: &mut Lists,
        places: &mut [u64],
    ) -> Result<u64, String> {
        let how = self.calls / 2;
        let made = Lent::of(place(call), numbers(call), words, lists, how);
        let buffer: *mut u8 = lent(BYTES, &self.bytes, how);
        let at: *mut u64 = lent(SUMS, places, how >> 1);
        // Safety: every buffer is lent for the call.
        let answer = unsafe {
            about_to(self.calls);
            record_from_c(&made, buffer, self.bytes.len(), at, places.len())
        };
        made.returned(words, lists);
        returned(buffer, &mut self.bytes);
        returned(at, places);
        take_all_back(&[SUMS, BYTES])?;
        Ok(answer)
    }
}

impl Library for Recorder {
    fn has(&self, call: usize) -> bool {
        call < RECORDED
    }

    fn fitted(&self, call: Call) -> Call {
        self.archive.fitted(call)
    }

    fn call(&mut self, call: Call, words: &mut [u16], lists: &mut Lists) -> Result<u64, String> {
        self.calls += 1;
        let mut places = self.draw();
        let (bytes, at) = (self.bytes.clone(), places.clone());
        let (words_before, lists_before) = (words.to_vec(), lists.clone());
        let answer = self.made(call, words, lists, &mut places)?;
        let number = answer & 255;
        let starts = matches!(call, Call::Start { .. });
        let size = bytes.len() as u64;
        // How many bytes it would write, and where.
        let (from, written) = match (call, record(call)) {
            (Call::Start { count }, _) => (0, vec![count as u8]),
            (_, Some(record)) => (at.first().copied().unwrap_or(0), record.to_vec()),
            _ => (0, Vec::new()),
        };
        let room = from <= size && size - from >= written.len() as u64;
        let (mut bytes, mut at) = (bytes, at);
        if number == 0 && !written.is_empty() {
            if at.is_empty() || !room {
                return Err("accepted without a place or without room".to_string());
            }
            let from = from as usize;
            bytes[from..from + written.len()].copy_from_slice(&written);
            at[0] = (from + written.len()) as u64;
            self.records += u64::from(!starts);
        }
        if self.bytes != bytes || places != at {
            return Err(format!(
                "buffer {:?} and place {places:?}, not {bytes:?} and {at:?}",
                self.bytes
            ));
        }
        if let Some(next) = places.first() {
            self.at = *next;
        }
        let placeless = places.is_empty();
        if placeless && answer != LIST_TOO_SHORT {
            return Err(format!("answer {answer:#x}, though no place is lent"));
        }
        if !placeless && number != BUFFER_TOO_SHORT {
            return Ok(answer);
        }
        // Nothing was done: the lists are as they were, and so are the words, but
        // for those of a start that is refused with 21.
        let zeroed = starts && !placeless && words.len() == SIZE;
        let kept = words == words_before.as_slice();
        if *lists != lists_before
            || !(if zeroed {
                words.iter().all(|word| *word == 0)
            } else {
                kept
            })
        {
            return Err(format!("refused with {number}, but not as it was"));
        }
        if placeless {
            self.placeless += 1;
        } else if room || answer != BUFFER_TOO_SHORT {
            return Err(format!(
                "answer {answer:#x} with room, or with more than 21"
            ));
        } else {
            self.short[place(call)] += 1;
        }
        // Made without the recorder, it is held as any other call; it is accepted
        // where there was no room.
        words.copy_from_slice(&words_before);
        let plain = self.archive.call(call, words, lists)?;
        if !placeless && plain & 255 != 0 {
            return Err(format!(
                "21, though the call is refused with {}",
                plain & 255
            ));
        }
        Ok(plain)
    }
}

/// Makes that many calls by seed. Says what was met, or the first difference; true
/// if there is none.
#[no_mangle]
pub extern "C" fn hold_recorded(seed: u64, count: u64) -> bool {
    let mut recorder = Recorder {
        archive: Archive { calls: 0 },
        draws: Draws::new(seed ^ 0x7265_636f_7264),
        bytes: Vec::new(),
        at: 0,
        calls: 0,
        short: [0; RECORDED],
        placeless: 0,
        records: 0,
    };
    let said = hold(&mut recorder, seed, count).and_then(|tally| {
        for ((name, _), many) in CALLS.iter().zip(recorder.short) {
            println!("{name} with 21: {many}");
        }
        println!("no place: {}", recorder.placeless);
        println!("records: {}", recorder.records);
        println!("recorded: {}", tally.calls);
        if count < MANY {
            return Ok(());
        }
        let numbers = CALLS.iter().zip(tally.met).zip(recorder.short);
        for (((name, numbers), met), short) in numbers {
            // A line request is never refused with 21.
            let records = !matches!(*name, "line" | "earliest");
            if (short >= LEAST) != records {
                return Err(format!("hardly met, or too often: {name} with 21"));
            }
            if let Some(number) = numbers.iter().find(|number| met[**number] < LEAST) {
                return Err(format!("hardly met: {name} with {number}"));
            }
        }
        if recorder.placeless < LEAST {
            return Err("hardly met: no place".to_string());
        }
        Ok(())
    });
    if let Err(what) = &said {
        println!("seed {seed}: {what}");
    }
    said.is_ok()
}

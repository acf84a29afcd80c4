//! The library, linked as an archive, held to the oracle. This part is linked
//! into `driver.c`, which has the buffers that are lent and calls the library from
//! C; every second call is made here, from Rust.
//!
//! * `console`: the calls through the console.
//! * `guarded`: the buffers that are lent.
//! * `programs`: what works on no state.
//! * `recorded`: the calls through the recorder.

mod console;
#[path = "../guarded.rs"]
mod guarded;
mod programs;
mod recorded;

use guarded::{about_to, lent, returned, take_back};
use oracle::calls::hold::{hold, place, Library, Tally, CALLS};
use oracle::calls::{Call, Lists};
use std::ffi::c_int;

/// A call, as `driver.c` takes it: `struct call`.
#[repr(C)]
struct Lent {
    which: u32,
    first: u64,
    second: u64,
    words: *mut u16,
    words_len: usize,
    deletions: *mut u16,
    deletions_len: usize,
    line: *mut u16,
    line_len: usize,
    numbers: *mut u32,
    numbers_len: usize,
    sums: *mut u64,
    sums_len: usize,
}

impl Lent {
    /// The call at a place of its list, with two numbers, the words and all lists
    /// but that of sums, each in its buffer.
    fn of(
        which: usize,
        (first, second): (u64, u64),
        words: &[u16],
        lists: &Lists,
        how: u64,
    ) -> Lent {
        Lent {
            which: which as u32,
            first,
            second,
            words: lent(WORDS, words, how),
            words_len: words.len(),
            deletions: lent(DELETIONS, &lists.deletions, how >> 1),
            deletions_len: lists.deletions.len(),
            line: lent(LINE, &lists.line, how >> 1),
            line_len: lists.line.len(),
            numbers: lent(NUMBERS, &lists.numbers, how >> 1),
            numbers_len: lists.numbers.len(),
            sums: std::ptr::null_mut(),
            sums_len: 0,
        }
    }

    /// What the call left of them.
    fn returned(&self, words: &mut [u16], lists: &mut Lists) {
        returned(self.words, words);
        returned(self.deletions, &mut lists.deletions);
        returned(self.line, &mut lists.line);
        returned(self.numbers, &mut lists.numbers);
    }
}

/// Takes the buffers back that every call is lent, and these.
fn take_all_back(more: &[c_int]) -> Result<(), String> {
    for &buffer in [WORDS, DELETIONS, LINE, NUMBERS].iter().chain(more) {
        // Safety: nobody uses what was lent any more.
        if !unsafe { take_back(buffer) } {
            return Err(format!("it wrote beside buffer {buffer}"));
        }
    }
    Ok(())
}

/// Says how often each call met each of its numbers; with `least`, each has to be
/// met that many times.
fn tell<const N: usize>(
    calls: &[(&str, &[usize])],
    met: &[[u64; N]],
    least: Option<u64>,
) -> Result<(), String> {
    for ((name, numbers), met) in calls.iter().zip(met) {
        let texts: Vec<String> = numbers
            .iter()
            .map(|number| format!("{number}: {}", met[*number]))
            .collect();
        println!("{name}: {}", texts.join(", "));
        let rare = |least| numbers.iter().find(|number| met[**number] < least);
        if let Some(number) = least.and_then(rare) {
            return Err(format!("hardly met: {name} with {number}"));
        }
    }
    Ok(())
}

// The library, called from `driver.c`.
extern "C" {
    fn call_from_c(call: *const Lent) -> u64;
    static absent_calls: u32;
}

// The library, called from Rust. A slice is a pointer and a length.
extern "C" {
    fn lemidrosy_start(w: *mut u16, l: usize, n: usize, c: *const u32, cl: usize) -> u64;
    fn lemidrosy_checkpoint(w: *mut u16, l: usize, i: usize, d: *mut u16, dl: usize) -> u64;
    fn lemidrosy_send(w: *mut u16, l: usize, i: usize, j: usize) -> u64;
    fn lemidrosy_deliver(w: *mut u16, l: usize, m: u32, d: *mut u16, dl: usize) -> u64;
    fn lemidrosy_lose(w: *mut u16, l: usize, m: u32) -> u64;
    fn lemidrosy_line(w: *const u16, l: usize, f: u32, n: *mut u16, nl: usize) -> u64;
    fn lemidrosy_recover(
        w: *mut u16,
        l: usize,
        f: u32,
        d: *mut u16,
        dl: usize,
        n: *mut u16,
        nl: usize,
    ) -> u64;
    fn lemidrosy_earliest(
        w: *const u16,
        l: usize,
        c: *const u32,
        cl: usize,
        n: *mut u16,
        nl: usize,
    ) -> u64;
    fn lemidrosy_is_sound(w: *const u16, l: usize) -> bool;
    fn lemidrosy_numbers(w: *const u16, l: usize, s: *mut u64, sl: usize) -> u64;
    fn lemidrosy_vector(w: *const u16, l: usize, i: usize, v: *mut u16, vl: usize) -> u64;
    fn lemidrosy_pins(w: *const u16, l: usize, i: usize, v: *mut u16, vl: usize) -> u64;
    fn lemidrosy_kept(w: *const u16, l: usize, i: usize, k: *mut u32, kl: usize) -> u64;
    fn lemidrosy_messages(w: *const u16, l: usize, m: *mut u32, ml: usize) -> u64;
    fn lemidrosy_lost(w: *const u16, l: usize, f: u32, m: *mut u32, ml: usize) -> u64;
    fn lemidrosy_carried(w: *const u16, l: usize, m: u32, v: *mut u16, vl: usize) -> u64;
}

/// The numbers of `driver.c`'s buffers.
const WORDS: c_int = 0;
const DELETIONS: c_int = 1;
const LINE: c_int = 2;
const NUMBERS: c_int = 3;
const SUMS: c_int = 4;

struct Archive {
    calls: u64,
}

impl Library for Archive {
    fn has(&self, call: usize) -> bool {
        // Safety: nobody writes it.
        unsafe { absent_calls >> call & 1 == 0 }
    }

    fn fitted(&self, call: Call) -> Call {
        call.fitted()
    }

    fn call(&mut self, call: Call, words: &mut [u16], lists: &mut Lists) -> Result<u64, String> {
        self.calls += 1;
        let how = self.calls / 2;
        let mut made = Lent::of(place(call), numbers(call), words, lists, how);
        made.sums = lent(SUMS, &lists.sums, how >> 1);
        made.sums_len = lists.sums.len();
        // Safety: every buffer is lent for the call.
        let answer = unsafe {
            about_to(self.calls);
            if self.calls % 2 == 0 {
                call_from_c(&made)
            } else {
                call_from_rust(&made)
            }
        };
        made.returned(words, lists);
        returned(made.sums, &mut lists.sums);
        take_all_back(&[SUMS])?;
        Ok(answer)
    }
}

fn numbers(call: Call) -> (u64, u64) {
    match call {
        Call::Start { count } => (count, 0),
        Call::Checkpoint { process }
        | Call::Vector { process }
        | Call::Pins { process }
        | Call::Kept { process } => (process, 0),
        Call::Send { from, to } => (from, to),
        Call::Deliver { number } | Call::Lose { number } | Call::Carried { number } => (number, 0),
        Call::Line { failed } | Call::Recover { failed } | Call::Lost { failed } => (failed, 0),
        Call::Earliest | Call::IsSound | Call::Numbers | Call::Messages => (0, 0),
    }
}

unsafe fn call_from_rust(c: &Lent) -> u64 {
    let (w, l) = (c.words, c.words_len);
    let (first, second) = (c.first as usize, c.second as usize);
    match c.which {
        0 => lemidrosy_start(w, l, first, c.numbers, c.numbers_len),
        1 => lemidrosy_checkpoint(w, l, first, c.deletions, c.deletions_len),
        2 => lemidrosy_send(w, l, first, second),
        3 => lemidrosy_deliver(w, l, c.first as u32, c.deletions, c.deletions_len),
        4 => lemidrosy_lose(w, l, c.first as u32),
        5 => lemidrosy_line(w, l, c.first as u32, c.line, c.line_len),
        6 => lemidrosy_recover(
            w,
            l,
            c.first as u32,
            c.deletions,
            c.deletions_len,
            c.line,
            c.line_len,
        ),
        7 => lemidrosy_earliest(w, l, c.numbers, c.numbers_len, c.line, c.line_len),
        8 => u64::from(lemidrosy_is_sound(w, l)),
        9 => lemidrosy_numbers(w, l, c.sums, c.sums_len),
        10 => lemidrosy_vector(w, l, first, c.line, c.line_len),
        11 => lemidrosy_pins(w, l, first, c.line, c.line_len),
        12 => lemidrosy_kept(w, l, first, c.numbers, c.numbers_len),
        13 => lemidrosy_messages(w, l, c.numbers, c.numbers_len),
        14 => lemidrosy_lost(w, l, c.first as u32, c.numbers, c.numbers_len),
        _ => lemidrosy_carried(w, l, c.first as u32, c.line, c.line_len),
    }
}

/// In a run of at least that many calls, everything that can be met is met at
/// least that many times.
const MANY: u64 = 1_000_000;
const LEAST: u64 = 10;

/// Makes that many calls by seed. Says what was met, or the first difference; true
/// if there is none.
#[no_mangle]
pub extern "C" fn hold_calls(seed: u64, count: u64) -> bool {
    let mut archive = Archive { calls: 0 };
    let said = hold(&mut archive, seed, count).and_then(|tally| {
        say(&tally);
        match tally.missing(LEAST, &archive) {
            Some(what) if count >= MANY => Err(format!("hardly met: {what}")),
            _ => Ok(()),
        }
    });
    if let Err(what) = &said {
        println!("seed {seed}: {what}");
    }
    said.is_ok()
}

fn say(tally: &Tally) {
    for ((name, _), met) in CALLS.iter().zip(&tally.met) {
        let numbers = met.iter().enumerate().filter(|(_, many)| **many > 0);
        let texts: Vec<String> = numbers
            .map(|(number, many)| format!("{number}: {many}"))
            .collect();
        println!("{name}: {}", texts.join(", "));
    }
    println!("accepted on forged states: {}", tally.forged);
    println!(
        "accepted with unused places that are not zero: {}",
        tally.littered
    );
    println!(
        "2 on a sound state, which has no line: {}",
        tally.without_line
    );
    println!("left a state that is not sound: {}", tally.left_unsound);
    println!("calls: {}", tally.calls);
}

//! The library's functions as `bindings/c/lemidrosy.h` declares them, each with its slices. All that is unsafe stands here.
//!
//! Each function takes slices and numbers of any kind: words that stand for no state, lists that are too short, numbers out of range. It reads and writes within them
//! alone, which is proved. Two slices that are lent to a call never overlap, since one of any two is borrowed mutably or both are only read.
#![allow(unsafe_code)]

use crate::WORDS;
use std::ffi::{c_char, c_int, c_uint, CStr};

mod c {
    use super::{c_char, c_int, c_uint};

    extern "C" {
        pub fn lemidrosy_refusal_text(number: c_uint) -> *const c_char;
        pub fn lemidrosy_is_sound(w: *const u16, wl: usize) -> bool;
        pub fn lemidrosy_start(w: *mut u16, wl: usize, n: usize, c: *const u32, cl: usize) -> u64;
        pub fn lemidrosy_checkpoint(
            w: *mut u16,
            wl: usize,
            p: usize,
            d: *mut u16,
            dl: usize,
        ) -> u64;
        pub fn lemidrosy_send(w: *mut u16, wl: usize, p: usize, q: usize) -> u64;
        pub fn lemidrosy_deliver(w: *mut u16, wl: usize, m: u32, d: *mut u16, dl: usize) -> u64;
        pub fn lemidrosy_lose(w: *mut u16, wl: usize, m: u32) -> u64;
        pub fn lemidrosy_recover(
            w: *mut u16,
            wl: usize,
            f: u32,
            d: *mut u16,
            dl: usize,
            l: *mut u16,
            ll: usize,
        ) -> u64;
        pub fn lemidrosy_lost(w: *const u16, wl: usize, f: u32, m: *mut u32, ml: usize) -> u64;
        pub fn lemidrosy_line(w: *const u16, wl: usize, f: u32, l: *mut u16, ll: usize) -> u64;
        pub fn lemidrosy_earliest(
            w: *const u16,
            wl: usize,
            c: *const u32,
            cl: usize,
            l: *mut u16,
            ll: usize,
        ) -> u64;
        pub fn lemidrosy_record_start(
            w: *mut u16,
            wl: usize,
            n: usize,
            c: *const u32,
            cl: usize,
            b: *mut u8,
            bl: usize,
            p: *mut u64,
            pl: usize,
        ) -> u64;
        pub fn lemidrosy_record_checkpoint(
            w: *mut u16,
            wl: usize,
            i: usize,
            d: *mut u16,
            dl: usize,
            b: *mut u8,
            bl: usize,
            p: *mut u64,
            pl: usize,
        ) -> u64;
        pub fn lemidrosy_record_send(
            w: *mut u16,
            wl: usize,
            i: usize,
            j: usize,
            b: *mut u8,
            bl: usize,
            p: *mut u64,
            pl: usize,
        ) -> u64;
        pub fn lemidrosy_record_deliver(
            w: *mut u16,
            wl: usize,
            m: u32,
            d: *mut u16,
            dl: usize,
            b: *mut u8,
            bl: usize,
            p: *mut u64,
            pl: usize,
        ) -> u64;
        pub fn lemidrosy_record_lose(
            w: *mut u16,
            wl: usize,
            m: u32,
            b: *mut u8,
            bl: usize,
            p: *mut u64,
            pl: usize,
        ) -> u64;
        pub fn lemidrosy_record_recover(
            w: *mut u16,
            wl: usize,
            f: u32,
            d: *mut u16,
            dl: usize,
            l: *mut u16,
            ll: usize,
            b: *mut u8,
            bl: usize,
            p: *mut u64,
            pl: usize,
        ) -> u64;
        pub fn lemidrosy_console_start(
            r: u32,
            o: u32,
            w: *mut u16,
            wl: usize,
            n: usize,
            c: *const u32,
            cl: usize,
        ) -> u64;
        pub fn lemidrosy_console_checkpoint(
            r: u32,
            o: u32,
            w: *mut u16,
            wl: usize,
            p: usize,
            d: *mut u16,
            dl: usize,
        ) -> u64;
        pub fn lemidrosy_console_send(
            r: u32,
            o: u32,
            w: *mut u16,
            wl: usize,
            p: usize,
            q: usize,
        ) -> u64;
        pub fn lemidrosy_console_deliver(
            r: u32,
            o: u32,
            w: *mut u16,
            wl: usize,
            m: u32,
            d: *mut u16,
            dl: usize,
        ) -> u64;
        pub fn lemidrosy_console_lose(r: u32, o: u32, w: *mut u16, wl: usize, m: u32) -> u64;
        pub fn lemidrosy_console_line(
            r: u32,
            o: u32,
            w: *const u16,
            wl: usize,
            f: u32,
            l: *mut u16,
            ll: usize,
        ) -> u64;
        pub fn lemidrosy_console_recover(
            r: u32,
            o: u32,
            w: *mut u16,
            wl: usize,
            f: u32,
            d: *mut u16,
            dl: usize,
            l: *mut u16,
            ll: usize,
        ) -> u64;
        pub fn lemidrosy_console_earliest(
            r: u32,
            o: u32,
            w: *const u16,
            wl: usize,
            c: *const u32,
            cl: usize,
            l: *mut u16,
            ll: usize,
        ) -> u64;
        pub fn lemidrosy_console_list(
            r: u32,
            o: u32,
            w: *const u16,
            wl: usize,
            d: *mut u16,
            dl: usize,
        ) -> u64;
        pub fn lemidrosy_console_counts(
            r: u32,
            o: u32,
            w: *const u16,
            wl: usize,
            l: *mut u16,
            ll: usize,
        ) -> u64;
        pub fn lemidrosy_numbers(w: *const u16, wl: usize, s: *mut u64, sl: usize) -> u64;
        pub fn lemidrosy_vector(w: *const u16, wl: usize, p: usize, v: *mut u16, vl: usize) -> u64;
        pub fn lemidrosy_pins(w: *const u16, wl: usize, p: usize, v: *mut u16, vl: usize) -> u64;
        pub fn lemidrosy_kept(w: *const u16, wl: usize, p: usize, k: *mut u32, kl: usize) -> u64;
        pub fn lemidrosy_messages(w: *const u16, wl: usize, m: *mut u32, ml: usize) -> u64;
        pub fn lemidrosy_carried(w: *const u16, wl: usize, m: u32, v: *mut u16, vl: usize) -> u64;
        pub fn lemidrosy_replay(
            w: *mut u16,
            wl: usize,
            all: bool,
            done: u64,
            r: *const u8,
            rl: usize,
            t: *mut u8,
            tl: usize,
            p: *mut u64,
            pl: usize,
        ) -> u64;
        pub fn lemidrosy_save(w: *const u16, wl: usize, b: *mut u8, bl: usize) -> u64;
        pub fn lemidrosy_load(b: *const u8, bl: usize, w: *mut u16, wl: usize) -> u64;
        pub fn lemidrosy_store_file(path: *const c_char, words: *const u16) -> c_int;
        pub fn lemidrosy_load_file(path: *const c_char, words: *mut u16) -> c_int;
        pub fn lemidrosy_judge(t: *const u8, tl: usize) -> u64;
        pub fn lemidrosy_merge(
            a: *const u8,
            al: usize,
            b: *const u8,
            bl: usize,
            s: u32,
            t: *mut u8,
            tl: usize,
        ) -> u64;
        pub fn lemidrosy_simulate(n: usize, k: u32, s: u32, v: u32, f: *mut u64, fl: usize) -> u64;
        pub fn lemidrosy_judge_begin(
            m: *mut u64,
            ml: usize,
            i: *const u8,
            il: usize,
            o: *const u8,
            ol: usize,
            r: *mut u64,
            rl: usize,
        ) -> u64;
        pub fn lemidrosy_judge_step(
            m: *mut u64,
            ml: usize,
            i: *const u8,
            il: usize,
            o: *mut u8,
            ol: usize,
            k: u64,
            x: usize,
            r: *mut u64,
            rl: usize,
        ) -> u64;
        pub fn lemidrosy_replay_begin(
            w: *const u16,
            wl: usize,
            m: *mut u64,
            ml: usize,
            i: *const u8,
            il: usize,
            o: *const u8,
            ol: usize,
            r: *mut u64,
            rl: usize,
        ) -> u64;
        pub fn lemidrosy_replay_step(
            w: *mut u16,
            wl: usize,
            m: *mut u64,
            ml: usize,
            i: *mut u8,
            il: usize,
            o: *mut u8,
            ol: usize,
            k: u64,
            x: usize,
            r: *mut u64,
            rl: usize,
        ) -> u64;
        pub fn lemidrosy_record_begin(
            m: *mut u64,
            ml: usize,
            w: *const u16,
            wl: usize,
            i: *const u8,
            il: usize,
            o: *const u8,
            ol: usize,
            l: *const u8,
            ll: usize,
            r: *mut u64,
            rl: usize,
        ) -> u64;
        pub fn lemidrosy_record_step(
            m: *mut u64,
            ml: usize,
            w: *mut u16,
            wl: usize,
            i: *mut u8,
            il: usize,
            o: *mut u8,
            ol: usize,
            l: *mut u8,
            ll: usize,
            k: u64,
            x: usize,
            r: *mut u64,
            rl: usize,
        ) -> u64;
        pub fn lemidrosy_merge_begin(
            m: *mut u64,
            ml: usize,
            i: *const u8,
            il: usize,
            o: *const u8,
            ol: usize,
            r: *mut u64,
            rl: usize,
        ) -> u64;
        pub fn lemidrosy_merge_step(
            m: *mut u64,
            ml: usize,
            i: *const u8,
            il: usize,
            o: *mut u8,
            ol: usize,
            k: u64,
            x: usize,
            r: *mut u64,
            rl: usize,
        ) -> u64;
        pub fn lemidrosy_simulate_begin(
            m: *mut u64,
            ml: usize,
            i: *const u8,
            il: usize,
            o: *const u8,
            ol: usize,
            r: *mut u64,
            rl: usize,
        ) -> u64;
        pub fn lemidrosy_simulate_step(
            m: *mut u64,
            ml: usize,
            i: *const u8,
            il: usize,
            o: *mut u8,
            ol: usize,
            k: u64,
            x: usize,
            r: *mut u64,
            rl: usize,
        ) -> u64;
        pub fn lemidrosy_console_begin(
            w: *const u16,
            wl: usize,
            m: *mut u64,
            ml: usize,
            i: *const u8,
            il: usize,
            o: *const u8,
            ol: usize,
            r: *mut u64,
            rl: usize,
        ) -> u64;
        pub fn lemidrosy_console_step(
            w: *mut u16,
            wl: usize,
            m: *mut u64,
            ml: usize,
            i: *const u8,
            il: usize,
            o: *mut u8,
            ol: usize,
            k: u64,
            x: usize,
            r: *mut u64,
            rl: usize,
        ) -> u64;
    }
}

pub fn refusal_text(number: u8) -> &'static str {
    // Safety: the text is constant, and ends with a zero.
    let text = unsafe { CStr::from_ptr(c::lemidrosy_refusal_text(number.into())) };
    text.to_str().unwrap_or("")
}

// Safety, of every call below: the pointers and lengths are those of slices, which are lent for the call; what is written to is borrowed mutably.

pub fn is_sound(words: &[u16]) -> bool {
    unsafe { c::lemidrosy_is_sound(words.as_ptr(), words.len()) }
}

pub fn start(words: &mut [u16], n: usize, counts: &[u32]) -> u64 {
    unsafe {
        c::lemidrosy_start(
            words.as_mut_ptr(),
            words.len(),
            n,
            counts.as_ptr(),
            counts.len(),
        )
    }
}

pub fn checkpoint(words: &mut [u16], process: usize, deleted: &mut [u16]) -> u64 {
    unsafe {
        c::lemidrosy_checkpoint(
            words.as_mut_ptr(),
            words.len(),
            process,
            deleted.as_mut_ptr(),
            deleted.len(),
        )
    }
}

pub fn send(words: &mut [u16], sender: usize, receiver: usize) -> u64 {
    unsafe { c::lemidrosy_send(words.as_mut_ptr(), words.len(), sender, receiver) }
}

pub fn deliver(words: &mut [u16], message: u32, deleted: &mut [u16]) -> u64 {
    unsafe {
        c::lemidrosy_deliver(
            words.as_mut_ptr(),
            words.len(),
            message,
            deleted.as_mut_ptr(),
            deleted.len(),
        )
    }
}

pub fn lose(words: &mut [u16], message: u32) -> u64 {
    unsafe { c::lemidrosy_lose(words.as_mut_ptr(), words.len(), message) }
}

pub fn recover(words: &mut [u16], failed: u32, deleted: &mut [u16], line: &mut [u16]) -> u64 {
    unsafe {
        c::lemidrosy_recover(
            words.as_mut_ptr(),
            words.len(),
            failed,
            deleted.as_mut_ptr(),
            deleted.len(),
            line.as_mut_ptr(),
            line.len(),
        )
    }
}

pub fn lost(words: &[u16], failed: u32, messages: &mut [u32]) -> u64 {
    unsafe {
        c::lemidrosy_lost(
            words.as_ptr(),
            words.len(),
            failed,
            messages.as_mut_ptr(),
            messages.len(),
        )
    }
}

pub fn line(words: &[u16], failed: u32, line: &mut [u16]) -> u64 {
    unsafe {
        c::lemidrosy_line(
            words.as_ptr(),
            words.len(),
            failed,
            line.as_mut_ptr(),
            line.len(),
        )
    }
}

pub fn earliest(words: &[u16], named: &[u32], line: &mut [u16]) -> u64 {
    unsafe {
        c::lemidrosy_earliest(
            words.as_ptr(),
            words.len(),
            named.as_ptr(),
            named.len(),
            line.as_mut_ptr(),
            line.len(),
        )
    }
}

pub fn numbers(words: &[u16], numbers: &mut [u64]) -> u64 {
    unsafe {
        c::lemidrosy_numbers(
            words.as_ptr(),
            words.len(),
            numbers.as_mut_ptr(),
            numbers.len(),
        )
    }
}

pub fn vector(words: &[u16], process: usize, vector: &mut [u16]) -> u64 {
    unsafe {
        c::lemidrosy_vector(
            words.as_ptr(),
            words.len(),
            process,
            vector.as_mut_ptr(),
            vector.len(),
        )
    }
}

pub fn pins(words: &[u16], process: usize, pins: &mut [u16]) -> u64 {
    unsafe {
        c::lemidrosy_pins(
            words.as_ptr(),
            words.len(),
            process,
            pins.as_mut_ptr(),
            pins.len(),
        )
    }
}

pub fn kept(words: &[u16], process: usize, kept: &mut [u32]) -> u64 {
    unsafe {
        c::lemidrosy_kept(
            words.as_ptr(),
            words.len(),
            process,
            kept.as_mut_ptr(),
            kept.len(),
        )
    }
}

pub fn messages(words: &[u16], messages: &mut [u32]) -> u64 {
    unsafe {
        c::lemidrosy_messages(
            words.as_ptr(),
            words.len(),
            messages.as_mut_ptr(),
            messages.len(),
        )
    }
}

pub fn carried(words: &[u16], message: u32, vector: &mut [u16]) -> u64 {
    unsafe {
        c::lemidrosy_carried(
            words.as_ptr(),
            words.len(),
            message,
            vector.as_mut_ptr(),
            vector.len(),
        )
    }
}

pub fn replay(
    words: &mut [u16],
    all: bool,
    done: u64,
    records: &[u8],
    text: &mut [u8],
    progress: &mut [u64],
) -> u64 {
    unsafe {
        c::lemidrosy_replay(
            words.as_mut_ptr(),
            words.len(),
            all,
            done,
            records.as_ptr(),
            records.len(),
            text.as_mut_ptr(),
            text.len(),
            progress.as_mut_ptr(),
            progress.len(),
        )
    }
}

pub fn save(words: &[u16], bytes: &mut [u8]) -> u64 {
    unsafe { c::lemidrosy_save(words.as_ptr(), words.len(), bytes.as_mut_ptr(), bytes.len()) }
}

pub fn load(bytes: &[u8], words: &mut [u16]) -> u64 {
    unsafe { c::lemidrosy_load(bytes.as_ptr(), bytes.len(), words.as_mut_ptr(), words.len()) }
}

// These two take as many words as a state has, without a length.

pub fn store_file(path: &CStr, words: &[u16; WORDS]) -> c_int {
    unsafe { c::lemidrosy_store_file(path.as_ptr(), words.as_ptr()) }
}

pub fn load_file(path: &CStr, words: &mut [u16; WORDS]) -> c_int {
    unsafe { c::lemidrosy_load_file(path.as_ptr(), words.as_mut_ptr()) }
}

pub fn judge(trace: &[u8]) -> u64 {
    unsafe { c::lemidrosy_judge(trace.as_ptr(), trace.len()) }
}

pub fn merge(first: &[u8], second: &[u8], set: u32, trace: &mut [u8]) -> u64 {
    unsafe {
        c::lemidrosy_merge(
            first.as_ptr(),
            first.len(),
            second.as_ptr(),
            second.len(),
            set,
            trace.as_mut_ptr(),
            trace.len(),
        )
    }
}

pub fn simulate(n: usize, spacing: u32, steps: u32, seed: u32, figures: &mut [u64]) -> u64 {
    unsafe { c::lemidrosy_simulate(n, spacing, steps, seed, figures.as_mut_ptr(), figures.len()) }
}

/// The buffer of a recorder and the place of its next byte.
#[derive(Clone)]
pub struct Tape {
    pub bytes: Vec<u8>,
    pub place: u64,
}

pub fn record_start(words: &mut [u16], n: usize, counts: &[u32], tape: &mut Tape) -> u64 {
    unsafe {
        c::lemidrosy_record_start(
            words.as_mut_ptr(),
            words.len(),
            n,
            counts.as_ptr(),
            counts.len(),
            tape.bytes.as_mut_ptr(),
            tape.bytes.len(),
            &mut tape.place,
            1,
        )
    }
}

pub fn record_checkpoint(
    words: &mut [u16],
    process: usize,
    deleted: &mut [u16],
    tape: &mut Tape,
) -> u64 {
    unsafe {
        c::lemidrosy_record_checkpoint(
            words.as_mut_ptr(),
            words.len(),
            process,
            deleted.as_mut_ptr(),
            deleted.len(),
            tape.bytes.as_mut_ptr(),
            tape.bytes.len(),
            &mut tape.place,
            1,
        )
    }
}

pub fn record_send(words: &mut [u16], sender: usize, receiver: usize, tape: &mut Tape) -> u64 {
    unsafe {
        c::lemidrosy_record_send(
            words.as_mut_ptr(),
            words.len(),
            sender,
            receiver,
            tape.bytes.as_mut_ptr(),
            tape.bytes.len(),
            &mut tape.place,
            1,
        )
    }
}

pub fn record_deliver(
    words: &mut [u16],
    message: u32,
    deleted: &mut [u16],
    tape: &mut Tape,
) -> u64 {
    unsafe {
        c::lemidrosy_record_deliver(
            words.as_mut_ptr(),
            words.len(),
            message,
            deleted.as_mut_ptr(),
            deleted.len(),
            tape.bytes.as_mut_ptr(),
            tape.bytes.len(),
            &mut tape.place,
            1,
        )
    }
}

pub fn record_lose(words: &mut [u16], message: u32, tape: &mut Tape) -> u64 {
    unsafe {
        c::lemidrosy_record_lose(
            words.as_mut_ptr(),
            words.len(),
            message,
            tape.bytes.as_mut_ptr(),
            tape.bytes.len(),
            &mut tape.place,
            1,
        )
    }
}

pub fn record_recover(
    words: &mut [u16],
    failed: u32,
    deleted: &mut [u16],
    line: &mut [u16],
    tape: &mut Tape,
) -> u64 {
    unsafe {
        c::lemidrosy_record_recover(
            words.as_mut_ptr(),
            words.len(),
            failed,
            deleted.as_mut_ptr(),
            deleted.len(),
            line.as_mut_ptr(),
            line.len(),
            tape.bytes.as_mut_ptr(),
            tape.bytes.len(),
            &mut tape.place,
            1,
        )
    }
}

/// Who calls the console: the number of a role, and the set of an owner's processes.
#[derive(Clone, Copy)]
pub struct Asker {
    pub role: u32,
    pub owned: u32,
}

pub fn console_start(asker: Asker, words: &mut [u16], n: usize, counts: &[u32]) -> u64 {
    unsafe {
        c::lemidrosy_console_start(
            asker.role,
            asker.owned,
            words.as_mut_ptr(),
            words.len(),
            n,
            counts.as_ptr(),
            counts.len(),
        )
    }
}

pub fn console_checkpoint(
    asker: Asker,
    words: &mut [u16],
    process: usize,
    deleted: &mut [u16],
) -> u64 {
    unsafe {
        c::lemidrosy_console_checkpoint(
            asker.role,
            asker.owned,
            words.as_mut_ptr(),
            words.len(),
            process,
            deleted.as_mut_ptr(),
            deleted.len(),
        )
    }
}

pub fn console_send(asker: Asker, words: &mut [u16], sender: usize, receiver: usize) -> u64 {
    unsafe {
        c::lemidrosy_console_send(
            asker.role,
            asker.owned,
            words.as_mut_ptr(),
            words.len(),
            sender,
            receiver,
        )
    }
}

pub fn console_deliver(asker: Asker, words: &mut [u16], message: u32, deleted: &mut [u16]) -> u64 {
    unsafe {
        c::lemidrosy_console_deliver(
            asker.role,
            asker.owned,
            words.as_mut_ptr(),
            words.len(),
            message,
            deleted.as_mut_ptr(),
            deleted.len(),
        )
    }
}

pub fn console_lose(asker: Asker, words: &mut [u16], message: u32) -> u64 {
    unsafe {
        c::lemidrosy_console_lose(
            asker.role,
            asker.owned,
            words.as_mut_ptr(),
            words.len(),
            message,
        )
    }
}

pub fn console_line(asker: Asker, words: &[u16], failed: u32, line: &mut [u16]) -> u64 {
    unsafe {
        c::lemidrosy_console_line(
            asker.role,
            asker.owned,
            words.as_ptr(),
            words.len(),
            failed,
            line.as_mut_ptr(),
            line.len(),
        )
    }
}

pub fn console_recover(
    asker: Asker,
    words: &mut [u16],
    failed: u32,
    deleted: &mut [u16],
    line: &mut [u16],
) -> u64 {
    unsafe {
        c::lemidrosy_console_recover(
            asker.role,
            asker.owned,
            words.as_mut_ptr(),
            words.len(),
            failed,
            deleted.as_mut_ptr(),
            deleted.len(),
            line.as_mut_ptr(),
            line.len(),
        )
    }
}

pub fn console_earliest(asker: Asker, words: &[u16], named: &[u32], line: &mut [u16]) -> u64 {
    unsafe {
        c::lemidrosy_console_earliest(
            asker.role,
            asker.owned,
            words.as_ptr(),
            words.len(),
            named.as_ptr(),
            named.len(),
            line.as_mut_ptr(),
            line.len(),
        )
    }
}

pub fn console_list(asker: Asker, words: &[u16], deleted: &mut [u16]) -> u64 {
    unsafe {
        c::lemidrosy_console_list(
            asker.role,
            asker.owned,
            words.as_ptr(),
            words.len(),
            deleted.as_mut_ptr(),
            deleted.len(),
        )
    }
}

pub fn console_counts(asker: Asker, words: &[u16], counts: &mut [u16]) -> u64 {
    unsafe {
        c::lemidrosy_console_counts(
            asker.role,
            asker.owned,
            words.as_ptr(),
            words.len(),
            counts.as_mut_ptr(),
            counts.len(),
        )
    }
}

/// What a machine is lent.
#[derive(Clone)]
pub struct Lent {
    pub memory: Vec<u64>,
    pub words: Vec<u16>,
    pub input: Vec<u8>,
    pub out: Vec<u8>,
    pub lines: Vec<u8>,
}

/// The functions that begin and step a machine which is lent these lists, in this order; each writes a request.
macro_rules! machine {
    ($begin:ident = $c_begin:ident, $step:ident = $c_step:ident: $($list:ident),+) => {
        pub fn $begin(lent: &mut Lent, request: &mut [u64]) -> u64 {
            unsafe {
                c::$c_begin(
                    $(lent.$list.as_mut_ptr(), lent.$list.len(),)+
                    request.as_mut_ptr(),
                    request.len(),
                )
            }
        }

        pub fn $step(lent: &mut Lent, kind: u64, number: usize, request: &mut [u64]) -> u64 {
            unsafe {
                c::$c_step(
                    $(lent.$list.as_mut_ptr(), lent.$list.len(),)+
                    kind,
                    number,
                    request.as_mut_ptr(),
                    request.len(),
                )
            }
        }
    };
}

machine!(judge_begin = lemidrosy_judge_begin, judge_step = lemidrosy_judge_step: memory, input, out);
machine!(replay_begin = lemidrosy_replay_begin, replay_step = lemidrosy_replay_step: words, memory, input, out);
machine!(record_begin = lemidrosy_record_begin, record_step = lemidrosy_record_step: memory, words, input, out, lines);
machine!(merge_begin = lemidrosy_merge_begin, merge_step = lemidrosy_merge_step: memory, input, out);
machine!(simulate_begin = lemidrosy_simulate_begin, simulate_step = lemidrosy_simulate_step: memory, input, out);
machine!(console_begin = lemidrosy_console_begin, console_step = lemidrosy_console_step: words, memory, input, out);

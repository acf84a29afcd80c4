//! Saving and loading, as the library does it, held to the oracle. This part is
//! linked into `driver.c`, which has the buffers that are lent and calls the
//! library from C; every second call is made here, from Rust. The states come of
//! the library's own calls and of changes by hand.

#[path = "../guarded.rs"]
mod guarded;

use guarded::{about_to, lent, returned, take_back};
use oracle::calls::draw::{damage, forge, litter, Draws, Habits};
use oracle::saved::{bytes, is_sound, loading, saving, SAVED};
use oracle::words::SIZE;
use std::ffi::c_int;

// The library, called from `driver.c`.
extern "C" {
    fn save_from_c(w: *const u16, l: usize, b: *mut u8, bl: usize) -> u64;
    fn load_from_c(b: *const u8, bl: usize, w: *mut u16, l: usize) -> u64;
}

// The library, called from Rust. A slice is a pointer and a length.
extern "C" {
    fn lemidrosy_save(w: *const u16, l: usize, b: *mut u8, bl: usize) -> u64;
    fn lemidrosy_load(b: *const u8, bl: usize, w: *mut u16, l: usize) -> u64;
    fn lemidrosy_start(w: *mut u16, l: usize, n: usize, c: *const u32, cl: usize) -> u64;
    fn lemidrosy_checkpoint(w: *mut u16, l: usize, i: usize, d: *mut u16, dl: usize) -> u64;
    fn lemidrosy_send(w: *mut u16, l: usize, i: usize, j: usize) -> u64;
    fn lemidrosy_deliver(w: *mut u16, l: usize, m: u32, d: *mut u16, dl: usize) -> u64;
    fn lemidrosy_lose(w: *mut u16, l: usize, m: u32) -> u64;
}

/// The numbers of `driver.c`'s buffers.
const WORDS: c_int = 0;
const BYTES: c_int = 1;

/// What can be met: a call that is accepted, and how it comes to a refusal.
#[derive(Clone, Copy)]
enum Met {
    Saved,
    UnsoundWords,
    FewBytes,
    Loaded,
    OtherLength,
    OtherHeading,
    OtherSum,
    UnsoundBytes,
    OtherWords,
}

const MET: [&str; 9] = [
    "saved",
    "words that are not sound",
    "too few bytes",
    "loaded",
    "bytes of another length",
    "another heading, with its sum",
    "bytes that are not those of the sum",
    "words that are not sound, with their sum",
    "another number of words",
];

/// In a run of at least that many calls, each is met at least that many times.
const MANY: u64 = 10_000;
const LEAST: u64 = 10;

struct Held {
    calls: u64,
    met: [u64; MET.len()],
}

/// What is not as the oracle says.
fn compared<T: PartialEq + std::fmt::Debug>(
    what: &str,
    (answer, list): (u64, &[T]),
    (right, expected): (u64, Vec<T>),
) -> Result<(), String> {
    if answer != right {
        return Err(format!(
            "{what} answers {answer:#x}, and {right:#x} is right"
        ));
    }
    match list
        .iter()
        .zip(&expected)
        .position(|(got, want)| got != want)
    {
        Some(at) => Err(format!(
            "{what} leaves {:?} at {at}, and {:?} is right",
            list[at], expected[at]
        )),
        None => Ok(()),
    }
}

impl Held {
    fn made(&mut self) -> (u64, bool) {
        self.calls += 1;
        // Safety: it only notes the number.
        unsafe { about_to(self.calls) };
        (self.calls / 2, self.calls % 2 == 0)
    }

    fn unharmed(&self) -> Result<(), String> {
        // Safety: nobody uses what was lent any more.
        let (words, bytes) = unsafe { (take_back(WORDS), take_back(BYTES)) };
        if words && bytes {
            Ok(())
        } else {
            Err("it wrote beside a buffer".to_string())
        }
    }

    fn save(&mut self, words: &[u16], list: &[u8]) -> Result<(), String> {
        let (how, from_c) = self.made();
        let (mut words_after, mut after) = (words.to_vec(), list.to_vec());
        let (w, b) = (lent(WORDS, words, how), lent(BYTES, list, how >> 1));
        let call = if from_c { save_from_c } else { lemidrosy_save };
        // Safety: both buffers are lent for the call.
        let answer = unsafe { call(w, words.len(), b, list.len()) };
        returned(w, &mut words_after);
        returned(b, &mut after);
        self.unharmed()?;
        compared("save", (answer, &after), saving(words, list))?;
        compared("save", (0, &words_after), (0, words.to_vec()))?;
        self.met[match answer & 255 {
            0 => Met::Saved,
            2 => Met::UnsoundWords,
            _ => Met::FewBytes,
        } as usize] += 1;
        Ok(())
    }

    /// `made` says how the bytes were made, if they are refused.
    fn load(&mut self, list: &[u8], words: &[u16], made: Met) -> Result<(), String> {
        let (how, from_c) = self.made();
        let (mut after, mut list_after) = (words.to_vec(), list.to_vec());
        let (w, b) = (lent(WORDS, words, how), lent(BYTES, list, how >> 1));
        let call = if from_c { load_from_c } else { lemidrosy_load };
        // Safety: both buffers are lent for the call.
        let answer = unsafe { call(b, list.len(), w, words.len()) };
        returned(w, &mut after);
        returned(b, &mut list_after);
        self.unharmed()?;
        compared("load", (answer, &after), loading(list, words))?;
        compared("load", (0, &list_after), (0, list.to_vec()))?;
        let met = if answer == 0 { Met::Loaded } else { made };
        self.met[met as usize] += 1;
        Ok(())
    }
}

/// A run begins in the words, or goes on by one call. What the calls do is held
/// elsewhere (tests/calls): here any sound state will do.
fn go_on(draws: &mut Draws, words: &mut Vec<u16>) {
    let mut deleted = [0u16; 512];
    let (w, l, d, dl) = (
        words.as_mut_ptr(),
        words.len(),
        deleted.as_mut_ptr(),
        deleted.len(),
    );
    let n = usize::from(words[0]).clamp(1, 16);
    let last = u64::from(words[2]) | u64::from(words[3]) << 16;
    let message = last.saturating_sub(draws.below(20)) as u32;
    let (i, j) = (draws.place(n), draws.place(n));
    // Safety: the words and the list are lent for the call.
    unsafe {
        match draws.below(8) {
            0..=3 => lemidrosy_send(w, l, i, j),
            4 => lemidrosy_checkpoint(w, l, i, d, dl),
            5 => lemidrosy_lose(w, l, message),
            _ => lemidrosy_deliver(w, l, message, d, dl),
        };
    }
}

fn begin(draws: &mut Draws) -> Vec<u16> {
    let mut words = vec![0; SIZE];
    let counts: [u32; 16] = std::array::from_fn(|_| 1 + draws.below(65_535) as u32);
    // Safety: as above.
    unsafe {
        lemidrosy_start(
            words.as_mut_ptr(),
            SIZE,
            1 + draws.place(16),
            counts.as_ptr(),
            16,
        )
    };
    words
}

/// Words that are mostly sound, now and then not, and now and then of another
/// length.
fn drawn(draws: &mut Draws, habits: &Habits, words: &[u16]) -> Vec<u16> {
    let mut drawn = words.to_vec();
    match draws.below(16) {
        0..=1 => damage(draws, &mut drawn),
        2 => litter(draws, &mut drawn),
        3 => (0..1 + draws.below(12)).for_each(|_| forge(draws, habits, &mut drawn)),
        4 => drawn.iter_mut().for_each(|word| *word = draws.word()),
        5 => drawn.resize(draws.one_of(&[0, 1, SIZE - 1, SIZE + 1, 2 * SIZE]), 0),
        _ => {}
    }
    drawn
}

fn any_bytes(draws: &mut Draws, many: usize) -> Vec<u8> {
    (0..many).map(|_| draws.number() as u8).collect()
}

/// Saved bytes, changed in some way; and how.
fn changed(draws: &mut Draws, mut list: Vec<u8>) -> (Vec<u8>, Met) {
    let summed = SAVED - 4;
    let other = 1 + draws.below(255) as u8;
    match draws.below(12) {
        0 => list.truncate(draws.one_of(&[0, 1, 10, SAVED - 4, SAVED - 1])),
        1 => list.extend(any_bytes(draws, 1)),
        2 => list = any_bytes(draws, SAVED),
        3 => {
            let (one, two) = (draws.place(SAVED), draws.place(SAVED));
            list.swap(one, two);
        }
        4 => {
            let at = draws.place(SAVED);
            list[at..]
                .iter_mut()
                .take(4)
                .for_each(|byte| *byte ^= other);
        }
        5..=6 => list[summed + draws.place(4)] ^= other,
        // Another magic or version, and the sum of that.
        7 => {
            list[draws.place(10)] ^= other;
            let sum = oracle::saved::crc32c(&list[..summed]);
            list[summed..].copy_from_slice(&sum.to_le_bytes());
            return (list, Met::OtherHeading);
        }
        8 => list[draws.place(SAVED)] ^= 1 << draws.below(8),
        _ => list[draws.place(SAVED)] ^= other,
    }
    let met = if list.len() == SAVED {
        Met::OtherSum
    } else {
        Met::OtherLength
    };
    (list, met)
}

fn one(held: &mut Held, draws: &mut Draws, habits: &Habits, words: &[u16]) -> Result<(), String> {
    let drawn = drawn(draws, habits, words);
    let room = match draws.below(8) {
        0 => draws.one_of(&[0, 1, SAVED - 1]),
        1 => draws.one_of(&[SAVED + 1, 2 * SAVED]),
        _ => SAVED,
    };
    let list = any_bytes(draws, room);
    held.save(&drawn, &list)?;

    let (list, made) = match draws.below(3) {
        0 if drawn.len() == SIZE && !is_sound(&drawn) => (bytes(&drawn), Met::UnsoundBytes),
        0..=1 => changed(draws, bytes(words)),
        _ => (bytes(words), Met::OtherWords),
    };
    let many = if draws.once_in(8) {
        draws.one_of(&[0, 1, SIZE - 1, SIZE + 1])
    } else {
        SIZE
    };
    let lent: Vec<u16> = (0..many).map(|_| draws.word()).collect();
    let made = if many == SIZE { made } else { Met::OtherWords };
    held.load(&list, &lent, made)
}

/// Every byte of one saved state, changed by itself.
fn every_byte(held: &mut Held, draws: &mut Draws, words: &[u16]) -> Result<(), String> {
    let mut list = bytes(words);
    for k in 0..SAVED {
        let right = list[k];
        list[k] ^= 1 + draws.below(255) as u8;
        held.load(&list, words, Met::OtherSum)?;
        list[k] = right;
    }
    Ok(())
}

fn all(held: &mut Held, seed: u64, count: u64) -> Result<(), String> {
    let mut draws = Draws::new(seed);
    let mut habits = Habits::draw(&mut draws);
    let mut words = begin(&mut draws);
    while held.calls < count {
        if draws.once_in(100) {
            habits = Habits::draw(&mut draws);
            words = begin(&mut draws);
        }
        (0..draws.below(20)).for_each(|_| go_on(&mut draws, &mut words));
        one(held, &mut draws, &habits, &words)?;
    }
    if count >= MANY {
        every_byte(held, &mut draws, &words)?;
        if let Some(few) = (0..MET.len()).find(|met| held.met[*met] < LEAST) {
            return Err(format!("hardly met: {}", MET[few]));
        }
    }
    Ok(())
}

/// Makes at least that many calls by seed. Says what was met, or the first
/// difference; true if there is none.
#[no_mangle]
pub extern "C" fn hold_saved(seed: u64, count: u64) -> bool {
    let mut held = Held {
        calls: 0,
        met: [0; MET.len()],
    };
    if let Err(what) = all(&mut held, seed, count) {
        println!("seed {seed}, call {}: {what}", held.calls);
        return false;
    }
    for (what, many) in MET.iter().zip(held.met) {
        println!("{what}: {many}");
    }
    println!("calls: {}", held.calls);
    true
}

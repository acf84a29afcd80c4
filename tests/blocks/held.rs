//! Blocks of records, as the library replays them in place, held to the oracle.
//! This part is linked into `driver.c`, which has the buffers that are lent and
//! calls the library from C; every second call is made here, from Rust. The states
//! come of blocks that went before and of changes by hand.

#[path = "../guarded.rs"]
mod guarded;

use guarded::{about_to, lent, returned, take_back};
use oracle::calls::draw::{damage, forge, litter, Draws, Habits};
use oracle::replay::{block, replay, AfterRefusal, Block};
use oracle::words::{part, state, used, SIZE};
use std::ffi::c_int;

/// A block, as `driver.c` takes it: `struct block`.
#[repr(C)]
struct Lent {
    words: *mut u16,
    words_len: usize,
    all: bool,
    done: u64,
    records: *const u8,
    records_len: usize,
    text: *mut u8,
    text_len: usize,
    progress: *mut u64,
    progress_len: usize,
}

// The library, called from `driver.c`.
extern "C" {
    fn replay_from_c(block: *const Lent) -> u64;
}

// The library, called from Rust. A slice is a pointer and a length.
extern "C" {
    #[allow(clippy::too_many_arguments)]
    fn lemidrosy_replay(
        w: *mut u16,
        l: usize,
        all: bool,
        done: u64,
        r: *const u8,
        rl: usize,
        t: *mut u8,
        tl: usize,
        p: *mut u64,
        pl: usize,
    ) -> u64;
    fn lemidrosy_start(w: *mut u16, l: usize, n: usize, c: *const u32, cl: usize) -> u64;
}

/// The numbers of `driver.c`'s buffers.
const WORDS: c_int = 0;
const RECORDS: c_int = 1;
const TEXT: c_int = 2;
const PROGRESS: c_int = 3;

/// The longest text that is lent.
const TEXT_MOST: usize = 40_000;

/// What can be met, by how a block ends and on what.
const MET: [&str; 9] = [
    "the block was short of a record",
    "no room for a line",
    "the last record",
    "stopped at a refusal",
    "words that are not sound",
    "not sound after a recovery",
    "too short a list",
    "deletions listed",
    "a forged state",
];

/// In a run of at least that many calls, each is met at least that many times.
const MANY: u64 = 10_000;
const LEAST: u64 = 10;

struct Held {
    calls: u64,
    met: [u64; MET.len()],
}

/// The arguments of a call besides the words.
struct Asked {
    all: bool,
    done: u64,
    records: Vec<u8>,
    text: Vec<u8>,
    progress: Vec<u64>,
}

fn is_sound(words: &[u16]) -> bool {
    state(words).is_some_and(|state| state.is_sound())
}

/// Whether every place that is not in use holds zero, of words that stood for a
/// sound state.
fn is_clean(words: &[u16]) -> bool {
    words
        .iter()
        .zip(used(words))
        .all(|(word, used)| used || *word == 0)
}

/// A list with numbers written to its front.
fn written<T: Copy>(list: &[T], front: &[T]) -> Vec<T> {
    let mut list = list.to_vec();
    list[..front.len()].copy_from_slice(front);
    list
}

fn same<T: PartialEq>(what: &str, got: &[T], right: &[T]) -> Result<(), String> {
    match got.iter().zip(right).position(|(got, right)| got != right) {
        Some(at) => Err(format!("{what} is another at {at}")),
        None => Ok(()),
    }
}

impl Held {
    /// The words and the lists after the call, and its answer.
    fn call(&mut self, words: &mut [u16], asked: &mut Asked) -> Result<u64, String> {
        self.calls += 1;
        // Safety: it only notes the number.
        unsafe { about_to(self.calls) };
        let how = self.calls / 2;
        let records = asked.records.clone();
        let lent = Lent {
            words: lent(WORDS, words, how),
            words_len: words.len(),
            all: asked.all,
            done: asked.done,
            records: lent(RECORDS, &asked.records, how >> 1),
            records_len: asked.records.len(),
            text: lent(TEXT, &asked.text, how >> 2),
            text_len: asked.text.len(),
            progress: lent(PROGRESS, &asked.progress, how >> 3),
            progress_len: asked.progress.len(),
        };
        // Safety: the buffers are lent for the call.
        let answer = unsafe {
            if self.calls % 2 == 0 {
                replay_from_c(&lent)
            } else {
                lemidrosy_replay(
                    lent.words,
                    lent.words_len,
                    lent.all,
                    lent.done,
                    lent.records,
                    lent.records_len,
                    lent.text,
                    lent.text_len,
                    lent.progress,
                    lent.progress_len,
                )
            }
        };
        returned(lent.words, words);
        returned(lent.records, &mut asked.records);
        returned(lent.text, &mut asked.text);
        returned(lent.progress, &mut asked.progress);
        // Safety: nobody uses what was lent any more.
        if !(WORDS..=PROGRESS).fold(true, |same, k| unsafe { take_back(k) } && same) {
            return Err("it wrote beside a buffer".to_string());
        }
        same("a record", &asked.records, &records)?;
        Ok(answer)
    }

    /// One block: what the library leaves is what the oracle says. `words` then are
    /// those after it.
    fn block(&mut self, words: &mut Vec<u16>, mut asked: Asked) -> Result<Block, String> {
        let before = words.clone();
        let was = state(&before).filter(|state| state.is_sound());
        let after = if asked.all {
            AfterRefusal::GoOn
        } else {
            AfterRefusal::Stop
        };
        let right = block(
            was.as_ref(),
            after,
            asked.done,
            &asked.records,
            asked.text.len(),
        );
        let (text, progress) = (asked.text.clone(), asked.progress.clone());
        let answer = self.call(words, &mut asked)?;
        if progress.len() < 3 {
            self.met[6] += 1;
            if answer != 3 {
                return Err(format!("it answers {answer}, and 3 is right"));
            }
            same("a word", words, &before)?;
            same("the text", &asked.text, &text)?;
            same("the progress", &asked.progress, &progress)?;
            return Ok(right);
        }
        if answer != 0 {
            return Err(format!("it answers {answer}, and 0 is right"));
        }
        let going = u64::from(right.going);
        let front = [right.taken as u64, right.lines.len() as u64, going];
        same("the progress", &asked.progress, &written(&progress, &front))?;
        same("the text", &asked.text, &written(&text, &right.lines))?;
        match &right.left {
            None => same("a word", words, &before)?,
            Some(left) if state(words).as_ref() == Some(left) => {}
            Some(_) => return Err("the words stand for another state".to_string()),
        }
        if was.is_some() && is_clean(&before) && !is_clean(words) {
            return Err("a place that is not in use holds something".to_string());
        }
        self.tally(&right, &asked, was.is_some(), is_sound(words));
        Ok(right)
    }

    fn tally(&mut self, right: &Block, asked: &Asked, was_sound: bool, still: bool) {
        let end = if right.taken == asked.records.len() / 4 {
            0
        } else if !right.going {
            3
        } else if asked.done.saturating_add(right.taken as u64) >= 1_000_000_000 {
            2
        } else {
            1
        };
        self.met[end] += 1;
        if !was_sound && right.taken > 0 {
            self.met[4] += 1;
        }
        if was_sound && !still {
            self.met[5] += 1;
        }
        if right.lines.contains(&b':') {
            self.met[7] += 1;
        }
    }
}

fn begin(n: usize, counts: &[u32; 16]) -> Vec<u16> {
    let mut words = vec![0; SIZE];
    // Safety: the words and the counts are lent for the call.
    unsafe { lemidrosy_start(words.as_mut_ptr(), SIZE, n, counts.as_ptr(), 16) };
    words
}

/// A record: mostly one that asks for something of this run, now and then anything.
fn record(draws: &mut Draws, n: u64, last: u64) -> u32 {
    let process = draws.below(n + 1).min(15) as u32;
    let message = last.saturating_sub(draws.below(24)) as u32;
    let (kind, process, argument) = match draws.below(24) {
        0..=2 => (0, process, 0),
        3..=11 => (1, process, draws.below(n + 1) as u32),
        12..=19 => (2, 0, message),
        20 => (3, 0, message),
        21..=22 => (4, 0, draws.below(1 << n.min(16)) as u32 >> draws.below(17)),
        _ => return draws.number() as u32,
    };
    kind << 29 | process << 25 | (argument & 0x1FF_FFFF)
}

fn records(draws: &mut Draws, n: u64, mut last: u64, many: u64) -> Vec<u8> {
    let mut bytes = Vec::new();
    for _ in 0..many {
        let record = record(draws, n, last);
        last += u64::from(record >> 29 == 1);
        bytes.extend(record.to_be_bytes());
    }
    bytes
}

fn asked(draws: &mut Draws, words: &[u16]) -> Asked {
    let n = words.first().map_or(1, |n| u64::from(*n).clamp(1, 16));
    let last = words
        .get(2..4)
        .map_or(0, |l| u64::from(l[0]) | u64::from(l[1]) << 16);
    let many = draws.one_of(&[0, 1, 2, 5, 20, 60, 150]);
    let mut bytes = records(draws, n, last, many);
    let over = draws.one_of(&[0, 0, 0, 1, 2, 3]);
    bytes.extend((0..over).map(|_| draws.number() as u8));
    let room = match draws.below(8) {
        0 => draws.one_of(&[0, 1, 3101, 3102, 3103]),
        1..=3 => 3102 + draws.place(400),
        _ => draws.place(TEXT_MOST),
    };
    let done = match draws.below(8) {
        0 => 999_999_900 + draws.below(120),
        1 => draws.one_of(&[1_000_000_000, 1_000_000_001, u64::MAX - 1, u64::MAX]),
        _ => draws.below(100_000),
    };
    let progress = draws.one_of(&[0, 1, 2, 3, 3, 3, 3, 3, 3, 3, 3, 4]);
    Asked {
        all: draws.below(4) > 0,
        done,
        records: bytes,
        text: (0..room).map(|_| draws.number() as u8).collect(),
        progress: (0..progress).map(|_| draws.number()).collect(),
    }
}

/// A sound state that no calls leave, and a block whose first recovery leaves it
/// not sound: a process rolls back past an interval that another one, which
/// stays live, still knows. Calls would have told that one of the failed process.
fn torn(held: &mut Held, draws: &mut Draws) -> Result<(), String> {
    let n = 3 + draws.place(14);
    let failed = draws.place(n);
    let back = (failed + 1 + draws.place(n - 2)) % n;
    let live = (back + 1) % n;
    let live = if live == failed { (live + 1) % n } else { live };
    let send = |from: usize, to: usize| 1 << 29 | (from as u32) << 25 | to as u32;
    let deliver = |message: u32| 2 << 29 | message;
    let steps = [
        send(failed, back),
        deliver(1),
        (back as u32) << 25,
        send(back, live),
        deliver(2),
    ];
    let mut words = begin(n, &[1; 16]);
    let mut asked = asked(draws, &words);
    let mut before = Asked {
        all: true,
        done: 0,
        records: steps.iter().flat_map(|step| step.to_be_bytes()).collect(),
        text: vec![0; TEXT_MOST],
        progress: vec![0; 3],
    };
    held.call(&mut words, &mut before)?;
    words[part(live) + failed] = 0;
    let recover: u32 = 4 << 29 | 1 << failed;
    asked.records.splice(0..0, recover.to_be_bytes());
    held.block(&mut words, asked).map(|_| ())
}

/// The words are changed now and then, so that they are a state that no calls left,
/// or not sound, or of another length.
fn changed(held: &mut Held, draws: &mut Draws, habits: &Habits, words: &[u16]) -> Vec<u16> {
    let mut words = words.to_vec();
    match draws.below(16) {
        0 => damage(draws, &mut words),
        1 => litter(draws, &mut words),
        2..=5 => {
            (0..1 + draws.below(24)).for_each(|_| forge(draws, habits, &mut words));
            held.met[8] += u64::from(is_sound(&words));
        }
        6 => words.resize(draws.one_of(&[0, 1, SIZE - 1, SIZE + 1, 2 * SIZE]), 0),
        _ => {}
    }
    words
}

fn all(held: &mut Held, seed: u64, count: u64) -> Result<(), String> {
    let mut draws = Draws::new(seed);
    while held.calls < count {
        let habits = Habits::draw(&mut draws);
        let counts: [u32; 16] = std::array::from_fn(|_| 1 + draws.below(65_535) as u32);
        let mut words = begin(1 + draws.place(16), &counts);
        for _ in 0..1 + draws.below(30) {
            let mut other = changed(held, &mut draws, &habits, &words);
            let request = asked(&mut draws, &other);
            held.block(&mut other, request)?;
            let request = asked(&mut draws, &words);
            held.block(&mut words, request)?;
        }
        whole(held, &mut draws)?;
        torn(held, &mut draws)?;
    }
    if count >= MANY {
        if let Some(few) = (0..MET.len()).find(|met| held.met[*met] < LEAST) {
            return Err(format!("hardly met: {}", MET[few]));
        }
    }
    Ok(())
}

/// A whole trace in blocks of any size, with any room: their lines one after the
/// other are the listing of the trace.
fn whole(held: &mut Held, draws: &mut Draws) -> Result<(), String> {
    let n = 1 + draws.place(16);
    let mut trace = vec![n as u8];
    let many = draws.below(300);
    trace.extend(records(draws, n as u64, 0, many));
    let all = draws.below(4) > 0;
    let after = if all {
        AfterRefusal::GoOn
    } else {
        AfterRefusal::Stop
    };
    let mut listing = Vec::new();
    replay(after, trace.as_slice(), &mut listing).map_err(|error| error.to_string())?;

    let (mut words, mut at, mut done, mut lines) = (begin(n, &[1; 16]), 1, 0, Vec::new());
    loop {
        let to = trace.len().min(at + draws.place(200));
        let request = Asked {
            all,
            done,
            records: trace[at..to].to_vec(),
            text: vec![0; 3102 + draws.place(3102)],
            progress: vec![0; 3],
        };
        let step = held.block(&mut words, request)?;
        at += 4 * step.taken;
        done += step.taken as u64;
        lines.extend(step.lines);
        if !step.going || at == trace.len() {
            break;
        }
    }
    if lines == listing {
        Ok(())
    } else {
        Err("the lines of its blocks are not the listing of the trace".to_string())
    }
}

/// Makes at least that many calls by seed. Says what was met, or the first
/// difference; true if there is none.
#[no_mangle]
pub extern "C" fn hold_blocks(seed: u64, count: u64) -> bool {
    let mut held = Held {
        calls: 0,
        met: [0; MET.len()],
    };
    if let Err(what) = all(&mut held, seed, count) {
        println!("seed {seed}, call {}: {what}", held.calls);
        return false;
    }
    for (what, many) in MET.iter().zip(held.met) {
        println!("{what}: {many}");
    }
    println!("calls: {}", held.calls);
    true
}

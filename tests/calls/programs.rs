//! What the library exports that works on no state, called from C and held to the
//! oracle: the judge of a trace (Note 7), the merge of two halves (Note 12), a
//! simulation (Note 10).

use crate::guarded::{about_to, lent, returned, take_back};
use crate::{tell, SUMS};
use oracle::calls::draw::Draws;
use oracle::generate::trace_in;
use oracle::halves::draw::drawn;
use oracle::halves::merge::merge;
use oracle::judge::{judge, Verdict};
use oracle::simulate::{simulate, Parameters};
use std::ffi::c_int;
use std::path::Path;

extern "C" {
    fn judge_from_c(trace: *const u8, length: usize) -> u64;
    fn merge_from_c(
        first: *const u8,
        first_length: usize,
        second: *const u8,
        second_length: usize,
        set: u32,
        trace: *mut u8,
        trace_length: usize,
    ) -> u64;
    fn simulate_from_c(
        n: usize,
        spacing: u32,
        steps: u32,
        seed: u32,
        figures: *mut u64,
        length: usize,
    ) -> u64;
}

/// The numbers of `driver.c`'s buffers for bytes.
const FIRST: c_int = 5;
const SECOND: c_int = 6;
const TRACE: c_int = 7;

/// The programs by name, and which numbers each can give, 0 if accepted. The last
/// of the judge's is no refusal: a pair of states breaks.
const BREAKS: usize = 0x100;
const PROGRAMS: [(&str, &[usize]); 3] = [
    ("judge", &[0, 1, 4, 5, 8, 9, 12, 13, 14, 17, BREAKS]),
    ("merge", &[0, 1, 3, 4, 5, 7, 12, 13, 14, 17, 23, 24]),
    ("simulate", &[0, 3, 22]),
];

/// In a run of at least that many calls of each, every number is met at least that
/// many times.
const MANY: u64 = 3000;
const LEAST: u64 = 5;

/// Makes that many calls of each by seed. Says what was met, or the first
/// difference; true if there is none.
#[no_mangle]
pub extern "C" fn hold_programs(seed: u64, count: u64) -> bool {
    let mut draws = Draws::new(seed);
    let mut met = [[0; BREAKS + 1]; PROGRAMS.len()];
    for call in 0..count {
        let held = [
            judge_one(&mut draws, seed + call),
            merge_one(&mut draws, seed + call),
            simulate_one(&mut draws),
        ];
        for ((said, met), (name, _)) in held.into_iter().zip(&mut met).zip(PROGRAMS) {
            match said {
                Ok(number) => met[number] += 1,
                Err(what) => {
                    println!("seed {seed}, {name} {call}: {what}");
                    return false;
                }
            }
        }
    }
    if let Err(what) = tell(&PROGRAMS, &met, (count >= MANY).then_some(LEAST)) {
        println!("{what}");
        return false;
    }
    println!("programs: {}", count * PROGRAMS.len() as u64);
    true
}

/// The answer and what is left of a list are as the oracle says, and nothing else
/// was written.
fn held<T: PartialEq>(
    answer: (u64, u64),
    left: (&[T], &[T]),
    buffers: &[c_int],
) -> Result<(), String> {
    // Safety: nobody uses what was lent any more.
    if let Some(buffer) = buffers
        .iter()
        .find(|buffer| !unsafe { take_back(**buffer) })
    {
        return Err(format!("it wrote beside buffer {buffer}"));
    }
    if answer.0 != answer.1 {
        return Err(format!("answer {:#x}, not {:#x}", answer.0, answer.1));
    }
    match (0..left.1.len()).find(|k| left.0[*k] != left.1[*k]) {
        Some(place) => Err(format!("entry {place} of the list")),
        None => Ok(()),
    }
}

/// A list is mostly as long as is asked for.
fn length(draws: &mut Draws, asked: usize) -> usize {
    let less = draws.place(asked);
    let short = asked.saturating_sub(1);
    if draws.once_in(12) {
        draws.one_of(&[0, short, short, less])
    } else {
        asked + draws.one_of(&[0, 0, 0, 1, 9])
    }
}

fn judge_one(draws: &mut Draws, seed: u64) -> Result<usize, String> {
    let arguments = [seed.to_string(), "--mix".to_string(), "foreign".to_string()];
    let trace = trace_in(Path::new("/dev/null"), &arguments).map_err(|error| error.to_string())?;
    let verdict = judge(&trace);
    let end = |state: oracle::judge::State| (state.process as u64) | (state.index as u64) << 8;
    let (expected, number) = match verdict {
        Verdict::Trackable => (0, 0),
        Verdict::Refused(number) => (u64::from(number), usize::from(number)),
        Verdict::Breaks { near, far } => (1 << 8 | end(near) << 16 | end(far) << 40, BREAKS),
    };
    let to = lent(FIRST, &trace, draws.number());
    // Safety: the buffer is lent for the call.
    let answer = unsafe {
        about_to(seed);
        judge_from_c(to, trace.len())
    };
    let mut after = trace.clone();
    returned(to, &mut after);
    held((answer, expected), (&after, &trace), &[FIRST])?;
    Ok(number)
}

fn merge_one(draws: &mut Draws, seed: u64) -> Result<usize, String> {
    let halves = drawn(seed);
    let (first, second) = (&halves.first, &halves.second);
    let any = draws.number() as u32;
    let set = if draws.once_in(8) {
        draws.one_of(&[any, halves.set | 1 << 31, halves.set | 1 << 16])
    } else {
        halves.set
    };
    let room = length(draws, first.len() + second.len());
    let mut expected: Vec<u8> = (0..room).map(|_| draws.number() as u8).collect();
    let mut got = expected.clone();
    let said = merge(first, second, set, &mut expected);
    let code = said.map_or_else(u64::from, |bytes| 1 << 23 | (bytes as u64) << 24);
    let how = draws.number();
    let (one, other) = (lent(FIRST, first, how), lent(SECOND, second, how >> 3));
    let to = lent(TRACE, &got, how >> 6);
    // Safety: every buffer is lent for the call.
    let answer = unsafe {
        about_to(seed);
        merge_from_c(one, first.len(), other, second.len(), set, to, room)
    };
    returned(to, &mut got);
    held((answer, code), (&got, &expected), &[FIRST, SECOND, TRACE])?;
    Ok(usize::from(said.err().unwrap_or(0)))
}

fn simulate_one(draws: &mut Draws) -> Result<usize, String> {
    let any = draws.number();
    let mut of = |range: u64, outside: &[u64]| {
        if draws.once_in(16) {
            draws.one_of(outside)
        } else {
            1 + draws.below(range)
        }
    };
    let count = of(16, &[0, 17, 255, 272, 65_552, (1 << 32) + 2, u64::MAX, any]);
    let spacing = of(40, &[0, 1000, 1000, 1001, 65_537, u64::from(u32::MAX)]);
    let steps = of(400, &[0, 2000, 2000, 30_001, 65_537, u64::from(u32::MAX)]);
    let start = draws.number() as u32;
    let room = length(draws, 5);
    let mut expected: Vec<u64> = (0..room).map(|_| draws.number()).collect();
    let mut got = expected.clone();
    // 3, for fewer than five entries, is judged first.
    let said = if room < 5 {
        Err(3)
    } else {
        simulate(Parameters {
            count,
            spacing,
            steps,
            start,
        })
    };
    if let Ok(figures) = said {
        expected[..5].copy_from_slice(&[
            figures.deliveries,
            figures.forced,
            figures.most_kept,
            figures.quotient,
            figures.remainder,
        ]);
    }
    let code = said.map_or_else(u64::from, |_| 0);
    let to = lent(SUMS, &got, draws.number());
    // Safety: the buffer is lent for the call.
    let answer = unsafe {
        about_to(u64::from(start));
        simulate_from_c(
            count as usize,
            spacing as u32,
            steps as u32,
            start,
            to,
            room,
        )
    };
    returned(to, &mut got);
    held((answer, code), (&got, &expected), &[SUMS])
        .map_err(|what| format!("{count} {spacing} {steps} {start}: {what}"))?;
    Ok(usize::from(said.err().unwrap_or(0)))
}

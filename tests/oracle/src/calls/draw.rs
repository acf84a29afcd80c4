//! Random calls, and random changes of words.

use super::{Call, Lists};
use crate::run::forged::State;
use crate::run::{LAST_ENTRY, LAST_MESSAGE_NUMBER, MAX_PROCESSES, MAX_UNDER_WAY, MOST_WRITTEN};
use crate::words::{
    carried, part, state, stored, used, BLOCKS, CARRIED, CAUSES, COUNT, DELETED, END, FIRST_UNUSED,
    HELD, HIGHS, INDEXES, LAST, LOWS, MARKS, PARTS, PINS, RECEIVERS, SENDERS, SIZE, UNDER_WAY,
    WRITTEN,
};

/// Draws by seed: the same seed always gives the same.
pub struct Draws(u64);

impl Draws {
    pub fn new(seed: u64) -> Draws {
        Draws(seed)
    }

    /// The generator of Steele, Lea and Flood ("SplitMix").
    pub fn number(&mut self) -> u64 {
        self.0 = self.0.wrapping_add(0x9e37_79b9_7f4a_7c15);
        let mut value = self.0;
        value = (value ^ value >> 30).wrapping_mul(0xbf58_476d_1ce4_e5b9);
        value = (value ^ value >> 27).wrapping_mul(0x94d0_49bb_1331_11eb);
        value ^ value >> 31
    }

    pub fn below(&mut self, limit: u64) -> u64 {
        self.number() % limit.max(1)
    }

    pub fn place(&mut self, limit: usize) -> usize {
        self.below(limit as u64) as usize
    }

    /// Once in that many times.
    pub fn once_in(&mut self, times: u64) -> bool {
        self.below(times) == 0
    }

    pub fn one_of<T: Copy>(&mut self, values: &[T]) -> T {
        values[self.place(values.len())]
    }

    pub fn word(&mut self) -> u16 {
        self.number() as u16
    }
}

/// How often a run makes each call.
pub struct Habits {
    sends: u64,
    deliveries: u64,
    losses: u64,
    recoveries: u64,
    rest: u64,
    /// Whether words are changed to stand near the last entry, the last number
    /// and the bound of 16.
    limits: bool,
}

impl Habits {
    pub fn draw(draws: &mut Draws) -> Habits {
        Habits {
            sends: draws.one_of(&[5, 8, 12, 20]),
            deliveries: draws.one_of(&[2, 8, 12]),
            losses: draws.one_of(&[0, 1, 4]),
            recoveries: draws.one_of(&[0, 1, 1, 4]),
            rest: 12,
            limits: draws.once_in(3),
        }
    }
}

/// A call on this state, its numbers mostly in range.
pub fn call(draws: &mut Draws, habits: &Habits, now: Option<&State>) -> Call {
    let count = now.map_or(3, |state| state.count).clamp(1, 17);
    let mut drawn = draws
        .below(habits.sends + habits.deliveries + habits.losses + habits.recoveries + habits.rest);
    let mut chosen = |many: u64| {
        let here = drawn < many;
        drawn = drawn.wrapping_sub(many);
        here
    };
    if chosen(habits.sends) {
        let from = process(draws, count);
        let to = process(draws, count);
        // mostly to another
        let other = if count > 1 && to == from && !draws.once_in(8) {
            (to + 1) % count
        } else {
            to
        };
        return Call::Send { from, to: other };
    }
    if chosen(habits.deliveries) {
        let number = message(draws, now);
        return Call::Deliver { number };
    }
    if chosen(habits.losses) {
        let number = message(draws, now);
        return Call::Lose { number };
    }
    if chosen(habits.recoveries) {
        let failed = failed(draws, count);
        return Call::Recover { failed };
    }
    match draws.below(12) {
        0..=5 => Call::Checkpoint {
            process: process(draws, count),
        },
        6..=7 => Call::Line {
            failed: failed(draws, count),
        },
        8..=9 => Call::Earliest,
        10 => Call::IsSound,
        _ => reading(draws, count, now),
    }
}

fn reading(draws: &mut Draws, count: u64, now: Option<&State>) -> Call {
    let process = process(draws, count);
    let failed = failed(draws, count);
    let number = message(draws, now);
    draws.one_of(&[
        Call::Numbers,
        Call::Vector { process },
        Call::Pins { process },
        Call::Kept { process },
        Call::Messages,
        Call::Lost { failed },
        Call::Carried { number },
    ])
}

/// A start, mostly of a count in range.
pub fn start(draws: &mut Draws) -> Call {
    let count = if draws.once_in(6) {
        draws.one_of(&[
            0,
            17,
            18,
            255,
            65_535,
            65_536,
            65_537,
            65_552,
            u64::from(u32::MAX),
            (1 << 32) + 2,
            1 << 63,
            u64::MAX,
        ])
    } else {
        1 + draws.below(16)
    };
    Call::Start { count }
}

fn process(draws: &mut Draws, count: u64) -> u64 {
    if !draws.once_in(24) {
        return draws.below(count);
    }
    let known = draws.below(count);
    draws.one_of(&[
        count,
        count + 1,
        15,
        16,
        17,
        255,
        256,
        65_535,
        65_536,
        65_536 + known,
        u64::from(u32::MAX),
        (1 << 32) + known,
        (1 << 63) + known,
        u64::MAX,
    ])
}

fn message(draws: &mut Draws, now: Option<&State>) -> u64 {
    let last = now.map_or(5, |state| state.last_number);
    let under_way = now.map_or(&[][..], |state| &state.messages);
    if !under_way.is_empty() && !draws.once_in(24) {
        return under_way[draws.place(under_way.len())].number;
    }
    let known = under_way.first().map_or(0, |message| message.number);
    draws.one_of(&[
        0,
        1,
        last,
        last + 1,
        known + 65_536,
        known << 16,
        65_535,
        65_536,
        LAST_MESSAGE_NUMBER,
        LAST_MESSAGE_NUMBER + 1,
        1 << 31,
        u64::from(u32::MAX),
        (1 << 32) + known,
        1 << 63,
        u64::MAX,
    ])
}

fn failed(draws: &mut Draws, count: u64) -> u64 {
    let all = 1 << count.min(16);
    match draws.below(16) {
        0..=5 => 1 << draws.below(count),
        6..=11 => draws.below(all),
        12..=13 => 0,
        14 => all - 1,
        _ => {
            let some = draws.below(all);
            draws.one_of(&[
                all,
                all + some,
                65_535,
                65_536,
                65_536 + some,
                1 << 31,
                u64::from(u32::MAX),
                (1 << 32) + some,
                1 << 63,
                u64::MAX,
            ])
        }
    }
}

/// The lists of a call: what stands in them is any, their lengths mostly do.
pub fn lists(draws: &mut Draws, call: Call, now: Option<&State>) -> Lists {
    let count = now.map_or(3, |state| state.count).min(16) as usize;
    let numbers = match call {
        Call::Start { count } => block_counts(draws, count),
        Call::Earliest => names(draws, now),
        Call::Kept { .. } => any(draws, 3 * count),
        Call::Messages | Call::Lost { .. } => any(draws, 3 * MAX_UNDER_WAY),
        _ => Vec::new(),
    };
    let size = length(draws, 5);
    let sums = (0..size).map(|_| draws.number()).collect();
    let size = length(draws, 2 * count * count);
    let deletions = (0..size).map(|_| draws.word()).collect();
    let size = length(draws, count);
    let line = (0..size).map(|_| draws.word()).collect();
    Lists {
        deletions,
        line,
        numbers,
        sums,
    }
}

/// Any numbers, mostly as many as are asked for.
fn any(draws: &mut Draws, asked: usize) -> Vec<u32> {
    let size = length(draws, asked);
    (0..size).map(|_| draws.number() as u32).collect()
}

fn length(draws: &mut Draws, asked: usize) -> usize {
    if !draws.once_in(16) {
        return asked;
    }
    let less = draws.place(asked);
    let more = asked + draws.place(20);
    let short = asked.saturating_sub(1);
    draws.one_of(&[0, 1, short, short, asked + 1, less, more])
}

fn block_counts(draws: &mut Draws, count: u64) -> Vec<u32> {
    let asked = count.min(16) as usize;
    let size = match draws.below(8) {
        0 => draws.one_of(&[0, 0, asked.saturating_sub(1), 17, 20]),
        1..=2 => asked,
        _ => 16,
    };
    let mut counts: Vec<u32> = (0..size)
        .map(|_| draws.one_of(&[1, 1, 1, 2, 3, 100, 65_534, 65_535]))
        .collect();
    if size > 0 && draws.once_in(6) {
        let place = draws.place(size);
        counts[place] = draws.one_of(&[0, 65_536, 65_537, 1 << 31, u32::MAX]);
    }
    counts
}

fn names(draws: &mut Draws, now: Option<&State>) -> Vec<u32> {
    let Some(state) = now.filter(|state| state.is_sound()) else {
        return vec![0, 0];
    };
    let count = state.processes.len();
    let most = draws.one_of(&[1, 2, 3, count]).min(count);
    let first = draws.place(count);
    let mut names = Vec::new();
    for k in 0..most {
        let p = (first + k) % count;
        let kept = &state.processes[p].kept;
        let one = kept[draws.place(kept.len())].expect("the state is sound");
        names.extend([p as u32, one.index]);
    }
    if draws.once_in(4) {
        change_names(draws, count, &mut names);
    }
    if draws.once_in(16) {
        change_names(draws, count, &mut names);
    }
    names
}

fn change_names(draws: &mut Draws, count: usize, names: &mut Vec<u32>) {
    let place = draws.place(names.len());
    if names.is_empty() {
        names.push(count as u32);
        return;
    }
    match draws.below(8) {
        0 => names.clear(),
        1 => names.truncate(place),
        2 => names.extend_from_within(..),
        3 => names.push(0),
        4 => names[place] = draws.one_of(&[0, 1, 2, 3]),
        5 => names[place] = names[place].wrapping_add(draws.one_of(&[1, 65_536, 1 << 17, 1 << 31])),
        6 => names[place] = draws.one_of(&[count as u32, 16, 65_535, 65_536, u32::MAX]),
        _ => (0..2 * draws.below(20)).for_each(|k| names.push(k as u32 / 2)),
    }
}

/// A random change that leaves words of a sound state those of a sound state,
/// which calls may never leave.
pub fn forge(draws: &mut Draws, habits: &Habits, words: &mut [u16]) {
    let before = words.to_vec();
    change_soundly(draws, habits.limits, words);
    if !state(words).is_some_and(|state| state.is_sound()) {
        words.copy_from_slice(&before);
    }
}

fn change_soundly(draws: &mut Draws, limits: bool, words: &mut [u16]) {
    let count = usize::from(words[COUNT]);
    let p = draws.place(count);
    let f = draws.place(count);
    let own = |words: &[u16], p: usize| words[part(p) + p];
    let k = draws.place(usize::from(words[HELD + p]));
    let lower = draws.below(u64::from(own(words, f)) + 1) as u16;
    let messages: Vec<usize> = (0..usize::from(words[END]))
        .filter(|k| words[LOWS + k] != 0 || words[HIGHS + k] != 0)
        .collect();
    match draws.below(18) {
        0 if p != f => words[part(p) + f] = lower,
        1 if p != f => words[stored(p, k) + f] = lower,
        2 if !messages.is_empty() => words[carried(draws.one_of(&messages)) + f] = lower,
        3 => words[MARKS + p] = draws.one_of(&[0, 1, 2, 256, 65_535]),
        4 => words[part(p) + PINS + f] = words[part(p) + INDEXES + k],
        5 => words[part(p) + PINS + f] = 0,
        6 => words[part(p) + CAUSES + k] = draws.one_of(&[1, 2]),
        7 => {
            let last = wide(&words[LAST..WRITTEN]);
            let more = rise(draws, limits, LAST_MESSAGE_NUMBER.saturating_sub(last), 4);
            put(&mut words[LAST..WRITTEN], last + more);
        }
        8 if !messages.is_empty() => {
            let end = draws.one_of(&[SENDERS, RECEIVERS]);
            words[end + draws.one_of(&messages)] = p as u16;
        }
        9 => {
            let written = wide(&words[WRITTEN..DELETED]);
            let more = rise(draws, limits, MOST_WRITTEN.saturating_sub(written), 70_000);
            put(&mut words[WRITTEN..DELETED], written + more);
            let deleted = wide(&words[DELETED..END]);
            put(&mut words[DELETED..END], deleted + more);
        }
        10..=11 => raise(draws, limits, words, p),
        12 => {
            let blocks = draws.one_of(&[1, 2, 65_535]);
            let held = u64::from(words[HELD + p]);
            let less = held * u64::from(words[BLOCKS + p]);
            let written = wide(&words[WRITTEN..DELETED]) + held * u64::from(blocks) - less;
            put(&mut words[WRITTEN..DELETED], written);
            words[BLOCKS + p] = blocks;
        }
        13 => spread(draws, words),
        _ if p != f => keep_more(draws, words, p, f),
        _ => {}
    }
}

/// Process p keeps one more checkpoint, earlier than its last; its pin for f
/// names it.
fn keep_more(draws: &mut Draws, words: &mut [u16], p: usize, f: usize) {
    let count = usize::from(words[COUNT]);
    let held = usize::from(words[HELD + p]);
    let last = words[part(p) + INDEXES + held - 1];
    if held >= count || last < 2 {
        return;
    }
    let near = 1 + draws.below(u64::from(last - 1).min(4)) as u16;
    let any = 1 + draws.below(u64::from(last - 1)) as u16;
    let index = draws.one_of(&[near, last - near, any]);
    let mut k = held;
    while k > 0 && words[part(p) + INDEXES + k - 1] > index {
        words[part(p) + INDEXES + k] = words[part(p) + INDEXES + k - 1];
        words[part(p) + CAUSES + k] = words[part(p) + CAUSES + k - 1];
        words.copy_within(stored(p, k - 1)..stored(p, k), stored(p, k));
        k -= 1;
    }
    words[part(p) + INDEXES + k] = index;
    words[part(p) + CAUSES + k] = if index == 1 { 0 } else { draws.one_of(&[1, 2]) };
    for g in 0..count {
        let own = words[part(g) + g];
        words[stored(p, k) + g] = draws.below(u64::from(own) + 1) as u16;
    }
    words[stored(p, k) + p] = index - 1;
    words[part(p) + PINS + f] = index;
    words[HELD + p] += 1;
    let written = wide(&words[WRITTEN..DELETED]) + u64::from(words[BLOCKS + p]);
    put(&mut words[WRITTEN..DELETED], written);
}

/// By how much a number rises that has so much left to its limit: a little, or,
/// near the limit, nearly all of it.
fn rise(draws: &mut Draws, limits: bool, left: u64, near: u64) -> u64 {
    if limits && draws.once_in(2) {
        return left.saturating_sub(draws.below(near));
    }
    let most = draws.one_of(&[2, 100, 70_000]);
    draws.below(most).min(left / 2)
}

/// The own entry of process p rises, and its last checkpoint with it.
fn raise(draws: &mut Draws, limits: bool, words: &mut [u16], p: usize) {
    let own = words[part(p) + p];
    let left = u64::from(LAST_ENTRY) - u64::from(own);
    let more = rise(draws, limits, left, 3) as u16;
    let last = usize::from(words[HELD + p]) - 1;
    for f in 0..MAX_PROCESSES {
        if words[part(p) + PINS + f] == own {
            words[part(p) + PINS + f] += more;
        }
    }
    words[part(p) + p] += more;
    words[part(p) + INDEXES + last] += more;
    words[stored(p, last) + p] += more;
    let cause = &mut words[part(p) + CAUSES + last];
    *cause = (*cause).max((more > 0).into());
}

/// The last message moves to a later place: places before it are not used.
fn spread(draws: &mut Draws, words: &mut [u16]) {
    let end = usize::from(words[END]);
    if end == 0 || end == MAX_UNDER_WAY {
        return;
    }
    let between = end + draws.place(MAX_UNDER_WAY - end);
    let to = draws.one_of(&[MAX_UNDER_WAY - 1, between]);
    for row in [LOWS, HIGHS, SENDERS, RECEIVERS] {
        words[row + to] = std::mem::take(&mut words[row + end - 1]);
    }
    for f in 0..MAX_PROCESSES {
        words[carried(to) + f] = std::mem::take(&mut words[carried(end - 1) + f]);
    }
    words[END] = to as u16 + 1;
}

/// Anything goes into some of the places that are not in use.
pub fn litter(draws: &mut Draws, words: &mut [u16]) {
    let some = draws.one_of(&[1, 2, 16]);
    for (place, used) in used(words).into_iter().enumerate() {
        if !used && draws.once_in(some) {
            words[place] = draws.word();
        }
    }
}

/// A random change of words, whatever they then stand for.
pub fn damage(draws: &mut Draws, words: &mut [u16]) {
    let count = usize::from(words[COUNT]).clamp(1, MAX_PROCESSES);
    let p = draws.place(count);
    let held = usize::from(words[HELD + p]).clamp(1, MAX_PROCESSES);
    let end = usize::from(words[END]).clamp(1, MAX_UNDER_WAY);
    // a place of something that is in use
    let place = match draws.below(12) {
        0 => draws.place(SIZE),
        1 => draws.place(FIRST_UNUSED),
        2 => draws.one_of(&[COUNT, UNDER_WAY, END]),
        3 => draws.one_of(&[HELD, MARKS, BLOCKS]) + p,
        4 => part(p) + draws.place(MAX_PROCESSES),
        5 => part(p) + PINS + draws.place(MAX_PROCESSES),
        6 => part(p) + INDEXES + draws.place(held),
        7 => part(p) + CAUSES + draws.place(held),
        8 => stored(p, draws.place(held)) + draws.place(MAX_PROCESSES),
        9 => draws.one_of(&[LOWS, HIGHS]) + draws.place(end),
        10 => draws.one_of(&[SENDERS, RECEIVERS]) + draws.place(end),
        _ => carried(draws.place(end)) + draws.place(MAX_PROCESSES),
    };
    match draws.below(10) {
        0..=1 => words[place] = words[place].wrapping_add(1),
        2..=3 => words[place] = words[place].wrapping_sub(1),
        4 => words[place] = 0,
        5 => {
            let any = draws.word();
            words[place] = draws.one_of(&[1, 2, 16, 17, 64, 65, 65_534, 65_535, any]);
        }
        6 => words[place] ^= 1 << draws.below(16),
        7 => words.swap(place, draws.place(SIZE)),
        8 => {
            // two rows change places, or one goes over the other
            let rows = (CARRIED - PARTS) / MAX_PROCESSES;
            let from = PARTS + MAX_PROCESSES * draws.place(rows);
            let to = PARTS + (place.max(PARTS) - PARTS) / MAX_PROCESSES * MAX_PROCESSES;
            let over = draws.once_in(2);
            for f in 0..MAX_PROCESSES {
                let other = words[to + f];
                words[to + f] = words[from + f];
                if !over {
                    words[from + f] = other;
                }
            }
        }
        _ => {
            // the next one in the same row or column
            let other = (place + 1).min(SIZE - 1);
            words.swap(place, other);
        }
    }
}

fn wide(words: &[u16]) -> u64 {
    words
        .iter()
        .rev()
        .fold(0, |high, word| high << 16 | u64::from(*word))
}

fn put(words: &mut [u16], mut value: u64) {
    for word in words {
        *word = value as u16;
        value >>= 16;
    }
}

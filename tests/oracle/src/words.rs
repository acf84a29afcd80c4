//! The state as words that a caller lends: 6,464 numbers of 16 bits, each thing
//! at a fixed place. Which state words stand for, words of a state, and nothing
//! else.
//!
//! The layout is the library's own. Its sentences are quoted here; what stands
//! in a place that is not in use counts for nothing.

use crate::run::forged::{Process, State, Stored};
use crate::run::{Entry, Message, Vector, MAX_PROCESSES, MAX_UNDER_WAY};

/// How many words a state is.
pub const SIZE: usize = 6_464;

/// "Word 0 is n, and word 1 says how many messages are under way. Words 2 and 3
/// are the last message number used, 4 to 7 the blocks written, 8 to 11 the
/// blocks deleted. Word 12 is the end of the places of messages in use. Words 13
/// to 15 are not used."
pub const COUNT: usize = 0;
pub const UNDER_WAY: usize = 1;
pub const LAST: usize = 2;
pub const WRITTEN: usize = 4;
pub const DELETED: usize = 8;
pub const END: usize = 12;
pub const FIRST_UNUSED: usize = 13;

/// "From word 16 on stands for each process how many checkpoints it keeps, from
/// word 32 on its sent mark (0: not set), from word 48 on its block count."
pub const HELD: usize = 16;
pub const MARKS: usize = 32;
pub const BLOCKS: usize = 48;

/// "From word 64 on each process has a part of 320 words: 16 entries of its
/// vector, its 16 pins, then for each of 16 places of kept checkpoints one word
/// of its index and one of its cause, and the 16 entries of its vector."
pub const PARTS: usize = 64;
pub const PART: usize = 320;
pub const PINS: usize = 16;
pub const INDEXES: usize = 32;
pub const CAUSES: usize = 48;
pub const STORED: usize = 64;

/// "From word 5,184 on there are 64 places of messages: 64 low words of the
/// numbers, 64 high words, 64 senders, 64 receivers, and 64 vectors of 16
/// entries."
pub const LOWS: usize = 5_184;
pub const HIGHS: usize = 5_248;
pub const SENDERS: usize = 5_312;
pub const RECEIVERS: usize = 5_376;
pub const CARRIED: usize = 5_440;

/// Where the part of process p begins.
pub fn part(p: usize) -> usize {
    PARTS + PART * p
}

/// Where the vector of its kept checkpoint k begins.
pub fn stored(p: usize, k: usize) -> usize {
    part(p) + STORED + MAX_PROCESSES * k
}

/// Where the vector that the message in place k carries begins.
pub fn carried(k: usize) -> usize {
    CARRIED + MAX_PROCESSES * k
}

/// "A number of two words and one of four, the lowest word first."
fn number(words: &[u16]) -> u64 {
    let high_first = words.iter().rev();
    high_first.fold(0, |high, word| high << 16 | u64::from(*word))
}

/// "A row that is in use is read whole, all its 16 entries."
fn row(words: &[u16], at: usize) -> Vector {
    std::array::from_fn(|f| Entry::from(words[at + f]))
}

/// "A word of the pins, or of an index, is one above the index of a checkpoint, 0
/// if there is none."
fn index(word: Entry) -> Option<Entry> {
    word.checked_sub(1)
}

/// The state that words stand for. None: words of another length, or words whose
/// end is not one past the last used place; the library relies on it and the
/// state does not show it. Those stand for a state of zeros, which is not sound.
pub fn state(words: &[u16]) -> Option<State> {
    if words.len() != SIZE || !is_end_right(words) {
        return None;
    }
    let count = usize::from(words[COUNT]);
    Some(State {
        count: u64::from(words[COUNT]),
        processes: (0..count.min(MAX_PROCESSES))
            .map(|p| process(words, p))
            .collect(),
        messages: (0..usize::from(words[END]))
            .filter(|k| is_used(words, *k))
            .map(|k| message(words, k))
            .collect(),
        under_way: u64::from(words[UNDER_WAY]),
        last_number: number(&words[LAST..WRITTEN]),
        written: number(&words[WRITTEN..DELETED]),
        deleted: number(&words[DELETED..END]),
    })
}

/// Words that stand for a sound state: its messages in the first places, zeros in
/// every place that is not in use.
pub fn of(state: &State) -> Vec<u16> {
    let mut words = vec![0; SIZE];
    let numbers = [
        (COUNT, 1, state.count),
        (UNDER_WAY, 1, state.under_way),
        (LAST, 2, state.last_number),
        (WRITTEN, 4, state.written),
        (DELETED, 4, state.deleted),
        (END, 1, state.messages.len() as u64),
    ];
    for (at, many, number) in numbers {
        put(&mut words[at..at + many], number);
    }
    for (p, process) in state.processes.iter().enumerate() {
        put_process(&mut words, p, process);
    }
    for (k, message) in state.messages.iter().enumerate() {
        let mut number = [0; 2];
        put(&mut number, message.number);
        words[LOWS + k] = number[0];
        words[HIGHS + k] = number[1];
        words[SENDERS + k] = message.sender as u16;
        words[RECEIVERS + k] = message.receiver as u16;
        put_row(&mut words, carried(k), message.carried);
    }
    words
}

fn put_process(words: &mut [u16], p: usize, process: &Process) {
    words[HELD + p] = process.held as u16;
    words[MARKS + p] = process.sent.into();
    put_row(words, part(p), process.vector);
    let pin = |pin: Option<Entry>| pin.map_or(0, |index| index + 1);
    put_row(words, part(p) + PINS, process.pins.map(pin));
    for (k, one) in process.kept.iter().flatten().enumerate() {
        words[BLOCKS + p] = one.blocks as u16;
        words[part(p) + INDEXES + k] = one.index as u16 + 1;
        words[part(p) + CAUSES + k] = one.cause as u16;
        put_row(words, stored(p, k), one.vector);
    }
}

fn put_row(words: &mut [u16], at: usize, row: Vector) {
    for (f, entry) in row.into_iter().enumerate() {
        words[at + f] = entry as u16;
    }
}

fn put(words: &mut [u16], mut number: u64) {
    for word in words {
        *word = number as u16;
        number >>= 16;
    }
}

/// "the end of the places in use is one past the last used place"
fn is_end_right(words: &[u16]) -> bool {
    let end = usize::from(words[END]);
    end == 0 || end <= MAX_UNDER_WAY && is_used(words, end - 1)
}

/// "A place is in use before the end of those in use, and where the number is
/// not 0".
fn is_used(words: &[u16], k: usize) -> bool {
    words[LOWS + k] != 0 || words[HIGHS + k] != 0
}

fn message(words: &[u16], k: usize) -> Message {
    Message {
        number: number(&[words[LOWS + k], words[HIGHS + k]]),
        sender: usize::from(words[SENDERS + k]),
        receiver: usize::from(words[RECEIVERS + k]),
        carried: row(words, carried(k)),
    }
}

fn process(words: &[u16], p: usize) -> Process {
    let held = usize::from(words[HELD + p]);
    // "A place of a kept checkpoint is in use up to how many are kept, and where
    // its index is not 0." "Its process's block count stands once, for all of
    // them."
    let kept = |k: usize| {
        index(Entry::from(words[part(p) + INDEXES + k])).map(|index| Stored {
            index,
            vector: row(words, stored(p, k)),
            cause: Entry::from(words[part(p) + CAUSES + k]),
            blocks: u32::from(words[BLOCKS + p]),
        })
    };
    Process {
        vector: row(words, part(p)),
        pins: row(words, part(p) + PINS).map(index),
        sent: words[MARKS + p] != 0,
        held: u64::from(words[HELD + p]),
        kept: (0..held.min(MAX_PROCESSES)).map(kept).collect(),
    }
}

/// Which words are in use, by the sentences above. Asked of words that stand for
/// a sound state.
pub fn used(words: &[u16]) -> Vec<bool> {
    let count = usize::from(words[COUNT]);
    let mut used = vec![false; SIZE];
    let mut use_row = |at: usize, many: usize| used[at..at + many].fill(true);
    use_row(COUNT, FIRST_UNUSED);
    for p in 0..count {
        for one in [HELD + p, MARKS + p, BLOCKS + p] {
            use_row(one, 1);
        }
        use_row(part(p), INDEXES);
        for k in 0..usize::from(words[HELD + p]) {
            use_row(part(p) + INDEXES + k, 1);
            use_row(part(p) + CAUSES + k, 1);
            use_row(stored(p, k), MAX_PROCESSES);
        }
    }
    for k in (0..usize::from(words[END])).filter(|k| is_used(words, *k)) {
        for one in [LOWS + k, HIGHS + k, SENDERS + k, RECEIVERS + k] {
            use_row(one, 1);
        }
        use_row(carried(k), MAX_PROCESSES);
    }
    // The number of an unused place before the end says that it is not used: it
    // is looked at, and is 0.
    for k in (0..usize::from(words[END])).filter(|k| !is_used(words, *k)) {
        use_row(LOWS + k, 1);
        use_row(HIGHS + k, 1);
    }
    used
}

//! A library held to the oracle: random runs, words that calls did not leave,
//! lists and numbers of any kind. Every answer, every word and every entry of
//! every lent list is compared.

use super::draw::{self, Draws, Habits};
use super::{outcome, Call, Left, Lists};
use crate::run::forged::State;
use crate::run::Run;
use crate::words::{self, SIZE};

/// What is held: it makes a call with words and lists lent, which are then as
/// the call left them.
pub trait Library {
    fn call(&mut self, call: Call, words: &mut [u16], lists: &mut Lists) -> Result<u64, String>;

    /// Whether it has this call: by its place in `CALLS`.
    fn has(&self, call: usize) -> bool;

    /// The numbers of a call as this library takes them: those that its
    /// parameters have no room for are cut.
    fn fitted(&self, call: Call) -> Call;
}

/// The calls by name, and which numbers each can give, 0 if accepted.
pub const CALLS: [(&str, &[usize]); 16] = [
    ("start", &[0, 1, 2, 3, 15]),
    ("checkpoint", &[0, 2, 3, 4, 11, 16]),
    ("send", &[0, 2, 4, 5, 9, 10]),
    ("deliver", &[0, 2, 3, 8, 11, 16]),
    ("lose", &[0, 2, 8]),
    ("line", &[0, 2, 3, 7]),
    ("recover", &[0, 2, 3, 7]),
    ("earliest", &[0, 2, 3, 4, 18, 19, 20]),
    // true and false
    ("is_sound", &[0, 1]),
    ("numbers", &[0, 2, 3]),
    ("vector", &[0, 2, 3, 4]),
    ("pins", &[0, 2, 3, 4]),
    ("kept", &[0, 2, 3, 4]),
    ("messages", &[0, 2, 3]),
    ("lost", &[0, 2, 3, 7]),
    ("carried", &[0, 2, 3, 8]),
];

pub fn place(call: Call) -> usize {
    match call {
        Call::Start { .. } => 0,
        Call::Checkpoint { .. } => 1,
        Call::Send { .. } => 2,
        Call::Deliver { .. } => 3,
        Call::Lose { .. } => 4,
        Call::Line { .. } => 5,
        Call::Recover { .. } => 6,
        Call::Earliest => 7,
        Call::IsSound => 8,
        Call::Numbers => 9,
        Call::Vector { .. } => 10,
        Call::Pins { .. } => 11,
        Call::Kept { .. } => 12,
        Call::Messages => 13,
        Call::Lost { .. } => 14,
        Call::Carried { .. } => 15,
    }
}

/// What was met.
#[derive(Default)]
pub struct Tally {
    pub calls: u64,
    /// By call and number, 0 if accepted.
    pub met: [[u64; 26]; CALLS.len()],
    /// Calls on sound states that calls from a start may never leave, accepted.
    pub forged: u64,
    /// 2 though the state is sound: no state that the line rule accepts.
    pub without_line: u64,
    /// Accepted calls that left a state that is not sound.
    pub left_unsound: u64,
    /// Accepted calls on words with anything in unused places.
    pub littered: u64,
}

impl Tally {
    /// What was met fewer than that many times, of all that can be met.
    pub fn missing(&self, least: u64, library: &impl Library) -> Option<String> {
        for (call, (met, (name, numbers))) in self.met.iter().zip(CALLS).enumerate() {
            if !library.has(call) {
                continue;
            }
            if let Some(number) = numbers.iter().find(|number| met[**number] < least) {
                return Some(format!("{name} with {number}"));
            }
        }
        // Only a recovery leaves a state that is not sound.
        let recovers = library.has(place(Call::Recover { failed: 0 }));
        let others = [
            (true, "a forged state", self.forged),
            (true, "unused places that are not zero", self.littered),
            (recovers, "2 on a sound state", self.without_line),
            (
                recovers,
                "a state left that is not sound",
                self.left_unsound,
            ),
        ];
        let mut others = others.iter().filter(|(asked, _, _)| *asked);
        let few = others.find(|(_, _, many)| *many < least);
        few.map(|(_, what, _)| what.to_string())
    }
}

/// The words, and what is known of them.
struct Held {
    words: Vec<u16>,
    state: Option<State>,
    run: Option<Run>,
    /// Calls from a start left them: every unused place is zero.
    clean: bool,
    /// Some of them were changed by hand.
    forged: bool,
}

impl Held {
    /// Words of which nothing is known.
    fn new(words: Vec<u16>) -> Held {
        let mut held = Held {
            words,
            state: None,
            run: None,
            clean: false,
            forged: false,
        };
        held.read();
        held
    }

    fn read(&mut self) {
        self.state = words::state(&self.words);
        let sound = self.state.as_ref().filter(|state| state.is_sound());
        self.run = sound.map(Run::forged);
    }
}

/// How many calls a run has.
const LENGTH: u64 = 200;

/// Holds a library to the oracle on that many calls by seed.
pub fn hold(library: &mut impl Library, seed: u64, count: u64) -> Result<Tally, String> {
    let mut draws = Draws::new(seed);
    let mut tally = Tally::default();
    let mut habits = Habits::draw(&mut draws);
    let mut held = Held::new((0..SIZE).map(|_| draws.word()).collect());
    while tally.calls < count {
        if held.run.is_none() || draws.once_in(LENGTH) {
            habits = Habits::draw(&mut draws);
            start(library, &mut draws, &mut held, &mut tally)?;
            continue;
        }
        match draws.below(64) {
            0..=1 => {
                for _ in 0..1 + draws.below(12) {
                    draw::forge(&mut draws, &habits, &mut held.words);
                }
                held.forged = true;
                held.read();
            }
            2..=7 => aside(library, &mut draws, &habits, &mut held, &mut tally)?,
            8 if draws.once_in(4) => {
                draw::litter(&mut draws, &mut held.words);
                held.clean = false;
                held.read();
            }
            _ => {}
        }
        one(library, &mut draws, &habits, &mut held, &mut tally)?;
    }
    Ok(tally)
}

/// Calls on damaged words, or words of another length; then mostly back to those
/// before.
fn aside(
    library: &mut impl Library,
    draws: &mut Draws,
    habits: &Habits,
    held: &mut Held,
    tally: &mut Tally,
) -> Result<(), String> {
    let mut other = Held::new(held.words.clone());
    if draws.once_in(8) {
        let size = draws.one_of(&[0, 1, 12, 13, 64, SIZE - 1, SIZE + 1, SIZE + 64, 2 * SIZE]);
        other.words.resize(size, 0);
    } else {
        for _ in 0..draws.one_of(&[1, 1, 1, 2, 3]) {
            draw::damage(draws, &mut other.words);
        }
    }
    other.forged = true;
    other.read();
    for _ in 0..draws.one_of(&[1, 2, 3]) {
        one(library, draws, habits, &mut other, tally)?;
    }
    if other.run.is_some() && draws.once_in(2) {
        *held = other;
    }
    Ok(())
}

fn start(
    library: &mut impl Library,
    draws: &mut Draws,
    held: &mut Held,
    tally: &mut Tally,
) -> Result<(), String> {
    if draws.once_in(16) {
        let size = draws.one_of(&[0, SIZE - 1, SIZE + 1]);
        let mut short = Held::new((0..size).map(|_| draws.word()).collect());
        let call = draw::start(draws);
        make(library, draws, call, &mut short, tally)?;
    }
    if draws.once_in(4) {
        held.words.resize_with(SIZE, || 0);
        held.words.fill_with(|| draws.word());
        held.read();
    }
    let call = draw::start(draws);
    make(library, draws, call, held, tally)
}

fn one(
    library: &mut impl Library,
    draws: &mut Draws,
    habits: &Habits,
    held: &mut Held,
    tally: &mut Tally,
) -> Result<(), String> {
    let mut call = draw::call(draws, habits, held.state.as_ref());
    while !library.has(place(call)) {
        call = draw::call(draws, habits, held.state.as_ref());
    }
    make(library, draws, call, held, tally)
}

/// Makes a call, and compares.
fn make(
    library: &mut impl Library,
    draws: &mut Draws,
    call: Call,
    held: &mut Held,
    tally: &mut Tally,
) -> Result<(), String> {
    let call = library.fitted(call);
    let lists = draw::lists(draws, call, held.state.as_ref());
    let expected = outcome(held.words.len(), held.run.as_ref(), call, &lists);
    let started = matches!(call, Call::Start { .. });
    let clean = held.clean || started;
    let before = held.words.clone();
    let mut got = lists.clone();
    let said = library
        .call(call, &mut held.words, &mut got)
        .and_then(|answer| judge(&expected, answer, &before, &held.words, &got, clean));
    tally.calls += 1;
    if let Err(what) = said {
        return Err(format!(
            "call {}, {call:?}: {what}\nlists: {lists:?}\nwords before (place:word, zeros left out): {}",
            tally.calls,
            shown(&before),
        ));
    }
    count(tally, call, expected.answer, held);
    if expected.left != Left::Same {
        held.clean = clean;
        held.forged &= !started;
        held.read();
        tally.left_unsound += u64::from(held.run.is_none() && !started);
    }
    Ok(())
}

/// `clean`: no unused place may hold anything after the call.
fn judge(
    expected: &super::Outcome,
    answer: u64,
    before: &[u16],
    after: &[u16],
    got: &Lists,
    clean: bool,
) -> Result<(), String> {
    if answer != expected.answer {
        return Err(format!("answer {answer:#x}, not {:#x}", expected.answer));
    }
    if *got != expected.lists {
        return Err(format!("lists {got:?}, not {:?}", expected.lists));
    }
    match &expected.left {
        Left::Same => {
            if after != before {
                return Err(format!("word {} changed", differing(after, before)));
            }
        }
        Left::Zeros => {
            if after.iter().any(|word| *word != 0) {
                return Err("the words are not zero".to_string());
            }
        }
        Left::State(state) => {
            let left = words::state(after);
            if left.as_ref() != Some(state) {
                return Err(format!("the words stand for {left:?}, not {state:?}"));
            }
            if clean && state.is_sound() && !is_clean(after) {
                return Err("an unused place is not zero".to_string());
            }
        }
    }
    Ok(())
}

/// "words that calls from a start left have zeros in every unused place"
fn is_clean(words: &[u16]) -> bool {
    let used = words::used(words);
    (0..SIZE).all(|place| used[place] || words[place] == 0)
}

fn differing(one: &[u16], other: &[u16]) -> usize {
    let mut places = 0..one.len();
    places.find(|k| one[*k] != other[*k]).unwrap_or(one.len())
}

fn count(tally: &mut Tally, call: Call, answer: u64, held: &Held) {
    let number = (answer & 255) as usize;
    tally.met[place(call)][number] += 1;
    let sound = held.run.is_some();
    if number == 2
        && sound
        && matches!(
            call,
            Call::Line { .. } | Call::Recover { .. } | Call::Lost { .. }
        )
    {
        tally.without_line += 1;
    }
    if number == 0 && sound && held.forged {
        tally.forged += 1;
    }
    if number == 0 && sound && !held.clean {
        tally.littered += 1;
    }
}

fn shown(words: &[u16]) -> String {
    let places = words.iter().enumerate().filter(|(_, word)| **word != 0);
    let texts: Vec<String> = places.map(|(k, word)| format!("{k}:{word}")).collect();
    texts.join(" ")
}

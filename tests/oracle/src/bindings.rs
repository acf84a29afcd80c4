//! Random calls through a binding of the library, and the answers that it must
//! give, both as lines of text: `../bindings/README.md` has the lines.
//!
//! What is drawn is what `calls` draws, but for lists: a binding lends them
//! itself, so that none is too short and none is seen after what was written.

use crate::calls::console::{
    outcome as console_outcome, Asked as ConsoleAsked, Asker, CONSOLE_CALLS,
};
use crate::calls::draw::{self, Draws, Habits};
use crate::calls::hold::CALLS;
use crate::calls::{outcome, Call, Left, Lists, Outcome};
use crate::generate::{write_trace, Plan};
use crate::halves::draw::drawn as halves_drawn;
use crate::halves::merge::merge;
use crate::judge::{judge, Verdict, MAX_RECORDS};
use crate::replay::{block, AfterRefusal, LAST_RECORD};
use crate::run::forged::State;
use crate::run::record::record_bytes;
use crate::run::refusal::NOT_SOUND;
use crate::run::{Run, MAX_PROCESSES, MAX_UNDER_WAY};
use crate::saved;
use crate::simulate::{simulate, Parameters};
use crate::words::{self, SIZE};
use std::collections::BTreeMap;
use std::fmt::Display;

/// What is written: calls and their answers, line by line; then, for a binding
/// that loads what another stored, the same of the states stored, and each of
/// these states, one to a line.
#[derive(Default)]
pub struct Pages {
    pub calls: String,
    pub answers: String,
    pub loads: String,
    pub loaded: String,
    pub states: String,
    /// How often each call gave each number, 0 if accepted.
    pub met: BTreeMap<(&'static str, u8), u64>,
}

/// A call through a binding.
enum Asked {
    /// n is how many block counts there are.
    Start(Vec<u32>),
    /// A call on the state; of `earliest`, with the numbers that name.
    Call(Call, Vec<u32>),
    /// The same through the console: of a start and of `earliest`, with the numbers.
    Console(Asker, ConsoleAsked, Vec<u32>),
    /// The same through the recorder, which has a run of its own, and its trace.
    RecordStart(Vec<u32>),
    Record(Call, Vec<u32>),
    RecordTrace,
    Words(Vec<u16>),
    /// A block of records, after that many others.
    Replay(AfterRefusal, u64, Vec<u8>),
    /// To a file and from it: its words, ..
    Dump(String),
    Take(String),
    /// .. its bytes as a saved state, and the same by the library's own functions.
    Save(String),
    Store(String),
    LoadFile(String),
    Load(Vec<u8>),
    Judge(Vec<u8>),
    Merge(u32, Vec<u8>, Vec<u8>),
    Simulate(Parameters),
}

/// The names of the calls that are not in `calls`, with the numbers that each
/// can give.
const OTHERS: [(&str, &[usize]); 8] = [
    ("words", &[0]),
    ("replay", &[0]),
    ("save", &[0, 2]),
    ("store_file", &[0, 2]),
    ("load", &[0, 2]),
    ("judge", &[0, 1, 4, 5, 8, 9, 12, 13, 14, 17]),
    ("merge", &[0, 1, 4, 5, 7, 12, 13, 14, 17, 23, 24]),
    ("simulate", &[0, 22]),
];

/// The recorder's calls, in the order of `CALLS`, with the numbers that a run can
/// give which began with a start not long ago; and its trace.
const RECORD_CALLS: [(&str, &[usize]); 9] = [
    ("record_start", &[0, 1, 15]),
    ("record_checkpoint", &[0, 4]),
    ("record_send", &[0, 4, 5, 9]),
    ("record_deliver", &[0, 8]),
    ("record_lose", &[0, 8]),
    ("record_line", &[0, 7]),
    ("record_recover", &[0, 7]),
    ("record_earliest", &[0, 4, 18, 19, 20]),
    ("record_trace", &[0]),
];

/// A run and the trace of its accepted calls.
#[derive(Clone)]
struct Tape {
    run: Option<Run>,
    trace: Vec<u8>,
}

/// How many calls a run has, more or less, and every how many runs the state is
/// stored after the first.
const LENGTH: u64 = 200;
const STORED: u64 = 10;

/// That many calls by seed; those named in `absent` are not made.
pub fn pages(seed: u64, count: u64, absent: &[String]) -> Pages {
    let mut draws = Draws::new(seed);
    let mut writer = Writer {
        habits: Habits::draw(&mut draws),
        draws,
        run: Run::start(3, &[1; MAX_PROCESSES]).ok(),
        tape: Tape {
            run: None,
            trace: Vec::new(),
        },
        absent: absent.to_vec(),
        stored: 0,
        pages: Pages::default(),
    };
    writer.ask(Asked::Start(vec![1; 3]));
    writer.ask(Asked::RecordStart(vec![1; 3]));
    let mut written = 2;
    while written < count {
        written += writer.some();
    }
    writer.pages
}

impl Pages {
    /// What was not met, of all that can be met.
    pub fn missing(&self, absent: &[String]) -> Option<String> {
        let calls = CALLS.iter().chain(&OTHERS).chain(&CONSOLE_CALLS);
        let calls = calls.chain(&RECORD_CALLS);
        let made = calls.filter(|(name, _)| !absent.iter().any(|one| one == name));
        for (name, numbers) in made {
            // a binding lends lists that are long enough, and words that are enough
            let given = numbers
                .iter()
                .filter(|number| **number != 3 && !(name.ends_with("start") && **number == 2));
            for number in given {
                let number = *number as u8;
                if !self.met.contains_key(&(name, number)) {
                    return Some(format!("{name} with {number}"));
                }
            }
        }
        None
    }
}

struct Writer {
    draws: Draws,
    habits: Habits,
    /// None: the state is not sound.
    run: Option<Run>,
    /// What the recorder has.
    tape: Tape,
    absent: Vec<String>,
    stored: u64,
    pages: Pages,
}

/// What is asked.
impl Writer {
    /// One call or a few; how many they are.
    fn some(&mut self) -> u64 {
        if self.run.is_none() {
            // a few calls on a state that is not sound, then another
            let more = self.draws.below(3);
            for _ in 0..more {
                self.call();
            }
            return more + self.start();
        }
        match self.draws.below(2 * LENGTH) {
            0..=1 => self.store() + self.start(),
            2..=5 => self.change(),
            6..=12 => self.aside(),
            13 => self.load_bytes(),
            14..=15 => self.replay(),
            16..=95 => self.console(),
            96..=159 => self.record(),
            _ => {
                self.call();
                1
            }
        }
    }

    /// The block counts of a start, mostly in range and of a count in range.
    fn counts(&mut self) -> Vec<u32> {
        let draws = &mut self.draws;
        let size = if draws.once_in(6) {
            draws.one_of(&[0, 17, 18, 255])
        } else {
            1 + draws.place(MAX_PROCESSES)
        };
        let mut counts: Vec<u32> = (0..size)
            .map(|_| draws.one_of(&[1, 1, 1, 2, 3, 100, 65_534, 65_535]))
            .collect();
        if size > 0 && draws.once_in(6) {
            let place = draws.place(size);
            counts[place] = draws.one_of(&[0, 65_536, 65_537, 1 << 31, u32::MAX]);
        }
        counts
    }

    fn start(&mut self) -> u64 {
        let counts = self.counts();
        self.habits = Habits::draw(&mut self.draws);
        self.ask(Asked::Start(counts));
        1
    }

    /// The state is stored, and what is then read of it is asked for.
    fn store(&mut self) -> u64 {
        if self.stored > 0 && !self.draws.once_in(STORED) {
            return 0;
        }
        let Some(run) = self.run.clone() else {
            return 0;
        };
        let name = format!("state-{}", self.stored);
        self.stored += 1;
        let stored = [
            (Asked::Dump(name.clone()), Asked::Take(name.clone())),
            (
                Asked::Save(format!("{name}.saved")),
                Asked::LoadFile(format!("{name}.saved")),
            ),
            (
                Asked::Store(format!("{name}.file")),
                Asked::LoadFile(format!("{name}.file")),
            ),
        ];
        let mut many = 0;
        for (to, from) in stored {
            if self.is_absent(&to) {
                continue;
            }
            self.ask(to);
            self.pages.states += &format!("{:?}\n", run.state());
            self.load(from);
            for asked in readings(&run) {
                self.load(asked);
            }
            self.load(Asked::Call(Call::Line { failed: 1 }, Vec::new()));
            many += 1;
        }
        many
    }

    /// Bytes of a saved state are loaded, mostly damaged ones.
    fn load_bytes(&mut self) -> u64 {
        let Some(run) = &self.run else {
            return 0;
        };
        let mut words = words::of(&run.state());
        let draws = &mut self.draws;
        if draws.once_in(4) {
            draw::damage(draws, &mut words);
        }
        let mut bytes = saved::bytes(&words);
        let size = bytes.len();
        match draws.below(8) {
            0..=2 => {
                let place = draws.place(size);
                bytes[place] ^= 1 << draws.below(8);
            }
            3 => {
                let (one, other) = (draws.place(size), draws.place(size));
                bytes.swap(one, other);
            }
            4 => bytes.truncate(draws.one_of(&[0, 1, 10, size - 1])),
            5 => bytes.push(0),
            _ => {}
        }
        let asked = Asked::Load(bytes);
        if self.is_absent(&asked) {
            return 0;
        }
        self.ask(asked);
        1
    }

    /// Other words take the place of these: those of a sound state, mostly one that
    /// calls never leave; or of none, and after some calls a sound one again.
    fn change(&mut self) -> u64 {
        let Some(run) = &self.run else {
            return 0;
        };
        let mut words = words::of(&run.state());
        for _ in 0..1 + self.draws.below(12) {
            draw::forge(&mut self.draws, &self.habits, &mut words);
        }
        let sound = words.clone();
        match self.draws.below(16) {
            0..=1 => draw::litter(&mut self.draws, &mut words),
            2..=4 => draw::damage(&mut self.draws, &mut words),
            5 => {
                let size = self.draws.one_of(&[0, 1, 64, SIZE - 1, SIZE + 1, 2 * SIZE]);
                words.resize(size, 0);
            }
            _ => {}
        }
        self.ask(Asked::Words(words));
        if self.run.is_some() {
            return 1;
        }
        let more = 1 + self.draws.below(8);
        for _ in 0..more {
            match self.draws.below(4) {
                0 => {
                    self.call();
                    continue;
                }
                1 => {
                    self.console();
                    continue;
                }
                _ => {}
            }
            let name = "refused".to_string();
            let asked = match self.draws.below(8) {
                0 => Asked::Save(name),
                1 => Asked::Store(name),
                2 => Asked::Call(Call::Carried { number: 1 }, Vec::new()),
                3 => Asked::Replay(
                    AfterRefusal::GoOn,
                    0,
                    vec![0, 0, 0, 0, 255, 0, 0, 0, 32, 0, 0, 1],
                ),
                _ => self.reading(),
            };
            if !self.is_absent(&asked) {
                self.ask(asked);
            }
        }
        self.ask(Asked::Words(sound));
        more + 2
    }

    /// What is read of the state, of any of the first processes.
    fn reading(&mut self) -> Asked {
        let process = self.draws.below(3);
        let call = self.draws.one_of(&[
            Call::IsSound,
            Call::Numbers,
            Call::Messages,
            Call::Vector { process },
            Call::Pins { process },
            Call::Kept { process },
        ]);
        Asked::Call(call, Vec::new())
    }

    /// A block of records, mostly of a trace that fits.
    fn replay(&mut self) -> u64 {
        let count = self.run.as_ref().map_or(3, Run::count);
        let draws = &mut self.draws;
        let mix = draws.one_of(&["mixed", "mixed", "recovering", "damaged"]);
        let count = count.to_string();
        let seed = draws.number().to_string();
        let records = draws.below(100).to_string();
        let words = [&seed, "--n", &count, "--records", &records, "--mix", mix];
        let mut block = trace(&words.map(String::from));
        // a block has no first byte
        block.drain(..block.len().min(1));
        let after = draws.one_of(&[
            AfterRefusal::GoOn,
            AfterRefusal::GoOn,
            AfterRefusal::GoOn,
            AfterRefusal::Stop,
        ]);
        let near = LAST_RECORD - draws.below(20);
        let done = draws.one_of(&[0, 0, 1, 99, near, LAST_RECORD, u64::MAX >> 1]);
        let asked = Asked::Replay(after, done, block);
        if self.is_absent(&asked) {
            return 0;
        }
        self.ask(asked);
        1
    }

    /// A call without a state.
    fn aside(&mut self) -> u64 {
        let draws = &mut self.draws;
        let seed = draws.number();
        let asked = match draws.below(4) {
            0..=1 => Asked::Judge(foreign(seed)),
            2 => {
                let halves = halves_drawn(seed);
                // the set of damaged halves may be a number of many digits
                let set = halves.word.parse().unwrap_or(u32::MAX);
                Asked::Merge(set, halves.first, halves.second)
            }
            _ => Asked::Simulate(Parameters {
                count: draws.one_of(&[0, 1, 2, 3, 4, 7, 16, 17, u64::MAX]),
                spacing: draws.one_of(&[0, 1, 2, 10, 100, 1_000, 1_001]),
                steps: draws.one_of(&[0, 1, 20, 300, 1_000, 30_001]),
                start: draws.number() as u32,
            }),
        };
        if self.is_absent(&asked) {
            return 0;
        }
        self.ask(asked);
        1
    }

    /// A call on the state.
    fn call(&mut self) {
        let state = self.run.as_ref().map(Run::state);
        loop {
            let call = draw::call(&mut self.draws, &self.habits, state.as_ref()).fitted();
            // some of those that are seldom drawn
            let call = match call {
                Call::Lose { number } if self.draws.once_in(4) => Call::Carried { number },
                Call::Line { failed } if self.draws.once_in(4) => Call::Lost { failed },
                _ => call,
            };
            let asked = match call {
                Call::Earliest => {
                    let mut named = draw::lists(&mut self.draws, call, state.as_ref()).numbers;
                    // pairs, and nothing left over
                    named.truncate(named.len() / 2 * 2);
                    Asked::Call(call, named)
                }
                _ => Asked::Call(call, Vec::new()),
            };
            if !self.is_absent(&asked) {
                return self.ask(asked);
            }
        }
    }

    /// A call that changes the state or is about a line, with the numbers that name.
    fn written(&mut self, state: Option<&State>) -> (Call, Vec<u32>) {
        loop {
            let call = draw::call(&mut self.draws, &self.habits, state).fitted();
            match call {
                Call::Earliest => {
                    let mut named = draw::lists(&mut self.draws, call, state).numbers;
                    named.truncate(named.len() / 2 * 2);
                    return (call, named);
                }
                Call::Checkpoint { .. }
                | Call::Send { .. }
                | Call::Deliver { .. }
                | Call::Lose { .. }
                | Call::Line { .. }
                | Call::Recover { .. } => return (call, Vec::new()),
                _ => {}
            }
        }
    }

    /// A call through the console. What is denied an owner goes by the state, which
    /// is not known here where it is not sound: no owner calls then.
    fn console(&mut self) -> u64 {
        let mut asker = Asker::draw(&mut self.draws);
        while asker.role == 1 && self.run.is_none() {
            asker = Asker::draw(&mut self.draws);
        }
        let state = self.run.as_ref().map(Run::state);
        let (asked, numbers) = match self.draws.below(16) {
            0..=1 => (ConsoleAsked::List, Vec::new()),
            2..=3 => (ConsoleAsked::Counts, Vec::new()),
            4 => {
                let counts = self.counts();
                let count = counts.len() as u64;
                (ConsoleAsked::Call(Call::Start { count }), counts)
            }
            _ => {
                let (call, named) = self.written(state.as_ref());
                (ConsoleAsked::Call(call), named)
            }
        };
        let asked = Asked::Console(asker, asked, numbers);
        if self.is_absent(&asked) {
            return 0;
        }
        self.ask(asked);
        1
    }

    /// A call through the recorder, another start, what was recorded, or sends until
    /// no more may be under way.
    fn record(&mut self) -> u64 {
        match self.draws.below(2 * LENGTH) {
            0..=1 => {
                let counts = self.counts();
                self.ask(Asked::RecordStart(counts));
            }
            2..=9 => self.ask(Asked::RecordTrace),
            10 => {
                for _ in 0..=MAX_UNDER_WAY {
                    self.ask(Asked::Record(Call::Send { from: 0, to: 1 }, Vec::new()));
                }
                return MAX_UNDER_WAY as u64 + 1;
            }
            _ => {
                let state = self.tape.run.as_ref().map(Run::state);
                let (call, named) = self.written(state.as_ref());
                self.ask(Asked::Record(call, named));
            }
        }
        1
    }

    fn is_absent(&self, asked: &Asked) -> bool {
        self.absent.iter().any(|name| name == asked.name())
    }

    fn ask(&mut self, asked: Asked) {
        let answer = answer(&mut self.run, &mut self.tape, &asked);
        // of the test of soundness, true and false
        let place = usize::from(asked.name() == "is_sound");
        let number = answer
            .split(' ')
            .nth(place)
            .and_then(|word| word.parse().ok());
        let number = number.expect("an answer begins with a number");
        *self.pages.met.entry((asked.name(), number)).or_default() += 1;
        write_line(&mut self.pages.calls, &asked.line());
        write_line(&mut self.pages.answers, &answer);
    }

    fn load(&mut self, asked: Asked) {
        let answer = answer(&mut self.run.clone(), &mut self.tape.clone(), &asked);
        write_line(&mut self.pages.loads, &asked.line());
        write_line(&mut self.pages.loaded, &answer);
    }
}

fn write_line(page: &mut String, line: &str) {
    page.push_str(line);
    page.push('\n');
}

/// All that can be read of a run.
fn readings(run: &Run) -> Vec<Asked> {
    let mut calls = vec![Call::IsSound, Call::Numbers, Call::Messages];
    for process in 0..run.count() as u64 {
        calls.extend([
            Call::Vector { process },
            Call::Pins { process },
            Call::Kept { process },
        ]);
    }
    calls.extend(
        run.under_way()
            .iter()
            .map(|one| Call::Carried { number: one.number }),
    );
    let calls = calls.into_iter().map(|call| Asked::Call(call, Vec::new()));
    calls.collect()
}

/// A foreign trace, mostly short. Some have nothing, one message under way more
/// than there may be, or one record more.
fn foreign(seed: u64) -> Vec<u8> {
    let send = [1 << 5, 0, 0, 1];
    match seed % 64 {
        0 => return Vec::new(),
        1..=2 => return [&[2], [send; MAX_UNDER_WAY + 1].as_flattened()].concat(),
        3 => return [&[2], [[0; 4]; MAX_RECORDS + 1].as_flattened()].concat(),
        _ => {}
    }
    trace(&[&seed.to_string(), "--mix", "foreign"].map(String::from))
}

/// The trace of these arguments of `generate`.
fn trace(arguments: &[String]) -> Vec<u8> {
    let plan = Plan::from_arguments(arguments).expect("they are in the usage");
    let mut trace = Vec::new();
    write_trace(plan, &mut trace).expect("it is written to memory");
    trace
}

/// The line of a call.
impl Asked {
    fn name(&self) -> &'static str {
        match self {
            Asked::Start(_) => "start",
            Asked::Call(call, _) => CALLS[crate::calls::hold::place(*call)].0,
            Asked::Console(_, asked, _) => CONSOLE_CALLS[asked.place()].0,
            Asked::RecordStart(_) => "record_start",
            Asked::Record(call, _) => RECORD_CALLS[crate::calls::hold::place(*call)].0,
            Asked::RecordTrace => "record_trace",
            Asked::Words(_) => "words",
            Asked::Replay(..) => "replay",
            Asked::Dump(_) => "dump",
            Asked::Take(_) => "take",
            Asked::Save(_) => "save",
            Asked::Store(_) => "store_file",
            Asked::LoadFile(_) => "load_file",
            Asked::Load(_) => "load",
            Asked::Judge(_) => "judge",
            Asked::Merge(..) => "merge",
            Asked::Simulate(_) => "simulate",
        }
    }

    fn line(&self) -> String {
        let mut line = self.name().to_string();
        match self {
            Asked::Start(counts) | Asked::RecordStart(counts) => spell(&mut line, counts),
            Asked::Call(call, named) | Asked::Record(call, named) => {
                spell_call(&mut line, *call, named)
            }
            Asked::RecordTrace => {}
            Asked::Console(asker, asked, numbers) => {
                spell(&mut line, [asker.role, asker.owned]);
                match asked {
                    ConsoleAsked::Call(Call::Start { .. }) => spell(&mut line, numbers),
                    ConsoleAsked::Call(call) => spell_call(&mut line, *call, numbers),
                    ConsoleAsked::List | ConsoleAsked::Counts => {}
                }
            }
            Asked::Words(words) => {
                spell(&mut line, [words.len()]);
                let places = words.iter().enumerate().filter(|(_, word)| **word != 0);
                spell(&mut line, places.map(|(k, word)| format!("{k}:{word}")));
            }
            Asked::Dump(name)
            | Asked::Take(name)
            | Asked::Save(name)
            | Asked::Store(name)
            | Asked::LoadFile(name) => spell(&mut line, [name]),
            Asked::Load(bytes) => spell(&mut line, [digits(bytes)]),
            Asked::Replay(after, done, block) => {
                spell(&mut line, [u8::from(*after == AfterRefusal::GoOn)]);
                spell(&mut line, [done]);
                spell(&mut line, [digits(block)]);
            }
            Asked::Judge(trace) => spell(&mut line, [digits(trace)]),
            Asked::Merge(set, first, second) => {
                spell(&mut line, [set]);
                spell(&mut line, [digits(first), digits(second)]);
            }
            Asked::Simulate(asked) => {
                spell(&mut line, [asked.count, asked.spacing, asked.steps]);
                spell(&mut line, [asked.start]);
            }
        }
        line
    }
}

/// The numbers of a call.
fn spell_call(line: &mut String, call: Call, named: &[u32]) {
    match call {
        Call::Start { count } => spell(line, [count]),
        Call::Checkpoint { process }
        | Call::Vector { process }
        | Call::Pins { process }
        | Call::Kept { process } => spell(line, [process]),
        Call::Send { from, to } => spell(line, [from, to]),
        Call::Deliver { number } | Call::Lose { number } | Call::Carried { number } => {
            spell(line, [number])
        }
        Call::Line { failed } | Call::Recover { failed } | Call::Lost { failed } => {
            spell(line, [failed])
        }
        Call::Earliest => spell(line, tuples(named, 2)),
        Call::IsSound | Call::Numbers | Call::Messages => {}
    }
}

/// Words after others on a line.
fn spell<T: Display>(line: &mut String, words: impl IntoIterator<Item = T>) {
    for word in words {
        line.push_str(&format!(" {word}"));
    }
}

/// Numbers in groups of that many: `P:K`.
fn tuples<T: Display>(numbers: &[T], many: usize) -> Vec<String> {
    let group = |group: &[T]| {
        let texts: Vec<String> = group.iter().map(T::to_string).collect();
        texts.join(":")
    };
    numbers.chunks(many).map(group).collect()
}

fn digits(bytes: &[u8]) -> String {
    if bytes.is_empty() {
        return "-".to_string();
    }
    bytes.iter().map(|byte| format!("{byte:02x}")).collect()
}

/// What is answered, and what a call leaves of the state: None if it is not
/// sound.
fn answer(run: &mut Option<Run>, tape: &mut Tape, asked: &Asked) -> String {
    let answer = match asked {
        Asked::Start(counts) => started(run, counts),
        Asked::Call(call, named) => called(run, *call, named),
        Asked::RecordStart(counts) => recording(tape, counts),
        Asked::Record(call, named) => recorded(tape, *call, named),
        Asked::RecordTrace => Ok(format!(" {}", digits(&tape.trace))),
        Asked::Console(asker, asked, numbers) => consoled(run, *asker, *asked, numbers),
        Asked::Words(words) => Ok(taken(run, words)),
        // what is taken or loaded from a file, is what was stored in it
        Asked::Dump(_) | Asked::Take(_) | Asked::LoadFile(_) => Ok(String::new()),
        Asked::Save(_) | Asked::Store(_) => match run {
            Some(_) => Ok(String::new()),
            None => Err(NOT_SOUND),
        },
        Asked::Load(bytes) => match saved::loaded(bytes) {
            Some(words) => Ok(taken(run, &words)),
            None => Err(NOT_SOUND),
        },
        Asked::Replay(after, done, records) => Ok(replayed(run, *after, *done, records)),
        Asked::Judge(trace) => judged(trace),
        Asked::Merge(set, first, second) => merged(*set, first, second),
        Asked::Simulate(parameters) => simulated(*parameters),
    };
    match answer {
        Ok(more) => format!("0{more}"),
        Err(number) => number.to_string(),
    }
}

fn started(run: &mut Option<Run>, counts: &[u32]) -> Result<String, u8> {
    let count = Call::Start {
        count: counts.len() as u64,
    };
    let outcome = outcome(SIZE, None, count, &lists(counts));
    refused(&outcome)?;
    // "A refused start returns a state of zeros": a binding has none, and goes on
    // with the state that it has.
    leave(run, &outcome);
    Ok(String::new())
}

fn called(run: &mut Option<Run>, call: Call, named: &[u32]) -> Result<String, u8> {
    let count = run.as_ref().map_or(0, Run::count);
    let lent = match call {
        Call::Earliest => lists(named),
        _ => lists(&[0; 3 * MAX_UNDER_WAY]),
    };
    let outcome = outcome(SIZE, run.as_ref(), call, &lent);
    if call == Call::IsSound {
        return Ok(format!(" {}", outcome.answer));
    }
    refused(&outcome)?;
    leave(run, &outcome);
    Ok(said(call, &outcome, count))
}

/// "the start writes that byte": the first, which is the count.
fn recording(tape: &mut Tape, counts: &[u32]) -> Result<String, u8> {
    let said = started(&mut tape.run, counts)?;
    tape.trace = vec![counts.len() as u8];
    Ok(said)
}

/// "appends the record": of an accepted call; "a line request [..] writes none."
fn recorded(tape: &mut Tape, call: Call, named: &[u32]) -> Result<String, u8> {
    let said = called(&mut tape.run, call, named)?;
    let record = match call {
        Call::Checkpoint { process } => record_bytes(0, process, 0),
        Call::Send { from, to } => record_bytes(1, from, to),
        Call::Deliver { number } => record_bytes(2, 0, number),
        Call::Lose { number } => record_bytes(3, 0, number),
        Call::Recover { failed } => record_bytes(4, 0, failed),
        _ => return Ok(said),
    };
    tape.trace.extend(record);
    Ok(said)
}

/// A call through the console. A refused start leaves the state that a binding has.
fn consoled(
    run: &mut Option<Run>,
    asker: Asker,
    asked: ConsoleAsked,
    numbers: &[u32],
) -> Result<String, u8> {
    let count = run.as_ref().map_or(0, Run::count);
    let state = run.as_ref().map(Run::state);
    let mut lent = lists(numbers);
    let outcome = console_outcome(SIZE, state.as_ref(), asker, asked, &lent);
    refused(&outcome)?;
    leave(run, &outcome);
    let mut line = String::new();
    match asked {
        ConsoleAsked::Call(Call::Line { .. }) => {
            // a place that is left as it was lent, once with 0 and once with 1, is
            // not the caller's
            lent.line.fill(1);
            let other = console_outcome(SIZE, state.as_ref(), asker, asked, &lent);
            let both = outcome.lists.line.iter().zip(other.lists.line);
            let seen = both.take(count).map(|(one, other)| match *one == other {
                true => one.to_string(),
                false => "-".to_string(),
            });
            spell(&mut line, seen);
        }
        ConsoleAsked::Call(call) => line = said(call, &outcome, count),
        ConsoleAsked::List => {
            let listed = (outcome.answer >> 24 & 0xff_ffff) as usize;
            spell(&mut line, tuples(&outcome.lists.deletions[..2 * listed], 2));
        }
        ConsoleAsked::Counts => spell(&mut line, &outcome.lists.line[..count]),
    }
    Ok(line)
}

/// Lists with room for everything.
fn lists(numbers: &[u32]) -> Lists {
    Lists {
        deletions: vec![0; 2 * MAX_PROCESSES * MAX_PROCESSES],
        line: vec![0; MAX_PROCESSES],
        numbers: numbers.to_vec(),
        sums: vec![0; 5],
    }
}

fn refused(outcome: &Outcome) -> Result<(), u8> {
    match (outcome.answer & 255) as u8 {
        0 => Ok(()),
        number => Err(number),
    }
}

fn leave(run: &mut Option<Run>, outcome: &Outcome) {
    if let Left::State(state) = &outcome.left {
        *run = state.is_sound().then(|| Run::forged(state));
    }
}

/// What an accepted call says after its 0.
fn said(call: Call, outcome: &Outcome, count: usize) -> String {
    let lists = &outcome.lists;
    let value = outcome.answer >> 24 & 0xff_ffff;
    let has_value = outcome.answer >> 23 & 1 == 1;
    let deletions = (outcome.answer >> 8 & 0x7fff) as usize;
    let deleted = tuples(&lists.deletions[..2 * deletions], 2);
    let mut line = String::new();
    match call {
        Call::Checkpoint { .. } => {
            spell(&mut line, [value]);
            spell(&mut line, deleted);
        }
        Call::Send { .. } => spell(&mut line, [value]),
        Call::Deliver { .. } => {
            let forced = has_value.then(|| value.to_string());
            spell(&mut line, [forced.unwrap_or("-".to_string())]);
            spell(&mut line, [outcome.answer >> 48]);
            spell(&mut line, deleted);
        }
        Call::Line { .. } | Call::Earliest | Call::Vector { .. } | Call::Carried { .. } => {
            spell(&mut line, &lists.line[..count]);
        }
        Call::Pins { .. } => {
            // one more than the index, 0 for none
            let pin = |pin: &u16| match pin.checked_sub(1) {
                Some(index) => index.to_string(),
                None => "-".to_string(),
            };
            spell(&mut line, lists.line[..count].iter().map(pin));
        }
        Call::Recover { .. } => {
            spell(&mut line, [value]);
            spell(&mut line, &lists.line[..count]);
            spell(&mut line, deleted);
        }
        Call::Numbers => spell(&mut line, &lists.sums),
        Call::Kept { .. } | Call::Messages | Call::Lost { .. } => {
            spell(&mut line, tuples(&lists.numbers[..3 * value as usize], 3));
        }
        Call::Start { .. } | Call::Lose { .. } | Call::IsSound => {}
    }
    line
}

fn taken(run: &mut Option<Run>, words: &[u16]) -> String {
    let state = words::state(words).filter(|state| state.is_sound());
    *run = state.as_ref().map(Run::forged);
    String::new()
}

/// A block of records: however long their lines are, a binding has room for them.
fn replayed(run: &mut Option<Run>, after: AfterRefusal, done: u64, records: &[u8]) -> String {
    let state = run.as_ref().map(Run::state);
    let block = block(state.as_ref(), after, done, records, usize::MAX);
    *run = block
        .left
        .filter(|left| left.is_sound())
        .as_ref()
        .map(Run::forged);
    let going = u8::from(block.going);
    format!(" {} {going} {}", block.taken, digits(&block.lines))
}

fn judged(trace: &[u8]) -> Result<String, u8> {
    let mut line = String::new();
    match judge(trace) {
        Verdict::Refused(number) => return Err(number),
        Verdict::Trackable => {}
        Verdict::Breaks { near, far } => {
            let ends = [near, far].map(|end| format!("{}:{}", end.process, end.index));
            spell(&mut line, ends);
        }
    }
    Ok(line)
}

fn merged(set: u32, first: &[u8], second: &[u8]) -> Result<String, u8> {
    let mut trace = vec![0; first.len() + second.len()];
    let length = merge(first, second, set, &mut trace)?;
    Ok(format!(" {}", digits(&trace[..length])))
}

fn simulated(parameters: Parameters) -> Result<String, u8> {
    let figures = simulate(parameters)?;
    let mut line = String::new();
    let counts = [figures.deliveries, figures.forced, figures.most_kept];
    spell(&mut line, counts);
    spell(&mut line, [figures.quotient, figures.remainder]);
    Ok(line)
}

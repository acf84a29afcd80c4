//! The console's calls on words that a caller lends (Note 13): each of the calls
//! here, a list and the counts, with the caller before them.

use super::draw::Draws;
use super::{counted, narrow, refused, wide, Call, Left, Lists, Outcome, Said};
use crate::console::{may, Caller, Console, Operation, DENIED};
use crate::run::forged::State;
use crate::run::refusal::NOT_SOUND;
use crate::run::{Message, Run, MAX_UNDER_WAY};

/// Who calls, in numbers: the role (0 an operator, 1 a job owner, 2 a viewer) and
/// the set of an owner's processes.
#[derive(Clone, Copy, Debug, PartialEq, Eq)]
pub struct Asker {
    pub role: u32,
    pub owned: u32,
}

impl Asker {
    /// A number that is no role's is nobody, who may do nothing.
    fn caller(self) -> Option<Caller> {
        match self.role {
            0 => Some(Caller::Operator),
            1 => Some(Caller::Owner(self.owned.into())),
            2 => Some(Caller::Viewer),
            _ => None,
        }
    }

    /// Mostly an owner of some processes.
    pub fn draw(draws: &mut Draws) -> Asker {
        let role = match draws.below(16) {
            0..=4 => 0,
            5..=12 => 1,
            13..=14 => 2,
            _ => draws.one_of(&[3, 4, 255, 256, 257, 65_536, 65_537, 1 << 31, u32::MAX]),
        };
        let owned = match draws.below(8) {
            0 => draws.one_of(&[0, 1, 65_535, 65_536, u32::MAX, 1 << 31]),
            1 => draws.number() as u32,
            2..=3 => (draws.number() | draws.number()) as u32 & 0xffff,
            _ => draws.number() as u32 & 0xffff,
        };
        Asker { role, owned }
    }
}

/// What is asked of the console.
#[derive(Clone, Copy, Debug, PartialEq, Eq)]
pub enum Asked {
    /// A call that the console has: one of the first of `CALLS`.
    Call(Call),
    List,
    Counts,
}

/// The console's calls by name, and which numbers each can give, 0 if accepted.
pub const CONSOLE_CALLS: [(&str, &[usize]); 10] = [
    ("console_start", &[0, 1, 2, 3, 15, 25]),
    ("console_checkpoint", &[0, 2, 3, 4, 11, 16, 25]),
    ("console_send", &[0, 2, 4, 5, 9, 10, 25]),
    ("console_deliver", &[0, 2, 3, 8, 11, 16, 25]),
    ("console_lose", &[0, 2, 8, 25]),
    ("console_line", &[0, 2, 3, 7, 25]),
    ("console_recover", &[0, 2, 3, 7, 25]),
    ("console_earliest", &[0, 2, 3, 4, 18, 19, 20, 25]),
    ("console_list", &[0, 2, 3, 25]),
    ("console_counts", &[0, 2, 3, 25]),
];

impl Asked {
    /// Its place in `CONSOLE_CALLS`.
    pub fn place(self) -> usize {
        match self {
            Asked::Call(call) => super::hold::place(call),
            Asked::List => 8,
            Asked::Counts => 9,
        }
    }

    fn operation(self) -> Operation {
        match self {
            Asked::Call(Call::Start { .. }) => Operation::Start,
            Asked::Call(Call::Checkpoint { .. }) => Operation::Checkpoint,
            Asked::Call(Call::Send { .. }) => Operation::Send,
            Asked::Call(Call::Deliver { .. }) => Operation::Deliver,
            Asked::Call(Call::Lose { .. }) => Operation::Lose,
            Asked::Call(Call::Line { .. }) => Operation::Line,
            Asked::Call(Call::Recover { .. }) => Operation::Recover,
            Asked::Call(Call::Earliest) => Operation::Earliest,
            Asked::Call(call) => panic!("the console has no {call:?}"),
            Asked::List => Operation::List,
            Asked::Counts => Operation::Counts,
        }
    }
}

/// What a console call must do on that many words, which stand for this state.
pub fn outcome(
    size: usize,
    state: Option<&State>,
    asker: Asker,
    asked: Asked,
    lists: &Lists,
) -> Outcome {
    // "25, before every other": before 1 and 2, and nothing is done.
    let denied = || refused(DENIED, Left::Same, lists.clone());
    let Some(caller) = asker.caller() else {
        return denied();
    };
    if !may(caller, asked.operation()) || !is_own(state, caller, asked) {
        return denied();
    }
    let sound = state.filter(|state| state.is_sound());
    let run = sound.map(Run::forged);
    match asked {
        Asked::Call(call @ Call::Line { .. }) => {
            let whole = super::outcome(size, run.as_ref(), call, lists);
            own_members(run, caller, whole, lists)
        }
        Asked::Call(call) => super::outcome(size, run.as_ref(), call, lists),
        Asked::List | Asked::Counts => match run {
            None => refused(NOT_SOUND, Left::Same, lists.clone()),
            Some(run) => shown(&Console::over(run), caller, asked, lists),
        },
    }
}

/// "To an owner, a process not its own (a send's receiver and a failed set aside)
/// and a message not under way to its own processes count as denied." Of a state
/// that is not sound this is judged as it is said to be.
fn is_own(state: Option<&State>, caller: Caller, asked: Asked) -> bool {
    let Caller::Owner(set) = caller else {
        return true;
    };
    let count = state.map_or(0, |state| state.count);
    let owns = |process: u64| process < count && process < 64 && set >> process & 1 == 1;
    match asked {
        Asked::Call(Call::Checkpoint { process }) => owns(process),
        Asked::Call(Call::Send { from, .. }) => owns(from),
        Asked::Call(Call::Deliver { number } | Call::Lose { number }) => {
            let receiver = state.and_then(|state| receiver(state, number));
            receiver.is_some_and(owns)
        }
        _ => true,
    }
}

/// The receiver of the last message with this number. A state may say that more
/// are under way than it has: the rest of its 64 places holds zeros.
fn receiver(state: &State, number: u64) -> Option<u64> {
    let said = usize::try_from(state.under_way).expect("16 bits");
    let zeros = MAX_UNDER_WAY - state.messages.len();
    let messages = state
        .messages
        .iter()
        .map(|one: &Message| (one.number, one.receiver as u64));
    let places = messages.chain(std::iter::repeat_n((0, 0), zeros));
    let under_way = places.take(said);
    under_way
        .filter(|(one, _)| *one == number)
        .last()
        .map(|(_, receiver)| receiver)
}

/// "see its own members of a line for a failed set, other places left unchanged"
fn own_members(run: Option<Run>, caller: Caller, whole: Outcome, lists: &Lists) -> Outcome {
    let mut left = whole;
    let Some(run) = run else {
        return left;
    };
    if let Caller::Owner(set) = caller {
        for p in 0..run.count().min(lists.line.len()) {
            if set >> p & 1 == 0 {
                left.lists.line[p] = lists.line[p];
            }
        }
    }
    left
}

/// A list, and the counts, of a sound state.
fn shown(console: &Console, caller: Caller, asked: Asked, lists: &Lists) -> Outcome {
    let mut lists = lists.clone();
    let mut deletions = wide(&lists.deletions);
    let mut line = wide(&lists.line);
    let said = match asked {
        Asked::List => console.list(caller, &mut deletions).map(counted),
        _ => console.counts(caller, &mut line).map(|()| Said::default()),
    };
    match said {
        Err(number) => refused(number, Left::Same, lists),
        Ok(said) => {
            lists.deletions = narrow(&deletions);
            lists.line = narrow(&line);
            Outcome {
                answer: said.code(),
                left: Left::Same,
                lists,
            }
        }
    }
}

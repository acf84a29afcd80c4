//! The calls through the console (document 02, Note 13), made from C and held to
//! the oracle, with a caller drawn for each. Beside each the call without the
//! console is made, which `hold` compares: where the console does not deny it, its
//! words are the same, word for word.

use crate::guarded::about_to;
use crate::{numbers, take_all_back, tell, Archive, Lent};
use oracle::calls::console::{outcome, Asked, Asker, CONSOLE_CALLS};
use oracle::calls::draw::Draws;
use oracle::calls::hold::{hold, Library};
use oracle::calls::{Call, Left, Lists};
use oracle::words;

extern "C" {
    fn console_from_c(call: *const Lent, role: u32, owned: u32) -> u64;
}

/// In a run of at least that many calls, every number is met at least that many
/// times.
const MANY: u64 = 200_000;
const LEAST: u64 = 10;

/// The calls of the library that the console has: the first of `CALLS`.
const SHARED: usize = 8;

const DENIED: u64 = 25;

struct Console {
    archive: Archive,
    draws: Draws,
    calls: u64,
    /// By call and number, 0 if accepted.
    met: [[u64; 26]; CONSOLE_CALLS.len()],
    /// An owner's calls that name a message, on words that stand for no sound state.
    denied_unsound: u64,
    allowed_unsound: u64,
    /// Of them, message 0, which is that of the zeros after the messages where more
    /// are said to be under way than there are.
    zeros: u64,
}

impl Console {
    fn made(
        &mut self,
        asker: Asker,
        asked: Asked,
        words: &mut [u16],
        lists: &mut Lists,
    ) -> Result<u64, String> {
        self.calls += 1;
        let how = self.calls / 2;
        let both = match asked {
            Asked::Call(call) => numbers(call),
            Asked::List | Asked::Counts => (0, 0),
        };
        let made = Lent::of(asked.place(), both, words, lists, how);
        // Safety: every buffer is lent for the call.
        let answer = unsafe {
            about_to(self.calls);
            console_from_c(&made, asker.role, asker.owned)
        };
        made.returned(words, lists);
        take_all_back(&[])?;
        Ok(answer)
    }

    /// Makes a call and compares it with what the oracle says of it; what it left,
    /// and whether it was denied.
    fn judged(
        &mut self,
        asked: Asked,
        before: &[u16],
        lists: &Lists,
    ) -> Result<(Vec<u16>, bool), String> {
        let asker = Asker::draw(&mut self.draws);
        let state = words::state(before);
        let expected = outcome(before.len(), state.as_ref(), asker, asked, lists);
        let (mut after, mut got) = (before.to_vec(), lists.clone());
        let answer = self.made(asker, asked, &mut after, &mut got)?;
        let whose = |what: String| format!("of {asker:?}, {asked:?}: {what}");
        if answer != expected.answer {
            let what = format!("answer {answer:#x}, not {:#x}", expected.answer);
            return Err(whose(what));
        }
        if got != expected.lists {
            return Err(whose(format!("lists {got:?}, not {:?}", expected.lists)));
        }
        let left = match &expected.left {
            Left::Same => after == before,
            Left::Zeros => after.iter().all(|word| *word == 0),
            Left::State(state) => words::state(&after).as_ref() == Some(state),
        };
        if !left {
            return Err(whose("other words are left".to_string()));
        }
        let number = answer & 255;
        self.met[asked.place()][number as usize] += 1;
        let sound = state.is_some_and(|state| state.is_sound());
        let message = matches!(asked, Asked::Call(Call::Deliver { .. } | Call::Lose { .. }));
        if message && !sound && asker.role == 1 {
            self.denied_unsound += u64::from(number == DENIED);
            self.allowed_unsound += u64::from(number != DENIED);
            let zero = matches!(asked, Asked::Call(Call::Lose { number: 0 }));
            self.zeros += u64::from(number != DENIED && zero);
        }
        Ok((after, number == DENIED))
    }
}

impl Library for Console {
    fn has(&self, call: usize) -> bool {
        call < SHARED
    }

    fn fitted(&self, call: Call) -> Call {
        self.archive.fitted(call)
    }

    fn call(&mut self, call: Call, words: &mut [u16], lists: &mut Lists) -> Result<u64, String> {
        if self.draws.once_in(4) {
            let asked = self.draws.one_of(&[Asked::List, Asked::Counts]);
            self.judged(asked, words, lists)?;
        }
        if words::state(words).is_none_or(|state| !state.is_sound()) {
            self.judged(Asked::Call(Call::Lose { number: 0 }), words, lists)?;
        }
        let (after, denied) = self.judged(Asked::Call(call), words, lists)?;
        let answer = self.archive.call(call, words, lists)?;
        if !denied && after != words {
            return Err(format!("{call:?}: other words than without the console"));
        }
        Ok(answer)
    }
}

/// Makes that many calls by seed. Says what was met, or the first difference; true
/// if there is none.
#[no_mangle]
pub extern "C" fn hold_console(seed: u64, count: u64) -> bool {
    let mut console = Console {
        archive: Archive { calls: 0 },
        draws: Draws::new(seed ^ 0x636f_6e73_6f6c_65),
        calls: 0,
        met: [[0; 26]; CONSOLE_CALLS.len()],
        denied_unsound: 0,
        allowed_unsound: 0,
        zeros: 0,
    };
    let said = hold(&mut console, seed, count).and_then(|tally| {
        tell(&CONSOLE_CALLS, &console.met, (count >= MANY).then_some(LEAST))?;
        let (denied, allowed) = (console.denied_unsound, console.allowed_unsound);
        let zeros = console.zeros;
        println!("messages of an owner on states that are not sound: {allowed}, {zeros} of them 0, and {denied} denied");
        if count >= MANY && denied.min(allowed).min(zeros) < LEAST {
            return Err("hardly met: messages on states that are not sound".to_string());
        }
        println!("console: {}", tally.calls);
        Ok(())
    });
    if let Err(what) = &said {
        println!("seed {seed}: {what}");
    }
    said.is_ok()
}

//! Whole states: soundness sentence by sentence, and the words of a state.

use oracle::run::forged::State;
use oracle::run::{Run, ONES};
use oracle::words::{self, SIZE};

/// A state with messages under way and two checkpoints kept at process 1.
fn reached() -> State {
    let mut run = Run::start(3, &ONES).expect("3 processes");
    let list = &mut [0; 18];
    run.send(0, 1).expect("sent");
    run.send(2, 1).expect("sent");
    run.deliver(1, list).expect("delivered");
    run.checkpoint(1, list).expect("stored");
    run.send(1, 0).expect("sent");
    run.state()
}

#[test]
fn a_reached_state_is_sound_and_comes_back() {
    let state = reached();
    assert!(state.is_sound());
    assert_eq!(state.processes[1].held, 2);
    assert_eq!(state.messages.len(), 2);
    assert_eq!(Run::forged(&state).state(), state);
}

#[test]
fn words_of_a_state_stand_for_it() {
    let state = reached();
    assert_eq!(words::state(&words::of(&state)), Some(state));
}

/// The state after a change is not sound.
fn unsound(what: &str, change: impl Fn(&mut State)) {
    let mut state = reached();
    change(&mut state);
    assert!(!state.is_sound(), "sound: {what}");
}

#[test]
fn each_sentence_on_processes() {
    unsound("Count 1 to 16", |s| {
        s.count = 0;
        s.processes.clear();
        s.messages.clear();
        s.under_way = 0;
    });
    unsound("Count 1 to 16", |s| s.count = 17);
    unsound("Own entries at least 1", |s| s.processes[2].vector[2] = 0);
    unsound("a current entry", |s| s.processes[0].vector[1] = 3);
    unsound("a stored entry", |s| stored(s, 1, 0).vector[0] = 2);
    unsound("an entry at n", |s| s.processes[0].vector[3] = 1);
    unsound("a stored entry at n", |s| stored(s, 0, 0).vector[15] = 1);
    unsound("keeps 1 to n", |s| s.processes[1].held = 0);
    unsound("keeps 1 to n", |s| s.processes[1].held = 4);
    unsound("a place with nothing in it", |s| {
        s.processes[1].kept[0] = None
    });
    unsound("indexes ascending", |s| s.processes[1].kept.swap(0, 1));
    unsound("own entry equal to its index", |s| {
        stored(s, 1, 1).vector[1] = 0;
    });
    unsound("the last is the own entry minus 1", |s| {
        s.processes[1].vector[1] = 3;
    });
    unsound("the own pin names it", |s| s.processes[1].pins[1] = Some(0));
    unsound("every pin is none or names a kept one", |s| {
        s.processes[2].pins[0] = Some(1);
    });
    unsound("every kept one is pinned", |s| {
        s.processes[1].pins[0] = None
    });
    unsound("unused pins are none", |s| s.processes[1].pins[3] = Some(1));
}

#[test]
fn each_sentence_on_messages_and_blocks() {
    unsound("ascend by number", |s| s.messages.swap(0, 1));
    unsound("no two of a number", |s| s.messages[1].number = 2);
    unsound("from 1", |s| s.messages[0].number = 0);
    unsound("to the last used", |s| s.last_number = 2);
    unsound("as many as are under way", |s| s.under_way = 3);
    unsound("as many as are under way", |s| s.under_way = 1);
    unsound("the sender is in the run", |s| s.messages[0].sender = 3);
    unsound("the receiver is in the run", |s| s.messages[0].receiver = 3);
    unsound("they differ", |s| s.messages[0].receiver = 2);
    unsound("a carried entry", |s| s.messages[0].carried[0] = 2);
    unsound("a carried entry at n", |s| s.messages[0].carried[3] = 1);
    unsound("at most 1,000,000", |s| s.last_number = 1_000_001);
    unsound("causes 0 to 2", |s| stored(s, 1, 1).cause = 3);
    unsound("0 exactly at index 0", |s| stored(s, 1, 0).cause = 1);
    unsound("0 exactly at index 0", |s| stored(s, 1, 1).cause = 0);
    unsound("block counts from 1", |s| {
        stored(s, 0, 0).blocks = 0;
        s.written -= 1;
    });
    unsound("block counts to 65,535", |s| {
        stored(s, 0, 0).blocks = 65_536;
        s.written += 65_535;
    });
    unsound("equal within a process", |s| {
        stored(s, 1, 0).blocks = 2;
        s.written += 1;
    });
    unsound("that sum", |s| s.written += 1);
    unsound("that sum", |s| s.deleted = u64::MAX);
    unsound("within the bound of 16", |s| {
        s.deleted += 1_000_000_000_000_000;
        s.written += 1_000_000_000_000_000;
    });
}

fn stored(state: &mut State, p: usize, k: usize) -> &mut oracle::run::forged::Stored {
    state.processes[p].kept[k].as_mut().expect("a checkpoint")
}

/// Words of a start of two processes, by hand.
fn started() -> Vec<u16> {
    let mut words = vec![0; SIZE];
    words[0] = 2;
    words[4] = 2;
    for p in 0..2 {
        words[16 + p] = 1;
        words[48 + p] = 1;
        words[64 + 320 * p + p] = 1;
        words[80 + 320 * p + p] = 1;
        words[96 + 320 * p] = 1;
    }
    words
}

#[test]
fn the_words_of_a_start() {
    let run = Run::start(2, &ONES).expect("2 processes");
    assert_eq!(words::state(&started()), Some(run.state()));
}

#[test]
fn the_words_of_a_message() {
    let mut run = Run::start(2, &ONES).expect("2 processes");
    let mut lent = started();
    run.send(1, 0).expect("sent");
    // in place 5, after places that are not used
    lent[1] = 1;
    lent[2] = 1;
    lent[12] = 6;
    lent[33] = 9;
    lent[5_184 + 5] = 1;
    lent[5_312 + 5] = 1;
    lent[5_440 + 16 * 5 + 1] = 1;
    assert_eq!(words::state(&lent), Some(run.state()));
    // what stands in places that are not used counts for nothing
    for place in [13, 18, 64 + 640, 112 + 1, 5_312 + 4, 5_440 + 16 * 6] {
        lent[place] = 7;
    }
    assert_eq!(words::state(&lent), Some(run.state()));
}

#[test]
fn words_that_stand_for_no_state() {
    assert_eq!(words::state(&[]), None);
    assert_eq!(words::state(&started()[1..]), None);
    assert_eq!(words::state(&[started(), vec![0]].concat()), None);
    for end in [1, 64, 65, 65_535] {
        let mut lent = started();
        lent[12] = end;
        assert_eq!(words::state(&lent), None, "the end {end}");
    }
}

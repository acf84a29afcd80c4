//! Note 13, a console for shared clusters: the table, what counts as denied,
//! what each caller sees, and the named leaks.

use crate::common::{self, Random, DELETIONS, LINE};
use oracle::console::scripts::script;
use oracle::console::Caller::{Operator, Owner, Viewer};
use oracle::console::{facts, may, Caller, Console, Operation};
use oracle::run::{Named, Run, MOST_WRITTEN, ONES};
use std::io::Write;
use std::process::Stdio;

const ROLES: [Caller; 3] = [Operator, Owner(0b011), Viewer];

const NAMED: [Named; 1] = [Named {
    process: 0,
    index: 0,
}];

/// Three processes; the owner has 0 and 1. Message 1 is under way to 1, message
/// 2 to 2.
fn console() -> Console {
    let mut console = Console::start(Operator, 3, &ONES).unwrap();
    assert_eq!(console.send(Operator, 2, 1), Ok(1));
    assert_eq!(console.send(Operator, 0, 2), Ok(2));
    console
}

#[test]
fn the_table() {
    use Operation::*;
    let all = [
        Checkpoint, Send, Deliver, Lose, Recover, Line, Earliest, List, Counts, Start,
    ];
    for operation in all {
        let rights = ROLES.map(|caller| may(caller, operation));
        let expected = match operation {
            Checkpoint | Send | Deliver | Lose | Line | List => [true, true, false],
            Recover | Earliest | Start => [true, false, false],
            Counts => [true, false, true],
        };
        assert_eq!(rights, expected, "{operation:?}");
        // The owned set plays no part in the table.
        assert_eq!(may(Owner(0), operation), may(Owner(u64::MAX), operation));
    }
}

/// Each call by each role, with lists that are too short: 25 before 3. And on
/// good arguments.
#[test]
fn denied_before_every_other_number() {
    let number = |answer: Result<(), u8>| answer.err().unwrap_or(0);
    for (caller, denied) in [(Owner(0b011), [true, false]), (Viewer, [true, true])] {
        let judged = |denied: bool, otherwise| if denied { 25 } else { otherwise };
        let [only_operator, only_owner] = denied;
        let mut c = console();
        let before = c.run().clone();
        assert_eq!(Console::start(caller, 0, &ONES).err(), Some(25));
        assert_eq!(Console::start(caller, 2, &[0; 16]).err(), Some(25));
        assert_eq!(Console::start(caller, 2, &ONES).err(), Some(25));
        assert_eq!(
            c.recover(caller, 8, &mut [], &mut []).err(),
            Some(judged(only_operator, 3))
        );
        assert_eq!(number(c.earliest(caller, &[], &mut [])), 25);
        assert_eq!(number(c.earliest(caller, &NAMED, &mut [0; 3])), 25);
        assert_eq!(
            number(c.checkpoint(caller, 0, &mut []).map(|_| ())),
            judged(only_owner, 3)
        );
        assert_eq!(
            number(c.send(caller, 0, 0).map(|_| ())),
            judged(only_owner, 5)
        );
        assert_eq!(
            number(c.deliver(caller, 1, &mut []).map(|_| ())),
            judged(only_owner, 3)
        );
        assert_eq!(number(c.line(caller, 8, &mut [])), judged(only_owner, 3));
        assert_eq!(
            number(c.line(caller, 8, &mut [0; 3])),
            judged(only_owner, 7)
        );
        assert_eq!(
            number(c.list(caller, &mut [0; 17]).map(|_| ())),
            judged(only_owner, 3)
        );
        let counts = c.counts(caller, &mut [0; 2]);
        assert_eq!(number(counts), judged(caller != Viewer, 3));
        assert_eq!(*c.run(), before);
        if caller == Viewer {
            assert_eq!(c.lose(caller, 1), Err(25));
        }
    }
}

/// An operator's calls are those of the run.
#[test]
fn an_operator_may_do_everything() {
    let mut c = console();
    assert_eq!(Console::start(Operator, 0, &ONES).err(), Some(1));
    assert_eq!(Console::start(Operator, 2, &[0; 16]).err(), Some(15));
    assert_eq!(c.checkpoint(Operator, 3, &mut [0; 18]), Err(4));
    assert_eq!(c.checkpoint(Operator, 3, &mut [0; 17]), Err(3));
    assert_eq!(c.send(Operator, 3, 3), Err(4));
    assert_eq!(c.deliver(Operator, 9, &mut [0; 18]), Err(8));
    assert_eq!(c.lose(Operator, 9), Err(8));
    assert_eq!(c.earliest(Operator, &[], &mut [0; 3]), Err(18));
    assert_eq!(c.earliest(Operator, &NAMED, &mut [0; 3]), Ok(()));
    let mut line = [9; 4];
    assert_eq!(c.line(Operator, 0b100, &mut line), Ok(()));
    assert_eq!(line, [1, 1, 0, 9]);
    let mut list = [9; 20];
    assert_eq!(c.list(Operator, &mut list), Ok(3));
    assert_eq!(list[..7], [0, 0, 1, 0, 2, 0, 9]);
    assert_eq!(c.counts(Operator, &mut line), Ok(()));
    assert_eq!(line, [1, 1, 1, 9]);
    assert!(c.recover(Operator, 0, &mut [0; 18], &mut [0; 3]).is_ok());
    assert!(c.recover(Operator, 7, &mut [0; 18], &mut [0; 3]).is_ok());
}

/// "To an owner, a process not its own (a send's receiver and a failed set
/// aside) and a message not under way to its own processes count as denied."
#[test]
fn what_is_not_its_own_is_denied() {
    let owner = Owner(0b011);
    let mut c = console();
    for process in [2, 3, 15, 16, 17, 64, usize::MAX] {
        assert_eq!(c.checkpoint(owner, process, &mut [0; 17]), Err(25));
        assert_eq!(c.send(owner, process, 0), Err(25));
        assert_eq!(c.send(owner, process, process), Err(25));
    }
    // The receiver is judged as in the call.
    assert_eq!(c.send(owner, 0, 0), Err(5));
    assert_eq!(c.send(owner, 0, 3), Err(4));
    assert_eq!(c.send(owner, 0, 2), Ok(3));
    // A message to another, one that is none, one that is no longer under way.
    for number in [0, 2, 3, 4, 1 << 32 | 1, u64::MAX] {
        assert_eq!(c.deliver(owner, number, &mut [0; 17]), Err(25));
        assert_eq!(c.lose(owner, number), Err(25));
    }
    assert_eq!(c.deliver(owner, 1, &mut [0; 17]), Err(3));
    assert!(c.deliver(owner, 1, &mut [0; 18]).is_ok());
    assert_eq!(c.deliver(owner, 1, &mut [0; 18]), Err(25));
    assert_eq!(c.lose(owner, 1), Err(25));
    assert!(c.checkpoint(owner, 1, &mut [0; 18]).is_ok());
    // A failed set of others, and of nobody at all.
    assert_eq!(c.line(owner, 0b100, &mut [0; 3]), Ok(()));
    assert_eq!(c.line(owner, 0, &mut [0; 3]), Ok(()));
    assert_eq!(c.line(owner, 0b1000, &mut [0; 3]), Err(7));
}

/// "a set of processes whose bits at n or above count for nothing."
#[test]
fn bits_at_n_and_above_count_for_nothing() {
    for (one, other) in [(0b001, 0b001 | 0xFFF8), (0, 0xFFF8), (0b111, 0xFFFF)] {
        let (mut a, mut b) = (console(), console());
        for process in 0..20 {
            assert_eq!(
                a.checkpoint(Owner(one), process, &mut [0; 18]),
                b.checkpoint(Owner(other), process, &mut [0; 18])
            );
        }
        let (mut x, mut y) = ([9; 18], [9; 18]);
        assert_eq!(a.list(Owner(one), &mut x), b.list(Owner(other), &mut y));
        assert_eq!(x, y);
    }
    assert_eq!(console().list(Owner(0xFFF8), &mut [0; 18]), Ok(0));
}

/// Own members of a line, other places left unchanged; own kept checkpoints, as
/// pairs, the rest unchanged.
#[test]
fn what_an_owner_sees() {
    let mut c = console();
    c.deliver(Operator, 1, &mut [0; 18]).unwrap();
    c.checkpoint(Operator, 1, &mut [0; 18]).unwrap();
    c.checkpoint(Operator, 2, &mut [0; 18]).unwrap();
    let seen = |set, failed| {
        let mut line = [9; 4];
        c.line(Owner(set), failed, &mut line).map(|()| line)
    };
    assert_eq!(seen(0b111, 0b100), Ok([1, 2, 1, 9]));
    assert_eq!(seen(0b011, 0b100), Ok([1, 2, 9, 9]));
    assert_eq!(seen(0b100, 0b011), Ok([9, 9, 2, 9]));
    assert_eq!(seen(0b010, 0b011), Ok([9, 1, 9, 9]));
    assert_eq!(seen(0, 0b011), Ok([9, 9, 9, 9]));
    let listed = |set| {
        let mut list = [9; 20];
        let count = c.list(Owner(set), &mut list).unwrap();
        assert!(list[2 * count..].iter().all(|entry| *entry == 9));
        list[..2 * count].to_vec()
    };
    assert_eq!(listed(0b111), [0, 0, 1, 0, 1, 1, 2, 1]);
    assert_eq!(listed(0b010), [1, 0, 1, 1]);
    assert_eq!(listed(0b101), [0, 0, 2, 1]);
    assert!(listed(0).is_empty());
}

#[test]
fn what_a_viewer_sees() {
    let mut c = console();
    c.deliver(Operator, 1, &mut [0; 18]).unwrap();
    c.checkpoint(Operator, 1, &mut [0; 18]).unwrap();
    let mut line = [9; 5];
    assert_eq!(c.counts(Viewer, &mut line), Ok(()));
    assert_eq!(line, [1, 2, 1, 9, 9]);
    assert_eq!(c.counts(Viewer, &mut [0; 2]), Err(3));
    assert_eq!(c.counts(Owner(0b111), &mut [0; 3]), Err(25));
}

/// One random call by anyone.
fn any_call(c: &mut Console, random: &mut Random) {
    let n = c.run().count();
    let caller = [Operator, Owner(random.next() % 65_536), Viewer][random.below(3)];
    let (p, q) = (random.below(n), random.below(n));
    let number = random.below(c.run().last_number() as usize + 2) as u64;
    let (mut deletions, mut line) = ([0; DELETIONS], [0; LINE]);
    match random.below(8) {
        0 => _ = c.checkpoint(caller, p, &mut deletions),
        1..=3 => _ = c.send(caller, p, q),
        4..=6 => _ = c.deliver(caller, number, &mut deletions),
        _ => {
            let failed = random.below(1 << n) as u64;
            _ = c.recover(caller, failed, &mut deletions, &mut line);
        }
    }
}

/// "The list shown to an owner depends on its own processes' vectors, pins and
/// kept checkpoints and on nothing else in the run but n": pairs of states of
/// all kinds that agree on these show it the same list.
#[test]
fn a_list_depends_on_its_own_processes_alone() {
    let (mut agreeing, mut other_run) = (0, 0);
    let mut lists = std::collections::HashMap::new();
    for seed in 0..400 {
        let mut random = Random(seed);
        let n = 2 + seed as usize % 2;
        let mut c = Console::start(Operator, n, &ONES).unwrap();
        for _ in 0..30 {
            any_call(&mut c, &mut random);
            for set in 1..1 << n {
                let own: Vec<_> = (0..n)
                    .filter(|i| set >> i & 1 == 1)
                    .map(|i| {
                        let kept: Vec<_> = c.run().kept(i).map(|k| k.1.to_vec()).collect();
                        (c.run().vector(i).to_vec(), common::pins(c.run(), i), kept)
                    })
                    .collect();
                let mut list = vec![9; 2 * n * n];
                let count = c.list(Owner(set), &mut list).unwrap();
                let shown = (count, list);
                let found = lists.entry((n, set, own)).or_insert((seed, shown.clone()));
                assert_eq!(found.1, shown);
                agreeing += 1;
                other_run += (found.0 != seed) as usize;
            }
        }
    }
    assert!(agreeing > 10_000 && other_run > 10_000, "{other_run}");
}

/// The named leaks, each by two runs that differ only in what others did.
#[test]
fn the_named_leaks() {
    let owner = Owner(0b001);
    let quiet = || Console::start(Operator, 3, &ONES).unwrap();
    // A send shows a run-wide number.
    let mut busy = quiet();
    busy.send(Operator, 1, 2).unwrap();
    assert_eq!(quiet().send(owner, 0, 1), Ok(1));
    assert_eq!(busy.send(owner, 0, 1), Ok(2));
    // It may meet 9.
    for _ in 0..62 {
        busy.send(Operator, 1, 2).unwrap();
    }
    assert_eq!(busy.send(owner, 0, 1), Err(9));
    // It may meet 10.
    let mut used = quiet();
    for number in 1..=1_000_000 {
        assert_eq!(used.send(Operator, 1, 2), Ok(number));
        used.lose(Operator, number).unwrap();
    }
    assert_eq!(used.send(owner, 0, 1), Err(10));
    // A stored checkpoint may meet 16.
    let nearly_full = || {
        let run = Run::start(3, &ONES).unwrap();
        Console::over(run.with_sums(MOST_WRITTEN - 1, MOST_WRITTEN - 4).unwrap())
    };
    assert!(nearly_full().checkpoint(owner, 0, &mut [0; 18]).is_ok());
    let mut full = nearly_full();
    full.checkpoint(Operator, 1, &mut [0; 18]).unwrap();
    assert_eq!(full.checkpoint(owner, 0, &mut [0; 18]), Err(16));
    // A delivery shows what was sent to it: the other's interval, by the set of
    // entries that rose, and a forced checkpoint.
    let delivered = |checkpoints: usize| {
        let mut c = quiet();
        c.send(Operator, 1, 0).unwrap();
        c.deliver(owner, 1, &mut [0; 18]).unwrap();
        for _ in 0..checkpoints {
            c.checkpoint(Operator, 1, &mut [0; 18]).unwrap();
        }
        c.send(owner, 0, 2).unwrap();
        c.send(Operator, 1, 0).unwrap();
        let answer = c.deliver(owner, 3, &mut [0; 18]).unwrap();
        (answer.rose, answer.forced)
    };
    assert_eq!(delivered(0), (0, None));
    assert_eq!(delivered(1), (0b010, Some(1)));
    // A message is there to be lost, or it is not.
    let mut sent = quiet();
    sent.send(Operator, 1, 0).unwrap();
    assert_eq!(sent.lose(owner, 1), Ok(()));
    assert_eq!(quiet().lose(owner, 1), Err(25));
    // A member of a line: others' messages and checkpoints decide it.
    let member = |checkpoint: bool| {
        let mut c = quiet();
        c.send(Operator, 1, 0).unwrap();
        c.deliver(owner, 1, &mut [0; 18]).unwrap();
        if checkpoint {
            c.checkpoint(Operator, 1, &mut [0; 18]).unwrap();
        }
        let mut line = [9; 3];
        c.line(owner, 0b010, &mut line).unwrap();
        line
    };
    assert_eq!(member(false), [0, 9, 9]);
    assert_eq!(member(true), [1, 9, 9]);
}

#[test]
fn the_facts_of_a_script() {
    assert_eq!(facts(&[]), "0 12\n");
    for first in [0, 17, 255] {
        assert_eq!(facts(&[first, 0, 0]), "0 1\n");
    }
    assert_eq!(facts(&[3]), "");
    let calls: [([u8; 8], &str); 42] = [
        // The operator sends 2 to 1 and 0 to 2.
        ([0, 0, 0, 1, 2, 0, 0, 1], "0 1"),
        ([0, 0, 0, 1, 0, 0, 0, 2], "0 2"),
        // The owner of 0 and 1, and bits above.
        ([1, 0xFF, 0xFB, 2, 0, 0, 0, 2], "25"),
        ([129, 0, 3, 2, 0, 0, 0, 1], "3"),
        ([1, 0, 3, 2, 0, 0, 0, 1], "0 - 4 0"),
        ([1, 0, 3, 0, 1, 0, 0, 0], "0 1 0"),
        ([1, 0, 3, 0, 2, 0, 0, 0], "25"),
        ([129, 0, 3, 0, 2, 0, 0, 0], "25"),
        ([1, 0, 3, 5, 0, 0, 0, 4], "0 1 0 -"),
        ([1, 0, 3, 5, 0, 0, 0, 8], "7"),
        ([1, 0, 3, 7, 0, 0, 0, 0], "0 3 0:0 1:0 1:1"),
        ([1, 0xFF, 0xF8, 7, 0, 0, 0, 0], "0 0"),
        ([1, 0, 3, 8, 0, 0, 0, 0], "25"),
        ([1, 0, 3, 9, 2, 0, 0, 0], "25"),
        // The viewer.
        ([2, 0, 7, 8, 0, 0, 0, 0], "0 1 2 1"),
        ([130, 0, 7, 8, 0, 0, 0, 0], "3"),
        ([2, 0, 7, 7, 0, 0, 0, 0], "25"),
        // The operator again.
        ([0, 0, 0, 6, 1, 0, 0, 1], "0 0 1 1"),
        ([0, 0, 0, 3, 0, 0, 0, 2], "0"),
        ([0, 0, 0, 4, 0, 0, 0, 4], "0 1 0 0 2 1 1:1"),
        ([0, 0, 0, 0, 1, 0, 0, 0], "0 1 1 1:0"),
        ([0, 0, 0, 9, 17, 0, 0, 0], "1"),
        // No call: an operation that there is not, a field that must be zero.
        ([0, 0, 0, 10, 0, 0, 0, 0], "14"),
        ([0, 0, 0, 14, 0, 0, 0, 1], "14"),
        ([2, 0, 0, 19, 2, 0, 0, 0], "14"),
        ([0, 0, 0, 255, 0, 0, 0, 0], "14"),
        ([0, 0, 0, 0, 1, 1, 0, 0], "14"),
        ([0, 0, 0, 0, 1, 0, 0, 1], "14"),
        ([0, 0, 0, 2, 1, 0, 0, 1], "14"),
        ([2, 0, 0, 3, 1, 0, 0, 1], "14"),
        ([0, 0, 0, 4, 0, 1, 0, 0], "14"),
        ([0, 0, 0, 4, 1, 0, 0, 0], "14"),
        ([1, 0, 3, 5, 0, 1, 0, 1], "14"),
        ([0, 0, 0, 6, 1, 1, 0, 1], "14"),
        ([0, 0, 0, 7, 0, 0, 1, 0], "14"),
        ([129, 0, 3, 8, 1, 0, 0, 0], "14"),
        ([0, 0, 0, 9, 2, 0, 0, 1], "14"),
        // What fits its field is judged by the call, whole.
        ([0, 0, 0, 5, 0, 0, 255, 255], "7"),
        ([0, 0, 0, 6, 1, 0, 255, 255], "19"),
        ([0, 0, 0, 1, 0, 1, 0, 1], "4"),
        ([0, 0, 0, 9, 2, 0, 0, 0], "0"),
        ([0, 0, 0, 7, 0, 0, 0, 0], "0 2 0:0 1:0"),
    ];
    let mut bytes = vec![3];
    let mut expected = String::new();
    for (number, (call, fact)) in (1..).zip(calls) {
        bytes.extend(call);
        expected += &format!("{number} {fact}\n");
    }
    assert_eq!(facts(&bytes), expected);
    for left_over in 1..8 {
        bytes.push(0);
        assert_eq!(facts(&bytes), format!("{expected}43 13\n"), "{left_over}");
    }
}

/// An own entry of 65,535 is a member as any other: a hyphen stands for a place
/// that was not written, and for nothing else.
#[test]
fn the_last_entry_is_no_mark() {
    let script = |caller: u8, set: u8| {
        let mut bytes = vec![1];
        for _ in 0..65_534 {
            bytes.extend([0; 8]);
        }
        bytes.extend([caller, 0, set, 5, 0, 0, 0, 0]);
        bytes
    };
    let last = |bytes: Vec<u8>| facts(&bytes).lines().last().unwrap().to_string();
    assert_eq!(last(script(0, 0)), "65535 0 65535");
    assert_eq!(last(script(1, 1)), "65535 0 65535");
    assert_eq!(last(script(1, 0)), "65535 0 -");
}

#[test]
fn scripts_have_all_numbers() {
    let mut met = std::collections::BTreeMap::new();
    for seed in 0..2000 {
        for line in facts(&script(seed)).lines() {
            let number: u8 = line.split(' ').nth(1).unwrap().parse().unwrap();
            *met.entry(number).or_insert(0) += 1;
        }
    }
    for number in [0, 1, 3, 4, 5, 7, 8, 9, 12, 13, 14, 19, 25] {
        assert!(met.get(&number).is_some_and(|times| *times > 20), "{met:?}");
    }
}

/// The program prints a script, and its facts.
#[test]
fn the_program() {
    for seed in 0..20 {
        let printed = crate::common::oracle("console")
            .arg(seed.to_string())
            .output()
            .unwrap();
        assert_eq!(printed.stdout, script(seed));
        let mut program = crate::common::oracle("console")
            .stdin(Stdio::piped())
            .stdout(Stdio::piped())
            .spawn()
            .unwrap();
        let mut input = program.stdin.take().unwrap();
        input.write_all(&printed.stdout).unwrap();
        drop(input);
        let output = program.wait_with_output().unwrap();
        let text = String::from_utf8(output.stdout).unwrap();
        assert_eq!(text, facts(&printed.stdout));
    }
}

//! A recorded run answers as a run does, and its records make the run again.

use lemidrosy::{Recorder, Refusal, Run};

/// What is called: kind, process and argument, as in a record.
type Asked = (u32, usize, u32);

/// What a call answers, as text.
fn said<T: std::fmt::Debug>(answer: Result<T, Refusal>) -> String {
    format!("{answer:?}")
}

fn on_run(run: &mut Run, (kind, process, argument): Asked) -> String {
    match kind {
        0 => said(run.checkpoint(process)),
        1 => said(run.send(process, argument as usize)),
        2 => said(run.deliver(argument)),
        3 => said(run.lose(argument)),
        _ => said(run.recover(argument)),
    }
}

fn on_recorder(recorder: &mut Recorder, (kind, process, argument): Asked) -> String {
    match kind {
        0 => said(recorder.checkpoint(process)),
        1 => said(recorder.send(process, argument as usize)),
        2 => said(recorder.deliver(argument)),
        3 => said(recorder.lose(argument)),
        _ => said(recorder.recover(argument)),
    }
}

/// The calls of a trace, without its first byte.
fn calls(records: &[u8]) -> impl Iterator<Item = Asked> + '_ {
    records.chunks(4).map(|four| {
        let record = u32::from_be_bytes(four.try_into().expect("whole records"));
        (
            record >> 29,
            (record >> 25 & 15) as usize,
            record & 0x1ff_ffff,
        )
    })
}

#[test]
fn a_recorded_run_is_made_again_by_its_records() {
    let mut state = 1u32;
    let mut draw = |limit: u32| {
        state = state.wrapping_mul(1_664_525).wrapping_add(1_013_904_223);
        (state >> 16) % limit
    };
    for round in 0..50 {
        let n = 2 + draw(4);
        let counts = vec![1; n as usize];
        let mut run = Run::start(&counts).expect("in range");
        let mut recorder = Recorder::start(&counts).expect("in range");
        for _ in 0..60 {
            let asked = match draw(5) {
                0 => (0, draw(n + 1) as usize, 0),
                1 => (1, draw(n + 1) as usize, draw(n + 1)),
                2 => (2, 0, draw(20)),
                3 => (3, 0, draw(60)),
                _ => (4, 0, 1 << draw(n + 1)),
            };
            assert_eq!(
                on_recorder(&mut recorder, asked),
                on_run(&mut run, asked),
                "{round}: {asked:?}"
            );
        }
        let (recorded, trace) = recorder.into_parts();
        assert_eq!(recorded.words(), run.words(), "{round}");
        let mut again = Run::start(&vec![1; trace[0].into()]).expect("in range");
        let mut taken = 0;
        for asked in calls(&trace[1..]) {
            assert!(on_run(&mut again, asked).starts_with("Ok"), "{round}");
            taken += 1;
        }
        assert_eq!(again.words(), run.words(), "{round}");
        assert!(taken > 5, "{round}: {taken} records");
    }
}

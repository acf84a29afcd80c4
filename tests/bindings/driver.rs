//! Makes the calls on standard input through the binding for Rust and prints the
//! answers: README.md has the lines.

use lemidrosy::{
    judge, merge, simulate, Caller, Checkpoint, Console, Delivered, FileError, Message, Recorder,
    Recovered, Refusal, Run, Stored, Verdict,
};
use std::fmt::Display;
use std::io::{self, BufRead, BufWriter, Write};

fn main() -> io::Result<()> {
    let mut output = BufWriter::new(io::stdout().lock());
    let mut run = Run::from_words(&[]);
    let mut recorder = None;
    for line in io::stdin().lock().lines() {
        let line = line?;
        let mut words = line.split(' ');
        let call = words.next().unwrap_or("");
        let words: Vec<&str> = words.collect();
        if call.starts_with("console_") && number::<u32>(&words, 0) > 2 {
            // a caller has one of three roles
            writeln!(output, "-")?;
            continue;
        }
        let answer = match call.strip_prefix("record_") {
            Some(call) => recorded(&mut recorder, call, &words),
            None => answer(&mut run, call, &words)?,
        };
        match answer {
            Ok(more) => writeln!(output, "0{more}")?,
            Err(refusal) => writeln!(output, "{}", refusal.number())?,
        }
    }
    output.flush()
}

/// What is said after the 0 of an accepted call.
fn answer(run: &mut Run, call: &str, words: &[&str]) -> io::Result<Result<String, Refusal>> {
    match call {
        "dump" => return dump(run, words[0]).map(Ok),
        "save" => match run.save() {
            Ok(bytes) => std::fs::write(words[0], bytes)?,
            Err(refusal) => return Ok(Err(refusal)),
        },
        "store_file" => return in_file(run.store_file(words[0])),
        "load_file" => match Run::load_file(words[0]) {
            Ok(loaded) => *run = loaded,
            Err(error) => return in_file(Err(error)),
        },
        "take" => {
            *run = take(words[0])?;
        }
        _ => return Ok(made(run, call, words)),
    }
    Ok(Ok(String::new()))
}

/// An error of the system ends the driver.
fn in_file(answer: Result<(), FileError>) -> io::Result<Result<String, Refusal>> {
    match answer {
        Ok(()) => Ok(Ok(String::new())),
        Err(FileError::Refused(refusal)) => Ok(Err(refusal)),
        Err(FileError::System(error)) => Err(error),
    }
}

fn made(run: &mut Run, call: &str, words: &[&str]) -> Result<String, Refusal> {
    let mut line = String::new();
    match call {
        "start" => *run = Run::start(&numbers(words))?,
        "words" => *run = Run::from_words(&spread(words)),
        "load" => *run = Run::load(&bytes(words[0]))?,
        "replay" => {
            let records = bytes(words[2]);
            let replayed = run.replay(words[0] == "1", number(words, 1), &records)?;
            spell(&mut line, [replayed.taken]);
            spell(&mut line, [u8::from(replayed.goes_on)]);
            spell(&mut line, [digits(replayed.lines.as_bytes())]);
        }
        "checkpoint" => stored(&mut line, run.checkpoint(number(words, 0))?),
        "send" => spell(&mut line, [run.send(number(words, 0), number(words, 1))?]),
        "deliver" => delivered(&mut line, run.deliver(number(words, 0))?),
        "lose" => run.lose(number(words, 0))?,
        "line" => spell(&mut line, run.line(number(words, 0))?),
        "recover" => recovered(&mut line, run.recover(number(words, 0))?),
        "lost" => spell(
            &mut line,
            run.lost(number(words, 0))?.into_iter().map(three),
        ),
        "earliest" => spell(&mut line, run.earliest(&named(words))?),
        "is_sound" => spell(&mut line, [u8::from(run.is_sound())]),
        "numbers" => {
            let numbers = run.numbers()?;
            spell(&mut line, [numbers.processes]);
            spell(&mut line, [numbers.last_message]);
            spell(&mut line, [numbers.under_way]);
            spell(&mut line, [numbers.written, numbers.deleted]);
        }
        "vector" => spell(&mut line, run.vector(number(words, 0))?),
        "pins" => spell(
            &mut line,
            run.pins(number(words, 0))?.into_iter().map(or_none),
        ),
        "kept" => {
            let kept = run.kept(number(words, 0))?;
            let three = kept
                .iter()
                .map(|one| format!("{}:{}:{}", one.index, one.cause as u8, one.blocks));
            spell(&mut line, three);
        }
        "messages" => spell(&mut line, run.messages()?.into_iter().map(three)),
        "carried" => spell(&mut line, run.carried(number(words, 0))?),
        "judge" => match judge(&bytes(words[0]))? {
            Verdict::Trackable => {}
            Verdict::Breaks { near, far } => spell(&mut line, pairs(&[near, far])),
        },
        "merge" => {
            let trace = merge(&bytes(words[1]), &bytes(words[2]), number(words, 0))?;
            spell(&mut line, [digits(&trace)]);
        }
        "simulate" => {
            let figures = simulate(
                number(words, 0),
                number(words, 1),
                number(words, 2),
                number(words, 3),
            )?;
            spell(&mut line, [figures.deliveries, figures.forced]);
            spell(&mut line, [figures.most_kept, figures.per_thousand]);
            spell(&mut line, [figures.remainder]);
        }
        _ => match call.strip_prefix("console_") {
            Some(call) => return asked(run, caller(words), call, &words[2..]),
            None => panic!("no such call: {call}"),
        },
    }
    Ok(line)
}

fn caller(words: &[&str]) -> Caller {
    match number(words, 0) {
        0 => Caller::Operator,
        1 => Caller::JobOwner(number(words, 1)),
        _ => Caller::Viewer,
    }
}

/// A call through the console.
fn asked(run: &mut Run, caller: Caller, call: &str, words: &[&str]) -> Result<String, Refusal> {
    let mut line = String::new();
    let mut console = run.console(caller);
    match call {
        "start" => *run = Console::start(caller, &numbers(words))?,
        "checkpoint" => stored(&mut line, console.checkpoint(number(words, 0))?),
        "send" => spell(
            &mut line,
            [console.send(number(words, 0), number(words, 1))?],
        ),
        "deliver" => delivered(&mut line, console.deliver(number(words, 0))?),
        "lose" => console.lose(number(words, 0))?,
        "line" => {
            let members = console.line(number(words, 0))?;
            spell(&mut line, members.into_iter().map(or_none));
        }
        "recover" => recovered(&mut line, console.recover(number(words, 0))?),
        "earliest" => spell(&mut line, console.earliest(&named(words))?),
        "list" => spell(&mut line, pairs(&console.list()?)),
        "counts" => spell(&mut line, console.counts()?),
        _ => panic!("no such call: {call}"),
    }
    Ok(line)
}

/// A call through the recorder. Questions are asked of its run.
fn recorded(held: &mut Option<Recorder>, call: &str, words: &[&str]) -> Result<String, Refusal> {
    let mut line = String::new();
    if call == "start" {
        *held = Some(Recorder::start(&numbers(words))?);
        return Ok(line);
    }
    let recorder = held.as_mut().expect("a recorder is started first");
    match call {
        "checkpoint" => stored(&mut line, recorder.checkpoint(number(words, 0))?),
        "send" => spell(
            &mut line,
            [recorder.send(number(words, 0), number(words, 1))?],
        ),
        "deliver" => delivered(&mut line, recorder.deliver(number(words, 0))?),
        "lose" => recorder.lose(number(words, 0))?,
        "recover" => recovered(&mut line, recorder.recover(number(words, 0))?),
        "line" => spell(&mut line, recorder.run().line(number(words, 0))?),
        "earliest" => spell(&mut line, recorder.run().earliest(&named(words))?),
        "trace" => spell(&mut line, [digits(recorder.trace())]),
        _ => panic!("no such call: {call}"),
    }
    Ok(line)
}

fn stored(line: &mut String, stored: Stored) {
    spell(line, [stored.index]);
    spell(line, pairs(&stored.deleted));
}

fn delivered(line: &mut String, delivered: Delivered) {
    spell(line, [or_none(delivered.forced)]);
    spell(line, [delivered.rose]);
    spell(line, pairs(&delivered.deleted));
}

fn recovered(line: &mut String, recovered: Recovered) {
    spell(line, [recovered.rolled_back]);
    spell(line, recovered.line);
    spell(line, pairs(&recovered.deleted));
}

fn spell<T: Display>(line: &mut String, words: impl IntoIterator<Item = T>) {
    for word in words {
        line.push_str(&format!(" {word}"));
    }
}

fn pairs(checkpoints: &[Checkpoint]) -> Vec<String> {
    checkpoints
        .iter()
        .map(|(process, index)| format!("{process}:{index}"))
        .collect()
}

fn three(message: Message) -> String {
    format!("{}:{}:{}", message.number, message.sender, message.receiver)
}

fn or_none(index: Option<u16>) -> String {
    index.map_or("-".to_string(), |index| index.to_string())
}

fn number<T: std::str::FromStr>(words: &[&str], place: usize) -> T {
    words[place]
        .parse()
        .unwrap_or_else(|_| panic!("no number: {}", words[place]))
}

fn numbers(words: &[&str]) -> Vec<u32> {
    (0..words.len()).map(|place| number(words, place)).collect()
}

fn named(words: &[&str]) -> Vec<(u32, u32)> {
    words.iter().map(|pair| split(pair)).collect()
}

fn split<T: std::str::FromStr>(pair: &str) -> (T, T) {
    let (first, second) = pair.split_once(':').expect("a pair");
    (number(&[first], 0), number(&[second], 0))
}

/// Words that are zero but in some places.
fn spread(words: &[&str]) -> Vec<u16> {
    let mut all = vec![0; number(words, 0)];
    for pair in &words[1..] {
        let (place, word): (usize, usize) = split(pair);
        all[place] = word as u16;
    }
    all
}

fn bytes(digits: &str) -> Vec<u8> {
    let places = (0..digits.len() / 2).map(|k| &digits[2 * k..2 * k + 2]);
    places
        .map(|two| u8::from_str_radix(two, 16).expect("two digits"))
        .collect()
}

fn digits(bytes: &[u8]) -> String {
    if bytes.is_empty() {
        return "-".to_string();
    }
    bytes.iter().map(|byte| format!("{byte:02x}")).collect()
}

fn dump(run: &Run, name: &str) -> io::Result<String> {
    let bytes: Vec<u8> = run
        .words()
        .iter()
        .flat_map(|word| word.to_le_bytes())
        .collect();
    std::fs::write(name, bytes)?;
    Ok(String::new())
}

fn take(name: &str) -> io::Result<Run> {
    let bytes = std::fs::read(name)?;
    let word = |pair: &[u8]| u16::from_le_bytes([pair[0], pair[1]]);
    let words: Vec<u16> = bytes.chunks_exact(2).map(word).collect();
    Ok(Run::from_words(&words))
}

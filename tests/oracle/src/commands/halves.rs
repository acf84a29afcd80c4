//! `oracle halves SEED FIRST SECOND` writes the two halves of a seed (Note 12) to the files
//! FIRST and SECOND and prints the set of the processes that belong to the first.
//! `oracle::halves::draw` says what is drawn.

use std::process::ExitCode;

pub fn run(words: &[String]) -> ExitCode {
    let [seed, first, second] = words else {
        return usage();
    };
    let Ok(seed) = seed.parse() else {
        return usage();
    };
    let halves = oracle::halves::draw::drawn(seed);
    let written =
        std::fs::write(first, &halves.first).and_then(|()| std::fs::write(second, &halves.second));
    if let Err(error) = written {
        eprintln!("halves: {error}");
        return ExitCode::FAILURE;
    }
    println!("{}", halves.word);
    ExitCode::SUCCESS
}

fn usage() -> ExitCode {
    eprintln!("usage: oracle halves SEED FIRST SECOND");
    ExitCode::from(2)
}

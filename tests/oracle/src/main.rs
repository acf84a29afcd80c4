//! `oracle COMMAND ..`: replays, draws, judges and compares, as its first word
//! says. The file of a command in `commands` says what it does.

mod commands;

use std::ffi::OsString;
use std::io;
use std::process::ExitCode;

fn main() -> ExitCode {
    let mut words = std::env::args_os().skip(1);
    let command = words.next().and_then(|word| word.into_string().ok());
    let words: Vec<OsString> = words.collect();
    match command.as_deref() {
        Some("replay") => commands::replay::run(&words),
        Some("cases") => commands::replay::cases(&words),
        Some(command) => in_text(command, words),
        None => usage(),
    }
}

/// The commands whose words are all text.
fn in_text(command: &str, words: Vec<OsString>) -> ExitCode {
    let words: Result<Vec<String>, OsString> =
        words.into_iter().map(OsString::into_string).collect();
    let Ok(words) = words else {
        return usage();
    };
    let words = &words[..];
    match command {
        "binding_calls" => commands::binding_calls::run(words),
        "console" => said(commands::console::run(words)),
        "console_soak" => commands::console_soak::run(words),
        "generate" => commands::generate::run(words),
        "halves" => commands::halves::run(words),
        "judge" => said(commands::judge::run(words)),
        "judge_soak" => commands::judge_soak::run(words),
        "merge" => commands::merge::run(words),
        "merge_soak" => commands::merge_soak::run(words),
        "record" => said(commands::record::run(words)),
        "record_soak" => commands::record_soak::run(words),
        "simulate" => said(commands::simulate::run(words)),
        "soak" => commands::soak::run(words),
        "word_states" => commands::word_states::run(words),
        _ => usage(),
    }
}

/// An error of the system is said as it is.
fn said(outcome: io::Result<()>) -> ExitCode {
    match outcome {
        Ok(()) => ExitCode::SUCCESS,
        Err(error) => {
            eprintln!("oracle: {error}");
            ExitCode::FAILURE
        }
    }
}

fn usage() -> ExitCode {
    eprintln!("usage: oracle COMMAND ..; README.md has the commands");
    ExitCode::from(2)
}

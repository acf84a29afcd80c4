//! `oracle word_states FILE..` prints the state that the words in each file stand for, one
//! to a line, as `binding_calls` writes states. A file has the low byte of each word
//! first, or is a saved state. Words that stand for no state print `None`.

use oracle::saved;
use std::process::ExitCode;

pub fn run(words: &[String]) -> ExitCode {
    for name in words {
        let bytes = match std::fs::read(name) {
            Ok(bytes) => bytes,
            Err(error) => {
                eprintln!("word_states: {name}: {error}");
                return ExitCode::FAILURE;
            }
        };
        let word = |pair: &[u8]| u16::from_le_bytes([pair[0], pair[1]]);
        let plain = || bytes.chunks_exact(2).map(word).collect();
        let words = saved::loaded(&bytes).unwrap_or_else(plain);
        match oracle::words::state(&words) {
            Some(state) => println!("{state:?}"),
            None => println!("None"),
        }
    }
    ExitCode::SUCCESS
}

//! `oracle console < SCRIPT` makes the console calls of a script (Note 13) and
//! prints their facts. `console SEED` prints the script of a seed.

use std::io::{self, ErrorKind, Read, Write};

pub fn run(words: &[String]) -> io::Result<()> {
    if let Some(seed) = words.first() {
        let seed = seed.parse().map_err(|_| ErrorKind::InvalidInput)?;
        return io::stdout().write_all(&oracle::console::scripts::script(seed));
    }
    let mut script = Vec::new();
    io::stdin().read_to_end(&mut script)?;
    io::stdout().write_all(oracle::console::facts(&script).as_bytes())
}

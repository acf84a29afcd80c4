//! `oracle simulate N SPACING STEPS SEED` prints the figures of a simulation
//! (Note 10), `simulate N FROM-TO STEPS SEED` a table of spacings.

use std::io::{self, Write};

pub fn run(words: &[String]) -> io::Result<()> {
    let words: Vec<&str> = words.iter().map(|word| word.as_str()).collect();
    match oracle::simulate::text(&words) {
        Some(text) => io::stdout().write_all(text.as_bytes()),
        None => writeln!(io::stderr(), "usage: oracle simulate N SPACING STEPS SEED"),
    }
}

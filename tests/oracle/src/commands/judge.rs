//! `oracle judge < TRACE` prints the oracle's verdict on the trace of another
//! run-time (Note 7), one line: `trackable`, `breaks P:K Q:X` or `refused R`.

use std::io::{self, Read, Write};

pub fn run(_: &[String]) -> io::Result<()> {
    let mut trace = Vec::new();
    io::stdin().read_to_end(&mut trace)?;
    writeln!(io::stdout(), "{}", oracle::judge::judge(&trace))
}

//! `oracle record [BYTES] < TRACE` plays a trace through a recorder (Note 9) with
//! a buffer of that many bytes, as many as are needed if not given, and prints what
//! was recorded, and on standard error a line for each record that was refused.

use std::io::{self, ErrorKind, Read, Write};

pub fn run(words: &[String]) -> io::Result<()> {
    let mut trace = Vec::new();
    io::stdin().read_to_end(&mut trace)?;
    let room = match words.first() {
        None => trace.len(),
        Some(bytes) => bytes.parse().map_err(|_| ErrorKind::InvalidInput)?,
    };
    let recording = oracle::run::record::recorded(&trace, room);
    io::stderr().write_all(recording.lines.as_bytes())?;
    io::stdout().write_all(&recording.bytes)
}

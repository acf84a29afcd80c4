//! Drives machines by the Rust crate. Each line of standard input is a case: README.md has its words. What is written goes to NAME.out, what is said to NAME.err, and 3 to
//! NAME.status if the system failed, 0 if not.

use lemidrosy::{drive, Machine};
use std::fs;
use std::io::{self, BufRead, Read, Write};

const EISDIR: i32 = 21;
const ENOSPC: i32 = 28;

/// Bytes that come in odd pieces, by a seed; whole with seed 0; not at all without one.
struct Pieces {
    data: Vec<u8>,
    at: usize,
    seed: Option<u32>,
}

impl Read for Pieces {
    fn read(&mut self, to: &mut [u8]) -> io::Result<usize> {
        let seed = self
            .seed
            .ok_or_else(|| io::Error::from_raw_os_error(EISDIR))?;
        let mut size = to.len().min(self.data.len() - self.at);
        if seed != 0 {
            let next = seed.wrapping_mul(1_664_525).wrapping_add(1_013_904_223);
            self.seed = Some(next.max(1));
            size = size.min(1 + (next >> 16) as usize % to.len().min(97));
        }
        to[..size].copy_from_slice(&self.data[self.at..self.at + size]);
        self.at += size;
        Ok(size)
    }
}

/// It takes that many writes, then no more. A write takes five bytes less than it is handed, where there are as many.
struct Full {
    data: Vec<u8>,
    left: usize,
    is_begun: bool,
}

impl Write for Full {
    fn write(&mut self, part: &[u8]) -> io::Result<usize> {
        if !self.is_begun {
            self.left = self
                .left
                .checked_sub(1)
                .ok_or_else(|| io::Error::from_raw_os_error(ENOSPC))?;
        }
        self.is_begun = part.len() > 5;
        let size = if self.is_begun {
            part.len() - 5
        } else {
            part.len()
        };
        self.data.extend(&part[..size]);
        Ok(size)
    }

    fn flush(&mut self) -> io::Result<()> {
        Ok(())
    }
}

fn main() -> io::Result<()> {
    for line in io::stdin().lock().lines() {
        let line = line?;
        let parts: Vec<&str> = line.split(' ').collect();
        let [name, program, reads, writes] = parts[..] else {
            panic!("{line}")
        };
        let mut machine = match program {
            "judge" => Machine::judge(),
            "replay" => Machine::replay(),
            "record" => Machine::record(),
            "merge" => Machine::merge(),
            "simulate" => Machine::simulate(),
            _ => Machine::console(),
        };
        let mut input = Pieces {
            data: fs::read(format!("{name}.in"))?,
            at: 0,
            seed: reads.parse().ok(),
        };
        let mut output = Full {
            data: Vec::new(),
            left: writes.parse().unwrap_or(usize::MAX),
            is_begun: false,
        };
        let mut errors = Vec::new();
        // each word ends with a zero
        let listed = fs::read(format!("{name}.words"))?;
        let mut words: Vec<&[u8]> = listed.split(|byte| *byte == 0).collect();
        words.pop();
        let ended = drive(&mut machine, &words, &mut input, &mut output, &mut errors);
        fs::write(format!("{name}.out"), &output.data)?;
        fs::write(format!("{name}.err"), &errors)?;
        fs::write(
            format!("{name}.status"),
            if ended.is_ok() { "0\n" } else { "3\n" },
        )?;
    }
    Ok(())
}

//! Traces of other run-times (Note 7): every checkpoint is recorded as kind 0,
//! and each run-time has a rule of its own for when to take one.

use super::{Order, Random, Trace, CHECKPOINT, DELIVER, LOSE, MAX_UNDER_WAY, RECOVER, SEND};
use std::io::{self, Write};

/// The most records that may be judged.
const MOST: u64 = 4096;

/// How many records a foreign trace has where it is not said: mostly few, as
/// the first break of a long one is nearly always early.
pub(super) fn drawn_records(random: &mut Random) -> u64 {
    let few = match random.below(64) {
        0 => return MOST - 1 + random.below(3) as u64,
        1..=20 => random.below(13),
        21..=44 => random.below(61),
        _ => random.below(401),
    };
    few as u64
}

/// When a process takes a checkpoint besides those that come anyway. All but
/// `Never` make a trace trackable, if they are kept.
#[derive(Clone, Copy, PartialEq)]
enum Rule {
    Never,
    AfterEachSend,
    BeforeEachReceipt,
    /// Before a receipt, if it has sent since its last checkpoint.
    NoReceiptAfterSend,
}

/// How a run-time behaves.
struct RunTime {
    rule: Rule,
    /// The rule is forgotten once in that many times; 0 for never.
    forgetful: u32,
    /// Processes below this one never forget it.
    careful: u32,
    /// Which processes have sent since their last checkpoint.
    sent: [bool; 16],
}

impl RunTime {
    fn drawn(random: &mut Random, n: u32) -> RunTime {
        use Rule::*;
        RunTime {
            rule: random.one_of(&[
                Never,
                Never,
                AfterEachSend,
                BeforeEachReceipt,
                NoReceiptAfterSend,
                NoReceiptAfterSend,
            ]),
            forgetful: random.one_of(&[0, 0, 4, 16, 64]),
            careful: random.one_of(&[0, 0, 1, n / 2, n - 1]),
            sent: [false; 16],
        }
    }
}

impl<W: Write> Trace<W> {
    /// One trace in eight is a domino pattern, and one in four has a refused
    /// record somewhere.
    pub(super) fn foreign(&mut self) -> io::Result<()> {
        match self.random.below(96) {
            0 => return Ok(()),
            1..=3 => {
                let byte = self.random.one_of(&[0, 17, 255]);
                self.byte(byte);
            }
            _ => self.byte(self.n),
        }
        self.weights.recover = 0;
        let refused_from = match self.random.below(4) {
            0 => self.random.below(self.records as u32 + 1) as u64,
            _ => self.records,
        };
        let domino = self.n > 1 && self.random.once_in(8);
        let flood = self.n > 1 && self.random.once_in(64);
        let mut run_time = RunTime::drawn(&mut self.random, self.n);
        if flood {
            self.flood()?;
        }
        let mut refused = false;
        while !self.done() {
            if self.written >= refused_from && (!refused || self.random.once_in(4)) {
                self.refused_foreign_record()?;
                refused = true;
            } else if domino {
                self.domino(&mut run_time)?;
            } else {
                self.foreign_record(&mut run_time)?;
            }
        }
        if self.random.once_in(8) {
            for _ in 0..1 + self.random.below(3) {
                let byte = self.random.below(256);
                self.byte(byte);
            }
        }
        Ok(())
    }

    fn foreign_record(&mut self, run_time: &mut RunTime) -> io::Result<()> {
        match self.weights.draw(&mut self.random) {
            CHECKPOINT => {
                let process = self.any_process();
                return self.foreign_checkpoint(run_time, process);
            }
            DELIVER => {
                if let Some(message) = self.take() {
                    return self.foreign_receipt(run_time, message.number, message.receiver);
                }
            }
            LOSE => {
                if let Some(message) = self.take() {
                    return self.record(LOSE, 0, message.number);
                }
            }
            _ => {}
        }
        let sender = self.any_process();
        if self.n > 1 && self.under_way.len() < MAX_UNDER_WAY {
            let receiver = self.other_process(sender);
            return self.foreign_send(run_time, sender, receiver).map(|_| ());
        }
        match self.take() {
            Some(message) => self.foreign_receipt(run_time, message.number, message.receiver),
            None => self.foreign_checkpoint(run_time, sender),
        }
    }

    fn foreign_checkpoint(&mut self, run_time: &mut RunTime, process: u32) -> io::Result<()> {
        run_time.sent[process as usize] = false;
        self.checkpoint(process)
    }

    fn foreign_send(&mut self, run_time: &mut RunTime, from: u32, to: u32) -> io::Result<u32> {
        let number = self.send(from, to)?;
        run_time.sent[from as usize] = true;
        if run_time.rule == Rule::AfterEachSend && self.remembers(run_time, from) {
            self.foreign_checkpoint(run_time, from)?;
        }
        Ok(number)
    }

    fn foreign_receipt(&mut self, run_time: &mut RunTime, number: u32, at: u32) -> io::Result<()> {
        let due = match run_time.rule {
            Rule::Never | Rule::AfterEachSend => false,
            Rule::BeforeEachReceipt => true,
            Rule::NoReceiptAfterSend => run_time.sent[at as usize],
        };
        if due && self.remembers(run_time, at) {
            self.foreign_checkpoint(run_time, at)?;
        }
        self.take_number(number);
        self.deliver(number, at)
    }

    fn remembers(&mut self, run_time: &RunTime, process: u32) -> bool {
        process < run_time.careful
            || run_time.forgetful == 0
            || !self.random.once_in(run_time.forgetful)
    }

    /// One round of the pattern in which no checkpoint but the first ones can be
    /// used: each process receives, takes a checkpoint and sends to the other,
    /// in turns. Now and then a message of it is lost or late, or something else
    /// comes between.
    fn domino(&mut self, run_time: &mut RunTime) -> io::Result<()> {
        let fixed = matches!(self.order, Order::OldestFirst | Order::NewestFirst);
        let one = if fixed {
            self.n - 1
        } else {
            self.any_process()
        };
        let other = if fixed { 0 } else { self.other_process(one) };
        for (sender, receiver) in [(one, other), (other, one)] {
            if self.under_way.len() == MAX_UNDER_WAY {
                let message = self.under_way.remove(0);
                self.record(LOSE, 0, message.number)?;
            }
            let number = self.send(sender, receiver)?;
            match self.random.below(32) {
                0 => {
                    self.take_number(number);
                    self.record(LOSE, 0, number)?;
                }
                1 => {}
                2 => self.foreign_record(run_time)?,
                _ => {
                    self.take_number(number);
                    self.deliver(number, receiver)?;
                }
            }
            self.checkpoint(receiver)?;
        }
        Ok(())
    }

    /// Sends until 64 are under way, and at times once more.
    fn flood(&mut self) -> io::Result<()> {
        while self.under_way.len() < MAX_UNDER_WAY {
            self.any_send()?;
        }
        if self.random.once_in(2) {
            let sender = self.any_process();
            let receiver = self.other_process(sender);
            self.record(SEND, sender, receiver)?;
        }
        Ok(())
    }

    /// Often a recovery, which such a trace may not have.
    fn refused_foreign_record(&mut self) -> io::Result<()> {
        match self.random.below(4) {
            0 => {
                let failed = self.any_failed_set();
                self.record(RECOVER, 0, failed)
            }
            1 => self.bad_record(),
            _ => self.refused_record(),
        }
    }
}

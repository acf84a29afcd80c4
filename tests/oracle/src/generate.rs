//! Random traces by seed; the same arguments always give the same bytes.
//!
//! What is not given is drawn from the seed: N from 1 to 16, COUNT from 0 to
//! 400, the mix mostly valid, mixed, recovering or damaged (limits for one seed
//! in 64; its default COUNT is a little above 66,000, as less would not reach a
//! limit).
//!
//! * valid: nearly every record is accepted; the others deliver or lose a
//!   message that a recovery has lost. How often each kind comes, and in which
//!   order messages are taken, is drawn from the seed. One recovery in eight is
//!   of nobody.
//! * recovering: as valid, with a recovery every few records, and deliveries
//!   after each.
//! * mixed: also records that a run refuses.
//! * damaged: also records of unused kinds or with fields that must be zero
//!   and are not, left-over bytes at the end, a bad first byte, an empty
//!   trace, a trace of the first byte alone. (These last three hold fewer
//!   records than COUNT, or none that count.)
//! * limits: runs one process into own entry 65,535 and, from 2,400,000 records
//!   on and with two processes or more, uses up the message numbers.
//! * foreign: traces of other run-times, with rules of their own for when to
//!   take a checkpoint, kept more or less; domino patterns; records that are
//!   refused, recoveries among them; left-over bytes; bad first bytes. It is
//!   drawn for no seed. Its COUNT, if not given, is mostly small, and for one
//!   seed in 64 from 4,095 to 4,097.
//!
//! The rules of a run are not known here, only which message numbers are
//! perhaps under way, no other one being so, and how many checkpoints a process
//! can have stored at most. It streams: the memory used does not depend on
//! COUNT.

mod foreign;

use std::io::{self, Write};
use std::path::Path;

/// The most records that a trace may be asked for.
pub const MAX_RECORDS: u64 = 1_000_000_000;
const MAX_UNDER_WAY: usize = 64;
const MESSAGE_NUMBERS: u64 = 1_000_000;
/// How many checkpoints a process can store after its start.
const CHECKPOINTS: u64 = 65_534;
/// With this many records left, `limits` also uses up the message numbers.
const ENOUGH_FOR_ALL_NUMBERS: u64 = 2_300_000;
/// How many arguments a record's field can hold.
const ARGUMENTS: u32 = 1 << 25;

/// The trace of these arguments, which are in the usage: its bytes, and the same
/// in a file.
pub fn trace_in(file: &Path, arguments: &[String]) -> io::Result<Vec<u8>> {
    let plan = Plan::from_arguments(arguments).expect("they are in the usage");
    let mut trace = Vec::new();
    write_trace(plan, &mut trace)?;
    std::fs::write(file, &trace)?;
    Ok(trace)
}

/// The arguments of the trace of a seed where every second one is damaged and the
/// others are what their seed draws.
pub fn half_damaged(seed: u64) -> Vec<String> {
    let mut arguments = vec![seed.to_string()];
    if seed % 2 == 0 {
        arguments.push("--mix".to_string());
        arguments.push("damaged".to_string());
    }
    arguments
}

/// Writes the trace that the plan says.
pub fn write_trace<W: Write>(plan: Plan, output: W) -> io::Result<()> {
    let mut trace = Trace::new(plan, output);
    match plan.mix {
        Mix::Valid => trace.valid()?,
        Mix::Recovering => trace.recovering()?,
        Mix::Mixed => trace.mixed()?,
        Mix::Damaged => trace.damaged()?,
        Mix::Limits => trace.limits()?,
        Mix::Foreign => trace.foreign()?,
    }
    trace.flush()
}

// ---------------------------------------------------------------- the plan

#[derive(Clone, Copy, PartialEq)]
enum Mix {
    Valid,
    Recovering,
    Mixed,
    Damaged,
    Limits,
    Foreign,
}

/// Which trace: the seed and what was drawn from it or given.
#[derive(Clone, Copy)]
pub struct Plan {
    random: Random,
    n: u32,
    records: u64,
    mix: Mix,
}

impl Plan {
    /// The plan that `SEED [--n N] [--records COUNT] [--mix MIX]` says.
    pub fn from_arguments(arguments: &[String]) -> Option<Plan> {
        let (seed, options) = arguments.split_first()?;
        let mut random = Random::of_seed(seed.parse().ok()?);
        // All defaults are drawn, needed or not, so that giving one of them
        // changes nothing about the others.
        let drawn_n = 1 + random.below(16);
        let drawn_records = random.below(401) as u64;
        let drawn_mix = match random.below(64) {
            0..=19 => Mix::Valid,
            20..=27 => Mix::Recovering,
            28..=47 => Mix::Mixed,
            48..=62 => Mix::Damaged,
            _ => Mix::Limits,
        };
        let (mut n, mut records, mut mix) = (None, None, None);
        for option in options.chunks(2) {
            let [name, value] = option else { return None };
            match name.as_str() {
                "--n" => n = Some(value.parse().ok().filter(|n| (1..=16).contains(n))?),
                "--records" => {
                    records = Some(value.parse().ok().filter(|count| *count <= MAX_RECORDS)?)
                }
                "--mix" => mix = Some(mix_named(value)?),
                _ => return None,
            }
        }
        let mix = mix.unwrap_or(drawn_mix);
        let drawn_records = match mix {
            Mix::Limits => 66_000 + drawn_records,
            Mix::Foreign => foreign::drawn_records(&mut random),
            _ => drawn_records,
        };
        Some(Plan {
            random,
            n: n.unwrap_or(drawn_n),
            records: records.unwrap_or(drawn_records),
            mix,
        })
    }
}

fn mix_named(name: &str) -> Option<Mix> {
    match name {
        "valid" => Some(Mix::Valid),
        "recovering" => Some(Mix::Recovering),
        "mixed" => Some(Mix::Mixed),
        "damaged" => Some(Mix::Damaged),
        "limits" => Some(Mix::Limits),
        "foreign" => Some(Mix::Foreign),
        _ => None,
    }
}

// -------------------------------------------------------- random numbers

/// The generator known as splitmix64.
#[derive(Clone, Copy)]
pub(crate) struct Random(u64);

impl Random {
    pub(crate) fn of_seed(seed: u64) -> Random {
        Random(seed)
    }

    fn next(&mut self) -> u64 {
        self.0 = self.0.wrapping_add(0x9E37_79B9_7F4A_7C15);
        let mut mixed = self.0;
        mixed = (mixed ^ (mixed >> 30)).wrapping_mul(0xBF58_476D_1CE4_E5B9);
        mixed = (mixed ^ (mixed >> 27)).wrapping_mul(0x94D0_49BB_1331_11EB);
        mixed ^ (mixed >> 31)
    }

    /// From 0 to `bound - 1`.
    pub(crate) fn below(&mut self, bound: u32) -> u32 {
        (((self.next() >> 32) * bound as u64) >> 32) as u32
    }

    /// True once in `times`.
    pub(crate) fn once_in(&mut self, times: u32) -> bool {
        self.below(times) == 0
    }

    pub(crate) fn one_of<T: Copy>(&mut self, choices: &[T]) -> T {
        choices[self.below(choices.len() as u32) as usize]
    }
}

// ---------------------------------------------------------------- records

const CHECKPOINT: u32 = 0;
const SEND: u32 = 1;
const DELIVER: u32 = 2;
const LOSE: u32 = 3;
const RECOVER: u32 = 4;

/// How often each kind comes in a valid record, relative to the others.
#[derive(Clone, Copy)]
struct Weights {
    checkpoint: u32,
    send: u32,
    deliver: u32,
    lose: u32,
    recover: u32,
}

/// The weights of `recovering`: checkpoints and deliveries enough that messages
/// are sent before a checkpoint, outlive a rollback and are delivered after it.
const RECOVERING: Weights = Weights {
    checkpoint: 24,
    send: 32,
    deliver: 28,
    lose: 1,
    recover: 15,
};

impl Weights {
    fn drawn(random: &mut Random) -> Weights {
        Weights {
            checkpoint: random.one_of(&[1, 4, 12, 24]),
            send: random.one_of(&[16, 32, 64]),
            deliver: random.one_of(&[2, 16, 32, 64]),
            lose: random.one_of(&[0, 1, 1, 4, 16]),
            recover: random.one_of(&[0, 1, 1, 2, 4, 16]),
        }
    }

    fn draw(&self, random: &mut Random) -> u32 {
        let total = self.checkpoint + self.send + self.deliver + self.lose + self.recover;
        let mut drawn = random.below(total);
        for (kind, weight) in [
            (CHECKPOINT, self.checkpoint),
            (SEND, self.send),
            (DELIVER, self.deliver),
            (LOSE, self.lose),
        ] {
            if drawn < weight {
                return kind;
            }
            drawn -= weight;
        }
        RECOVER
    }
}

/// In which order messages under way are taken.
#[derive(Clone, Copy)]
enum Order {
    Any,
    OldestFirst,
    NewestFirst,
}

/// A message that is under way, unless a recovery has lost it.
#[derive(Clone, Copy)]
struct UnderWay {
    number: u32,
    sender: u32,
    receiver: u32,
    /// How many checkpoints its sender can have stored before the send at most.
    stored_before: u64,
    /// No recovery came since the send.
    sure: bool,
}

/// A trace being written, and the little that is known of the run.
struct Trace<W> {
    random: Random,
    n: u32,
    output: W,
    buffer: Vec<u8>,

    records: u64,
    written: u64,
    next_pause: u64,

    weights: Weights,
    order: Order,
    under_way: Vec<UnderWay>,
    sends: u64,
    /// How many checkpoints each process can have stored at most: its
    /// checkpoint records and all deliveries to it, each of which may force one.
    stored: [u64; 16],
    /// How far `sends` and `stored` may go for now, see `pace`.
    send_allowance: u64,
    store_allowance: u64,
}

impl<W: Write> Trace<W> {
    fn new(plan: Plan, output: W) -> Self {
        let mut random = plan.random;
        let weights = Weights::drawn(&mut random);
        let order = random.one_of(&[
            Order::Any,
            Order::Any,
            Order::OldestFirst,
            Order::NewestFirst,
        ]);
        Trace {
            random,
            n: plan.n,
            output,
            buffer: Vec::with_capacity(1 << 16),
            records: plan.records,
            written: 0,
            next_pause: 0,
            weights,
            order,
            under_way: Vec::with_capacity(MAX_UNDER_WAY),
            sends: 0,
            stored: [0; 16],
            send_allowance: 0,
            store_allowance: 0,
        }
    }

    fn done(&self) -> bool {
        self.written == self.records
    }

    fn left(&self) -> u64 {
        self.records - self.written
    }

    fn byte(&mut self, byte: u32) {
        self.buffer.push(byte as u8);
    }

    /// Writes a record, unless the trace already has all its records.
    fn record(&mut self, kind: u32, process: u32, argument: u32) -> io::Result<()> {
        if self.done() {
            return Ok(());
        }
        let record = kind << 29 | process << 25 | argument;
        self.buffer.extend_from_slice(&record.to_be_bytes());
        self.written += 1;
        if self.buffer.len() > (1 << 16) - 8 {
            self.write_out()?;
        }
        Ok(())
    }

    fn write_out(&mut self) -> io::Result<()> {
        self.output.write_all(&self.buffer)?;
        self.buffer.clear();
        Ok(())
    }

    fn flush(&mut self) -> io::Result<()> {
        self.write_out()?;
        self.output.flush()
    }
}

// ------------------------------------------------------------ single events

impl<W: Write> Trace<W> {
    fn any_process(&mut self) -> u32 {
        self.random.below(self.n)
    }

    fn other_process(&mut self, process: u32) -> u32 {
        (process + 1 + self.random.below(self.n - 1)) % self.n
    }

    fn checkpoint(&mut self, process: u32) -> io::Result<()> {
        self.stored[process as usize] += 1;
        self.record(CHECKPOINT, process, 0)
    }

    /// Gives the number that the message should have.
    fn send(&mut self, sender: u32, receiver: u32) -> io::Result<u32> {
        self.sends += 1;
        let number = self.sends as u32;
        self.under_way.push(UnderWay {
            number,
            sender,
            receiver,
            stored_before: self.stored[sender as usize],
            sure: true,
        });
        self.record(SEND, sender, receiver)?;
        Ok(number)
    }

    fn deliver(&mut self, number: u32, receiver: u32) -> io::Result<()> {
        self.stored[receiver as usize] += 1;
        self.record(DELIVER, 0, number)
    }

    /// A failed process goes back to a checkpoint, so what it sent since its
    /// last one is lost. Every other message may be lost or not, and stays in
    /// the list: it never has fewer than are under way, so no send that is
    /// counted here is refused, and the numbers stay right. Where nobody failed
    /// none is lost.
    fn recover(&mut self, failed: u32) -> io::Result<()> {
        let stored = &self.stored;
        self.under_way.retain(|message| {
            let sender = message.sender as usize;
            failed >> sender & 1 == 0 || message.stored_before < stored[sender]
        });
        for message in &mut self.under_way {
            message.sure &= failed == 0;
        }
        self.record(RECOVER, 0, failed)
    }

    /// Takes one message off the list of those under way.
    fn take(&mut self) -> Option<UnderWay> {
        if self.under_way.is_empty() {
            return None;
        }
        let place = match self.order {
            Order::Any => self.random.below(self.under_way.len() as u32) as usize,
            Order::OldestFirst => 0,
            Order::NewestFirst => self.under_way.len() - 1,
        };
        Some(self.under_way.remove(place))
    }

    /// Takes the message of this number off the list.
    fn take_number(&mut self, number: u32) {
        self.under_way.retain(|message| message.number != number);
    }

    /// Loses every message that may be lost already: the list is exact then.
    fn lose_unsure(&mut self) -> io::Result<()> {
        while let Some(place) = self.under_way.iter().position(|message| !message.sure) {
            let message = self.under_way.remove(place);
            self.record(LOSE, 0, message.number)?;
        }
        Ok(())
    }

    /// The empty set is a sweep.
    fn any_failed_set(&mut self) -> u32 {
        match self.random.below(8) {
            0 => 0,
            1..=4 => 1 << self.any_process(),
            _ => 1 + self.random.below((1 << self.n) - 1),
        }
    }
}

// ---------------------------------------------------- valid and recovering

impl<W: Write> Trace<W> {
    fn valid(&mut self) -> io::Result<()> {
        self.byte(self.n);
        while !self.done() {
            self.valid_record()?;
        }
        Ok(())
    }

    fn recovering(&mut self) -> io::Result<()> {
        self.weights = RECOVERING;
        self.valid()
    }

    /// A long trace must not use up the message numbers or the intervals in
    /// its beginning. Once in a while the allowances rise, in step with the
    /// records written; what is drawn past them is replaced by something else.
    fn pace(&mut self) {
        if self.written < self.next_pause {
            return;
        }
        self.next_pause = (self.written + (1 << 16)).min(self.records);
        let share = |whole: u64| whole * self.next_pause / self.records;
        (self.send_allowance, self.store_allowance) = (share(MESSAGE_NUMBERS), share(CHECKPOINTS));
    }

    fn may_send(&self) -> bool {
        self.n > 1 && self.under_way.len() < MAX_UNDER_WAY && self.sends < self.send_allowance
    }

    fn may_store(&self, process: u32) -> bool {
        self.stored[process as usize] < self.store_allowance
    }

    fn valid_record(&mut self) -> io::Result<()> {
        self.pace();
        match self.weights.draw(&mut self.random) {
            CHECKPOINT => {
                let process = self.any_process();
                if self.may_store(process) {
                    return self.checkpoint(process);
                }
            }
            SEND if self.may_send() => return self.any_send(),
            DELIVER => {
                if let Some(message) = self.take() {
                    return self.deliver_if_it_may(message);
                }
            }
            LOSE => {
                if let Some(message) = self.take() {
                    return self.record(LOSE, 0, message.number);
                }
            }
            RECOVER => {
                let failed = self.any_failed_set();
                return self.recover(failed);
            }
            _ => {}
        }
        self.valid_record_instead()
    }

    /// In place of a record that would be refused now.
    fn valid_record_instead(&mut self) -> io::Result<()> {
        if self.may_send() {
            return self.any_send();
        }
        if let Some(message) = self.take() {
            return self.deliver_if_it_may(message);
        }
        let process = self.any_process();
        if self.may_store(process) {
            return self.checkpoint(process);
        }
        let failed = self.any_failed_set();
        self.recover(failed)
    }

    fn any_send(&mut self) -> io::Result<()> {
        let sender = self.any_process();
        let receiver = self.other_process(sender);
        self.send(sender, receiver).map(|_| ())
    }

    fn deliver_if_it_may(&mut self, message: UnderWay) -> io::Result<()> {
        if self.may_store(message.receiver) {
            self.deliver(message.number, message.receiver)
        } else {
            self.record(LOSE, 0, message.number)
        }
    }
}

// ------------------------------------------------------------------- mixed

impl<W: Write> Trace<W> {
    fn mixed(&mut self) -> io::Result<()> {
        self.byte(self.n);
        let times = self.random.one_of(&[2, 4, 8, 16, 32]);
        while !self.done() {
            if self.random.once_in(times) {
                self.refused_record()?;
            } else {
                self.valid_record()?;
            }
        }
        Ok(())
    }

    /// A record that a run refuses, whatever its state (or, for a message
    /// number, very likely).
    fn refused_record(&mut self) -> io::Result<()> {
        // A send too many can only be had while 64 are surely under way.
        if self.surely_full() && self.random.once_in(2) {
            let sender = self.any_process();
            let receiver = self.other_process(sender);
            return self.record(SEND, sender, receiver);
        }
        match self.random.below(6) {
            0 => {
                let process = self.process_outside().unwrap_or(0);
                let kind = if self.n < 16 { CHECKPOINT } else { LOSE };
                self.record(kind, process, 0)
            }
            1 => {
                let process = self.any_process();
                self.record(SEND, process, process)
            }
            2 => {
                let sender = self.any_process();
                let receiver = self.receiver_outside();
                self.record(SEND, sender, receiver)
            }
            3 => {
                let sender = self.process_outside().unwrap_or(0);
                let receiver = self.random.one_of(&[sender, 0, self.n - 1]);
                let receiver = if self.n < 16 { receiver } else { sender };
                self.record(SEND, sender, receiver)
            }
            4 => {
                let kind = self.random.one_of(&[DELIVER, LOSE]);
                let number = self.number_not_under_way();
                self.record(kind, 0, number)
            }
            _ => {
                let failed = self.failed_set_outside();
                self.record(RECOVER, 0, failed)
            }
        }
    }

    fn surely_full(&self) -> bool {
        self.under_way.len() == MAX_UNDER_WAY && self.under_way.iter().all(|message| message.sure)
    }

    /// None if all that fit into a record's field are in the run.
    fn process_outside(&mut self) -> Option<u32> {
        (self.n < 16).then(|| self.n + self.random.below(16 - self.n))
    }

    fn receiver_outside(&mut self) -> u32 {
        match self.random.below(4) {
            0 => self.n,
            1 => self.n + self.random.below(32),
            // A process of the run in its low 16 bits only.
            2 => (1 + self.random.below((ARGUMENTS >> 16) - 1)) << 16 | self.any_process(),
            _ => self.n + self.random.below(ARGUMENTS - self.n),
        }
    }

    fn number_not_under_way(&mut self) -> u32 {
        let drawn = match self.random.below(6) {
            0 => 0,
            1 => self.sends as u32 + 1,
            2 => self.random.below(self.sends as u32 + 1),
            // A number that was under way, in its low bits.
            3 => 1 << 16 | self.random.below(self.sends as u32 + 1),
            4 => ARGUMENTS - 1,
            _ => self.random.below(ARGUMENTS),
        };
        if self.under_way.iter().any(|message| message.number == drawn) {
            return 0;
        }
        drawn
    }

    /// A set with a bit at n or above: often bits at 16 and above alone, which
    /// is no empty set.
    fn failed_set_outside(&mut self) -> u32 {
        let outside = 1 << (self.n + self.random.below(25 - self.n));
        let high = (1 + self.random.below((ARGUMENTS >> 16) - 1)) << 16;
        match self.random.below(6) {
            0 => 1 << self.n,
            1 => outside,
            2 => 1 << (16 + self.random.below(9)),
            3 => high,
            4 => high | 1 << self.any_process(),
            _ => outside | self.random.below(ARGUMENTS),
        }
    }
}

// ----------------------------------------------------------------- damaged

impl<W: Write> Trace<W> {
    fn damaged(&mut self) -> io::Result<()> {
        match self.random.below(16) {
            0 => return Ok(()),
            1 => {
                self.byte(self.n);
                return Ok(());
            }
            2 | 3 => {
                let byte = self.random.one_of(&[0, 17, 255]);
                self.byte(byte);
            }
            _ => self.byte(self.n),
        }
        let times = self.random.one_of(&[2, 4, 8, 32]);
        while !self.done() {
            if !self.random.once_in(times) {
                self.valid_record()?;
            } else if self.random.once_in(3) {
                self.refused_record()?;
            } else {
                self.bad_record()?;
            }
        }
        if self.random.once_in(2) {
            for _ in 0..1 + self.random.below(3) {
                let byte = self.random.below(256);
                self.byte(byte);
            }
        }
        Ok(())
    }

    /// A record of an unused kind, or with a field that must be zero and is
    /// not; the other fields are often fine.
    fn bad_record(&mut self) -> io::Result<()> {
        let process = 1 + self.random.below(15);
        match self.random.below(5) {
            0 => {
                let kind = 5 + self.random.below(3);
                let process = self.random.one_of(&[0, process]);
                let argument = self.random.below(ARGUMENTS);
                let argument = self.random.one_of(&[0, 1, argument]);
                self.record(kind, process, argument)
            }
            1 => {
                let process = self.random.below(16);
                let argument = 1 + self.random.below(ARGUMENTS - 1);
                let argument = self.random.one_of(&[1, ARGUMENTS >> 1, argument]);
                self.record(CHECKPOINT, process, argument)
            }
            2 | 3 => {
                let kind = self.random.one_of(&[DELIVER, LOSE]);
                let number = match self.under_way.first() {
                    Some(message) => message.number,
                    None => self.number_not_under_way(),
                };
                self.record(kind, process, number)
            }
            _ => {
                let good = self.any_failed_set();
                let bad = self.failed_set_outside();
                let failed = self.random.one_of(&[good, bad]);
                self.record(RECOVER, process, failed)
            }
        }
    }
}

// ------------------------------------------------------------------ limits

impl<W: Write> Trace<W> {
    fn limits(&mut self) -> io::Result<()> {
        self.byte(self.n);
        let process = self.any_process();
        if self.n == 1 {
            self.last_interval_alone()?;
        } else {
            self.last_interval(process)?;
            if self.left() >= ENOUGH_FOR_ALL_NUMBERS {
                self.all_message_numbers()?;
            }
        }
        self.tail(process)
    }

    fn last_interval_alone(&mut self) -> io::Result<()> {
        for _ in 0..CHECKPOINTS + 2 {
            self.checkpoint(0)?;
        }
        self.recover(1)?;
        self.checkpoint(0)
    }

    /// Up to the last interval of a process, and what can happen there. As
    /// nothing else is delivered to it and nothing fails, its own entry is
    /// known: one more than its checkpoints.
    fn last_interval(&mut self, process: u32) -> io::Result<()> {
        let other = self.other_process(process);
        for _ in 0..self.random.below(8) {
            let place = self.other_process(process);
            self.checkpoint(place)?;
        }
        // Two messages with the same vector: once the first is delivered, the
        // second brings nothing newer.
        let first = self.send(other, process)?;
        let quiet = self.send(other, process)?;
        self.take_number(first);
        self.deliver(first, process)?;

        let forced_last = self.random.once_in(2);
        let checkpoints = CHECKPOINTS - forced_last as u64;
        for _ in 0..checkpoints {
            if self.random.once_in(512) {
                let place = self.other_process(process);
                self.checkpoint(place)?;
            }
            self.checkpoint(process)?;
        }
        if forced_last {
            // Own entry 65,534 may still store, also when forced.
            let forcing = self.send_a_forcing_message(other, process)?;
            self.take_number(forcing);
            self.deliver(forcing, process)?;
        }

        self.record(CHECKPOINT, process, 0)?;
        let forcing = self.send_a_forcing_message(other, process)?;
        self.deliver(forcing, process)?;
        self.take_number(quiet);
        self.deliver(quiet, process)?;
        self.deliver(forcing, process)?;
        self.record(LOSE, 0, forcing)?;
        self.take_number(forcing);
        self.record(CHECKPOINT, process, 0)?;

        // Rolled back, it has not sent: the next message, though newer, forces
        // nothing.
        self.recover(1 << process)?;
        self.record(CHECKPOINT, process, 0)?;
        self.checkpoint(other)?;
        let newer = self.send(other, process)?;
        self.take_number(newer);
        self.deliver(newer, process)
    }

    /// Afterwards `process` has sent, and a message from `other` is under way
    /// that brings something newer.
    fn send_a_forcing_message(&mut self, other: u32, process: u32) -> io::Result<u32> {
        self.send(process, other)?;
        self.checkpoint(other)?;
        self.send(other, process)
    }

    /// Sends until number 1,000,000 is used, and past it.
    fn all_message_numbers(&mut self) -> io::Result<()> {
        self.lose_unsure()?;
        while self.sends < MESSAGE_NUMBERS {
            // The last 64 stay under way.
            let last = self.sends + MAX_UNDER_WAY as u64 >= MESSAGE_NUMBERS;
            let full = self.under_way.len() == MAX_UNDER_WAY;
            let few = self.under_way.len() < 8;
            if full || !last && !few && self.random.once_in(2) {
                self.deliver_or_lose()?;
            } else {
                self.any_send()?;
            }
        }
        for _ in 0..4 {
            self.send_too_many()?;
            self.deliver_or_lose()?;
            self.send_too_many()?;
        }
        self.record(SEND, 0, 0)
    }

    fn send_too_many(&mut self) -> io::Result<()> {
        let sender = self.any_process();
        let receiver = self.other_process(sender);
        self.record(SEND, sender, receiver)
    }

    /// Delivers while that surely is accepted. Else it may be refused, so that
    /// the message stays under way: then it is lost right after.
    fn deliver_or_lose(&mut self) -> io::Result<()> {
        let Some(message) = self.take() else {
            return Ok(());
        };
        let surely = self.stored[message.receiver as usize] + 1 < CHECKPOINTS;
        match self.random.below(4) {
            0 | 1 => self.record(LOSE, 0, message.number),
            _ if surely => self.deliver(message.number, message.receiver),
            2 => self.record(LOSE, 0, message.number),
            _ => {
                self.deliver(message.number, message.receiver)?;
                self.record(LOSE, 0, message.number)
            }
        }
    }

    /// What is left, around the limits just reached.
    fn tail(&mut self, process: u32) -> io::Result<()> {
        while !self.done() {
            match self.random.below(12) {
                0..=3 if self.n > 1 && self.under_way.len() < MAX_UNDER_WAY => {
                    if self.sends < MESSAGE_NUMBERS {
                        self.any_send()?;
                    } else {
                        self.send_too_many()?;
                    }
                }
                4..=7 => self.deliver_or_lose()?,
                8 => self.record(CHECKPOINT, process, 0)?,
                9 => {
                    let place = self.any_process();
                    self.checkpoint(place)?;
                }
                10 if self.random.once_in(8) => {
                    let failed = self.any_failed_set();
                    self.recover(failed)?;
                }
                _ => self.refused_record()?,
            }
        }
        Ok(())
    }
}

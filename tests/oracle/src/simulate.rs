//! Note 10: a simulation of a checkpoint spacing, by the calls of `run`.

use crate::run::{Run, MAX_PROCESSES, ONES};
use crate::whole::Whole;
use std::ops::RangeInclusive;

const COUNTS: RangeInclusive<u64> = 1..=16;
/// "a spacing k of 1 to 1,000"
const SPACINGS: RangeInclusive<u64> = 1..=1000;
/// "1 to 30,000 steps"
const STEPS: RangeInclusive<u64> = 1..=30_000;

/// "22 for a count, spacing or step number out of range".
pub const OUT_OF_RANGE: u8 = 22;

/// "The result gives deliveries, forced checkpoints, the most kept at any
/// process after any step, and 1,000 × forced divided by deliveries as quotient
/// and remainder, both 0 without deliveries."
#[derive(Clone, Copy, Debug, Default, PartialEq, Eq)]
pub struct Figures {
    pub deliveries: u64,
    pub forced: u64,
    pub most_kept: u64,
    pub quotient: u64,
    pub remainder: u64,
}

/// What a simulation asks for.
#[derive(Clone, Copy, Debug)]
pub struct Parameters {
    pub count: u64,
    pub spacing: u64,
    pub steps: u64,
    pub start: u32,
}

impl Parameters {
    pub fn in_range(&self) -> bool {
        COUNTS.contains(&self.count)
            && SPACINGS.contains(&self.spacing)
            && STEPS.contains(&self.steps)
    }
}

/// The figures of a simulation, or 22.
pub fn simulate(parameters: Parameters) -> Result<Figures, u8> {
    Simulation::done(parameters).map(|simulation| simulation.figures())
}

/// The events of a simulation as a plain trace, or 22.
pub fn trace(parameters: Parameters) -> Result<Vec<u8>, u8> {
    Simulation::done(parameters).map(|simulation| simulation.trace)
}

/// "The generator takes the last value, multiplies by 1,664,525, adds
/// 1,013,904,223 and keeps the low 32 bits; a draw is the new value divided by
/// 65,536, remainder dropped."
pub struct Generator(pub u64);

impl Generator {
    pub fn draw(&mut self) -> u64 {
        let value = self.0 * 1_664_525 + 1_013_904_223;
        self.0 = value % (1 << 32);
        self.0 / 65_536
    }
}

struct Simulation {
    run: Run,
    spacing: u64,
    generator: Generator,
    /// How many sends and deliveries each process has done.
    done: [u64; MAX_PROCESSES],
    deliveries: u64,
    forced: u64,
    most_kept: u64,
    trace: Vec<u8>,
}

/// "no step meets a refusal."
fn must<T>(answer: Result<T, u8>) -> T {
    answer.unwrap_or_else(|number| panic!("a step is refused with {number}"))
}

impl Simulation {
    fn done(parameters: Parameters) -> Result<Simulation, u8> {
        if !parameters.in_range() {
            return Err(OUT_OF_RANGE);
        }
        let count = parameters.count as usize;
        let mut simulation = Simulation {
            run: must(Run::start(count, &ONES)),
            spacing: parameters.spacing,
            generator: Generator(parameters.start.into()),
            done: [0; MAX_PROCESSES],
            deliveries: 0,
            forced: 0,
            most_kept: 0,
            trace: vec![u8::try_from(count).expect("1 to 16")],
        };
        for _ in 0..parameters.steps {
            simulation.step();
            let kept = (0..count).map(|i| simulation.run.kept(i).count() as u64);
            let most = kept.max().expect("there is a process");
            simulation.most_kept = simulation.most_kept.max(most);
        }
        Ok(simulation)
    }

    fn step(&mut self) {
        let n = self.run.count() as u64;
        // "A step draws a process p as draw modulo n, then draws d."
        let p = (self.generator.draw() % n) as usize;
        let d = self.generator.draw();
        let messages = self.run.under_way();
        let oldest = messages.iter().find(|message| message.receiver == p);
        match oldest {
            // "If a message to p is under way and d is even, the oldest is
            // delivered."
            Some(message) if d % 2 == 0 => {
                let number = message.number;
                self.deliver(number);
            }
            // "Otherwise, if n is at least 2 and fewer than 64 are under way, p
            // sends to p + 1 + ((d div 2) mod (n − 1)), the sum taken modulo n."
            _ if n >= 2 && messages.len() < 64 => {
                let receiver = (p as u64 + 1 + (d / 2) % (n - 1)) % n;
                self.send(p, receiver as usize);
            }
            _ => return,
        }
        // "After each k of its own sends and deliveries p takes a checkpoint."
        self.done[p] += 1;
        if self.done[p] % self.spacing == 0 {
            self.checkpoint(p);
        }
    }

    fn deliver(&mut self, number: u64) {
        let answer = must(self.run.deliver(number, &mut [0; 512]));
        self.deliveries += 1;
        self.forced += u64::from(answer.forced.is_some());
        self.record(2, 0, number);
    }

    fn send(&mut self, sender: usize, receiver: usize) {
        must(self.run.send(sender, receiver));
        self.record(1, sender, receiver as u64);
    }

    fn checkpoint(&mut self, process: usize) {
        must(self.run.checkpoint(process, &mut [0; 512]));
        self.record(0, process, 0);
    }

    fn record(&mut self, kind: u64, process: usize, argument: u64) {
        let record = u32::try_from(kind << 29 | (process as u64) << 25 | argument);
        self.trace
            .extend(record.expect("an accepted call fits").to_be_bytes());
    }

    fn figures(&self) -> Figures {
        let (quotient, remainder) = match self.deliveries {
            0 => (0, 0),
            deliveries => (
                1000 * self.forced / deliveries,
                1000 * self.forced % deliveries,
            ),
        };
        Figures {
            deliveries: self.deliveries,
            forced: self.forced,
            most_kept: self.most_kept,
            quotient,
            remainder,
        }
    }
}

// ------------------------------------------------------------- the program

/// What the program `simulate` prints for its arguments; none if they are wrong.
///
/// `N SPACING STEPS SEED` gives the figures, each with its name, one a line;
/// `N FROM-TO STEPS SEED` a table with a row for each spacing. Out of range is
/// the line `refused 22`.
pub fn text(arguments: &[&str]) -> Option<String> {
    let [count, spacing, steps, start] = arguments else {
        return None;
    };
    let (from, to) = spacing.split_once('-').unwrap_or((spacing, spacing));
    let start = u32::try_from(Whole::in_decimal(start)?.as_u64()?).ok()?;
    let mut asked = Vec::new();
    for word in [count, from, to, steps] {
        asked.push(Whole::in_decimal(word)?.as_u64());
    }
    // A number above every u64 is out of every range.
    let [Some(count), Some(from), Some(to), Some(steps)] = asked[..] else {
        return Some(format!("refused {OUT_OF_RANGE}\n"));
    };
    let parameters = Parameters {
        count,
        spacing: from,
        steps,
        start,
    };
    let text = match spacing.contains('-') {
        false => figures_text(parameters),
        true => table_text(from, to, parameters),
    };
    Some(text.unwrap_or_else(|number| format!("refused {number}\n")))
}

fn figures_text(parameters: Parameters) -> Result<String, u8> {
    let figures = simulate(parameters)?;
    Ok(format!(
        "deliveries {}\nforced {}\nmost-kept {}\nforced-per-thousand-deliveries {}\nremainder {}\n",
        figures.deliveries, figures.forced, figures.most_kept, figures.quotient, figures.remainder
    ))
}

fn table_text(from: u64, to: u64, parameters: Parameters) -> Result<String, u8> {
    let of_spacing = |spacing| Parameters {
        spacing,
        ..parameters
    };
    if from > to || !of_spacing(from).in_range() || !of_spacing(to).in_range() {
        return Err(OUT_OF_RANGE);
    }
    let mut text = String::from(
        "# spacing deliveries forced most-kept forced-per-thousand-deliveries remainder\n",
    );
    for spacing in from..=to {
        let figures = simulate(of_spacing(spacing))?;
        text += &format!(
            "{spacing} {} {} {} {} {}\n",
            figures.deliveries,
            figures.forced,
            figures.most_kept,
            figures.quotient,
            figures.remainder
        );
    }
    Ok(text)
}

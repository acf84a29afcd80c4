//! What works on traces.

use crate::answers::accepted;
use crate::{library, Checkpoint, Refusal};

/// The verdict on a trace of another run-time.
#[derive(Clone, Copy, Debug, PartialEq, Eq)]
pub enum Verdict {
    /// Each zigzag path goes with causal precedence.
    Trackable,
    /// The first pair that breaks this: a zigzag path leads from the one to the other, and causal precedence does not.
    Breaks {
        /// Where the path begins.
        near: Checkpoint,
        /// Where it ends.
        far: Checkpoint,
    },
}

/// Whether the trace of another run-time is trackable. A trace is its first byte, the number of processes, and records of four bytes. It takes 0.4 MB of stack.
///
/// Refused: the refusal of the trace or of its first record that has one.
///
/// ```
/// use lemidrosy::{judge, Refusal, Verdict};
/// assert_eq!(judge(&[2]), Ok(Verdict::Trackable));
/// assert_eq!(judge(&[]), Err(Refusal::NoFirstByte));
/// ```
pub fn judge(trace: &[u8]) -> Result<Verdict, Refusal> {
    let verdict = library::judge(trace);
    accepted(verdict & 255)?;
    if verdict >> 8 & 1 == 0 {
        return Ok(Verdict::Trackable);
    }
    let end = |at: u32| ((verdict >> at & 255) as usize, (verdict >> (at + 8)) as u16);
    Ok(Verdict::Breaks {
        near: end(16),
        far: end(40),
    })
}

/// The trace of two halves of a run, of which each recorded its own processes: bit p of the set says that process p belongs to the first.
///
/// Refused: `NoSuchFailedProcess` for a set that names a process which is not in the run, `HalvesMismatch`, `NeitherReady`, and the refusals of the halves.
///
/// ```
/// use lemidrosy::{merge, Refusal};
/// assert_eq!(merge(&[2], &[2], 0b01), Ok(vec![2]));
/// assert_eq!(merge(&[2], &[3], 0b01), Err(Refusal::HalvesMismatch));
/// ```
pub fn merge(first: &[u8], second: &[u8], set: u32) -> Result<Vec<u8>, Refusal> {
    let mut trace = vec![0; first.len() + second.len()];
    let answer = accepted(library::merge(first, second, set, &mut trace))?;
    trace.truncate(answer.value() as usize);
    Ok(trace)
}

/// The figures of a simulation.
#[derive(Clone, Copy, Debug, PartialEq, Eq)]
pub struct Figures {
    /// How many messages were delivered.
    pub deliveries: u64,
    /// How many checkpoints were forced.
    pub forced: u64,
    /// The most checkpoints that any process kept after any step.
    pub most_kept: u64,
    /// Forced checkpoints for each thousand deliveries, ..
    pub per_thousand: u64,
    /// .. and the remainder of that division.
    pub remainder: u64,
}

/// Tries a checkpoint spacing: n processes, of which each takes a checkpoint after the given number of its sends and deliveries, run that many steps; the seed is the starting value
/// of what is drawn.
///
/// Refused: `TrialOutsideRange` where n is not from 1 to 16, the spacing not from 1 to 1,000 or the steps not from 1 to 30,000.
///
/// ```
/// use lemidrosy::{simulate, Refusal};
/// let figures = simulate(4, 10, 3000, 7)?;
/// assert_eq!(figures.per_thousand, 1000 * figures.forced / figures.deliveries);
/// assert_eq!(simulate(4, 0, 3000, 7), Err(Refusal::TrialOutsideRange));
/// # Ok::<(), Refusal>(())
/// ```
pub fn simulate(n: usize, spacing: u32, steps: u32, seed: u32) -> Result<Figures, Refusal> {
    let mut figures = [0; 5];
    accepted(library::simulate(n, spacing, steps, seed, &mut figures))?;
    let [deliveries, forced, most_kept, per_thousand, remainder] = figures;
    Ok(Figures {
        deliveries,
        forced,
        most_kept,
        per_thousand,
        remainder,
    })
}

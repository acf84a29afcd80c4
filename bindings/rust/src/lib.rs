//! Checkpoints, garbage collection and recovery lines of message-passing runs.
//!
//! A [`Run`] keeps the state of up to 16 processes that exchange messages. It says when a checkpoint must be taken before a message is taken in, which checkpoints no
//! failure can need any more, and from which ones to restart when some processes have failed. Every call goes to a library whose code is machine-checked; nothing is
//! decided here. A call that the library refuses changes nothing and answers the [`Refusal`].
//!
//! ```
//! use lemidrosy::{Refusal, Run};
//!
//! # fn main() -> Result<(), Refusal> {
//! let mut run = Run::start(&[1, 1, 1])?;
//! let stored = run.checkpoint(0)?;
//! let message = run.send(0, 1)?;
//! // process 1 takes in what process 0 knows
//! let delivered = run.deliver(message)?;
//! assert_eq!((stored.index, delivered.forced, delivered.rose), (1, None, 0b001));
//! // process 0 fails: it goes back to its checkpoint 1, and process 1 to its first
//! assert_eq!(run.line(1 << 0)?, [1, 0, 1]);
//! assert_eq!(run.send(0, 3), Err(Refusal::NoSuchProcess));
//! # Ok(())
//! # }
//! ```
//!
//! The archive that it links is made by `bindings/build`; the environment variable `LEMIDROSY_LIB_DIR` names its folder where it does not stand in the tree.
#![deny(missing_docs)]
#![deny(unsafe_code)]

mod answers;
mod console;
mod file;
mod library;
mod machine;
mod recorder;
mod refusal;
mod run;
mod trace;

pub use answers::{Cause, Delivered, Kept, Message, Numbers, Recovered, Replayed, Stored};
pub use console::{Caller, Console};
pub use file::FileError;
pub use machine::{drive, Answered, Machine, Request};
pub use recorder::Recorder;
pub use refusal::Refusal;
pub use run::Run;
pub use trace::{judge, merge, simulate, Figures, Verdict};

/// A checkpoint, or the live state after the last one: a process and an index.
pub type Checkpoint = (usize, u16);

/// The words of a state.
pub const WORDS: usize = 6464;
/// Processes of a run, at most.
pub const PROCESSES: usize = 16;
/// Messages under way, at most.
pub const MESSAGES: usize = 64;
/// The bytes of a saved state.
pub const SAVED: usize = 12942;

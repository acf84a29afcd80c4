//! An independent oracle for runs of message-passing processes.
//!
//! * `run`: the state of a run and its calls, rule by rule.
//! * `replay`: a trace in, a listing out.
//! * `cases`: the exam text.
//! * `generate`: random traces; it uses nothing of the rest.
//! * `hold`: another program held to the oracle.
//! * `whole`: numbers of any length.
//! * `words`: the state as words that a caller lends.
//! * `calls`: the calls on such words, and a library held to the oracle.
//! * `bindings`: calls through a binding and their answers, as lines of text.
//! * `saved`: a state saved to bytes, and loaded.
//!
//! Every other module belongs to one note, which its first lines name.
//!
//! Quoted sentences in the comments are from the papers that specify the
//! product: "Recovery lines and collected checkpoints of a message-passing
//! run" and, where a note is named, "New change requests".

pub mod bindings;
pub mod calls;
pub mod cases;
pub mod console;
pub mod generate;
pub mod halves;
pub mod hold;
pub mod judge;
pub mod replay;
pub mod run;
pub mod saved;
pub mod simulate;
pub mod whole;
pub mod words;

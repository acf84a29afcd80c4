//! The commands of the program, a file each. A command is given the words after
//! its name.

pub mod binding_calls;
pub mod console;
pub mod console_soak;
pub mod generate;
pub mod halves;
pub mod judge;
pub mod judge_soak;
pub mod merge;
pub mod merge_soak;
pub mod record;
pub mod record_soak;
pub mod replay;
pub mod simulate;
pub mod soak;
pub mod word_states;

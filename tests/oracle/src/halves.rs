//! Note 12: two halves of one run.
//!
//! * `merge`: the two into one plain trace; it uses nothing of the rest.
//! * `draw`: random pairs of halves.

pub mod draw;
pub mod merge;

//! All tests besides those in the sources, built once.

mod common;
mod console;
mod exam;
mod history;
mod judge;
mod merge;
mod owners;
mod programs;
mod record;
mod refusals;
mod saved;
mod simulate;
mod traces;
mod views;
mod words;

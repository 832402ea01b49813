//! The command line of chukkanalli. The fuzzer calls the console and `run`.

mod args;
mod columns;
mod commands;
pub mod console;
mod date;
mod figures;
mod fraction;
mod help;
mod html;
pub mod interrupt;
mod jobs;
mod moves;
mod names;
mod options;
mod output;
mod ranks;
mod reach;
mod reasons;
mod records;
mod same;
mod sentences;
mod sha256;
mod sources;
mod switches;
mod version;

pub use commands::run;

//! The program `desk`, held to its page, docs/DESK.md: what it answers, refuses, prints and
//! leaves behind.
//!
//! The tests run the program that the environment variable `PIERSTRIDE_DESK` names, or
//! else the package's own. They need jq, dot, xxd, script, timeout and the four solvers that
//! `examples/ask-solver` knows.

mod answers;
mod ask_solver;
mod expected;
mod files;
mod harness;
mod help;
mod hostile;
mod json;
mod misspelt;
mod numbers;
mod outputs;
mod pages;
mod pictures;
mod progress;
mod random;
mod refusals;
mod said;
mod streams;
mod transcript;
mod usage;

//! Plays calls of a reader over bytes, resizes and faults, without a terminal: it reads lines, and prints a line for each call.
//!
//! printf 'piece 1b5b41\nread event 1\n' | cargo run -q --manifest-path bindings/Cargo.toml --example play
//!
//! Lines and answers are those of `probe play`: crates/probe/README.md has them.
#[path = "play/mod.rs"]
mod play;

use std::env;
use std::io::{stdin, stdout, BufWriter};
use std::process::ExitCode;

fn main() -> ExitCode {
    if env::args_os().count() > 1 {
        eprintln!("play: usage: play < LINES");
        return ExitCode::FAILURE;
    }
    match play::run(stdin().lock(), BufWriter::new(stdout().lock())) {
        Ok(()) => ExitCode::SUCCESS,
        Err(fault) => {
            eprintln!("play: {fault}");
            ExitCode::FAILURE
        }
    }
}

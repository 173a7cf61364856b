//! What programs of crossterm do most, so often: `speed.py` counts what it costs. This builds over crossterm 0.25 and later, and the shims.
//!
//! speed read|poll|stream BLOCKS EVENTS     takes so many blocks of so many events, and writes a byte after each block
//! speed plain|styled|execute|stdout ROUNDS
//!
//! writes so many rounds of commands, and prints the least nanoseconds of a command to standard error
mod commands;
mod stream;

use crossterm::event::{poll, read};
use crossterm::terminal::{disable_raw_mode, enable_raw_mode};
use std::hint::black_box;
use std::io::{self, Write};
use std::time::Duration;
use std::{env, process};

fn read_one() -> io::Result<()> {
    black_box(read()?);
    Ok(())
}

fn poll_and_read() -> io::Result<()> {
    while !poll(Duration::from_secs(1))? {}
    read_one()
}

/// Takes the blocks of events, in raw mode. A byte says that the program is ready for the next block.
fn take(blocks: u32, events: u32, mut one: impl FnMut() -> io::Result<()>) -> io::Result<()> {
    enable_raw_mode()?;
    let mut out = io::stdout();
    for _ in 0..blocks {
        out.write_all(b".")?;
        out.flush()?;
        for _ in 0..events {
            one()?;
        }
    }
    disable_raw_mode()
}

fn main() -> io::Result<()> {
    let words: Vec<String> = env::args().skip(1).collect();
    let numbers: Vec<u32> = words.iter().skip(1).filter_map(|word| word.parse().ok()).collect();
    match (words.first().map_or("", String::as_str), &numbers[..]) {
        ("read", &[blocks, events]) => take(blocks, events, read_one),
        ("poll", &[blocks, events]) => take(blocks, events, poll_and_read),
        ("stream", &[blocks, events]) => {
            let mut stream = stream::Blocking::new();
            take(blocks, events, || stream.read_one())
        }
        (what @ ("plain" | "styled" | "execute" | "stdout"), &[rounds]) => {
            eprintln!("{:.2}", commands::least(what, rounds)?);
            Ok(())
        }
        _ => {
            eprintln!("usage: speed read|poll|stream BLOCKS EVENTS, or speed plain|styled|execute|stdout ROUNDS");
            process::exit(2);
        }
    }
}

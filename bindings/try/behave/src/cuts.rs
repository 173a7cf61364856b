//! How many keys of each kind come, through each shim and each way to read.

use crate::stream::next;
use crate::tell;
use crossterm::event::KeyCode;
use crossterm::terminal;
use std::io;
use std::time::Duration;

/// Prints the counts of Down, Up, Esc and all others at each `q`, until `Q` comes.
fn count(mut next: impl FnMut() -> io::Result<Option<KeyCode>>) -> io::Result<()> {
    terminal::enable_raw_mode()?;
    tell!("ready");
    let mut counts = [0; 4];
    loop {
        match next()? {
            Some(KeyCode::Char('Q')) => return terminal::disable_raw_mode(),
            Some(KeyCode::Char('q')) => {
                let [down, up, esc, other] = std::mem::take(&mut counts);
                tell!("{down} Down, {up} Up, {esc} Esc, {other} others");
            }
            Some(KeyCode::Down) => counts[0] += 1,
            Some(KeyCode::Up) => counts[1] += 1,
            Some(KeyCode::Esc) => counts[2] += 1,
            _ => counts[3] += 1,
        }
    }
}

/// The key of a shim's event: 0.25 has a type of its own for events.
macro_rules! code {
    ($shim:ident, $event:expr) => {
        match $event {
            $shim::event::Event::Key(key) => Some(key.code),
            _ => None,
        }
    };
}

macro_rules! count {
    ($shim:ident, $way:expr) => {
        match $way {
            "read" => count(|| Ok(code!($shim, $shim::event::read()?))),
            "poll" => count(|| {
                while !$shim::event::poll(Duration::from_millis(1))? {}
                Ok(code!($shim, $shim::event::read()?))
            }),
            _ => {
                let mut stream = $shim::event::EventStream::new();
                count(|| Ok(code!($shim, next(&mut stream).ok_or(io::ErrorKind::UnexpectedEof)??)))
            }
        }
    };
}

/// Counts keys as `29 poll` says: a shim by its number, and `read`, `poll` or `stream`.
pub fn run(how: &str) -> io::Result<()> {
    match how.split_once(' ') {
        Some(("29", way)) => count!(crossterm, way),
        Some(("28", way)) => count!(crossterm28, way),
        Some(("25", way)) => count!(crossterm25, way),
        _ => Err(io::Error::new(io::ErrorKind::InvalidInput, "which one? behave.py has the names")),
    }
}

//! What a terminal is asked for.

use crate::event::reader::{self, Asking, State};
use crate::system;
use crate::terminal::{disable_raw_mode, enable_raw_mode};
use gelvanh::{Classes, InternalEvent, Taken};
use std::io;
use std::time::{Duration, Instant};

/// How long an answer may take.
const LIMIT: Duration = Duration::from_secs(2);

/// Does something in raw mode, so that the terminal's replies aren't shown and come at once.
fn in_raw_mode<T>(f: impl FnOnce() -> io::Result<T>) -> io::Result<T> {
    if system::is_raw() {
        return f();
    }
    enable_raw_mode()?;
    let given = f();
    disable_raw_mode()?;
    given
}

fn not_answered(what: &str) -> io::Error {
    io::Error::new(io::ErrorKind::Other, format!("the terminal didn't tell {what} within {} s", LIMIT.as_secs()))
}

/// The cursor's column and row, from 0, which the terminal is asked for.
///
/// Outside of raw mode it is turned on for the question. Keys that are typed meanwhile are kept for `event::read`.
///
/// ```no_run
/// let (column, row) = crossterm::cursor::position()?;
/// println!("column {column}, row {row}");
/// # Ok::<(), std::io::Error>(())
/// ```
///
/// # Errors
///
/// One of kind `Other` if the terminal doesn't answer within 2 s, `UnexpectedEof` at the end of input, or the system's.
pub fn position() -> io::Result<(u16, u16)> {
    in_raw_mode(|| {
        let _asking = Asking::begin();
        system::send(b"\x1b[6n")?;
        let limit = Instant::now().checked_add(LIMIT);
        let reply = reader::wait(limit, |state: &mut State| state.take_reply(Classes::CURSOR))?;
        match reply.and_then(Taken::into_event) {
            Some(InternalEvent::CursorPosition(column, row)) => Ok((column, row)),
            _ => Err(not_answered("the cursor's place")),
        }
    })
}

/// Whether the terminal has kitty's keyboard protocol, which it is asked for.
///
/// # Errors
///
/// One of kind `Other` if the terminal doesn't answer within 2 s, `UnexpectedEof` at the end of input, or the system's.
pub fn supports_keyboard_enhancement() -> io::Result<bool> {
    in_raw_mode(|| {
        let _asking = Asking::begin();
        // Each terminal reports its attributes: one that does so first doesn't know the flags.
        system::send(b"\x1b[?u\x1b[c")?;
        let limit = Instant::now().checked_add(LIMIT);
        let reply = reader::wait(limit, |state: &mut State| state.take_reply(Classes::FLAGS | Classes::ATTRIBUTES))?;
        let reply = reply.ok_or_else(|| not_answered("its flags"))?.into_event();
        let speaks = matches!(reply, Some(InternalEvent::KeyboardEnhancementFlags(_)));
        if speaks {
            reader::wait(limit, |state: &mut State| state.take_reply(Classes::ATTRIBUTES))?;
        }
        Ok(speaks)
    })
}

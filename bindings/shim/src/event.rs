//! Events: keys, the mouse, pastes, the focus, resizes.
//!
//! ```no_run
//! use crossterm::event::{self, Event, KeyCode};
//! use crossterm::terminal::{disable_raw_mode, enable_raw_mode};
//!
//! enable_raw_mode()?;
//! while let Ok(event) = event::read() {
//!     print!("{event:?}\r\n");
//!     if event == Event::Key(KeyCode::Esc.into()) {
//!         break;
//!     }
//! }
//! disable_raw_mode()?;
//! # Ok::<(), std::io::Error>(())
//! ```

pub(crate) mod query;
mod reader;
mod source;
#[cfg(feature = "event-stream")]
mod stream;

use crate::macros::commands;
use gelvanh::Command as Proved;
use std::io;
use std::time::{Duration, Instant};

pub use gelvanh::{
    Event, KeyCode, KeyEvent, KeyEventKind, KeyEventState, KeyModifiers, KeyboardEnhancementFlags, MediaKeyCode, ModifierKeyCode,
    MouseButton, MouseEvent, MouseEventKind,
};
#[cfg(feature = "event-stream")]
pub use stream::EventStream;

commands! {
    /// Lets the mouse be reported as events.
    ///
    /// ```no_run
    /// use crossterm::{event::{DisableMouseCapture, EnableMouseCapture}, execute};
    ///
    /// execute!(std::io::stdout(), EnableMouseCapture)?;
    /// // .. read events ..
    /// execute!(std::io::stdout(), DisableMouseCapture)?;
    /// # Ok::<(), std::io::Error>(())
    /// ```
    EnableMouseCapture => Proved::EnableMouseCapture;
    /// Ends that.
    DisableMouseCapture => Proved::DisableMouseCapture;
    /// Lets the focus be reported as events.
    EnableFocusChange => Proved::EnableFocusChange;
    /// Ends that.
    DisableFocusChange => Proved::DisableFocusChange;
    /// Turns on these flags of kitty's keyboard protocol, until they are popped.
    ///
    /// ```
    /// use crossterm::{event::{KeyboardEnhancementFlags, PushKeyboardEnhancementFlags}, queue};
    ///
    /// let mut out = Vec::new();
    /// queue!(out, PushKeyboardEnhancementFlags(KeyboardEnhancementFlags::REPORT_EVENT_TYPES))?;
    /// assert_eq!(out, b"\x1b[>2u");
    /// # Ok::<(), std::io::Error>(())
    /// ```
    PushKeyboardEnhancementFlags(flags: KeyboardEnhancementFlags) => Proved::PushKeyboardEnhancementFlags(flags);
    /// Ends that.
    PopKeyboardEnhancementFlags => Proved::PopKeyboardEnhancementFlags;
}

#[cfg(feature = "bracketed-paste")]
commands! {
    /// Lets a text that is pasted be reported as one event, `Event::Paste`.
    ///
    /// ```no_run
    /// use crossterm::{event::{read, EnableBracketedPaste, Event}, execute};
    ///
    /// execute!(std::io::stdout(), EnableBracketedPaste)?;
    /// if let Event::Paste(text) = read()? {
    ///     println!("{} bytes", text.len());
    /// }
    /// # Ok::<(), std::io::Error>(())
    /// ```
    EnableBracketedPaste => Proved::EnableBracketedPaste;
    /// Ends that.
    DisableBracketedPaste => Proved::DisableBracketedPaste;
}

/// Whether an event is there, for which it waits so long at most. Then `read` returns it at once, if no other thread takes it.
///
/// It waits beside another thread's `read`, and for any time, `Duration::MAX` too. If an ESC came last, behind other bytes, it waits up to
/// 50 ms for what follows, once.
///
/// ```no_run
/// use crossterm::event::{poll, read};
/// use std::time::Duration;
///
/// while poll(Duration::from_millis(100))? {
///     println!("{:?}", read()?);
/// }
/// println!("nothing came for 100 ms");
/// # Ok::<(), std::io::Error>(())
/// ```
///
/// # Errors
///
/// `UnexpectedEof` at the end of input, or the system's.
pub fn poll(timeout: Duration) -> io::Result<bool> {
    let limit = Instant::now().checked_add(timeout);
    let told = reader::wait(limit, |state| state.has_event().then_some(()))?;
    Ok(told.is_some())
}

/// The next event, for which it waits.
///
/// ```no_run
/// use crossterm::event::{read, Event, KeyCode};
///
/// while read()? != Event::Key(KeyCode::Esc.into()) {}
/// # Ok::<(), std::io::Error>(())
/// ```
///
/// # Errors
///
/// `UnexpectedEof` at the end of input, or the system's.
pub fn read() -> io::Result<Event> {
    loop {
        if let Some(event) = next(None)? {
            return Ok(event);
        }
    }
}

/// The next event, if one is there now: it doesn't wait, but behind an ESC as `poll` does.
pub fn try_read() -> Option<Event> {
    next(Some(Instant::now())).ok().flatten()
}

/// The next event, if one comes until the limit.
fn next(limit: Option<Instant>) -> io::Result<Option<Event>> {
    while let Some(taken) = reader::wait(limit, reader::State::take_event)? {
        // Without the lock, since it takes as long as the rest.
        if let Some(event) = taken.into_user_event() {
            return Ok(Some(event));
        }
    }
    Ok(None)
}

//! Events: keys, the mouse, pastes, the focus, resizes. A wheel that is tilted is no event.

use crate::Result;
use newer::event as newer_event;
use std::collections::VecDeque;
use std::sync::{Mutex, MutexGuard, PoisonError};
use std::time::{Duration, Instant};

#[cfg(feature = "event-stream")]
mod stream;

#[cfg(feature = "bracketed-paste")]
pub use newer_event::{DisableBracketedPaste, EnableBracketedPaste};
pub use newer_event::{
    DisableFocusChange, DisableMouseCapture, EnableFocusChange, EnableMouseCapture, KeyCode, KeyEvent, KeyEventKind, KeyEventState,
    KeyModifiers, KeyboardEnhancementFlags, MediaKeyCode, ModifierKeyCode, MouseButton, PopKeyboardEnhancementFlags,
    PushKeyboardEnhancementFlags,
};
#[cfg(feature = "event-stream")]
pub use stream::EventStream;

/// An event that a user of the terminal brings about.
#[derive(Clone, Debug, PartialEq, Eq, PartialOrd, Hash)]
#[cfg_attr(not(feature = "bracketed-paste"), derive(Copy))]
#[cfg_attr(feature = "serde", derive(serde::Serialize, serde::Deserialize))]
pub enum Event {
    /// The terminal's window has the focus now.
    FocusGained,
    /// Another window has it.
    FocusLost,
    /// A key was pressed, held or let go.
    Key(KeyEvent),
    /// The mouse was touched.
    Mouse(MouseEvent),
    /// A text was pasted.
    #[cfg(feature = "bracketed-paste")]
    Paste(String),
    /// The window has so many columns and rows now.
    Resize(u16, u16),
}

/// What the mouse did, and at which place, from 0.
#[derive(Clone, Copy, Debug, PartialEq, Eq, PartialOrd, Hash)]
#[cfg_attr(feature = "serde", derive(serde::Serialize, serde::Deserialize))]
pub struct MouseEvent {
    /// What it did.
    pub kind: MouseEventKind,
    /// The column, from 0.
    pub column: u16,
    /// The row, from 0.
    pub row: u16,
    /// The modifiers that were held.
    pub modifiers: KeyModifiers,
}

/// What the mouse did.
#[derive(Clone, Copy, Debug, PartialEq, Eq, PartialOrd, Hash)]
#[cfg_attr(feature = "serde", derive(serde::Serialize, serde::Deserialize))]
pub enum MouseEventKind {
    /// A button was pressed.
    Down(MouseButton),
    /// A button was let go.
    Up(MouseButton),
    /// The mouse was moved with a button held.
    Drag(MouseButton),
    /// The mouse was moved with none held.
    Moved,
    /// The wheel was turned towards the user.
    ScrollDown,
    /// The wheel was turned away from the user.
    ScrollUp,
}

fn older_mouse(mouse: newer_event::MouseEvent) -> Option<MouseEvent> {
    use newer_event::MouseEventKind as Newer;
    let kind = match mouse.kind {
        Newer::Down(button) => MouseEventKind::Down(button),
        Newer::Up(button) => MouseEventKind::Up(button),
        Newer::Drag(button) => MouseEventKind::Drag(button),
        Newer::Moved => MouseEventKind::Moved,
        Newer::ScrollDown => MouseEventKind::ScrollDown,
        Newer::ScrollUp => MouseEventKind::ScrollUp,
        Newer::ScrollLeft | Newer::ScrollRight => return None,
    };
    Some(MouseEvent { kind, column: mouse.column, row: mouse.row, modifiers: mouse.modifiers })
}

/// The event under its older name, if it has one.
fn older(event: newer_event::Event) -> Option<Event> {
    use newer_event::Event as Newer;
    Some(match event {
        Newer::FocusGained => Event::FocusGained,
        Newer::FocusLost => Event::FocusLost,
        Newer::Key(key) => Event::Key(key),
        Newer::Mouse(mouse) => Event::Mouse(older_mouse(mouse)?),
        #[cfg(feature = "bracketed-paste")]
        Newer::Paste(text) => Event::Paste(text),
        Newer::Resize(columns, rows) => Event::Resize(columns, rows),
    })
}

/// Events that a `poll` has seen, from the first one on.
static SEEN: Mutex<Option<VecDeque<Event>>> = Mutex::new(None);

fn seen() -> MutexGuard<'static, Option<VecDeque<Event>>> {
    SEEN.lock().unwrap_or_else(PoisonError::into_inner)
}

fn take_seen() -> Option<Event> {
    seen().as_mut()?.pop_front()
}

fn has_seen() -> bool {
    seen().as_ref().map_or(false, |seen| !seen.is_empty())
}

/// Whether an event is there, for which it waits so long at most. If an ESC came last, behind other bytes, it waits up to 50 ms for what
/// follows, once.
///
/// # Errors
///
/// `UnexpectedEof` at the end of input, or the system's.
pub fn poll(timeout: Duration) -> Result<bool> {
    let limit = Instant::now().checked_add(timeout);
    while !has_seen() {
        let left = limit.map_or(Duration::MAX, |limit| limit.saturating_duration_since(Instant::now()));
        if !newer_event::poll(left)? {
            return Ok(false);
        }
        if let Some(event) = newer_event::try_read().and_then(older) {
            seen().get_or_insert_with(VecDeque::new).push_back(event);
        }
    }
    Ok(true)
}

/// The next event, for which it waits.
///
/// # Errors
///
/// `UnexpectedEof` at the end of input, or the system's.
pub fn read() -> Result<Event> {
    loop {
        if let Some(event) = take_seen() {
            return Ok(event);
        }
        if let Some(event) = older(newer_event::read()?) {
            return Ok(event);
        }
    }
}

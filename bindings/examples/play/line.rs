//! How events and replies are printed.

use super::reader::Reply;
use gelvanh::{Event, InternalEvent, KeyCode, KeyEvent, MouseEvent, MouseEventKind};
use std::fmt::{self, Display, Formatter};

/// A reply as one line without its end.
pub struct ReplyLine<'a>(pub &'a Reply);

/// An event as one line without its end.
pub struct EventLine<'a>(pub &'a InternalEvent);

/// A key's code: a character by its hexadecimal digits.
struct Code(KeyCode);

/// What the mouse did, with its button.
struct MouseKind(MouseEventKind);

impl Display for ReplyLine<'_> {
    fn fmt(&self, f: &mut Formatter<'_>) -> fmt::Result {
        match self.0 {
            Reply::Poll(is_there) => write!(f, "{is_there}"),
            Reply::Event(Some(event)) => write!(f, "{}", EventLine(event)),
            Reply::Event(None) => f.write_str("none"),
            Reply::Position(column, row) => write!(f, "cursor {column} {row}"),
            Reply::Keyboard(Some(flags)) => write!(f, "flags {}", flags.bits()),
            Reply::Keyboard(None) => f.write_str("unsupported"),
            Reply::Fault(kind) => write!(f, "fault {kind:?}"),
        }
    }
}

impl Display for EventLine<'_> {
    fn fmt(&self, f: &mut Formatter<'_>) -> fmt::Result {
        match self.0 {
            InternalEvent::Event(event) => write_event(f, event),
            InternalEvent::CursorPosition(column, row) => write!(f, "cursor {column} {row}"),
            InternalEvent::KeyboardEnhancementFlags(flags) => write!(f, "flags {}", flags.bits()),
            InternalEvent::PrimaryDeviceAttributes => f.write_str("attributes"),
        }
    }
}

impl Display for Code {
    fn fmt(&self, f: &mut Formatter<'_>) -> fmt::Result {
        match self.0 {
            KeyCode::F(number) => write!(f, "F{number}"),
            KeyCode::Char(c) => write!(f, "Char:{:x}", u32::from(c)),
            KeyCode::Media(key) => write!(f, "Media:{key:?}"),
            KeyCode::Modifier(key) => write!(f, "Modifier:{key:?}"),
            code => write!(f, "{code:?}"),
        }
    }
}

impl Display for MouseKind {
    fn fmt(&self, f: &mut Formatter<'_>) -> fmt::Result {
        match self.0 {
            MouseEventKind::Down(button) => write!(f, "Down:{button:?}"),
            MouseEventKind::Up(button) => write!(f, "Up:{button:?}"),
            MouseEventKind::Drag(button) => write!(f, "Drag:{button:?}"),
            kind => write!(f, "{kind:?}"),
        }
    }
}

fn write_event(f: &mut Formatter<'_>, event: &Event) -> fmt::Result {
    match event {
        Event::FocusGained => f.write_str("focus gained"),
        Event::FocusLost => f.write_str("focus lost"),
        Event::Key(key) => write_key(f, key),
        Event::Mouse(mouse) => write_mouse(f, mouse),
        Event::Paste(text) => write_paste(f, text),
        Event::Resize(columns, rows) => write!(f, "resize {columns} {rows}"),
    }
}

fn write_key(f: &mut Formatter<'_>, key: &KeyEvent) -> fmt::Result {
    write!(f, "key {} {} {:?} {}", Code(key.code), key.modifiers.bits(), key.kind, key.state.bits())
}

fn write_mouse(f: &mut Formatter<'_>, mouse: &MouseEvent) -> fmt::Result {
    write!(f, "mouse {} {} {} {}", MouseKind(mouse.kind), mouse.column, mouse.row, mouse.modifiers.bits())
}

fn write_paste(f: &mut Formatter<'_>, text: &str) -> fmt::Result {
    f.write_str("paste ")?;
    text.bytes().try_for_each(|byte| write!(f, "{byte:02x}"))
}

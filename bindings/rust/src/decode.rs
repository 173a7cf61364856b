//! From the archive's numbers to events.

use crate::event::{Classes, Event, InternalEvent, MouseButton, MouseEvent, MouseEventKind};
use crate::key::{KeyCode, KeyEvent, KeyEventKind, KeyEventState, KeyModifiers, KeyboardEnhancementFlags, MEDIA, MODIFIERS};
use crate::raw;

/// The keys that the numbers 0 to 24 name. `F` and `Char` have a value of their own.
pub(crate) const KEYS: [KeyCode; 25] = [
    KeyCode::Backspace,
    KeyCode::Enter,
    KeyCode::Left,
    KeyCode::Right,
    KeyCode::Up,
    KeyCode::Down,
    KeyCode::Home,
    KeyCode::End,
    KeyCode::PageUp,
    KeyCode::PageDown,
    KeyCode::Tab,
    KeyCode::BackTab,
    KeyCode::Delete,
    KeyCode::Insert,
    KeyCode::F(0),
    KeyCode::Char('\0'),
    KeyCode::Null,
    KeyCode::Esc,
    KeyCode::CapsLock,
    KeyCode::ScrollLock,
    KeyCode::NumLock,
    KeyCode::PrintScreen,
    KeyCode::Pause,
    KeyCode::Menu,
    KeyCode::KeypadBegin,
];

#[inline]
fn code_of(event: &raw::Event) -> Option<KeyCode> {
    if event.code == 15 {
        return char::from_u32(event.value).map(KeyCode::Char);
    }
    match event.code {
        14 => u8::try_from(event.value).ok().map(KeyCode::F),
        25 => MEDIA.get(event.value as usize).copied().map(KeyCode::Media),
        26 => MODIFIERS.get(event.value as usize).copied().map(KeyCode::Modifier),
        code => KEYS.get(usize::from(code)).copied(),
    }
}

#[inline]
fn key_of(event: &raw::Event) -> Option<KeyEvent> {
    Some(KeyEvent {
        code: code_of(event)?,
        modifiers: KeyModifiers::from_bits_retain(event.modifiers),
        kind: match event.press {
            0 => KeyEventKind::Press,
            1 => KeyEventKind::Repeat,
            _ => KeyEventKind::Release,
        },
        state: KeyEventState::from_bits_retain(event.state),
    })
}

#[inline]
fn mouse_of(event: &raw::Event) -> MouseEvent {
    let button = match event.value {
        0 => MouseButton::Left,
        1 => MouseButton::Right,
        _ => MouseButton::Middle,
    };
    MouseEvent {
        kind: match event.code {
            0 => MouseEventKind::Down(button),
            1 => MouseEventKind::Up(button),
            2 => MouseEventKind::Drag(button),
            3 => MouseEventKind::Moved,
            4 => MouseEventKind::ScrollDown,
            5 => MouseEventKind::ScrollUp,
            6 => MouseEventKind::ScrollLeft,
            _ => MouseEventKind::ScrollRight,
        },
        column: event.column,
        row: event.row,
        modifiers: KeyModifiers::from_bits_retain(event.modifiers),
    }
}

impl raw::Event {
    /// The numbers of a resize to so many columns and rows, which no bytes mean.
    pub fn resize(columns: u16, rows: u16) -> raw::Event {
        raw::Event { kind: 9, column: columns, row: rows, ..raw::Event::default() }
    }

    /// The class that the event is of, for `HeldEvents`.
    #[inline]
    pub fn class(&self) -> Classes {
        match self.kind {
            6 => Classes::CURSOR,
            7 => Classes::FLAGS,
            8 => Classes::ATTRIBUTES,
            _ => Classes::EVENTS,
        }
    }

    /// Whether a paste is over: its text isn't in the numbers.
    #[inline]
    pub fn is_paste(&self) -> bool {
        self.kind == 5
    }

    /// The event of these numbers, but that of a paste. It is `None` if they are no event's, as those of a parser never are.
    #[inline]
    pub fn to_event(&self) -> Option<InternalEvent> {
        match self.kind {
            6 => Some(InternalEvent::CursorPosition(self.column, self.row)),
            7 => Some(InternalEvent::KeyboardEnhancementFlags(KeyboardEnhancementFlags::from_bits_retain(self.flags))),
            8 => Some(InternalEvent::PrimaryDeviceAttributes),
            _ => self.to_user_event().map(InternalEvent::Event),
        }
    }

    /// The same, if a user brought the event about.
    #[inline]
    pub fn to_user_event(&self) -> Option<Event> {
        if self.kind == 3 {
            return key_of(self).map(Event::Key);
        }
        match self.kind {
            4 => Some(Event::Mouse(mouse_of(self))),
            1 => Some(Event::FocusGained),
            2 => Some(Event::FocusLost),
            9 => Some(Event::Resize(self.column, self.row)),
            _ => None,
        }
    }

    /// The event of these numbers, with that of a paste, whose text is asked for. Without the feature `bracketed-paste` a paste is none.
    #[cfg(feature = "std")]
    #[inline]
    pub fn to_event_with(&self, text: impl FnOnce() -> Option<String>) -> Option<InternalEvent> {
        if !self.is_paste() {
            return self.to_event();
        }
        #[cfg(feature = "bracketed-paste")]
        return text().map(|text| InternalEvent::Event(Event::Paste(text)));
        #[cfg(not(feature = "bracketed-paste"))]
        return text().and(None);
    }
}

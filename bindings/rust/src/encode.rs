//! From events to the archive's numbers.

use crate::decode::KEYS;
use crate::event::{Event, MouseButton, MouseEvent, MouseEventKind};
use crate::key::{KeyCode, KeyEvent, KeyEventKind, MEDIA, MODIFIERS};
use crate::raw;

/// The place of a value in a list of all.
fn place_of<T: PartialEq>(list: &[T], value: &T) -> usize {
    list.iter().position(|it| it == value).unwrap_or(list.len())
}

fn code_of(code: KeyCode) -> (u16, u32) {
    match code {
        KeyCode::Char(c) => (15, c.into()),
        KeyCode::F(number) => (14, number.into()),
        KeyCode::Media(key) => (25, place_of(MEDIA, &key) as u32),
        KeyCode::Modifier(key) => (26, place_of(MODIFIERS, &key) as u32),
        code => (place_of(&KEYS, &code) as u16, 0),
    }
}

fn of_key(key: &KeyEvent) -> raw::Event {
    let (code, value) = code_of(key.code);
    let press = match key.kind {
        KeyEventKind::Press => 0,
        KeyEventKind::Repeat => 1,
        KeyEventKind::Release => 2,
    };
    raw::Event { kind: 3, code, value, modifiers: key.modifiers.bits(), press, state: key.state.bits(), ..raw::Event::default() }
}

fn of_mouse(mouse: &MouseEvent) -> raw::Event {
    let (code, button) = match mouse.kind {
        MouseEventKind::Down(button) => (0, button),
        MouseEventKind::Up(button) => (1, button),
        MouseEventKind::Drag(button) => (2, button),
        MouseEventKind::Moved => (3, MouseButton::Left),
        MouseEventKind::ScrollDown => (4, MouseButton::Left),
        MouseEventKind::ScrollUp => (5, MouseButton::Left),
        MouseEventKind::ScrollLeft => (6, MouseButton::Left),
        MouseEventKind::ScrollRight => (7, MouseButton::Left),
    };
    let value = match button {
        MouseButton::Left => 0,
        MouseButton::Right => 1,
        MouseButton::Middle => 2,
    };
    let MouseEvent { column, row, modifiers, .. } = *mouse;
    raw::Event { kind: 4, code, value, column, row, modifiers: modifiers.bits(), ..raw::Event::default() }
}

impl raw::Event {
    /// The numbers of an event. Those of a paste lack its text.
    ///
    /// ```
    /// use gelvanh::flat::Event as Flat;
    /// use gelvanh::{Event, KeyCode, KeyEvent, KeyModifiers};
    ///
    /// let event = Event::Key(KeyEvent::new(KeyCode::Char('k'), KeyModifiers::CONTROL));
    /// assert_eq!(Flat::of(&event).to_user_event(), Some(event));
    /// ```
    pub fn of(event: &Event) -> raw::Event {
        match event {
            Event::FocusGained => raw::Event { kind: 1, ..raw::Event::default() },
            Event::FocusLost => raw::Event { kind: 2, ..raw::Event::default() },
            Event::Key(key) => of_key(key),
            Event::Mouse(mouse) => of_mouse(mouse),
            #[cfg(feature = "bracketed-paste")]
            Event::Paste(_) => raw::Event { kind: 5, ..raw::Event::default() },
            Event::Resize(columns, rows) => raw::Event::resize(*columns, *rows),
        }
    }
}

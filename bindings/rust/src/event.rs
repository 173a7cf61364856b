//! Events under crossterm's names.

use crate::key::{KeyEvent, KeyEventKind, KeyModifiers, KeyboardEnhancementFlags};
use crate::variants::is_variants;
use core::ops::BitOr;

/// An event that a user of the terminal brings about.
///
/// ```
/// use gelvanh::{InternalEvent, KeyModifiers, Parser};
///
/// let mut parser = Parser::default();
/// for event in parser.feed(b"\x1b[1;5C", false, true) {
///     if let InternalEvent::Event(event) = event {
///         let key = event.as_key_press_event().unwrap();
///         assert_eq!((key.code.to_string(), key.modifiers), ("Right".into(), KeyModifiers::CONTROL));
///     }
/// }
/// ```
#[derive(Clone, Debug, PartialEq, Eq, PartialOrd, Ord, Hash)]
#[cfg_attr(not(feature = "bracketed-paste"), derive(Copy))]
#[cfg_attr(feature = "serde", derive(serde::Serialize, serde::Deserialize))]
pub enum Event {
    /// The terminal's window has the focus now.
    FocusGained,
    /// Another window has it.
    FocusLost,
    /// A key was pressed, held or let go.
    Key(KeyEvent),
    /// The mouse was touched.
    Mouse(MouseEvent),
    /// A text was pasted. What isn't UTF-8 is U+FFFD.
    #[cfg(feature = "bracketed-paste")]
    Paste(String),
    /// The window has so many columns and rows now. No bytes mean it.
    Resize(u16, u16),
}

#[cfg(feature = "bracketed-paste")]
is_variants!(Event { Paste is_paste, });
is_variants!(Event { FocusGained is_focus_gained, FocusLost is_focus_lost, Key is_key, Mouse is_mouse, Resize is_resize, });

impl Event {
    /// Whether a key was pressed.
    #[inline]
    pub fn is_key_press(&self) -> bool {
        self.as_key_press_event().is_some()
    }

    /// Whether a key was let go.
    #[inline]
    pub fn is_key_release(&self) -> bool {
        self.as_key_release_event().is_some()
    }

    /// Whether a key was held.
    #[inline]
    pub fn is_key_repeat(&self) -> bool {
        self.as_key_repeat_event().is_some()
    }

    /// The key's event, if it is one.
    #[inline]
    pub fn as_key_event(&self) -> Option<KeyEvent> {
        match *self {
            Event::Key(key) => Some(key),
            _ => None,
        }
    }

    fn as_key_of(&self, kind: KeyEventKind) -> Option<KeyEvent> {
        self.as_key_event().filter(|key| key.kind == kind)
    }

    /// The event of a key that was pressed, if it is one.
    #[inline]
    pub fn as_key_press_event(&self) -> Option<KeyEvent> {
        self.as_key_of(KeyEventKind::Press)
    }

    /// The event of a key that was let go, if it is one.
    #[inline]
    pub fn as_key_release_event(&self) -> Option<KeyEvent> {
        self.as_key_of(KeyEventKind::Release)
    }

    /// The event of a key that was held, if it is one.
    #[inline]
    pub fn as_key_repeat_event(&self) -> Option<KeyEvent> {
        self.as_key_of(KeyEventKind::Repeat)
    }

    /// The mouse's event, if it is one.
    #[inline]
    pub fn as_mouse_event(&self) -> Option<MouseEvent> {
        match *self {
            Event::Mouse(mouse) => Some(mouse),
            _ => None,
        }
    }

    /// The text that was pasted, if one was.
    #[cfg(feature = "bracketed-paste")]
    #[inline]
    pub fn as_paste_event(&self) -> Option<&str> {
        match self {
            Event::Paste(text) => Some(text),
            _ => None,
        }
    }

    /// The new columns and rows, if the window was resized.
    #[inline]
    pub fn as_resize_event(&self) -> Option<(u16, u16)> {
        match *self {
            Event::Resize(columns, rows) => Some((columns, rows)),
            _ => None,
        }
    }
}

/// An event, or a reply of the terminal to a query.
#[derive(Clone, Debug, PartialEq, Eq, PartialOrd, Ord, Hash)]
pub enum InternalEvent {
    /// What a user did.
    Event(Event),
    /// Column and row, from 0.
    CursorPosition(u16, u16),
    /// The flags of kitty's protocol that are on.
    KeyboardEnhancementFlags(KeyboardEnhancementFlags),
    /// The terminal's attributes, which aren't read further.
    PrimaryDeviceAttributes,
}

/// Classes of events, of which a call takes the first. They are joined by `|`.
#[derive(Clone, Copy, Debug, PartialEq, Eq)]
pub struct Classes(u32);

impl Classes {
    /// What a user brought about.
    pub const EVENTS: Classes = Classes(1);
    /// Replies with the cursor's place.
    pub const CURSOR: Classes = Classes(2);
    /// Replies with the keyboard's flags.
    pub const FLAGS: Classes = Classes(4);
    /// Replies with the terminal's attributes.
    pub const ATTRIBUTES: Classes = Classes(8);
    /// All of them.
    pub const ALL: Classes = Classes(15);

    #[cfg(feature = "std")]
    pub(crate) fn bits(self) -> u32 {
        self.0
    }

    /// Whether all of the other classes are among these.
    #[inline]
    pub fn has(self, other: Classes) -> bool {
        self.0 & other.0 == other.0
    }
}

impl BitOr for Classes {
    type Output = Classes;

    fn bitor(self, other: Classes) -> Classes {
        Classes(self.0 | other.0)
    }
}

/// What the mouse did, and at which place, from 0.
///
/// ```
/// use gelvanh::{Event, InternalEvent, KeyModifiers, MouseButton, MouseEvent, MouseEventKind, Parser};
///
/// let mut parser = Parser::default();
/// let pressed = MouseEvent { kind: MouseEventKind::Down(MouseButton::Left), column: 19, row: 9, modifiers: KeyModifiers::NONE };
/// let event = parser.feed(b"\x1b[<0;20;10M", false, true).next();
/// assert_eq!(event, Some(InternalEvent::Event(Event::Mouse(pressed))));
/// ```
#[derive(Clone, Copy, Debug, PartialEq, Eq, PartialOrd, Ord, Hash)]
#[cfg_attr(feature = "serde", derive(serde::Serialize, serde::Deserialize))]
pub struct MouseEvent {
    /// What it did.
    pub kind: MouseEventKind,
    /// The column, from 0.
    pub column: u16,
    /// The row, from 0.
    pub row: u16,
    /// The modifiers that were held.
    pub modifiers: KeyModifiers,
}

/// What the mouse did.
#[derive(Clone, Copy, Debug, PartialEq, Eq, PartialOrd, Ord, Hash)]
#[cfg_attr(feature = "serde", derive(serde::Serialize, serde::Deserialize))]
pub enum MouseEventKind {
    /// A button was pressed.
    Down(MouseButton),
    /// A button was let go.
    Up(MouseButton),
    /// The mouse was moved with a button held.
    Drag(MouseButton),
    /// The mouse was moved with none held.
    Moved,
    /// The wheel was turned towards the user.
    ScrollDown,
    /// The wheel was turned away from the user.
    ScrollUp,
    /// The wheel was tilted to the left.
    ScrollLeft,
    /// The wheel was tilted to the right.
    ScrollRight,
}

is_variants!(MouseEventKind {
    Down is_down, Up is_up, Drag is_drag, Moved is_moved,
    ScrollDown is_scroll_down, ScrollUp is_scroll_up, ScrollLeft is_scroll_left, ScrollRight is_scroll_right,
});

/// A button of the mouse.
#[derive(Clone, Copy, Debug, PartialEq, Eq, PartialOrd, Ord, Hash)]
#[cfg_attr(feature = "serde", derive(serde::Serialize, serde::Deserialize))]
pub enum MouseButton {
    /// The left one.
    Left,
    /// The right one.
    Right,
    /// The middle one, or the wheel.
    Middle,
}

is_variants!(MouseButton { Left is_left, Right is_right, Middle is_middle, });

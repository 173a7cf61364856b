//! A terminal's events and commands, by Gelvanh's parser and commands, which are proved and linked as an archive.
//!
//! Events are shaped as crossterm's:
//!
//! ```
//! use gelvanh::{Event, InternalEvent, KeyCode, Parser};
//!
//! let mut parser = Parser::default();
//! // The bytes of one answer of the terminal; no more follow at once, and it is in raw mode.
//! let mut events = parser.feed(b"\x1b[A\x1b[200~two\xFF\x1b[201~", false, true);
//! assert_eq!(events.next(), Some(InternalEvent::Event(Event::Key(KeyCode::Up.into()))));
//! assert_eq!(events.next(), Some(InternalEvent::Event(Event::Paste("two\u{FFFD}".into()))));
//! assert_eq!(events.next(), None);
//! ```
//!
//! Commands are written on any writer:
//!
//! ```
//! use gelvanh::{Color, Command, write_command};
//!
//! let mut out = Vec::new();
//! write_command(&mut out, &Command::MoveTo(9, 1), true)?;
//! write_command(&mut out, &Command::SetForegroundColor(Color::Red), true)?;
//! write_command(&mut out, &Command::Print("hi"), true)?;
//! assert_eq!(out, b"\x1b[2;10H\x1b[38;5;9mhi");
//! # Ok::<(), std::io::Error>(())
//! ```
//!
//! Without the feature `std` it needs no standard library: `flat::FlatParser` and `put_command` are there, and all types but the text of a paste.
//!
//! What is proved is the archive's code: that the events are the meanings of the parts of the only division of the bytes, that those held are
//! taken in their order, by class, and that a command's bytes are its text. This wrapper isn't: its part is the declarations of `raw`, which
//! hold all its `unsafe`, and from numbers to enums.
#![deny(unsafe_code)]
#![deny(missing_docs)]
#![cfg_attr(not(feature = "std"), no_std)]

mod attribute;
mod color;
mod command;
mod decode;
#[cfg(feature = "line")]
mod encode;
mod event;
mod flags;
pub mod flat;
#[cfg(feature = "std")]
mod held;
mod key;
#[cfg(feature = "line")]
pub mod line;
#[cfg(feature = "std")]
mod parser;
#[allow(unsafe_code)]
#[cfg_attr(not(feature = "std"), allow(dead_code))]
mod raw;
#[cfg(feature = "line")]
#[allow(unsafe_code)]
mod raw_line;
#[cfg(feature = "serde")]
mod texts;
mod variants;
#[cfg(feature = "std")]
mod writing;

pub use attribute::{Attribute, Attributes};
pub use color::Color;
pub use command::{put_command, ClearType, Command, CursorStyle, Style};
pub use event::{Classes, Event, InternalEvent, MouseButton, MouseEvent, MouseEventKind};
pub use flags::{FlagIter, FlagNames};
#[cfg(feature = "std")]
pub use held::{HeldEvents, Taken};
pub use key::{KeyCode, KeyEvent, KeyEventKind, KeyEventState, KeyModifiers, KeyboardEnhancementFlags, MediaKeyCode, ModifierKeyCode};
#[cfg(feature = "std")]
pub use parser::{Events, Parser};
#[cfg(feature = "std")]
pub use writing::{parameters, write_command, write_text};

/// The version of the archive that is linked, by its three numbers: that of this crate, if the archive is the one that goes with it.
///
/// ```
/// let (major, minor, patch) = gelvanh::archive_version();
/// assert_eq!(format!("{major}.{minor}.{patch}"), env!("CARGO_PKG_VERSION"));
/// ```
pub fn archive_version() -> (u8, u8, u8) {
    let [_, major, minor, patch] = raw::version().to_be_bytes();
    (major, minor, patch)
}

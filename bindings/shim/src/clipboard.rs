//! The clipboard, which a terminal sets for a program (OSC 52). Not every terminal does, and some ask their user first.

use crate::Command;
use std::fmt;
use std::str::FromStr;

/// A place that a text is copied to.
#[derive(Clone, Debug, PartialEq, Eq)]
pub enum ClipboardType {
    /// The clipboard, `c`.
    Clipboard,
    /// The primary selection, `p`.
    Primary,
    /// Another place, by its letter.
    Other(char),
}

impl From<&ClipboardType> for char {
    fn from(place: &ClipboardType) -> char {
        match *place {
            ClipboardType::Clipboard => 'c',
            ClipboardType::Primary => 'p',
            ClipboardType::Other(letter) => letter,
        }
    }
}

impl From<char> for ClipboardType {
    fn from(letter: char) -> ClipboardType {
        match letter {
            'c' => ClipboardType::Clipboard,
            'p' => ClipboardType::Primary,
            letter => ClipboardType::Other(letter),
        }
    }
}

/// The places that a text is copied to; with none the terminal chooses.
#[derive(Clone, Debug, PartialEq, Eq)]
pub struct ClipboardSelection(
    /// The places, in order.
    pub Vec<ClipboardType>,
);

/// The places' letters.
impl fmt::Display for ClipboardSelection {
    fn fmt(&self, f: &mut fmt::Formatter<'_>) -> fmt::Result {
        self.0.iter().try_for_each(|place| fmt::Write::write_char(f, place.into()))
    }
}

/// Places by their letters: each text names some.
impl FromStr for ClipboardSelection {
    type Err = ();

    fn from_str(letters: &str) -> Result<ClipboardSelection, ()> {
        Ok(ClipboardSelection(letters.chars().map(ClipboardType::from).collect()))
    }
}

/// Copies bytes to the clipboard.
///
/// ```
/// use crossterm::{clipboard::CopyToClipboard, queue};
///
/// let mut out = Vec::new();
/// queue!(out, CopyToClipboard::to_clipboard_from("foo"))?;
/// assert_eq!(out, b"\x1b]52;c;Zm9v\x1b\\");
/// # Ok::<(), std::io::Error>(())
/// ```
#[derive(Clone, Debug, PartialEq, Eq)]
pub struct CopyToClipboard<T> {
    /// What is copied.
    pub content: T,
    /// The places that it is copied to.
    pub destination: ClipboardSelection,
}

impl<T: AsRef<[u8]>> CopyToClipboard<T> {
    /// Copies to the clipboard.
    pub fn to_clipboard_from(content: T) -> CopyToClipboard<T> {
        CopyToClipboard { content, destination: ClipboardSelection(vec![ClipboardType::Clipboard]) }
    }

    /// Copies to the primary selection.
    pub fn to_primary_from(content: T) -> CopyToClipboard<T> {
        CopyToClipboard { content, destination: ClipboardSelection(vec![ClipboardType::Primary]) }
    }
}

impl<T: AsRef<[u8]>> Command for CopyToClipboard<T> {
    fn write_ansi(&self, f: &mut impl fmt::Write) -> fmt::Result {
        let places = self.destination.to_string();
        crate::command::write_proved(f, &gelvanh::Command::CopyToClipboard(self.content.as_ref(), &places))
    }
}

impl<T: AsRef<[u8]>> fmt::Display for CopyToClipboard<T> {
    fn fmt(&self, f: &mut fmt::Formatter<'_>) -> fmt::Result {
        self.write_ansi(f)
    }
}

//! How the bytes of commands get to a writer.

use crate::attribute::Attribute;
use crate::command::{put_command, Command};
use crate::raw;
use std::fmt::{self, Display};
use std::io;

/// Hands the text of a command to a function: it is on the stack if it is short. It is `None` if there is no such command.
#[inline]
fn with_text<T>(command: &Command, colors: bool, f: impl FnOnce(&str) -> T) -> Option<T> {
    let mut short = [0; 128];
    let length = put_command(&mut short, command, colors)?;
    if let Some(written) = short.get(..length) {
        return Some(f(raw::text_of(written)));
    }
    with_long_text(command, colors, length, f)
}

#[cold]
fn with_long_text<T>(command: &Command, colors: bool, length: usize, f: impl FnOnce(&str) -> T) -> Option<T> {
    let mut long = vec![0; length];
    put_command(&mut long, command, colors)?;
    Some(f(raw::text_of(&long)))
}

/// Writes a command as text.
///
/// # Errors
///
/// The writer's.
///
/// ```
/// use gelvanh::{write_text, Command};
///
/// let mut text = String::new();
/// write_text(&mut text, &Command::MoveTo(65535, 0), true)?;
/// assert_eq!(text, "\x1b[1;65536H");
/// # Ok::<(), std::fmt::Error>(())
/// ```
#[inline]
pub fn write_text<W: fmt::Write + ?Sized>(writer: &mut W, command: &Command, colors: bool) -> fmt::Result {
    with_text(command, colors, |text| writer.write_str(text)).unwrap_or(Err(fmt::Error))
}

/// The parameters of a command that ends with `m`, as `38;5;9` of a red text.
pub fn parameters(command: &Command) -> String {
    let mut text = String::new();
    // A text has room for all, so only a command that isn't there could fail.
    let _ = write_text(&mut text, command, true);
    text.trim_start_matches("\x1b[").trim_end_matches('m').to_string()
}

impl Attribute {
    /// The attribute's parameter in a sequence: `1` of bold, `4:3` of undercurled.
    pub fn sgr(self) -> String {
        parameters(&Command::SetAttribute(self))
    }
}

/// The sequence that sets the attribute.
impl Display for Attribute {
    fn fmt(&self, f: &mut fmt::Formatter<'_>) -> fmt::Result {
        write_text(f, &Command::SetAttribute(*self), true)
    }
}

/// Writes a command on a writer.
///
/// # Errors
///
/// The writer's, which may have taken a beginning of the bytes.
pub fn write_command<W: io::Write + ?Sized>(writer: &mut W, command: &Command, colors: bool) -> io::Result<()> {
    let written = with_text(command, colors, |text| writer.write_all(text.as_bytes()));
    written.unwrap_or_else(|| Err(io::ErrorKind::InvalidInput.into()))
}

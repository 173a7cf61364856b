//! The terminal: its modes, its size, and its screen.

use crate::macros::{commands, shown};
use crate::{command, system, Command};
use gelvanh::Command as Proved;
use std::{fmt, io, process};

#[cfg(feature = "events")]
pub use crate::event::query::supports_keyboard_enhancement;
pub use gelvanh::ClearType;

/// Whether raw mode was turned on by `enable_raw_mode`, and not off again. It is never an error.
pub fn is_raw_mode_enabled() -> io::Result<bool> {
    Ok(system::is_raw())
}

/// Turns raw mode on: bytes come as they are typed, they aren't shown, and Ctrl-C is a key. In raw mode already, it does nothing.
///
/// The terminal is standard input, or `/dev/tty` if that isn't one.
///
/// ```no_run
/// use crossterm::terminal::{disable_raw_mode, enable_raw_mode};
///
/// enable_raw_mode()?;
/// // .. read keys ..
/// disable_raw_mode()?;
/// # Ok::<(), std::io::Error>(())
/// ```
///
/// # Errors
///
/// The system's, if there is no terminal or it refuses the mode. Then nothing has changed.
pub fn enable_raw_mode() -> io::Result<()> {
    system::enable_raw_mode()
}

/// Turns back to the mode before raw mode. Not in raw mode, it does nothing.
///
/// # Errors
///
/// The system's. Then raw mode is still on.
pub fn disable_raw_mode() -> io::Result<()> {
    system::disable_raw_mode()
}

/// The window's columns and rows: of `/dev/tty`, or of standard output, or as `tput` prints them.
///
/// ```no_run
/// let (columns, rows) = crossterm::terminal::size()?;
/// println!("{columns} columns, {rows} rows");
/// # Ok::<(), std::io::Error>(())
/// ```
///
/// # Errors
///
/// The system's, if there is no terminal and `tput` doesn't help.
pub fn size() -> io::Result<(u16, u16)> {
    match window_size() {
        Ok(size) => Ok((size.columns, size.rows)),
        Err(error) => tput_number("cols").zip(tput_number("lines")).ok_or(error),
    }
}

/// The number that `tput` prints, but 0.
fn tput_number(name: &str) -> Option<u16> {
    let output = process::Command::new("tput").arg(name).output().ok()?;
    let number: u16 = std::str::from_utf8(&output.stdout).ok()?.trim().parse().ok()?;
    Some(number).filter(|number| *number > 0)
}

/// The window's size.
#[derive(Debug)]
pub struct WindowSize {
    /// In characters, from top to bottom.
    pub rows: u16,
    /// In characters, from left to right.
    pub columns: u16,
    /// In pixels; 0 if the terminal doesn't report it.
    pub width: u16,
    /// In pixels; 0 if the terminal doesn't report it.
    pub height: u16,
}

#[cfg(feature = "libc")]
impl From<libc::winsize> for WindowSize {
    fn from(size: libc::winsize) -> WindowSize {
        WindowSize { rows: size.ws_row, columns: size.ws_col, width: size.ws_xpixel, height: size.ws_ypixel }
    }
}

/// The window's size, in characters and in pixels: of `/dev/tty`, or of standard output.
///
/// # Errors
///
/// The system's, if there is no terminal.
pub fn window_size() -> io::Result<WindowSize> {
    let [rows, columns, width, height] = system::window_size()?;
    Ok(WindowSize { rows, columns, width, height })
}

commands! {
    /// Lets a line that is too long be cut off.
    DisableLineWrap => Proved::DisableLineWrap;
    /// Lets a line that is too long go on in the next.
    EnableLineWrap => Proved::EnableLineWrap;
    /// Turns to the other screen, which can't be scrolled.
    ///
    /// ```no_run
    /// use crossterm::{execute, terminal::{EnterAlternateScreen, LeaveAlternateScreen}};
    ///
    /// execute!(std::io::stdout(), EnterAlternateScreen)?;
    /// // .. draw ..
    /// execute!(std::io::stdout(), LeaveAlternateScreen)?;
    /// # Ok::<(), std::io::Error>(())
    /// ```
    EnterAlternateScreen => Proved::EnterAlternateScreen;
    /// Turns back to the first screen.
    LeaveAlternateScreen => Proved::LeaveAlternateScreen;
    /// Scrolls so many lines up; with 0 it writes nothing.
    ScrollUp(lines: u16) => Proved::ScrollUp(lines);
    /// Scrolls so many lines down; with 0 it writes nothing.
    ScrollDown(lines: u16) => Proved::ScrollDown(lines);
    /// Clears a part of the screen.
    ///
    /// ```
    /// use crossterm::{queue, terminal::{Clear, ClearType}};
    ///
    /// let mut out = Vec::new();
    /// queue!(out, Clear(ClearType::UntilNewLine))?;
    /// assert_eq!(out, b"\x1b[K");
    /// # Ok::<(), std::io::Error>(())
    /// ```
    Clear(part: ClearType) => Proved::Clear(part);
    /// Asks for a window of so many columns and rows.
    SetSize(columns: u16, rows: u16) => Proved::SetSize(columns, rows);
    /// Lets the terminal keep what it shows, until the update ends.
    BeginSynchronizedUpdate => Proved::BeginSynchronizedUpdate;
    /// Lets the terminal show all changes of the update.
    EndSynchronizedUpdate => Proved::EndSynchronizedUpdate;
}

/// Gives the window a title, which is the value as `{}` shows it.
///
/// ```
/// use crossterm::terminal::SetTitle;
///
/// assert_eq!(SetTitle("mail").to_string(), "\x1b]0;mail\x07");
/// ```
#[derive(Clone, Copy, Debug, PartialEq, Eq)]
pub struct SetTitle<T>(pub T);

impl<T: fmt::Display> Command for SetTitle<T> {
    fn write_ansi(&self, f: &mut impl fmt::Write) -> fmt::Result {
        command::write_proved(f, &Proved::SetTitle(command::Shown::of(&self.0)?.as_str()))
    }
}

shown!(SetTitle<T>);

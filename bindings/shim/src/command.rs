//! Commands, and how they get to a writer.

use crate::style::Colored;
use crate::terminal::{BeginSynchronizedUpdate, EndSynchronizedUpdate};
use std::fmt;
use std::io::{self, Write};

/// What is asked of a terminal by a text.
///
/// ```
/// use crossterm::{queue, Command};
/// use std::fmt;
///
/// /// Rings the bell.
/// struct Bell;
///
/// impl Command for Bell {
///     fn write_ansi(&self, f: &mut impl fmt::Write) -> fmt::Result {
///         f.write_char('\x07')
///     }
/// }
///
/// let mut out = Vec::new();
/// queue!(out, Bell)?;
/// assert_eq!(out, b"\x07");
/// # Ok::<(), std::io::Error>(())
/// ```
pub trait Command {
    /// Writes the command's text.
    ///
    /// # Errors
    ///
    /// The writer's, or one of the command's own.
    fn write_ansi(&self, f: &mut impl fmt::Write) -> fmt::Result;
}

impl<C: Command + ?Sized> Command for &C {
    fn write_ansi(&self, f: &mut impl fmt::Write) -> fmt::Result {
        (**self).write_ansi(f)
    }
}

/// Writes the text that the proved commands have for one.
#[inline]
pub(crate) fn write_proved<W: fmt::Write + ?Sized>(f: &mut W, command: &gelvanh::Command) -> fmt::Result {
    gelvanh::write_text(f, command, !Colored::ansi_color_disabled_memoized())
}

/// The text of a value as `{}` shows it: on the stack as long as it is short.
pub(crate) struct Shown {
    short: [u8; 128],
    length: usize,
    /// The whole text, if it is long.
    long: String,
}

impl Shown {
    /// The value's text, or its error, for which `to_string` would panic.
    #[inline]
    pub(crate) fn of(value: &impl fmt::Display) -> Result<Shown, fmt::Error> {
        let mut text = Shown { short: [0; 128], length: 0, long: String::new() };
        fmt::write(&mut text, format_args!("{value}"))?;
        Ok(text)
    }

    #[inline]
    pub(crate) fn as_str(&self) -> &str {
        if self.long.is_empty() {
            // It is made of whole texts.
            return std::str::from_utf8(&self.short[..self.length]).unwrap_or_default();
        }
        &self.long
    }
}

impl fmt::Write for Shown {
    #[inline]
    fn write_str(&mut self, text: &str) -> fmt::Result {
        if self.long.is_empty() {
            if let Some(room) = self.short[self.length..].get_mut(..text.len()) {
                room.copy_from_slice(text.as_bytes());
                self.length += text.len();
                return Ok(());
            }
            self.long = self.as_str().to_string();
        }
        self.long.push_str(text);
        Ok(())
    }
}

/// So many bytes of commands wait for one write at most: those of four or five.
const WAITING: usize = 128;

/// Commands on their way to a writer, which gets as many at once as fit.
#[doc(hidden)]
pub struct Run<'a, W: Write + ?Sized> {
    writer: &'a mut W,
    waiting: [u8; WAITING],
    length: usize,
    /// The writer's error. Nothing is written after it.
    error: Option<io::Error>,
}

impl<'a, W: Write + ?Sized> Run<'a, W> {
    #[inline]
    pub fn new(writer: &'a mut W) -> Run<'a, W> {
        Run { writer, waiting: [0; WAITING], length: 0, error: None }
    }

    /// Puts a command behind the others.
    #[inline]
    pub fn put(&mut self, command: impl Command) -> io::Result<()> {
        if command.write_ansi(self).is_ok() {
            return Ok(());
        }
        // What came before a command that failed by itself is written all the same.
        self.end()?;
        Err(io::Error::new(io::ErrorKind::Other, "a command's write_ansi failed"))
    }

    /// Writes what waits.
    #[inline]
    pub fn end(&mut self) -> io::Result<()> {
        let _ = self.hand_on();
        self.error.take().map_or(Ok(()), Err)
    }

    #[inline]
    fn hand_on(&mut self) -> fmt::Result {
        let length = std::mem::take(&mut self.length);
        write_or_keep(self.writer, &self.waiting[..length], &mut self.error)
    }
}

/// Writes bytes, and keeps the writer's error.
#[inline]
fn write_or_keep<W: Write + ?Sized>(writer: &mut W, bytes: &[u8], kept: &mut Option<io::Error>) -> fmt::Result {
    if bytes.is_empty() || kept.is_some() {
        return if kept.is_some() { Err(fmt::Error) } else { Ok(()) };
    }
    writer.write_all(bytes).map_err(|error| {
        *kept = Some(error);
        fmt::Error
    })
}

impl<W: Write + ?Sized> fmt::Write for Run<'_, W> {
    #[inline]
    fn write_str(&mut self, text: &str) -> fmt::Result {
        if let Some(room) = self.waiting[self.length..].get_mut(..text.len()) {
            room.copy_from_slice(text.as_bytes());
            self.length += text.len();
            return Ok(());
        }
        self.hand_on()?;
        match self.waiting.get_mut(..text.len()) {
            Some(room) => {
                room.copy_from_slice(text.as_bytes());
                self.length = text.len();
                Ok(())
            }
            None => write_or_keep(self.writer, text.as_bytes(), &mut self.error),
        }
    }
}

/// Writes what waits, as if a command's value isn't there and `?` ends the run.
impl<W: Write + ?Sized> Drop for Run<'_, W> {
    #[inline]
    fn drop(&mut self) {
        if self.length > 0 {
            let _ = self.hand_on();
        }
    }
}

/// Writers that take commands and are flushed later.
///
/// ```
/// use crossterm::{cursor::MoveTo, style::Print, QueueableCommand};
///
/// let mut out = Vec::new();
/// out.queue(MoveTo(0, 0))?.queue(Print("ab"))?;
/// assert_eq!(out, b"\x1b[1;1Hab");
/// # Ok::<(), std::io::Error>(())
/// ```
pub trait QueueableCommand {
    /// Writes a command.
    ///
    /// # Errors
    ///
    /// The writer's, or one of kind `Other` if the command failed by itself. The writer may have taken a beginning of the text.
    fn queue(&mut self, command: impl Command) -> io::Result<&mut Self>;
}

impl<W: Write + ?Sized> QueueableCommand for W {
    fn queue(&mut self, command: impl Command) -> io::Result<&mut Self> {
        let mut run = Run::new(&mut *self);
        run.put(command)?;
        run.end()?;
        drop(run);
        Ok(self)
    }
}

/// Writers whose commands are carried out at once.
///
/// ```no_run
/// use crossterm::{terminal::SetTitle, ExecutableCommand};
///
/// std::io::stdout().execute(SetTitle("mail"))?;
/// # Ok::<(), std::io::Error>(())
/// ```
pub trait ExecutableCommand {
    /// Writes a command, and flushes.
    ///
    /// # Errors
    ///
    /// Those of `queue`, and the writer's at the flush.
    fn execute(&mut self, command: impl Command) -> io::Result<&mut Self>;
}

impl<W: Write + ?Sized> ExecutableCommand for W {
    fn execute(&mut self, command: impl Command) -> io::Result<&mut Self> {
        self.queue(command)?.flush()?;
        Ok(self)
    }
}

/// Changes of the screen that are shown together.
///
/// ```
/// use crossterm::{queue, style::Print, SynchronizedUpdate};
///
/// let mut out = Vec::new();
/// out.sync_update(|out| queue!(out, Print("ab")))??;
/// assert_eq!(out, b"\x1b[?2026hab\x1b[?2026l");
/// # Ok::<(), std::io::Error>(())
/// ```
pub trait SynchronizedUpdate {
    /// Writes what a function writes, between the commands that begin and end such an update, and returns what the function returns.
    ///
    /// # Errors
    ///
    /// The writer's at the beginning or the end. An error that the function returns is inside of `Ok`.
    fn sync_update<T>(&mut self, operations: impl FnOnce(&mut Self) -> T) -> io::Result<T>;
}

impl<W: Write + ?Sized> SynchronizedUpdate for W {
    fn sync_update<T>(&mut self, operations: impl FnOnce(&mut Self) -> T) -> io::Result<T> {
        self.queue(BeginSynchronizedUpdate)?;
        let given = operations(self);
        self.execute(EndSynchronizedUpdate)?;
        Ok(given)
    }
}

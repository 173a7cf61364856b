//! Asks a terminal for a line.

use super::{Editor, Helper, Limits, LineError, Mask, Outcome, Prompt};
use crate::event::Event;
use crate::key::{KeyCode, KeyModifiers};
use crate::writing::write_command;
use crate::Command;
use std::io::{self, Write};

/// A terminal that `Editor::readline` asks, and that takes what it shows. The crate `crossterm` beside this one has one.
///
/// ```
/// use gelvanh::line::{Editor, Limits, Outcome, Terminal};
/// use gelvanh::{Event, KeyCode};
/// use std::io::{self, Write};
///
/// /// Keys that were typed before.
/// struct Typed(Vec<KeyCode>);
///
/// impl Write for Typed {
///     fn write(&mut self, bytes: &[u8]) -> io::Result<usize> {
///         Ok(bytes.len())
///     }
///
///     fn flush(&mut self) -> io::Result<()> {
///         Ok(())
///     }
/// }
///
/// impl Terminal for Typed {
///     fn set_raw_mode(&mut self, _is_on: bool) -> io::Result<bool> {
///         Ok(true)
///     }
///
///     fn size(&mut self) -> io::Result<(u16, u16)> {
///         Ok((80, 24))
///     }
///
///     fn has_event(&mut self) -> io::Result<bool> {
///         Ok(!self.0.is_empty())
///     }
///
///     fn read(&mut self) -> io::Result<Event> {
///         let key = self.0.pop().ok_or(io::ErrorKind::UnexpectedEof)?;
///         Ok(Event::Key(key.into()))
///     }
/// }
///
/// let mut editor = Editor::new(Limits::default())?;
/// let mut terminal = Typed(vec![KeyCode::Enter, KeyCode::Char('b'), KeyCode::Left, KeyCode::Char('a')]);
/// assert_eq!(editor.readline("> ", &mut terminal)?, Outcome::Line("ba".into()));
/// # Ok::<(), std::io::Error>(())
/// ```
pub trait Terminal: Write {
    /// Sets raw mode on or off, and returns whether that is another mode than before.
    ///
    /// # Errors
    ///
    /// The system's. Then the mode hasn't changed.
    fn set_raw_mode(&mut self, is_on: bool) -> io::Result<bool>;

    /// The window's columns and rows; 0 if they aren't known.
    ///
    /// # Errors
    ///
    /// The system's.
    fn size(&mut self) -> io::Result<(u16, u16)>;

    /// Whether `read` returns at once.
    ///
    /// # Errors
    ///
    /// The system's.
    fn has_event(&mut self) -> io::Result<bool>;

    /// The next event, for which it waits.
    ///
    /// # Errors
    ///
    /// `UnexpectedEof` at the end of input, or the system's.
    fn read(&mut self) -> io::Result<Event>;
}

/// A terminal in raw mode, in which a paste is one event. Both end with it.
struct Session<'a, T: Terminal + ?Sized> {
    terminal: &'a mut T,
    /// Whether raw mode was off before.
    has_set_mode: bool,
}

impl<'a, T: Terminal + ?Sized> Session<'a, T> {
    fn begin(terminal: &'a mut T) -> io::Result<Session<'a, T>> {
        let has_set_mode = terminal.set_raw_mode(true)?;
        let session = Session { terminal, has_set_mode };
        set_pastes(session.terminal, true)?;
        Ok(session)
    }
}

impl<T: Terminal + ?Sized> Drop for Session<'_, T> {
    fn drop(&mut self) {
        // A line, an error or a panic is more than an error of this: a further call shows it.
        let _ = set_pastes(self.terminal, false);
        if self.has_set_mode {
            let _ = self.terminal.set_raw_mode(false);
        }
    }
}

/// Lets a paste be one event, or keys.
fn set_pastes<T: Terminal + ?Sized>(terminal: &mut T, is_on: bool) -> io::Result<()> {
    if cfg!(feature = "bracketed-paste") {
        let command = if is_on { Command::EnableBracketedPaste } else { Command::DisableBracketedPaste };
        write_command(terminal, &command, true)?;
    }
    terminal.flush()
}

/// Whether a key may end the line, which is shown whole before that.
fn may_end(event: &Event) -> bool {
    event.as_key_event().map_or(false, |key| key.code == KeyCode::Enter || key.modifiers.contains(KeyModifiers::CONTROL))
}

impl<H: Helper> Editor<H> {
    /// Asks for a line from the cursor's row on, behind a prompt, until Enter, Ctrl-C, or Ctrl-D in an empty line. It returns neither
    /// `Outcome::Going` nor `Ring`. The prompt is a `&str`, or a `Prompt` of parts in styles.
    ///
    /// Raw mode is on meanwhile, and so are pastes as events, unless this crate lacks the feature `bracketed-paste`. Both are off again however
    /// it ends; a raw mode that was on before stays on. Between two lines the terminal has its own mode, in which Ctrl-C ends the program.
    ///
    /// What is there at once is taken before the line is shown. A text without room, and a search that finds nothing, ring the bell. After a resize the rows are drawn
    /// anew, and Ctrl-L clears the window before.
    ///
    /// The editor may hold an unfinished line, as after an error: then that line goes on.
    ///
    /// # Errors
    ///
    /// `InvalidInput` if the prompt has a control character, and then nothing was done; those of the terminal; `OutOfMemory`. The editor has taken
    /// all events that were read, but one for which memory was refused, and the cursor stays in its row.
    ///
    /// A line that has ended is returned also if the terminal fails to leave its rows.
    pub fn readline<'a, T: Terminal + ?Sized>(&mut self, prompt: impl Into<Prompt<'a>>, terminal: &mut T) -> io::Result<Outcome> {
        let prompt = prompt.into();
        self.begin_behind(&prompt, 0, 0)?;
        let session = Session::begin(terminal)?;
        // From its first look on a terminal reports resizes: so none is lost between its size and the next event.
        session.terminal.has_event()?;
        let (columns, rows) = session.terminal.size()?;
        self.begin_behind(&prompt, columns, rows)?;
        self.show(session.terminal)?;
        loop {
            let event = session.terminal.read()?;
            match self.take(&event, session.terminal)? {
                Outcome::Going | Outcome::Ring => {}
                outcome => {
                    let _ = self.flush(session.terminal);
                    return Ok(outcome);
                }
            }
        }
    }

    /// Takes an event, and shows the line unless more are there.
    fn take<T: Terminal + ?Sized>(&mut self, event: &Event, terminal: &mut T) -> io::Result<Outcome> {
        // The event is taken even if its frame fails.
        let shown = if may_end(event) { self.show(terminal) } else { Ok(()) };
        let taken = self.turn(event);
        let rings = match taken {
            Ok(Outcome::Going) => false,
            Ok(Outcome::Ring) | Err(LineError::TooLong) => true,
            ended => return Ok(ended?),
        };
        shown?;
        if rings {
            terminal.write_all(b"\x07")?;
        }
        if let Event::Resize(columns, rows) = *event {
            self.resize(columns, rows)?;
        }
        if !terminal.has_event()? {
            self.show(terminal)?;
        }
        Ok(Outcome::Going)
    }
}

/// Asks for a line that nobody is to read, as a password: as `Editor::readline` does, but nothing is shown of the line, or a star for each
/// character. It is typed in an editor of its own, so that no history and no undo has it.
///
/// # Errors
///
/// Those of `Editor::readline`, and what was typed before an error is lost.
pub fn read_hidden<'a, T: Terminal + ?Sized>(prompt: impl Into<Prompt<'a>>, mask: Mask, terminal: &mut T) -> io::Result<Outcome> {
    let mut editor = Editor::new(Limits { lines: 0, ..Limits::default() })?;
    editor.hide(Some(mask));
    editor.readline(prompt, terminal)
}

//! Lines that are edited in the terminal: the usual keys of GNU readline, an undo, killed text, a history and completion.
//!
//! ```no_run
//! use crossterm::line::{Editor, Limits, Outcome};
//!
//! let mut editor = Editor::new(Limits::default())?;
//! while let Outcome::Line(text) = editor.readline("> ")? {
//!     println!("{text}");
//! }
//! # Ok::<(), std::io::Error>(())
//! ```
//!
//! crossterm has no such module. The editor is that of the crate `gelvanh`, which is proved; this one has the terminal for it.

use crate::event::{self, Event};
use crate::terminal;
use std::io::{self, Write};
use std::ops::{Deref, DerefMut};
use std::time::Duration;

pub use gelvanh::line::{Helper, Limits, LineError, Mask, Outcome, Prompt, Terminal, Words};

/// The terminal that `event::read` reads, and standard output.
struct Tty;

impl Write for Tty {
    fn write(&mut self, bytes: &[u8]) -> io::Result<usize> {
        io::stdout().write(bytes)
    }

    fn flush(&mut self) -> io::Result<()> {
        io::stdout().flush()
    }
}

impl Terminal for Tty {
    fn set_raw_mode(&mut self, is_on: bool) -> io::Result<bool> {
        let was_on = terminal::is_raw_mode_enabled()?;
        if is_on {
            terminal::enable_raw_mode()?;
        } else {
            terminal::disable_raw_mode()?;
        }
        Ok(was_on != is_on)
    }

    fn size(&mut self) -> io::Result<(u16, u16)> {
        Ok(terminal::size().unwrap_or_default())
    }

    fn has_event(&mut self) -> io::Result<bool> {
        event::poll(Duration::ZERO)
    }

    fn read(&mut self) -> io::Result<Event> {
        event::read()
    }
}

/// An editor of one line, which asks for it in the terminal. It has what `gelvanh::line::Editor` has: `text`, `history`, `load_history`, `turn` and
/// `show` for who reads events by itself, and more. That one's `readline` asks in any `Terminal`.
pub struct Editor<H = ()> {
    editor: gelvanh::line::Editor<H>,
}

impl Editor {
    /// An editor with an empty line and nothing before it.
    ///
    /// # Errors
    ///
    /// `NoMemory`.
    pub fn new(limits: Limits) -> Result<Editor, LineError> {
        Ok(Editor { editor: gelvanh::line::Editor::new(limits)? })
    }
}

impl<H> Editor<H> {
    /// The same editor, with this helper.
    ///
    /// ```
    /// use crossterm::line::{Editor, Limits, Words};
    ///
    /// let editor = Editor::new(Limits::default())?.with_helper(Words::new(["help", "quit"]));
    /// # let _: Editor<Words> = editor;
    /// # Ok::<(), std::io::Error>(())
    /// ```
    pub fn with_helper<G: Helper>(self, helper: G) -> Editor<G> {
        Editor { editor: self.editor.with_helper(helper) }
    }
}

impl<H: Helper> Editor<H> {
    /// Asks for a line from the cursor's row on, behind a prompt, until Enter, Ctrl-C, or Ctrl-D in an empty line. It returns neither
    /// `Outcome::Going` nor `Ring`. The prompt is a `&str`, or a `Prompt` of parts in styles:
    ///
    /// ```no_run
    /// use crossterm::line::{Editor, Limits, Prompt};
    /// use crossterm::style::{ContentStyle, Stylize};
    ///
    /// let mut editor = Editor::new(Limits::default())?;
    /// let prompt = Prompt::new("").part("~/src", ContentStyle::new().blue()).part("> ", ContentStyle::new().bold());
    /// editor.readline(prompt)?;
    /// # Ok::<(), std::io::Error>(())
    /// ```
    ///
    /// Raw mode is on meanwhile, and so are pastes as events, unless this crate lacks the feature `bracketed-paste`. Both are off again however
    /// it ends; a raw mode that was on before stays on. A text without room, and a search that finds nothing, ring the bell. After a resize the rows are
    /// drawn anew, and Ctrl-L clears the window before. The editor may hold an unfinished line, as after an error: then that line goes on.
    ///
    /// # Errors
    ///
    /// `InvalidInput` if the prompt has a control character, and then nothing was done; those of `enable_raw_mode`, `read`, `poll` and of
    /// standard output; `OutOfMemory`. The editor has taken all events that were read, but one for which memory was refused.
    pub fn readline<'a>(&mut self, prompt: impl Into<Prompt<'a>>) -> io::Result<Outcome> {
        self.editor.readline(prompt, &mut Tty)
    }
}

/// Asks for a line that nobody is to read, as a password: as `Editor::readline` does, but nothing is shown of the line, or a star for each
/// character. No history and no undo has it then.
///
/// # Errors
///
/// Those of `Editor::readline`, and what was typed before an error is lost.
///
/// ```no_run
/// use crossterm::line::{read_hidden, Mask, Outcome};
///
/// if let Outcome::Line(password) = read_hidden("Password: ", Mask::Stars)? {
///     println!("{} characters", password.chars().count());
/// }
/// # Ok::<(), std::io::Error>(())
/// ```
pub fn read_hidden<'a>(prompt: impl Into<Prompt<'a>>, mask: Mask) -> io::Result<Outcome> {
    gelvanh::line::read_hidden(prompt, mask, &mut Tty)
}

impl<H> Deref for Editor<H> {
    type Target = gelvanh::line::Editor<H>;

    fn deref(&self) -> &gelvanh::line::Editor<H> {
        &self.editor
    }
}

impl<H> DerefMut for Editor<H> {
    fn deref_mut(&mut self) -> &mut gelvanh::line::Editor<H> {
        &mut self.editor
    }
}

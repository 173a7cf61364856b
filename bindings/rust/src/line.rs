//! Lines that are edited, by the archive of lines: the usual keys of GNU readline, an undo, killed text and a history.
//!
//! ```
//! use gelvanh::line::{Editor, Limits, Outcome};
//! use gelvanh::{Event, KeyCode};
//!
//! let mut editor = Editor::new(Limits::default())?;
//! let mut out = Vec::new();
//! editor.begin("> ", 80, 24)?;
//! for key in [KeyCode::Char('b'), KeyCode::Left, KeyCode::Char('a')] {
//!     assert_eq!(editor.turn(&Event::Key(key.into()))?, Outcome::Going);
//!     editor.show(&mut out)?;
//! }
//! assert_eq!((editor.before(), editor.after()), ("a".into(), "b".into()));
//! assert_eq!(editor.turn(&Event::Key(KeyCode::Enter.into()))?, Outcome::Line("ab".into()));
//! assert_eq!(editor.history()?, "ab\n");
//! # Ok::<(), std::io::Error>(())
//! ```
//!
//! `Editor::readline` is the whole loop, over a `Terminal`.
//!
//! An editor may go to another thread, but two threads can't have it:
//!
//! ```compile_fail,E0277
//! let editor = gelvanh::line::Editor::new(Default::default()).unwrap();
//! std::thread::scope(|scope| {
//!     scope.spawn(|| editor.text());
//!     editor.text();
//! });
//! ```
//!
//! And nothing is left of one that was freed:
//!
//! ```compile_fail,E0382
//! let editor = gelvanh::line::Editor::new(Default::default()).unwrap();
//! drop(editor);
//! editor.text();
//! ```

mod asking;
mod helper;
mod prompts;

use crate::command::{style_of_part, Style};
use crate::event::Event;
use crate::flat;
use crate::key::{KeyCode, KeyModifiers};
use crate::raw_line::{Answer, Handle};
use std::error::Error;
use std::fmt::{self, Display};
use std::io::{self, Write};

pub use crate::raw_line::Limits;
pub use asking::{read_hidden, Terminal};
pub use helper::{Helper, Words};
pub use prompts::Prompt;

/// What comes of an event.
#[derive(Clone, Debug, PartialEq, Eq)]
pub enum Outcome {
    /// The line goes on.
    Going,
    /// The line goes on, and the bell is to ring: an incremental search found nothing, or there is none to give up.
    Ring,
    /// The line was accepted, by Enter, and this is its text.
    Line(String),
    /// The line was let go, by Ctrl-C.
    Interrupted,
    /// The empty line was closed, by Ctrl-D.
    Closed,
}

/// Why something was refused. Nothing has changed then.
#[derive(Clone, Copy, Debug, PartialEq, Eq)]
pub enum LineError {
    /// The text has no room in the line.
    TooLong,
    /// Memory was refused.
    NoMemory,
    /// The prompt has a control character.
    Prompt,
}

impl Display for LineError {
    fn fmt(&self, f: &mut fmt::Formatter<'_>) -> fmt::Result {
        f.write_str(match self {
            LineError::TooLong => "the line would be too long",
            LineError::NoMemory => "there is no memory for the line",
            LineError::Prompt => "the prompt has a control character",
        })
    }
}

impl Error for LineError {}

impl From<LineError> for io::Error {
    fn from(error: LineError) -> io::Error {
        let kind = match error {
            LineError::TooLong | LineError::Prompt => io::ErrorKind::InvalidInput,
            LineError::NoMemory => io::ErrorKind::OutOfMemory,
        };
        io::Error::new(kind, error)
    }
}

/// What a call made of an answer that ends no line.
fn done(answer: Answer) -> Result<(), LineError> {
    match answer {
        Answer::TooLong => Err(LineError::TooLong),
        Answer::NoMemory => Err(LineError::NoMemory),
        // A `&str` is UTF-8, an event has an event's numbers, and a style a style's: so it is a prompt.
        Answer::Unknown => Err(LineError::Prompt),
        Answer::GoesOn | Answer::Rings | Answer::Accepted | Answer::Interrupted | Answer::Closed => Ok(()),
    }
}

/// Whether an event is Tab without a modifier.
fn is_tab(event: &Event) -> bool {
    event.as_key_event().map_or(false, |key| key.code == KeyCode::Tab && key.modifiers == KeyModifiers::NONE && !key.is_release())
}

/// What is shown in the place of a line that nobody is to read, as a password.
#[derive(Clone, Copy, Debug, PartialEq, Eq)]
pub enum Mask {
    /// Nothing, so that nobody sees how long the line is.
    Nothing,
    /// A star in the place of each character.
    Stars,
}

/// An editor of one line, with the texts that were killed, the changes that can be undone, and the history of accepted lines.
pub struct Editor<H = ()> {
    line: Handle,
    helper: H,
    /// Whether the line was shown since it changed.
    is_shown: bool,
    /// Whether the last event was Tab.
    is_tabbed: bool,
}

impl Editor {
    /// An editor with an empty line and nothing before it.
    ///
    /// # Errors
    ///
    /// `NoMemory`.
    ///
    /// ```
    /// use gelvanh::line::{Editor, Limits};
    ///
    /// let editor = Editor::new(Limits { lines: 50, ..Limits::default() })?;
    /// assert_eq!(editor.text(), "");
    /// # Ok::<(), gelvanh::line::LineError>(())
    /// ```
    pub fn new(limits: Limits) -> Result<Editor, LineError> {
        let line = Handle::new(&limits).ok_or(LineError::NoMemory)?;
        Ok(Editor { line, helper: (), is_shown: false, is_tabbed: false })
    }
}

impl<H> Editor<H> {
    /// The same editor, with this helper.
    ///
    /// ```
    /// use gelvanh::line::{Editor, Limits, Words};
    /// use gelvanh::{Event, KeyCode};
    ///
    /// let mut editor = Editor::new(Limits::default())?.with_helper(Words::new(["help", "quit"]));
    /// editor.paste("he")?;
    /// editor.turn(&Event::Key(KeyCode::Tab.into()))?;
    /// assert_eq!(editor.text(), "help");
    /// # Ok::<(), gelvanh::line::LineError>(())
    /// ```
    pub fn with_helper<G: Helper>(self, helper: G) -> Editor<G> {
        Editor { line: self.line, helper, is_shown: false, is_tabbed: false }
    }

    /// The line's text.
    pub fn text(&self) -> String {
        self.line.text()
    }

    /// The text before the cursor.
    pub fn before(&self) -> String {
        let mut text = self.text();
        text.truncate(self.line.cursor());
        text
    }

    /// The text behind the cursor.
    pub fn after(&self) -> String {
        self.text().split_off(self.line.cursor())
    }

    /// The accepted lines, the oldest first, with a line feed behind each: a text that `load_history` takes.
    ///
    /// # Errors
    ///
    /// `NoMemory`.
    pub fn history(&self) -> Result<String, LineError> {
        self.line.history().ok_or(LineError::NoMemory)
    }

    /// Takes the history from a text, in the place of the one before. Lines that are empty or too long are left out, and the oldest of too many.
    ///
    /// # Errors
    ///
    /// `NoMemory`.
    ///
    /// ```
    /// use gelvanh::line::{Editor, Limits};
    /// use gelvanh::{Event, KeyCode};
    ///
    /// let mut editor = Editor::new(Limits::default())?;
    /// editor.load_history("first\nsecond\n")?;
    /// editor.turn(&Event::Key(KeyCode::Up.into()))?;
    /// assert_eq!(editor.text(), "second");
    /// # Ok::<(), gelvanh::line::LineError>(())
    /// ```
    pub fn load_history(&mut self, text: &str) -> Result<(), LineError> {
        done(self.line.load_history(text))
    }

    /// Begins a line behind a prompt, in a window of so many columns and rows; 0 count as 80 and 24. It is shown from the cursor's row on, in as many
    /// rows as it takes. Nothing is known of them then, and the next `show` draws all of it. The line's text stays.
    ///
    /// # Errors
    ///
    /// `NoMemory`, or `Prompt` if the prompt has a control character.
    pub fn begin(&mut self, prompt: &str, columns: u16, rows: u16) -> Result<(), LineError> {
        self.is_shown = false;
        done(self.line.begin(prompt, columns, rows))?;
        self.is_tabbed = false;
        Ok(())
    }

    /// Adds a part in a style to the prompt, behind what there is of it. The next `begin` drops it.
    ///
    /// # Errors
    ///
    /// `NoMemory`, or `Prompt` if the part has a control character.
    ///
    /// ```
    /// use gelvanh::line::{Editor, Limits};
    /// use gelvanh::{Color, Style};
    ///
    /// let mut editor = Editor::new(Limits::default())?;
    /// let mut out = Vec::new();
    /// editor.begin("", 80, 24)?;
    /// editor.add_part("$ ", Style { foreground: Some(Color::Green), ..Style::default() })?;
    /// editor.show(&mut out)?;
    /// assert!(String::from_utf8_lossy(&out).contains("\x1b[38;5;10m$ "));
    /// # Ok::<(), std::io::Error>(())
    /// ```
    pub fn add_part(&mut self, text: &str, style: impl Into<Style>) -> Result<(), LineError> {
        self.is_shown = false;
        done(self.line.prompt(text, &style_of_part(&style.into())))
    }

    /// Begins a line behind a prompt of several parts.
    fn begin_behind(&mut self, prompt: &Prompt<'_>, columns: u16, rows: u16) -> Result<(), LineError> {
        self.begin(prompt.text, columns, rows)?;
        prompt.parts.iter().try_for_each(|&(text, style)| self.add_part(text, style))
    }

    /// Takes another size of the window: the next `show` erases the line's rows, and draws them anew there.
    ///
    /// # Errors
    ///
    /// `NoMemory`.
    pub fn resize(&mut self, columns: u16, rows: u16) -> Result<(), LineError> {
        self.is_shown = false;
        done(self.line.resize(columns, rows))
    }

    /// Shows this in the line's place from the next `show` on, or the line with `None`. A hidden line has no hint, lists no candidates and shows
    /// no search. `read_hidden` also forgets the line.
    ///
    /// ```
    /// use gelvanh::line::{Editor, Limits, Mask};
    ///
    /// let mut editor = Editor::new(Limits::default())?;
    /// let mut out = Vec::new();
    /// editor.begin("PIN: ", 80, 24)?;
    /// editor.hide(Some(Mask::Stars));
    /// editor.paste("1234")?;
    /// editor.show(&mut out)?;
    /// assert!(String::from_utf8_lossy(&out).contains("PIN: ****"));
    /// # Ok::<(), std::io::Error>(())
    /// ```
    pub fn hide(&mut self, mask: Option<Mask>) {
        self.is_shown = false;
        self.line.hide(match mask {
            None => 0,
            Some(Mask::Nothing) => 1,
            Some(Mask::Stars) => 2,
        });
    }

    /// Writes a text at the cursor, as one change. Line ends and tabs side by side become one blank, and at its end none; other control characters
    /// are left out.
    ///
    /// # Errors
    ///
    /// `TooLong`, or `NoMemory`.
    pub fn paste(&mut self, text: &str) -> Result<(), LineError> {
        self.is_shown = false;
        done(self.line.paste(text))?;
        self.is_tabbed = false;
        Ok(())
    }

    /// Writes what is left for the terminal, without the line: after it has ended, what leaves its row.
    ///
    /// # Errors
    ///
    /// The writer's, which may have taken a beginning of the bytes.
    pub fn flush<W: Write + ?Sized>(&mut self, out: &mut W) -> io::Result<()> {
        let mut slice = [0; 1024];
        loop {
            match self.line.output(&mut slice) {
                [] => return out.flush(),
                bytes => out.write_all(bytes)?,
            }
        }
    }
}

impl<H: Helper> Editor<H> {
    /// Takes an event: a key does what it is bound to, a paste is pasted, and any other event does nothing. At Tab without a modifier the helper's
    /// text is pasted, if it has one. A second Tab lists its candidates below the line, up to the next event.
    ///
    /// # Errors
    ///
    /// `TooLong`, or `NoMemory`.
    pub fn turn(&mut self, event: &Event) -> Result<Outcome, LineError> {
        #[cfg(feature = "bracketed-paste")]
        if let Event::Paste(text) = event {
            return self.paste(text).map(|()| Outcome::Going);
        }
        self.is_shown = false;
        if is_tab(event) {
            return self.complete(event).map(|()| Outcome::Going);
        }
        let answer = self.line.event(&flat::Event::of(event));
        self.is_tabbed &= matches!(answer, Answer::TooLong | Answer::NoMemory | Answer::Unknown);
        match answer {
            Answer::Accepted => Ok(Outcome::Line(self.line.accepted())),
            Answer::Interrupted => Ok(Outcome::Interrupted),
            Answer::Closed => Ok(Outcome::Closed),
            Answer::Rings => Ok(Outcome::Ring),
            answer => done(answer).map(|()| Outcome::Going),
        }
    }

    /// Pastes the helper's text at Tab, and lists its candidates at the second one in a row.
    fn complete(&mut self, tab: &Event) -> Result<(), LineError> {
        match self.helper.complete(&self.before(), &self.after()) {
            Some(text) => done(self.line.paste(&text))?,
            None => done(self.line.event(&flat::Event::of(tab)))?,
        }
        if std::mem::replace(&mut self.is_tabbed, true) {
            let names = self.helper.candidates(&self.before(), &self.after());
            done(self.line.list(&names.join("\n")))?;
        }
        Ok(())
    }

    /// Writes what makes the rows show the line as it is, with the helper's hint behind it; after Ctrl-L at the top of an empty window. While
    /// an incremental search goes on, what it looks for is in the prompt's place. After a line has ended that is the next one: `flush` only leaves the row.
    ///
    /// # Errors
    ///
    /// The writer's, which may have taken a beginning of the bytes; `OutOfMemory`.
    pub fn show<W: Write + ?Sized>(&mut self, out: &mut W) -> io::Result<()> {
        if !self.is_shown {
            let hint = self.helper.hint(&self.text());
            done(self.line.hint(&hint))?;
            done(self.line.show())?;
            self.is_shown = true;
        }
        self.flush(out)
    }
}

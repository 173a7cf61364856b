//! The cursor: where it is, and how it looks.

use crate::macros::{commands, shown};
use crate::Command;
use gelvanh::Command as Proved;
use std::fmt;

#[cfg(feature = "events")]
pub use crate::event::query::position;

commands! {
    /// Moves the cursor to a column and a row, from 0.
    ///
    /// ```
    /// use crossterm::{cursor::MoveTo, queue};
    ///
    /// let mut out = Vec::new();
    /// queue!(out, MoveTo(9, 1))?;
    /// assert_eq!(out, b"\x1b[2;10H");
    /// # Ok::<(), std::io::Error>(())
    /// ```
    MoveTo(column: u16, row: u16) => Proved::MoveTo(column, row);
    /// Moves the cursor down so many lines, to the first column.
    MoveToNextLine(lines: u16) => Proved::MoveToNextLine(lines);
    /// Moves the cursor up so many lines, to the first column.
    MoveToPreviousLine(lines: u16) => Proved::MoveToPreviousLine(lines);
    /// Moves the cursor to a column of its row, from 0.
    MoveToColumn(column: u16) => Proved::MoveToColumn(column);
    /// Moves the cursor to a row of its column, from 0.
    MoveToRow(row: u16) => Proved::MoveToRow(row);
    /// Moves the cursor up so many rows.
    MoveUp(rows: u16) => Proved::MoveUp(rows);
    /// Moves the cursor to the right so many columns.
    MoveRight(columns: u16) => Proved::MoveRight(columns);
    /// Moves the cursor down so many rows.
    MoveDown(rows: u16) => Proved::MoveDown(rows);
    /// Moves the cursor to the left so many columns.
    MoveLeft(columns: u16) => Proved::MoveLeft(columns);
    /// Keeps the cursor's place in the terminal.
    SavePosition => Proved::SavePosition;
    /// Moves the cursor to the place that was kept.
    RestorePosition => Proved::RestorePosition;
    /// Hides the cursor.
    ///
    /// ```no_run
    /// use crossterm::{cursor::{Hide, Show}, execute};
    ///
    /// execute!(std::io::stdout(), Hide)?;
    /// // .. draw ..
    /// execute!(std::io::stdout(), Show)?;
    /// # Ok::<(), std::io::Error>(())
    /// ```
    Hide => Proved::Hide;
    /// Shows the cursor.
    Show => Proved::Show;
    /// Lets the cursor blink. `SetCursorStyle` is known to more terminals.
    EnableBlinking => Proved::EnableBlinking;
    /// Keeps the cursor from blinking.
    DisableBlinking => Proved::DisableBlinking;
}

/// Gives the cursor a shape.
///
/// ```
/// use crossterm::cursor::SetCursorStyle;
///
/// assert_eq!(SetCursorStyle::SteadyBar.to_string(), "\x1b[6 q");
/// ```
#[derive(Clone, Copy, Debug, PartialEq, Eq, Hash)]
pub enum SetCursorStyle {
    /// The shape that the terminal's user chose.
    DefaultUserShape,
    /// A block that blinks.
    BlinkingBlock,
    /// A block.
    SteadyBlock,
    /// A line below the character, which blinks.
    BlinkingUnderScore,
    /// A line below the character.
    SteadyUnderScore,
    /// A bar in front of the character, which blinks.
    BlinkingBar,
    /// A bar in front of the character.
    SteadyBar,
}

impl Command for SetCursorStyle {
    fn write_ansi(&self, f: &mut impl fmt::Write) -> fmt::Result {
        use gelvanh::CursorStyle as Shape;
        let shape = match self {
            SetCursorStyle::DefaultUserShape => Shape::DefaultUserShape,
            SetCursorStyle::BlinkingBlock => Shape::BlinkingBlock,
            SetCursorStyle::SteadyBlock => Shape::SteadyBlock,
            SetCursorStyle::BlinkingUnderScore => Shape::BlinkingUnderScore,
            SetCursorStyle::SteadyUnderScore => Shape::SteadyUnderScore,
            SetCursorStyle::BlinkingBar => Shape::BlinkingBar,
            SetCursorStyle::SteadyBar => Shape::SteadyBar,
        };
        crate::command::write_proved(f, &Proved::SetCursorStyle(shape))
    }
}

shown!(SetCursorStyle);

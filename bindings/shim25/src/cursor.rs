//! The cursor: where it is, and how it looks.

use newer::cursor::SetCursorStyle;
use newer::Command;
use std::fmt;

pub use newer::cursor::{
    position, DisableBlinking, EnableBlinking, Hide, MoveDown, MoveLeft, MoveRight, MoveTo, MoveToColumn, MoveToNextLine,
    MoveToPreviousLine, MoveToRow, MoveUp, RestorePosition, SavePosition, Show,
};

/// The cursor's shape.
#[derive(Clone, Copy, Debug, PartialEq, Eq, Hash)]
pub enum CursorShape {
    /// A line below the character, which blinks.
    UnderScore,
    /// A bar in front of the character, which blinks.
    Line,
    /// A block.
    Block,
}

/// Gives the cursor a shape.
#[derive(Clone, Copy, Debug, PartialEq, Eq)]
pub struct SetCursorShape(pub CursorShape);

impl Command for SetCursorShape {
    fn write_ansi(&self, f: &mut impl fmt::Write) -> fmt::Result {
        match self.0 {
            CursorShape::UnderScore => SetCursorStyle::BlinkingUnderScore,
            CursorShape::Line => SetCursorStyle::BlinkingBar,
            CursorShape::Block => SetCursorStyle::SteadyBlock,
        }
        .write_ansi(f)
    }
}

//! Commands, and how their bytes get into a slice.

use crate::attribute::{Attribute, Attributes};
use crate::color::Color;
use crate::key::KeyboardEnhancementFlags;
use crate::raw;
#[cfg(feature = "line")]
use crate::raw_line;

/// How a text looks.
#[derive(Clone, Copy, Debug, Default, PartialEq, Eq, Hash)]
pub struct Style {
    /// The text's colour.
    pub foreground: Option<Color>,
    /// The colour behind it.
    pub background: Option<Color>,
    /// The colour of the line below it.
    pub underline: Option<Color>,
    /// Its attributes.
    pub attributes: Attributes,
}

/// What of the screen is cleared.
#[derive(Clone, Copy, Debug, PartialEq, Eq, PartialOrd, Ord, Hash)]
#[cfg_attr(feature = "serde", derive(serde::Serialize, serde::Deserialize))]
pub enum ClearType {
    /// All cells.
    All,
    /// The lines above the screen that can be scrolled to.
    Purge,
    /// From the cursor to the end.
    FromCursorDown,
    /// From the beginning to the cursor.
    FromCursorUp,
    /// The cursor's line.
    CurrentLine,
    /// From the cursor to the end of its line.
    UntilNewLine,
}

/// The cursor's shape.
#[derive(Clone, Copy, Debug, PartialEq, Eq, Hash)]
pub enum CursorStyle {
    /// The shape that the user chose.
    DefaultUserShape,
    /// A block that blinks.
    BlinkingBlock,
    /// A block.
    SteadyBlock,
    /// A line below the character, which blinks.
    BlinkingUnderScore,
    /// A line below the character.
    SteadyUnderScore,
    /// A bar in front of the character, which blinks.
    BlinkingBar,
    /// A bar in front of the character.
    SteadyBar,
}

/// A command, under crossterm's names.
///
/// ```
/// use gelvanh::{put_command, ClearType, Command};
///
/// let mut slice = [0; 8];
/// assert_eq!(put_command(&mut slice, &Command::Clear(ClearType::All), true), Some(4));
/// assert_eq!(&slice[..4], b"\x1b[2J");
/// ```
#[derive(Clone, Copy, Debug, PartialEq)]
pub enum Command<'a> {
    /// Column and row, from 0.
    MoveTo(u16, u16),
    /// The column, from 0.
    MoveToColumn(u16),
    /// The row, from 0.
    MoveToRow(u16),
    /// How many lines down, to the first column.
    MoveToNextLine(u16),
    /// How many lines up, to the first column.
    MoveToPreviousLine(u16),
    /// How many rows.
    MoveUp(u16),
    /// How many rows.
    MoveDown(u16),
    /// How many columns.
    MoveRight(u16),
    /// How many columns.
    MoveLeft(u16),
    /// The cursor's shape.
    SetCursorStyle(CursorStyle),
    /// What is cleared.
    Clear(ClearType),
    /// How many lines; with 0 it writes nothing.
    ScrollUp(u16),
    /// How many lines; with 0 it writes nothing.
    ScrollDown(u16),
    /// Columns and rows.
    SetSize(u16, u16),
    /// The window's title.
    SetTitle(&'a str),
    /// The flags of kitty's protocol.
    PushKeyboardEnhancementFlags(KeyboardEnhancementFlags),
    /// The text's colour.
    SetForegroundColor(Color),
    /// The colour behind the text.
    SetBackgroundColor(Color),
    /// The colour of the line below the text.
    SetUnderlineColor(Color),
    /// The colour of the text and the one behind it, if they are there.
    SetColors(Option<Color>, Option<Color>),
    /// An attribute.
    SetAttribute(Attribute),
    /// Attributes, in declared order.
    SetAttributes(Attributes),
    /// All that the style has.
    SetStyle(Style),
    /// A text in a style, and the end of that style.
    PrintStyledContent(Style, &'a str),
    /// The content, and the letters of the places: `c` is the clipboard, `p` the primary selection.
    CopyToClipboard(&'a [u8], &'a str),
    /// A text.
    Print(&'a str),
    /// Keeps the cursor's place.
    SavePosition,
    /// Moves the cursor to the place that was kept.
    RestorePosition,
    /// Hides the cursor.
    Hide,
    /// Shows the cursor.
    Show,
    /// Lets the cursor blink.
    EnableBlinking,
    /// Keeps it from blinking.
    DisableBlinking,
    /// Cuts off a line that is too long.
    DisableLineWrap,
    /// Lets it go on in the next.
    EnableLineWrap,
    /// Turns to the other screen.
    EnterAlternateScreen,
    /// Turns back.
    LeaveAlternateScreen,
    /// Begins changes that are shown together.
    BeginSynchronizedUpdate,
    /// Shows them.
    EndSynchronizedUpdate,
    /// Lets the mouse be reported.
    EnableMouseCapture,
    /// Ends that.
    DisableMouseCapture,
    /// Lets the focus be reported.
    EnableFocusChange,
    /// Ends that.
    DisableFocusChange,
    /// Lets a paste be reported as one event.
    EnableBracketedPaste,
    /// Ends that.
    DisableBracketedPaste,
    /// Ends the flags that were pushed last.
    PopKeyboardEnhancementFlags,
    /// Ends all colours and attributes.
    ResetColor,
}

#[inline]
fn color(color: Color) -> raw::Color {
    let named = |kind| raw::Color { kind, ..raw::Color::default() };
    match color {
        Color::Reset => named(1),
        Color::Black => named(2),
        Color::DarkGrey => named(3),
        Color::Red => named(4),
        Color::DarkRed => named(5),
        Color::Green => named(6),
        Color::DarkGreen => named(7),
        Color::Yellow => named(8),
        Color::DarkYellow => named(9),
        Color::Blue => named(10),
        Color::DarkBlue => named(11),
        Color::Magenta => named(12),
        Color::DarkMagenta => named(13),
        Color::Cyan => named(14),
        Color::DarkCyan => named(15),
        Color::White => named(16),
        Color::Grey => named(17),
        Color::Rgb { r, g, b } => raw::Color { kind: 18, r, g, b },
        Color::AnsiValue(place) => raw::Color { kind: 19, r: place, g: 0, b: 0 },
    }
}

#[inline]
fn there(there: Option<Color>) -> raw::Color {
    there.map(color).unwrap_or_default()
}

fn style(style: &Style) -> raw::Command {
    raw::Command {
        kind: 41,
        attributes: style.attributes.bits(),
        foreground: there(style.foreground),
        background: there(style.background),
        underline: there(style.underline),
        ..raw::Command::default()
    }
}

/// The numbers of a part's style.
#[cfg(feature = "line")]
pub fn style_of_part(style: &Style) -> raw_line::Style {
    raw_line::Style {
        foreground: there(style.foreground),
        background: there(style.background),
        underline: there(style.underline),
        attributes: style.attributes.bits(),
    }
}

/// The numbers of a command that has no text of its own.
#[inline]
fn numbers(command: &Command) -> raw::Command {
    let none = raw::Command::default();
    let of = |kind, first| raw::Command { kind, first, ..none };
    match *command {
        Command::MoveTo(column, row) => raw::Command { second: row, ..of(0, column) },
        Command::MoveToColumn(n) => of(1, n),
        Command::MoveToRow(n) => of(2, n),
        Command::MoveToNextLine(n) => of(3, n),
        Command::MoveToPreviousLine(n) => of(4, n),
        Command::MoveUp(n) => of(5, n),
        Command::MoveDown(n) => of(6, n),
        Command::MoveRight(n) => of(7, n),
        Command::MoveLeft(n) => of(8, n),
        Command::SavePosition => of(9, 0),
        Command::RestorePosition => of(10, 0),
        Command::Hide => of(11, 0),
        Command::Show => of(12, 0),
        Command::EnableBlinking => of(13, 0),
        Command::DisableBlinking => of(14, 0),
        Command::DisableLineWrap => of(16, 0),
        Command::EnableLineWrap => of(17, 0),
        Command::EnterAlternateScreen => of(18, 0),
        Command::LeaveAlternateScreen => of(19, 0),
        Command::BeginSynchronizedUpdate => of(25, 0),
        Command::EndSynchronizedUpdate => of(26, 0),
        Command::EnableMouseCapture => of(27, 0),
        Command::DisableMouseCapture => of(28, 0),
        Command::EnableFocusChange => of(29, 0),
        Command::DisableFocusChange => of(30, 0),
        Command::EnableBracketedPaste => of(31, 0),
        Command::DisableBracketedPaste => of(32, 0),
        Command::PopKeyboardEnhancementFlags => of(34, 0),
        Command::ResetColor => of(43, 0),
        Command::SetCursorStyle(shape) => of(15, shape as u16),
        Command::Clear(cleared) => of(20, cleared as u16),
        Command::ScrollUp(n) => of(21, n),
        Command::ScrollDown(n) => of(22, n),
        Command::SetSize(columns, rows) => raw::Command { second: rows, ..of(23, columns) },
        Command::PushKeyboardEnhancementFlags(flags) => of(33, u16::from(flags.bits())),
        Command::SetForegroundColor(c) => raw::Command { foreground: color(c), ..of(35, 0) },
        Command::SetBackgroundColor(c) => raw::Command { background: color(c), ..of(36, 0) },
        Command::SetUnderlineColor(c) => raw::Command { underline: color(c), ..of(37, 0) },
        Command::SetColors(f, b) => raw::Command { foreground: there(f), background: there(b), ..of(38, 0) },
        Command::SetAttribute(attribute) => of(39, attribute as u16),
        Command::SetAttributes(attributes) => raw::Command { attributes: attributes.bits(), ..of(40, 0) },
        Command::SetStyle(ref s) => style(s),
        Command::SetTitle(_) => of(24, 0),
        Command::PrintStyledContent(..) => of(42, 0),
        Command::CopyToClipboard(..) => of(44, 0),
        Command::Print(_) => of(45, 0),
    }
}

/// Writes a command into a slice, and returns how many bytes it has; if they are more than the slice has, nothing was written.
/// `colors` is false if colours aren't to be written, as with `NO_COLOR`.
///
/// It is `None` if the archive says that there is no such command, which no value of this type is.
#[inline]
pub fn put_command(slice: &mut [u8], command: &Command, colors: bool) -> Option<usize> {
    let (told, length) = match command {
        Command::Print(text) => raw::print(text, slice),
        Command::SetTitle(title) => raw::set_title(title, slice),
        Command::PrintStyledContent(s, text) => raw::print_styled(&style(s), text, colors, slice),
        Command::CopyToClipboard(content, places) => raw::copy_to_clipboard(content, places, slice),
        other => raw::command(&numbers(other), colors, slice),
    };
    (told < 2).then_some(length)
}

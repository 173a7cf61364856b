//! Colours, attributes, and texts that have some.

mod colored;
mod content;
mod stylize;

use crate::macros::{commands, shown};
use crate::Command;
use gelvanh::Command as Proved;
use std::fmt::{self, Display};

pub use colored::{Colored, Colors};
pub use content::{ContentStyle, StyledContent};
pub use gelvanh::{Attribute, Attributes, Color};
pub use stylize::Stylize;

/// A value without a style yet.
///
/// ```
/// use crossterm::style::{style, Attribute, Color, Stylize};
///
/// let text = style(42).with(Color::Green).attribute(Attribute::Bold);
/// assert_eq!(text.to_string(), "\x1b[38;5;10m\x1b[1m42\x1b[0m");
/// ```
pub fn style<D: Display>(val: D) -> StyledContent<D> {
    ContentStyle::new().apply(val)
}

/// How many colours the terminal has, by the variables `COLORTERM` or else `TERM`: 65535 if it has all that red, green and blue make.
pub fn available_color_count() -> u16 {
    let name = std::env::var("COLORTERM").or_else(|_| std::env::var("TERM")).unwrap_or_default();
    if name.contains("24bit") || name.contains("truecolor") {
        u16::MAX
    } else if name.contains("256") {
        256
    } else {
        8
    }
}

/// Lets colours be written, or not, whatever `NO_COLOR` says.
pub fn force_color_output(enabled: bool) {
    Colored::set_ansi_color_disabled(!enabled);
}

commands! {
    /// Sets the colour of texts.
    ///
    /// ```
    /// use crossterm::{queue, style::{Color, Print, ResetColor, SetForegroundColor}};
    ///
    /// let mut out = Vec::new();
    /// queue!(out, SetForegroundColor(Color::Rgb { r: 9, g: 8, b: 7 }), Print("x"), ResetColor)?;
    /// assert_eq!(out, b"\x1b[38;2;9;8;7mx\x1b[0m");
    /// # Ok::<(), std::io::Error>(())
    /// ```
    SetForegroundColor(color: Color) => Proved::SetForegroundColor(color);
    /// Sets the colour behind texts.
    SetBackgroundColor(color: Color) => Proved::SetBackgroundColor(color);
    /// Sets the colour of lines below texts.
    SetUnderlineColor(color: Color) => Proved::SetUnderlineColor(color);
    /// Sets both colours, or the one that is there.
    SetColors(colors: Colors) => Proved::SetColors(colors.foreground, colors.background);
    /// Sets an attribute.
    SetAttribute(attribute: Attribute) => Proved::SetAttribute(attribute);
    /// Sets attributes, in declared order.
    SetAttributes(attributes: Attributes) => Proved::SetAttributes(attributes);
    /// Sets all that the style has.
    SetStyle(style: ContentStyle) => Proved::SetStyle(style.proved());
    /// Ends all colours and attributes.
    ResetColor => Proved::ResetColor;
}

/// Prints a value in its style, and ends what the style began.
///
/// ```
/// use crossterm::{queue, style::{PrintStyledContent, Stylize}};
///
/// let mut out = Vec::new();
/// queue!(out, PrintStyledContent("hi".red().on_white()))?;
/// assert_eq!(out, b"\x1b[48;5;15m\x1b[38;5;9mhi\x1b[49m\x1b[39m");
/// # Ok::<(), std::io::Error>(())
/// ```
#[derive(Clone, Copy, Debug)]
pub struct PrintStyledContent<D: Display>(pub StyledContent<D>);

impl<D: Display> Command for PrintStyledContent<D> {
    fn write_ansi(&self, f: &mut impl fmt::Write) -> fmt::Result {
        self.0.write_to(f)
    }
}

shown!(PrintStyledContent<D>);

/// Prints a value as `{}` shows it.
///
/// ```
/// use crossterm::{queue, style::Print};
///
/// let mut out = Vec::new();
/// queue!(out, Print("line "), Print(7))?;
/// assert_eq!(out, b"line 7");
/// # Ok::<(), std::io::Error>(())
/// ```
#[derive(Clone, Copy, Debug, PartialEq, Eq)]
pub struct Print<T: Display>(pub T);

impl<T: Display> Command for Print<T> {
    fn write_ansi(&self, f: &mut impl fmt::Write) -> fmt::Result {
        // The text is the value's own: there is nothing to make of it.
        write!(f, "{}", self.0)
    }
}

/// As the value shows itself, in the width that is asked for.
impl<T: Display> Display for Print<T> {
    fn fmt(&self, f: &mut fmt::Formatter<'_>) -> fmt::Result {
        self.0.fmt(f)
    }
}

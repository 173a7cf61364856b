//! Styles, and values that have one.

use crate::command;
use crate::style::{Attributes, Color};
use std::fmt::{self, Display};

/// How a text looks.
///
/// ```
/// use crossterm::style::{Color, ContentStyle, Stylize};
///
/// let warning = ContentStyle::new().yellow().underlined();
/// assert_eq!(warning.foreground_color, Some(Color::Yellow));
/// println!("{}", warning.apply("no space is left"));
/// ```
#[derive(Clone, Copy, Debug, Default, PartialEq, Eq)]
pub struct ContentStyle {
    /// The text's colour.
    pub foreground_color: Option<Color>,
    /// The colour behind it.
    pub background_color: Option<Color>,
    /// The colour of the line below it.
    pub underline_color: Option<Color>,
    /// Its attributes.
    pub attributes: Attributes,
}

impl ContentStyle {
    /// The style with nothing in it.
    #[inline]
    pub fn new() -> ContentStyle {
        ContentStyle::default()
    }

    /// A value in this style.
    #[inline]
    pub fn apply<D: Display>(self, val: D) -> StyledContent<D> {
        StyledContent::new(self, val)
    }

    pub(crate) fn proved(self) -> gelvanh::Style {
        gelvanh::Style {
            foreground: self.foreground_color,
            background: self.background_color,
            underline: self.underline_color,
            attributes: self.attributes,
        }
    }
}

impl From<ContentStyle> for gelvanh::Style {
    fn from(style: ContentStyle) -> gelvanh::Style {
        style.proved()
    }
}

impl AsRef<ContentStyle> for ContentStyle {
    fn as_ref(&self) -> &ContentStyle {
        self
    }
}

impl AsMut<ContentStyle> for ContentStyle {
    fn as_mut(&mut self) -> &mut ContentStyle {
        self
    }
}

/// A value, and how it looks.
///
/// ```
/// use crossterm::style::Stylize;
/// assert_eq!("hi".blue().to_string(), "\x1b[38;5;12mhi\x1b[39m");
/// ```
#[derive(Clone, Copy, Debug, PartialEq, Eq)]
pub struct StyledContent<D: Display> {
    style: ContentStyle,
    content: D,
}

impl<D: Display> StyledContent<D> {
    /// A value in a style.
    #[inline]
    pub fn new(style: ContentStyle, content: D) -> StyledContent<D> {
        StyledContent { style, content }
    }

    /// The value.
    #[inline]
    pub fn content(&self) -> &D {
        &self.content
    }

    /// Its style.
    #[inline]
    pub fn style(&self) -> &ContentStyle {
        &self.style
    }

    /// Its style, to change it.
    #[inline]
    pub fn style_mut(&mut self) -> &mut ContentStyle {
        &mut self.style
    }

    /// Writes the value in its style.
    pub(crate) fn write_to(&self, f: &mut impl fmt::Write) -> fmt::Result {
        let text = command::Shown::of(&self.content)?;
        command::write_proved(f, &gelvanh::Command::PrintStyledContent(self.style.proved(), text.as_str()))
    }
}

impl<D: Display> AsRef<ContentStyle> for StyledContent<D> {
    fn as_ref(&self) -> &ContentStyle {
        &self.style
    }
}

impl<D: Display> AsMut<ContentStyle> for StyledContent<D> {
    fn as_mut(&mut self) -> &mut ContentStyle {
        &mut self.style
    }
}

impl<D: Display> Display for StyledContent<D> {
    fn fmt(&self, f: &mut fmt::Formatter<'_>) -> fmt::Result {
        self.write_to(f)
    }
}

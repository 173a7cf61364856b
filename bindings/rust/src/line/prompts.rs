//! Prompts of parts in styles.

use crate::command::Style;

/// A prompt: a text without a style, and parts behind it, each in its own. A `&str` is one without parts.
///
/// ```
/// use gelvanh::line::Prompt;
/// use gelvanh::{Attribute, Color, Style};
///
/// let blue = Style { foreground: Some(Color::Blue), ..Style::default() };
/// let bold = Style { attributes: Attribute::Bold.into(), ..Style::default() };
/// let prompt = Prompt::new("").part("~/src", blue).part("> ", bold);
/// assert_ne!(prompt, Prompt::from("~/src> "));
/// ```
#[derive(Clone, Debug, PartialEq, Eq)]
pub struct Prompt<'a> {
    pub(super) text: &'a str,
    pub(super) parts: Vec<(&'a str, Style)>,
}

impl<'a> Prompt<'a> {
    /// A prompt of this text without a style, which may be empty.
    pub fn new(text: &'a str) -> Prompt<'a> {
        Prompt { text, parts: Vec::new() }
    }

    /// The same prompt with one more part behind it.
    pub fn part(mut self, text: &'a str, style: impl Into<Style>) -> Prompt<'a> {
        self.parts.push((text, style.into()));
        self
    }
}

impl<'a> From<&'a str> for Prompt<'a> {
    fn from(text: &'a str) -> Prompt<'a> {
        Prompt::new(text)
    }
}

impl<'a> From<&'a String> for Prompt<'a> {
    fn from(text: &'a String) -> Prompt<'a> {
        Prompt::new(text)
    }
}

//! What helps to write a line.

/// What helps to write a line: it completes what was typed at Tab, lists candidates at a second Tab, and shows a hint behind the line.
///
/// ```
/// use gelvanh::line::Helper;
///
/// struct Paths;
///
/// impl Helper for Paths {
///     fn complete(&self, before: &str, _after: &str) -> Option<String> {
///         before.ends_with('/').then(|| "src".into())
///     }
/// }
///
/// assert_eq!(Paths.complete("cd ../", ""), Some("src".into()));
/// assert_eq!(Paths.hint("cd ../"), "");
/// ```
pub trait Helper {
    /// The text that Tab writes at the cursor, if there is one, for the text before the cursor and that behind it. By itself there is none.
    fn complete(&self, before: &str, after: &str) -> Option<String> {
        let _ = (before, after);
        None
    }

    /// The texts with which the line may go on: a second Tab lists them below it, in this order. By itself there are none.
    fn candidates(&self, before: &str, after: &str) -> Vec<String> {
        let _ = (before, after);
        Vec::new()
    }

    /// The text that is shown dimmed behind a line while the cursor is at its end, if it has room. By itself it is empty.
    fn hint(&self, line: &str) -> String {
        let _ = line;
        String::new()
    }
}

/// No help.
impl Helper for () {}

impl<H: Helper + ?Sized> Helper for &H {
    fn complete(&self, before: &str, after: &str) -> Option<String> {
        (**self).complete(before, after)
    }

    fn candidates(&self, before: &str, after: &str) -> Vec<String> {
        (**self).candidates(before, after)
    }

    fn hint(&self, line: &str) -> String {
        (**self).hint(line)
    }
}

/// Completes the word before the cursor by some names: with what those that begin so have in common. A second Tab lists them. The rest of the first
/// that goes on is the hint. A word begins behind a blank.
///
/// ```
/// use gelvanh::line::{Helper, Words};
///
/// let words = Words::new(["help", "history", "hi-fi", "quit"]);
/// assert_eq!(words.complete("say his", ""), Some("tory".into()));
/// assert_eq!(words.complete("h", ""), None);
/// assert_eq!(words.candidates("hi", ""), ["history", "hi-fi"]);
/// assert_eq!(words.hint("h"), "elp");
/// ```
#[derive(Clone, Debug, Default, PartialEq, Eq)]
pub struct Words {
    names: Vec<String>,
}

/// The word at the end of a text.
fn last_word(text: &str) -> &str {
    text.rsplit([' ', '\n']).next().unwrap_or_default()
}

/// The characters with which two texts begin both.
fn common<'a>(text: &'a str, other: &str) -> &'a str {
    let differ = text.char_indices().zip(other.chars().map(Some).chain(std::iter::repeat(None))).find(|&((_, c), d)| Some(c) != d);
    differ.map_or(text, |((place, _), _)| &text[..place])
}

impl Words {
    /// A helper for these names.
    pub fn new<S: Into<String>>(names: impl IntoIterator<Item = S>) -> Words {
        Words { names: names.into_iter().map(S::into).collect() }
    }

    /// What each name that begins with a text has behind it.
    fn rests<'a>(&'a self, text: &'a str) -> impl Iterator<Item = &'a str> + 'a {
        self.names.iter().filter_map(move |name| name.strip_prefix(text))
    }
}

impl Helper for Words {
    fn complete(&self, before: &str, _after: &str) -> Option<String> {
        let word = last_word(before);
        let rest = self.rests(word).reduce(|front, rest| common(front, rest))?;
        (!word.is_empty() && !rest.is_empty()).then(|| rest.into())
    }

    fn candidates(&self, before: &str, _after: &str) -> Vec<String> {
        let word = last_word(before);
        self.names.iter().filter(|name| name.starts_with(word)).cloned().collect()
    }

    fn hint(&self, line: &str) -> String {
        let word = last_word(line);
        let first = self.rests(word).find(|rest| !word.is_empty() && !rest.is_empty());
        first.unwrap_or_default().into()
    }
}

//! Colours of a text, of what is behind it, and of the line below it.

use crate::style::Color;
use gelvanh::Command as Proved;
use std::fmt;
use std::sync::atomic::{AtomicU8, Ordering};

/// What is coloured, and how.
#[derive(Clone, Copy, Debug, PartialEq, Eq, PartialOrd, Ord, Hash)]
#[cfg_attr(feature = "serde", derive(serde::Serialize, serde::Deserialize))]
pub enum Colored {
    /// The text.
    ForegroundColor(Color),
    /// What is behind it.
    BackgroundColor(Color),
    /// The line below it.
    UnderlineColor(Color),
}

const UNKNOWN: u8 = 0;
const ENABLED: u8 = 1;
const DISABLED: u8 = 2;

/// Whether colours are written.
static COLORS: AtomicU8 = AtomicU8::new(UNKNOWN);

impl Colored {
    /// The colour of a sequence's parameters: `38;5;9` is a red text, `49` the terminal's own background.
    ///
    /// ```
    /// use crossterm::style::{Color, Colored};
    /// assert_eq!(Colored::parse_ansi("38;5;9"), Some(Colored::ForegroundColor(Color::Red)));
    /// assert_eq!(Colored::parse_ansi("49"), Some(Colored::BackgroundColor(Color::Reset)));
    /// assert_eq!(Colored::parse_ansi("1"), None);
    /// ```
    pub fn parse_ansi(ansi: &str) -> Option<Colored> {
        let (first, rest) = ansi.split_once(';').map_or((ansi, None), |(first, rest)| (first, Some(rest)));
        let first: u8 = first.parse().ok()?;
        match (first, rest) {
            (38, Some(rest)) => Color::parse_ansi(rest).map(Colored::ForegroundColor),
            (48, Some(rest)) => Color::parse_ansi(rest).map(Colored::BackgroundColor),
            (58, Some(rest)) => Color::parse_ansi(rest).map(Colored::UnderlineColor),
            (39, None) => Some(Colored::ForegroundColor(Color::Reset)),
            (49, None) => Some(Colored::BackgroundColor(Color::Reset)),
            (59, None) => Some(Colored::UnderlineColor(Color::Reset)),
            _ => None,
        }
    }

    /// Whether the variable `NO_COLOR` is set, and not empty.
    pub fn ansi_color_disabled() -> bool {
        std::env::var("NO_COLOR").map_or(false, |value| !value.is_empty())
    }

    /// Whether colours aren't written: as `NO_COLOR` was at the first call, or as was set since.
    pub fn ansi_color_disabled_memoized() -> bool {
        if COLORS.load(Ordering::SeqCst) == UNKNOWN {
            let read = if Colored::ansi_color_disabled() { DISABLED } else { ENABLED };
            // If it was set meanwhile, that counts.
            let _ = COLORS.compare_exchange(UNKNOWN, read, Ordering::SeqCst, Ordering::SeqCst);
        }
        COLORS.load(Ordering::SeqCst) == DISABLED
    }

    /// Lets colours not be written, or be.
    pub fn set_ansi_color_disabled(val: bool) {
        COLORS.store(if val { DISABLED } else { ENABLED }, Ordering::SeqCst);
    }
}

/// The parameters of the sequence, as `38;5;9`; nothing if colours aren't written.
impl fmt::Display for Colored {
    fn fmt(&self, f: &mut fmt::Formatter<'_>) -> fmt::Result {
        if Colored::ansi_color_disabled_memoized() {
            return Ok(());
        }
        f.write_str(&gelvanh::parameters(&match *self {
            Colored::ForegroundColor(color) => Proved::SetForegroundColor(color),
            Colored::BackgroundColor(color) => Proved::SetBackgroundColor(color),
            Colored::UnderlineColor(color) => Proved::SetUnderlineColor(color),
        }))
    }
}

/// The colours of a text and of what is behind it, if they are there.
#[derive(Clone, Copy, Debug, PartialEq, Eq)]
pub struct Colors {
    /// The text's colour.
    pub foreground: Option<Color>,
    /// The colour behind it.
    pub background: Option<Color>,
}

impl Colors {
    /// Both colours.
    pub fn new(foreground: Color, background: Color) -> Colors {
        Colors { foreground: Some(foreground), background: Some(background) }
    }

    /// The other's colours, and this one's if the other has none.
    pub fn then(&self, other: &Colors) -> Colors {
        Colors { foreground: other.foreground.or(self.foreground), background: other.background.or(self.background) }
    }
}

/// The one colour. That of a line below the text is taken for a background, as crossterm does.
impl From<Colored> for Colors {
    fn from(colored: Colored) -> Colors {
        match colored {
            Colored::ForegroundColor(color) => Colors { foreground: Some(color), background: None },
            Colored::BackgroundColor(color) | Colored::UnderlineColor(color) => Colors { foreground: None, background: Some(color) },
        }
    }
}

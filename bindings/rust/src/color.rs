//! Colours.

use core::str::FromStr;

/// A colour. In the names `Dark` is the normal one of a pair, and the plain name the bright one.
///
/// ```
/// use gelvanh::Color;
///
/// assert_eq!("dark_red".parse(), Ok(Color::DarkRed));
/// assert_eq!(Color::from((1, 2, 3)), Color::Rgb { r: 1, g: 2, b: 3 });
/// assert_eq!(Color::try_from("mauve"), Err(()));
/// ```
#[derive(Clone, Copy, Debug, PartialEq, Eq, PartialOrd, Ord, Hash)]
pub enum Color {
    /// The terminal's own.
    Reset,
    /// Place 0 of the palette.
    Black,
    /// Place 8 of the palette.
    DarkGrey,
    /// Place 9.
    Red,
    /// Place 1.
    DarkRed,
    /// Place 10.
    Green,
    /// Place 2.
    DarkGreen,
    /// Place 11.
    Yellow,
    /// Place 3.
    DarkYellow,
    /// Place 12.
    Blue,
    /// Place 4.
    DarkBlue,
    /// Place 13.
    Magenta,
    /// Place 5.
    DarkMagenta,
    /// Place 14.
    Cyan,
    /// Place 6.
    DarkCyan,
    /// Place 15.
    White,
    /// Place 7.
    Grey,
    /// A colour by its red, green and blue.
    Rgb {
        /// Red.
        r: u8,
        /// Green.
        g: u8,
        /// Blue.
        b: u8,
    },
    /// A place in the palette of 256.
    AnsiValue(u8),
}

/// The colours that have a name, in declared order.
pub(crate) const NAMES: [(Color, &str); 17] = [
    (Color::Reset, "reset"),
    (Color::Black, "black"),
    (Color::DarkGrey, "dark_grey"),
    (Color::Red, "red"),
    (Color::DarkRed, "dark_red"),
    (Color::Green, "green"),
    (Color::DarkGreen, "dark_green"),
    (Color::Yellow, "yellow"),
    (Color::DarkYellow, "dark_yellow"),
    (Color::Blue, "blue"),
    (Color::DarkBlue, "dark_blue"),
    (Color::Magenta, "magenta"),
    (Color::DarkMagenta, "dark_magenta"),
    (Color::Cyan, "cyan"),
    (Color::DarkCyan, "dark_cyan"),
    (Color::White, "white"),
    (Color::Grey, "grey"),
];

/// The palette's first 16 places.
const PALETTE: [Color; 16] = [
    Color::Black,
    Color::DarkRed,
    Color::DarkGreen,
    Color::DarkYellow,
    Color::DarkBlue,
    Color::DarkMagenta,
    Color::DarkCyan,
    Color::Grey,
    Color::DarkGrey,
    Color::Red,
    Color::Green,
    Color::Yellow,
    Color::Blue,
    Color::Magenta,
    Color::Cyan,
    Color::White,
];

impl Color {
    /// The colour of the numbers behind `38;` in a sequence: `5;9` is red, `2;1;2;3` a colour by its parts.
    ///
    /// ```
    /// use gelvanh::Color;
    /// assert_eq!(Color::parse_ansi("5;9"), Some(Color::Red));
    /// assert_eq!(Color::parse_ansi("2;1;2;3"), Some(Color::Rgb { r: 1, g: 2, b: 3 }));
    /// assert_eq!(Color::parse_ansi("5;9;1"), None);
    /// ```
    pub fn parse_ansi(ansi: &str) -> Option<Color> {
        let mut numbers = ansi.split(';').map(|number| number.parse::<u8>().ok());
        let mut next = || numbers.next().flatten();
        let color = match next()? {
            5 => next().map(|place| PALETTE.get(usize::from(place)).copied().unwrap_or(Color::AnsiValue(place)))?,
            2 => Color::Rgb { r: next()?, g: next()?, b: next()? },
            _ => return None,
        };
        numbers.next().is_none().then_some(color)
    }
}

/// A colour by its name as `dark_red`, in letters of either case.
impl TryFrom<&str> for Color {
    type Error = ();

    fn try_from(name: &str) -> Result<Color, ()> {
        let is_name = |known: &str| name.chars().flat_map(char::to_lowercase).eq(known.chars());
        NAMES.iter().find(|(_, known)| is_name(known)).map(|(color, _)| *color).ok_or(())
    }
}

/// A colour by its name; any other text is white.
impl FromStr for Color {
    type Err = ();

    fn from_str(name: &str) -> Result<Color, ()> {
        Ok(Color::try_from(name).unwrap_or(Color::White))
    }
}

impl From<(u8, u8, u8)> for Color {
    fn from((r, g, b): (u8, u8, u8)) -> Color {
        Color::Rgb { r, g, b }
    }
}

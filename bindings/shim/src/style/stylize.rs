//! `"text".red().bold()`.

use crate::style::{style, Attribute, Color, ContentStyle, StyledContent};
use std::fmt::Display;

/// A method for each attribute.
macro_rules! attribute_methods {
    ($($method:ident $attribute:ident,)*) => {$(
        #[doc = concat!("With the attribute `", stringify!($attribute), "`.")]
        fn $method(self) -> Self::Styled {
            self.attribute(Attribute::$attribute)
        }
    )*};
}

/// Three methods for each colour.
macro_rules! color_methods {
    ($($color:ident: $with:ident $on:ident $underline:ident,)*) => {$(
        #[doc = concat!("In `", stringify!($color), "`.")]
        fn $with(self) -> Self::Styled {
            self.with(Color::$color)
        }

        #[doc = concat!("On `", stringify!($color), "`.")]
        fn $on(self) -> Self::Styled {
            self.on(Color::$color)
        }

        #[doc = concat!("With lines below it in `", stringify!($color), "`.")]
        fn $underline(self) -> Self::Styled {
            self.underline(Color::$color)
        }
    )*};
}

/// What a style is given to: texts, characters, styles, and values that have one.
///
/// ```
/// use crossterm::style::Stylize;
///
/// assert_eq!("hi".red().bold().to_string(), "\x1b[38;5;9m\x1b[1mhi\x1b[0m");
/// ```
pub trait Stylize: Sized {
    /// What has the style then.
    type Styled: AsRef<ContentStyle> + AsMut<ContentStyle>;

    /// The value, with a style that can be changed.
    fn stylize(self) -> Self::Styled;

    /// In a colour.
    fn with(self, color: Color) -> Self::Styled {
        let mut styled = self.stylize();
        styled.as_mut().foreground_color = Some(color);
        styled
    }

    /// On a colour.
    fn on(self, color: Color) -> Self::Styled {
        let mut styled = self.stylize();
        styled.as_mut().background_color = Some(color);
        styled
    }

    /// With lines below it in a colour.
    fn underline(self, color: Color) -> Self::Styled {
        let mut styled = self.stylize();
        styled.as_mut().underline_color = Some(color);
        styled
    }

    /// With an attribute.
    fn attribute(self, attr: Attribute) -> Self::Styled {
        let mut styled = self.stylize();
        styled.as_mut().attributes.set(attr);
        styled
    }

    attribute_methods! {
        reset Reset,
        bold Bold,
        underlined Underlined,
        reverse Reverse,
        dim Dim,
        italic Italic,
        negative Reverse,
        slow_blink SlowBlink,
        rapid_blink RapidBlink,
        hidden Hidden,
        crossed_out CrossedOut,
    }

    color_methods! {
        Black: black on_black underline_black,
        DarkGrey: dark_grey on_dark_grey underline_dark_grey,
        Red: red on_red underline_red,
        DarkRed: dark_red on_dark_red underline_dark_red,
        Green: green on_green underline_green,
        DarkGreen: dark_green on_dark_green underline_dark_green,
        Yellow: yellow on_yellow underline_yellow,
        DarkYellow: dark_yellow on_dark_yellow underline_dark_yellow,
        Blue: blue on_blue underline_blue,
        DarkBlue: dark_blue on_dark_blue underline_dark_blue,
        Magenta: magenta on_magenta underline_magenta,
        DarkMagenta: dark_magenta on_dark_magenta underline_dark_magenta,
        Cyan: cyan on_cyan underline_cyan,
        DarkCyan: dark_cyan on_dark_cyan underline_dark_cyan,
        White: white on_white underline_white,
        Grey: grey on_grey underline_grey,
    }
}

impl Stylize for ContentStyle {
    type Styled = ContentStyle;

    #[inline]
    fn stylize(self) -> ContentStyle {
        self
    }
}

impl<D: Display> Stylize for StyledContent<D> {
    type Styled = StyledContent<D>;

    #[inline]
    fn stylize(self) -> StyledContent<D> {
        self
    }
}

/// Values that have no style of their own.
macro_rules! stylize {
    ($($plain:ty),*) => {$(
        impl Stylize for $plain {
            type Styled = StyledContent<$plain>;

            #[inline]
            fn stylize(self) -> StyledContent<$plain> {
                style(self)
            }
        }
    )*};
}

stylize!(String, char);

impl<'a> Stylize for &'a str {
    type Styled = StyledContent<&'a str>;

    #[inline]
    fn stylize(self) -> StyledContent<&'a str> {
        style(self)
    }
}

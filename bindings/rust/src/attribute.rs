//! Attributes of a text.

use core::ops::{BitAnd, BitOr, BitXor};

/// Declares the attributes, and the list of all.
macro_rules! attributes {
    ($($(#[$doc:meta])* $name:ident,)*) => {
        /// An attribute of a text, or the end of one, with its parameter of `ESC [ .. m`.
        ///
        /// ```
        /// use gelvanh::Attribute;
        ///
        /// assert_eq!(Attribute::Undercurled.sgr(), "4:3");
        /// assert_eq!(Attribute::Bold.to_string(), "\x1b[1m");
        /// ```
        #[derive(Clone, Copy, Debug, PartialEq, Eq, PartialOrd, Ord, Hash)]
        #[cfg_attr(feature = "serde", derive(serde::Serialize, serde::Deserialize))]
        #[non_exhaustive]
        pub enum Attribute {
            $($(#[$doc])* $name,)*
        }

        const ALL: &[Attribute] = &[$(Attribute::$name),*];
    };
}

attributes! {
    /// Ends all attributes and colours, `0`.
    Reset,
    /// Bold, `1`.
    Bold,
    /// Dim, `2`.
    Dim,
    /// Italic, `3`.
    Italic,
    /// Underlined, `4`.
    Underlined,
    /// Underlined twice, `4:2`.
    DoubleUnderlined,
    /// Underlined by a curl, `4:3`.
    Undercurled,
    /// Underlined by dots, `4:4`.
    Underdotted,
    /// Underlined by dashes, `4:5`.
    Underdashed,
    /// Blinks, `5`.
    SlowBlink,
    /// Blinks fast, `6`.
    RapidBlink,
    /// With its two colours exchanged, `7`.
    Reverse,
    /// Not shown, `8`.
    Hidden,
    /// Crossed out, `9`.
    CrossedOut,
    /// In Fraktur, `20`.
    Fraktur,
    /// Ends bold; some terminals underline twice, `21`.
    NoBold,
    /// Ends bold and dim, `22`.
    NormalIntensity,
    /// Ends italic, `23`.
    NoItalic,
    /// Ends every underline, `24`.
    NoUnderline,
    /// Ends blinking, `25`.
    NoBlink,
    /// Ends the exchange of colours, `27`.
    NoReverse,
    /// Shows the text again, `28`.
    NoHidden,
    /// Ends crossing out, `29`.
    NotCrossedOut,
    /// In a frame, `51`.
    Framed,
    /// In a circle, `52`.
    Encircled,
    /// With a line above, `53`.
    OverLined,
    /// Ends frame and circle, `54`.
    NotFramedOrEncircled,
    /// Ends the line above, `55`.
    NotOverLined,
}

impl Attribute {
    /// All attributes, in declared order.
    pub fn iterator() -> impl Iterator<Item = Attribute> {
        ALL.iter().copied()
    }

    /// The bit of the attribute in `Attributes`: the first one's is 2.
    #[inline]
    pub const fn bytes(self) -> u32 {
        2 << self as u32
    }
}

/// A set of attributes.
///
/// ```
/// use gelvanh::{Attribute, Attributes};
///
/// let set = Attributes::from(Attribute::Bold) | Attribute::Italic;
/// assert!(set.has(Attribute::Bold));
/// assert_eq!(set.without(Attribute::Bold), Attribute::Italic.into());
/// ```
#[derive(Clone, Copy, Debug, Default, PartialEq, Eq, Hash)]
pub struct Attributes(u32);

impl Attributes {
    /// The set without an attribute.
    #[inline]
    pub const fn none() -> Attributes {
        Attributes(0)
    }

    /// The bits of the set, each its attribute's `bytes`.
    #[inline]
    pub const fn bits(self) -> u32 {
        self.0
    }

    /// The set with an attribute.
    #[inline]
    pub const fn with(self, attribute: Attribute) -> Attributes {
        Attributes(self.0 | attribute.bytes())
    }

    /// The set without an attribute that may be there.
    #[inline]
    pub const fn without(self, attribute: Attribute) -> Attributes {
        Attributes(self.0 & !attribute.bytes())
    }

    /// Adds an attribute.
    #[inline]
    pub fn set(&mut self, attribute: Attribute) {
        self.0 |= attribute.bytes();
    }

    /// Takes an attribute away.
    #[inline]
    pub fn unset(&mut self, attribute: Attribute) {
        self.0 &= !attribute.bytes();
    }

    /// Adds an attribute that isn't there, or takes it away.
    #[inline]
    pub fn toggle(&mut self, attribute: Attribute) {
        self.0 ^= attribute.bytes();
    }

    /// Whether an attribute is there.
    #[inline]
    pub const fn has(self, attribute: Attribute) -> bool {
        self.0 & attribute.bytes() != 0
    }

    /// Adds all attributes of another set.
    #[inline]
    pub fn extend(&mut self, attributes: Attributes) {
        self.0 |= attributes.0;
    }

    /// Whether no attribute is there.
    #[inline]
    pub const fn is_empty(self) -> bool {
        self.0 == 0
    }
}

impl From<Attribute> for Attributes {
    fn from(attribute: Attribute) -> Attributes {
        Attributes::none().with(attribute)
    }
}

impl From<&[Attribute]> for Attributes {
    fn from(attributes: &[Attribute]) -> Attributes {
        attributes.iter().fold(Attributes::none(), |set, attribute| set.with(*attribute))
    }
}

/// An operator of two sets, and of a set and an attribute.
macro_rules! operator {
    ($trait:ident $call:ident $bits:tt) => {
        impl $trait for Attributes {
            type Output = Attributes;

            fn $call(self, other: Attributes) -> Attributes {
                Attributes(self.0 $bits other.0)
            }
        }

        impl $trait<Attribute> for Attributes {
            type Output = Attributes;

            fn $call(self, other: Attribute) -> Attributes {
                Attributes(self.0 $bits other.bytes())
            }
        }
    };
}

operator!(BitAnd bitand &);
operator!(BitOr bitor |);
operator!(BitXor bitxor ^);

//! Colours and flags as serde writes them: colours as `red`, `ansi_(9)` and `rgb_(1,2,3)`, flags as `SHIFT | ALT` or by their bits.

use crate::color::{Color, NAMES};
use crate::flags::write_names;
use crate::key::{KeyEventState, KeyModifiers, KeyboardEnhancementFlags};
use serde::de::{Error, Unexpected, Visitor};
use serde::{Deserialize, Deserializer, Serialize, Serializer};
use std::fmt;

impl Serialize for Color {
    fn serialize<S: Serializer>(&self, serializer: S) -> Result<S::Ok, S::Error> {
        if let Some((_, name)) = NAMES.iter().find(|(color, _)| color == self) {
            return serializer.serialize_str(name);
        }
        match *self {
            Color::AnsiValue(place) => serializer.serialize_str(&format!("ansi_({place})")),
            Color::Rgb { r, g, b } => serializer.serialize_str(&format!("rgb_({r},{g},{b})")),
            _ => Err(serde::ser::Error::custom("a colour without a name")),
        }
    }
}

/// The text between a front and `)`.
fn inside<'a>(text: &'a str, front: &str) -> Option<&'a str> {
    text.strip_prefix(front)?.strip_suffix(')')
}

fn color_of(text: &str) -> Option<Color> {
    if let Ok(named) = Color::try_from(text) {
        return Some(named);
    }
    if let Some(place) = inside(text, "ansi_(") {
        return place.parse().ok().map(Color::AnsiValue);
    }
    if let Some(parts) = inside(text, "rgb_(") {
        let parts = parts.split(',').map(|part| part.parse().ok()).collect::<Option<Vec<u8>>>()?;
        return match parts[..] {
            [r, g, b] => Some(Color::Rgb { r, g, b }),
            _ => None,
        };
    }
    let hex = text.strip_prefix('#').filter(|hex| hex.len() == 6 && hex.bytes().all(|digit| digit.is_ascii_hexdigit()))?;
    let all = u32::from_str_radix(hex, 16).ok()?;
    Some(Color::Rgb { r: (all >> 16) as u8, g: (all >> 8) as u8, b: all as u8 })
}

struct ColorText;

impl Visitor<'_> for ColorText {
    type Value = Color;

    fn expecting(&self, f: &mut fmt::Formatter<'_>) -> fmt::Result {
        f.write_str("a colour's name as `dark_red`, `ansi_(PLACE)`, `rgb_(R,G,B)` or `#RRGGBB`")
    }

    fn visit_str<E: Error>(self, text: &str) -> Result<Color, E> {
        color_of(text).ok_or_else(|| E::invalid_value(Unexpected::Str(text), &self))
    }
}

impl<'de> Deserialize<'de> for Color {
    fn deserialize<D: Deserializer<'de>>(deserializer: D) -> Result<Color, D::Error> {
        deserializer.deserialize_str(ColorText)
    }
}

/// The bits of names with `|` between them; a number as `0x80` is bits without a name.
fn bits_of(text: &str, of_name: impl Fn(&str) -> Option<u8>) -> Option<u8> {
    if text.trim().is_empty() {
        return Some(0);
    }
    text.split('|').map(str::trim).try_fold(0, |bits, name| {
        let more = match name.strip_prefix("0x") {
            Some(hex) => u8::from_str_radix(hex, 16).ok()?,
            None => of_name(name)?,
        };
        Some(bits | more)
    })
}

struct FlagText(fn(&str) -> Option<u8>);

impl Visitor<'_> for FlagText {
    type Value = u8;

    fn expecting(&self, f: &mut fmt::Formatter<'_>) -> fmt::Result {
        f.write_str("names of flags with ` | ` between them")
    }

    fn visit_str<E: Error>(self, text: &str) -> Result<u8, E> {
        bits_of(text, self.0).ok_or_else(|| E::invalid_value(Unexpected::Str(text), &self))
    }
}

macro_rules! flag_texts {
    ($($name:ident)*) => {$(
        impl Serialize for $name {
            fn serialize<S: Serializer>(&self, serializer: S) -> Result<S::Ok, S::Error> {
                if !serializer.is_human_readable() {
                    return serializer.serialize_u8(self.bits());
                }
                let mut text = String::new();
                write_names(&mut text, self.bits(), $name::TABLE).map_err(serde::ser::Error::custom)?;
                serializer.serialize_str(&text)
            }
        }

        impl<'de> Deserialize<'de> for $name {
            fn deserialize<D: Deserializer<'de>>(deserializer: D) -> Result<$name, D::Error> {
                let bits = if deserializer.is_human_readable() {
                    deserializer.deserialize_str(FlagText(|name| $name::from_name(name).map(|flag| flag.bits())))?
                } else {
                    u8::deserialize(deserializer)?
                };
                Ok($name::from_bits_retain(bits))
            }
        }
    )*};
}

flag_texts!(KeyModifiers KeyEventState KeyboardEnhancementFlags);

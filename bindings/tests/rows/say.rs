//! Commands by their words, as `probe say` reads them: the bytes that the shim writes.

use crate::play::statement::{bytes, divided, number, pair, Wrong};
use crate::play::{read_lines, Fault};
use crossterm::clipboard::CopyToClipboard;
use crossterm::cursor::*;
use crossterm::event::*;
use crossterm::style::*;
use crossterm::terminal::*;
use crossterm::{queue, Command};
use std::fmt::Debug;
use std::io::Write;

const SHAPES: [SetCursorStyle; 7] = [
    SetCursorStyle::DefaultUserShape,
    SetCursorStyle::BlinkingBlock,
    SetCursorStyle::SteadyBlock,
    SetCursorStyle::BlinkingUnderScore,
    SetCursorStyle::SteadyUnderScore,
    SetCursorStyle::BlinkingBar,
    SetCursorStyle::SteadyBar,
];
const PARTS: [ClearType; 6] =
    [ClearType::All, ClearType::Purge, ClearType::FromCursorDown, ClearType::FromCursorUp, ClearType::CurrentLine, ClearType::UntilNewLine];

/// The bytes of a command.
fn text_of(command: impl Command) -> Vec<u8> {
    let mut out = Vec::new();
    queue!(out, command).expect("a Vec takes all bytes");
    out
}

/// The bytes of the archive's own `Print`: the shim's writes the text itself.
fn printed(text: String) -> Vec<u8> {
    let mut out = Vec::new();
    gelvanh::write_command(&mut out, &gelvanh::Command::Print(&text), true).expect("a Vec takes all bytes");
    out
}

/// Says whether colours are written from now on, which writes nothing.
fn colors(word: &str) -> Option<Vec<u8>> {
    match word {
        "on" => force_color_output(true),
        "off" => force_color_output(false),
        _ => return None,
    }
    Some(Vec::new())
}

/// The one of some values that `Debug` shows by this name.
fn named<T: Debug>(values: impl IntoIterator<Item = T>, name: &str) -> Option<T> {
    values.into_iter().find(|value| format!("{value:?}") == name)
}

/// Any bytes in hexadecimal digits; `-` is none.
fn content(word: &str) -> Option<Vec<u8>> {
    if word == "-" {
        return Some(Vec::new());
    }
    bytes(word)
}

/// A text in hexadecimal digits.
fn text(word: &str) -> Option<String> {
    String::from_utf8(content(word)?).ok()
}

/// Any bits of the keyboard's flags.
fn flags(bits: &str) -> Option<KeyboardEnhancementFlags> {
    number(bits).map(KeyboardEnhancementFlags::from_bits_retain)
}

/// A colour by its name, as `ansi:N` or as `rgb:R,G,B`.
fn color(word: &str) -> Option<Color> {
    if let Some(place) = word.strip_prefix("ansi:") {
        return number(place).map(Color::AnsiValue);
    }
    if let Some(parts) = word.strip_prefix("rgb:") {
        let parts = parts.split(',').map(number).collect::<Option<Vec<u8>>>()?;
        return <[u8; 3]>::try_from(parts).ok().map(|[r, g, b]| Color::Rgb { r, g, b });
    }
    Color::try_from(word).ok()
}

/// A colour, or `-` for none.
fn optional_color(word: &str) -> Option<Option<Color>> {
    if word == "-" {
        return Some(None);
    }
    color(word).map(Some)
}

/// An attribute by its name.
fn attribute(name: &str) -> Option<Attribute> {
    named(Attribute::iterator(), name)
}

/// Attributes by their names with commas between, or `-` for none.
fn attributes(names: &str) -> Option<Attributes> {
    if names == "-" {
        return Some(Attributes::none());
    }
    let all = names.split(',').map(attribute).collect::<Option<Vec<Attribute>>>()?;
    Some(Attributes::from(&all[..]))
}

/// A foreground and a background.
fn both_colors(words: &str) -> Option<Colors> {
    let (foreground, background) = words.split_once(' ')?;
    Some(Colors { foreground: optional_color(foreground)?, background: optional_color(background)? })
}

/// A foreground, a background, an underline's colour, and attributes.
fn style(words: &str) -> Option<ContentStyle> {
    let words = <[&str; 4]>::try_from(words.split(' ').collect::<Vec<_>>()).ok()?;
    Some(ContentStyle {
        foreground_color: optional_color(words[0])?,
        background_color: optional_color(words[1])?,
        underline_color: optional_color(words[2])?,
        attributes: attributes(words[3])?,
    })
}

/// A style, and a text after it.
fn styled(words: &str) -> Option<StyledContent<String>> {
    let (words, content) = words.rsplit_once(' ')?;
    Some(style(words)?.apply(text(content)?))
}

/// A copy of any bytes to places by their letters.
fn copy(words: &str) -> Option<CopyToClipboard<Vec<u8>>> {
    let (letters, words) = words.split_once(' ').filter(|(letters, _)| !letters.is_empty())?;
    let destination = if letters == "-" { "" } else { letters }.parse().ok()?;
    Some(CopyToClipboard { content: content(words)?, destination })
}

/// The bytes of the command that a word names. First come the lists of commands that take nothing, a number, or two numbers.
macro_rules! written {
    ($word:ident $rest:ident: none $($alone:ident)*; number $($of_one:ident)*; pair $($of_two:ident)*; $($other:ident $read:expr;)*) => {
        match $word {
            $(stringify!($alone) => $rest.is_none().then(|| text_of($alone)),)*
            $(stringify!($of_one) => $rest.and_then(number).map(|n| text_of($of_one(n))),)*
            $(stringify!($of_two) => $rest.and_then(pair).map(|(one, two)| text_of($of_two(one, two))),)*
            $(stringify!($other) => $rest.and_then($read),)*
            _ => return Err(Wrong::Word),
        }
    };
}

/// The bytes of what a line says.
fn said(line: &str) -> Result<Vec<u8>, Wrong> {
    let (word, rest) = divided(line);
    let written = written! { word rest:
        none SavePosition RestorePosition Hide Show EnableBlinking DisableBlinking DisableLineWrap EnableLineWrap EnterAlternateScreen
            LeaveAlternateScreen BeginSynchronizedUpdate EndSynchronizedUpdate EnableMouseCapture DisableMouseCapture EnableFocusChange
            DisableFocusChange EnableBracketedPaste DisableBracketedPaste PopKeyboardEnhancementFlags ResetColor;
        number MoveToColumn MoveToRow MoveToNextLine MoveToPreviousLine MoveUp MoveDown MoveRight MoveLeft ScrollUp ScrollDown;
        pair MoveTo SetSize;
        colors colors;
        SetCursorStyle |name| named(SHAPES, name).map(text_of);
        Clear |name| named(PARTS, name).map(Clear).map(text_of);
        PushKeyboardEnhancementFlags |bits| flags(bits).map(PushKeyboardEnhancementFlags).map(text_of);
        SetForegroundColor |word| color(word).map(SetForegroundColor).map(text_of);
        SetBackgroundColor |word| color(word).map(SetBackgroundColor).map(text_of);
        SetUnderlineColor |word| color(word).map(SetUnderlineColor).map(text_of);
        SetColors |words| both_colors(words).map(SetColors).map(text_of);
        SetAttribute |name| attribute(name).map(SetAttribute).map(text_of);
        SetAttributes |names| attributes(names).map(SetAttributes).map(text_of);
        SetStyle |words| style(words).map(SetStyle).map(text_of);
        PrintStyledContent |words| styled(words).map(PrintStyledContent).map(text_of);
        SetTitle |word| text(word).map(SetTitle).map(text_of);
        Print |word| text(word).map(printed);
        CopyToClipboard |words| copy(words).map(text_of);
    };
    written.ok_or(Wrong::Argument)
}

/// Reads lines, and writes the bytes of the commands that they name. If a line is wrong, nothing is written.
pub fn run(input: &[u8], output: &mut Vec<u8>) -> Result<(), Fault> {
    force_color_output(true);
    let all = read_lines(input, said)?.concat();
    output.write_all(&all).map_err(|_| Fault::WriteFailed)
}

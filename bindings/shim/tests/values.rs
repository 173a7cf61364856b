//! What values are equal, how they show themselves, and the bytes of commands.

use crossterm::event::{KeyCode, KeyEvent, KeyModifiers, KeyboardEnhancementFlags};
use crossterm::style::{Attribute, Color, Colored, ContentStyle, Print, SetStyle, Stylize};
use crossterm::{cursor, event, execute, queue, style, terminal, Command, QueueableCommand, SynchronizedUpdate};
use std::collections::hash_map::DefaultHasher;
use std::fmt;
use std::hash::{Hash, Hasher};
use std::io::{self, Write};

fn hash(value: impl Hash) -> u64 {
    let mut hasher = DefaultHasher::new();
    value.hash(&mut hasher);
    hasher.finish()
}

/// Upper case and Shift are one stroke, for letters of ASCII.
#[test]
fn strokes() {
    let key = |c, modifiers| KeyEvent::new(KeyCode::Char(c), modifiers);
    let (none, shift) = (KeyModifiers::NONE, KeyModifiers::SHIFT);
    for (one, two, are_equal) in [
        (key('A', none), key('A', shift), true),
        (key('a', shift), key('A', none), true),
        (key('a', shift), key('A', shift), true),
        (key('a', none), key('A', none), false),
        (key('a', none), key('a', shift), false),
        (key('1', none), key('1', shift), false),
        (key('ä', shift), key('Ä', none), false),
        (key('a', shift), key('A', shift | KeyModifiers::ALT), false),
    ] {
        assert_eq!(one == two, are_equal, "{one:?} {two:?}");
        assert_eq!(hash(one) == hash(two), are_equal, "{one:?} {two:?}");
        assert_eq!(one.cmp(&two).is_eq(), are_equal, "{one:?} {two:?}");
    }
}

#[test]
fn shown_by_debug() {
    let key = KeyEvent::new(KeyCode::Char('x'), KeyModifiers::CONTROL | KeyModifiers::ALT);
    let text = "KeyEvent { code: Char('x'), modifiers: KeyModifiers(CONTROL | ALT), kind: Press, state: KeyEventState(0x0) }";
    assert_eq!(format!("{key:?}"), text);
    assert_eq!(format!("{:?}", KeyModifiers::from_bits_retain(0x81)), "KeyModifiers(SHIFT | 0x80)");
    assert_eq!(format!("{:?}", KeyModifiers::from_bits_retain(0x80).iter().collect::<Vec<_>>()), "[KeyModifiers(0x80)]");
    assert_eq!(format!("{:?}", KeyboardEnhancementFlags::empty()), "KeyboardEnhancementFlags(0x0)");
}

#[test]
fn shown_by_display() {
    use event::{MediaKeyCode as Media, ModifierKeyCode as Modifier};
    for (code, text) in [
        (KeyCode::Backspace, "Backspace"),
        (KeyCode::PageUp, "Page Up"),
        (KeyCode::BackTab, "Back Tab"),
        (KeyCode::Delete, "Del"),
        (KeyCode::F(12), "F12"),
        (KeyCode::Char(' '), "Space"),
        (KeyCode::Char('ü'), "ü"),
        (KeyCode::KeypadBegin, "Begin"),
        (KeyCode::Media(Media::PlayPause), "Play/Pause"),
        (KeyCode::Media(Media::TrackNext), "Next Track"),
        (KeyCode::Modifier(Modifier::RightControl), "Right Ctrl"),
        (KeyCode::Modifier(Modifier::IsoLevel3Shift), "Iso Level 3 Shift"),
    ] {
        assert_eq!(code.to_string(), text);
    }
    assert_eq!((KeyModifiers::SUPER | KeyModifiers::CONTROL | KeyModifiers::SHIFT).to_string(), "Shift+Control+Super");
    assert_eq!(KeyModifiers::from_bits_retain(0x40).to_string(), "");
    assert_eq!(Attribute::Bold.to_string(), "\x1b[1m");
    assert_eq!(cursor::MoveTo(1, 2).to_string(), "\x1b[3;2H");
    assert_eq!(format!("{:>3}|", Print(7)), "  7|");
}

#[test]
fn colours_as_texts() {
    for (text, color) in [
        ("5;9", Some(Color::Red)),
        ("5;15", Some(Color::White)),
        ("5;16", Some(Color::AnsiValue(16))),
        ("2;1;2;3", Some(Color::Rgb { r: 1, g: 2, b: 3 })),
        ("5;256", None),
        ("5", None),
        ("2;1;2", None),
        ("2;1;2;3;4", None),
        ("", None),
    ] {
        assert_eq!(Color::parse_ansi(text), color, "{text}");
        assert_eq!(Colored::parse_ansi(&format!("58;{text}")), color.map(Colored::UnderlineColor), "{text}");
    }
    assert_eq!(Colored::parse_ansi("39;1"), None);
    assert_eq!(Colored::parse_ansi("49"), Some(Colored::BackgroundColor(Color::Reset)));
    assert_eq!(Color::try_from("Dark_Grey"), Ok(Color::DarkGrey));
    assert_eq!(Color::try_from("pink"), Err(()));
    assert_eq!("pink".parse(), Ok(Color::White));
    assert_eq!(Color::from((1, 2, 3)), Color::Rgb { r: 1, g: 2, b: 3 });
    assert_eq!(style::Colors::from(Colored::UnderlineColor(Color::Red)).background, Some(Color::Red));
}

/// A command of a user's own.
struct Bell;

impl Command for Bell {
    fn write_ansi(&self, f: &mut impl fmt::Write) -> fmt::Result {
        f.write_char('\x07')
    }
}

/// Each command that was written, one after the other. `NO_COLOR` would change some of them, so it is set off.
#[test]
fn bytes_of_commands() -> io::Result<()> {
    use {cursor::*, event::*, style::*, terminal::*};
    force_color_output(true);
    let mut out = Vec::new();
    let text = |queued: io::Result<()>, out: &mut Vec<u8>| queued.map(|()| String::from_utf8(std::mem::take(out)).unwrap_or_default());
    macro_rules! rows {
        ($($command:expr => $text:expr;)*) => {$(
            let queued = queue!(out, $command);
            assert_eq!(text(queued, &mut out)?, $text, "{}", stringify!($command));
        )*};
    }
    rows! {
        MoveTo(65535, 65535) => "\x1b[65536;65536H";
        MoveToColumn(65535) => "\x1b[65536G";
        MoveToRow(0) => "\x1b[1d";
        MoveToNextLine(2) => "\x1b[2E";
        MoveToPreviousLine(2) => "\x1b[2F";
        MoveUp(1) => "\x1b[1A";
        MoveDown(1) => "\x1b[1B";
        MoveRight(1) => "\x1b[1C";
        MoveLeft(1) => "\x1b[1D";
        SavePosition => "\x1b7";
        RestorePosition => "\x1b8";
        Hide => "\x1b[?25l";
        Show => "\x1b[?25h";
        EnableBlinking => "\x1b[?12h";
        DisableBlinking => "\x1b[?12l";
        SetCursorStyle::DefaultUserShape => "\x1b[0 q";
        SetCursorStyle::SteadyBar => "\x1b[6 q";
        EnableMouseCapture => "\x1b[?1000h\x1b[?1002h\x1b[?1003h\x1b[?1015h\x1b[?1006h";
        DisableMouseCapture => "\x1b[?1006l\x1b[?1015l\x1b[?1003l\x1b[?1002l\x1b[?1000l";
        EnableFocusChange => "\x1b[?1004h";
        DisableFocusChange => "\x1b[?1004l";
        EnableBracketedPaste => "\x1b[?2004h";
        DisableBracketedPaste => "\x1b[?2004l";
        PushKeyboardEnhancementFlags(KeyboardEnhancementFlags::all()) => "\x1b[>15u";
        PopKeyboardEnhancementFlags => "\x1b[<1u";
        SetForegroundColor(Color::Red) => "\x1b[38;5;9m";
        SetBackgroundColor(Color::Reset) => "\x1b[49m";
        SetUnderlineColor(Color::AnsiValue(200)) => "\x1b[58;5;200m";
        SetColors(Colors::new(Color::Blue, Color::Rgb { r: 1, g: 2, b: 3 })) => "\x1b[38;5;12;48;2;1;2;3m";
        SetColors(Colors { foreground: None, background: None }) => "";
        SetAttribute(Attribute::Undercurled) => "\x1b[4:3m";
        SetAttributes(Attributes::from([Attribute::Italic, Attribute::Bold].as_ref())) => "\x1b[1m\x1b[3m";
        SetStyle(ContentStyle::new().red().on_blue().bold()) => "\x1b[48;5;12m\x1b[38;5;9m\x1b[1m";
        ResetColor => "\x1b[0m";
        Print("é") => "é";
        PrintStyledContent("x".red()) => "\x1b[38;5;9mx\x1b[39m";
        PrintStyledContent('x'.red().bold()) => "\x1b[38;5;9m\x1b[1mx\x1b[0m";
        DisableLineWrap => "\x1b[?7l";
        EnableLineWrap => "\x1b[?7h";
        EnterAlternateScreen => "\x1b[?1049h";
        LeaveAlternateScreen => "\x1b[?1049l";
        ScrollUp(0) => "";
        ScrollUp(3) => "\x1b[3S";
        ScrollDown(3) => "\x1b[3T";
        Clear(ClearType::All) => "\x1b[2J";
        Clear(ClearType::UntilNewLine) => "\x1b[K";
        SetSize(80, 24) => "\x1b[8;24;80t";
        SetTitle("t") => "\x1b]0;t\x07";
        BeginSynchronizedUpdate => "\x1b[?2026h";
        EndSynchronizedUpdate => "\x1b[?2026l";
        Bell => "\x07";
        Print("x".repeat(1000)) => "x".repeat(1000);
        SetTitle("x".repeat(1000)) => format!("\x1b]0;{}\x07", "x".repeat(1000));
    }
    out.sync_update(|out| out.queue(Bell).map(|_| ()))??;
    assert_eq!(out, b"\x1b[?2026h\x07\x1b[?2026l");
    Ok(())
}

/// A text that is shown in so many pieces of three bytes.
struct Pieces(usize);

impl fmt::Display for Pieces {
    fn fmt(&self, f: &mut fmt::Formatter<'_>) -> fmt::Result {
        (0..self.0).try_for_each(|_| f.write_str("\u{e9}."))
    }
}

/// Texts that fill 128 bytes almost, that are longer by a piece, and that are much longer.
#[test]
fn texts_in_pieces() {
    style::force_color_output(true);
    for pieces in [0, 1, 41, 42, 43, 44, 85, 86, 1000] {
        let text = "\u{e9}.".repeat(pieces);
        assert_eq!(style::style(Pieces(pieces)).red().to_string(), format!("\x1b[38;5;9m{text}\x1b[39m"));
        assert_eq!(terminal::SetTitle(Pieces(pieces)).to_string(), format!("\x1b]0;{text}\x07"));
    }
}

#[cfg(feature = "osc52")]
#[test]
fn bytes_of_a_copy() -> io::Result<()> {
    use crossterm::clipboard::CopyToClipboard;
    let mut out = Vec::new();
    queue!(out, CopyToClipboard::to_primary_from(b"\xff\x00"))?;
    assert_eq!(out, b"\x1b]52;p;/wA=\x1b\\");
    Ok(())
}

#[test]
fn parameters_of_attributes_and_colours() {
    style::force_color_output(true);
    let rows = [(Attribute::Reset, "0"), (Attribute::Underdashed, "4:5"), (Attribute::SlowBlink, "5"), (Attribute::NotOverLined, "55")];
    for (attribute, text) in rows {
        assert_eq!(attribute.sgr(), text);
    }
    assert_eq!(Attribute::Bold.bytes(), 4);
    assert_eq!(Colored::ForegroundColor(Color::Grey).to_string(), "38;5;7");
    assert_eq!(Colored::BackgroundColor(Color::Reset).to_string(), "49");
    assert_eq!(SetStyle(ContentStyle::new()).to_string(), "");
}

/// A writer that refuses, and counts what was tried.
struct Refusing(usize);

impl Write for Refusing {
    fn write(&mut self, _: &[u8]) -> io::Result<usize> {
        self.0 += 1;
        Err(io::ErrorKind::BrokenPipe.into())
    }

    fn flush(&mut self) -> io::Result<()> {
        Ok(())
    }
}

/// A command that fails by itself.
struct Failing;

impl Command for Failing {
    fn write_ansi(&self, _: &mut impl fmt::Write) -> fmt::Result {
        Err(fmt::Error)
    }
}

/// A value that shows a beginning, and fails.
#[derive(Clone, Copy)]
struct Unshown;

impl fmt::Display for Unshown {
    fn fmt(&self, f: &mut fmt::Formatter<'_>) -> fmt::Result {
        f.write_str("a")?;
        Err(fmt::Error)
    }
}

#[test]
fn errors_of_values() {
    fn is_error(command: impl Command) {
        assert_eq!(command.write_ansi(&mut String::new()), Err(fmt::Error));
        assert_eq!(queue!(io::sink(), &command).map_err(|error| error.kind()), Err(io::ErrorKind::Other));
        assert_eq!(execute!(io::sink(), &command).map_err(|error| error.kind()), Err(io::ErrorKind::Other));
    }
    let styled = style::style(Unshown).red();
    is_error(Print(Unshown));
    is_error(Print(styled));
    is_error(style::PrintStyledContent(styled));
    is_error(terminal::SetTitle(Unshown));
    // Of a style or a title nothing is written then.
    let mut out = Vec::new();
    assert!(queue!(out, style::PrintStyledContent(styled)).is_err() && queue!(out, terminal::SetTitle(Unshown)).is_err());
    assert_eq!(out, b"");
}

#[test]
fn errors_of_writers() {
    let mut refusing = Refusing(0);
    let told = execute!(refusing, Bell, Bell).map_err(|error| error.kind());
    assert_eq!((told, refusing.0), (Err(io::ErrorKind::BrokenPipe), 1));
    let told = queue!(io::sink(), Failing).map_err(|error| error.kind());
    assert_eq!(told, Err(io::ErrorKind::Other));
}

#[cfg(feature = "serde")]
mod serde_texts {
    use super::*;
    use crossterm::event::{KeyEventKind, KeyEventState};
    use serde::de::value::{BorrowedStrDeserializer, Error};
    use serde::{Deserialize, Serialize};

    /// What serde writes of a value that is one text.
    struct Written<T>(T);

    impl<T: Serialize> fmt::Display for Written<T> {
        fn fmt(&self, f: &mut fmt::Formatter<'_>) -> fmt::Result {
            self.0.serialize(f)
        }
    }

    fn read<'a, T: Deserialize<'a>>(text: &'a str) -> Option<T> {
        T::deserialize(BorrowedStrDeserializer::<Error>::new(text)).ok()
    }

    #[test]
    fn colours() {
        for (color, text) in
            [(Color::DarkGrey, "dark_grey"), (Color::AnsiValue(255), "ansi_(255)"), (Color::Rgb { r: 1, g: 2, b: 255 }, "rgb_(1,2,255)")]
        {
            assert_eq!(Written(color).to_string(), text);
            assert_eq!(read(text), Some(color));
        }
        assert_eq!(read("#0102fF"), Some(Color::Rgb { r: 1, g: 2, b: 255 }));
        assert_eq!(read("Red"), Some(Color::Red));
        for text in ["pink", "ansi_(256)", "rgb_(1,2)", "rgb_(1,2,3,4)", "rgb_(1,2,256)", "#FFGFFF", "#FFFFFFFF", "#ff\u{1f980}", ""] {
            assert_eq!(read::<Color>(text), None, "{text}");
        }
    }

    #[test]
    fn flags_and_names() {
        let both = KeyModifiers::ALT | KeyModifiers::SHIFT;
        assert_eq!(Written(both).to_string(), "SHIFT | ALT");
        assert_eq!(read("SHIFT | ALT"), Some(both));
        assert_eq!(read(""), Some(KeyModifiers::NONE));
        assert_eq!(read("ALT | 0x80"), Some(KeyModifiers::from_bits_retain(0x84)));
        assert_eq!(read::<KeyModifiers>("SHIFT | OTHER"), None);
        assert_eq!(read("KEYPAD"), Some(KeyEventState::KEYPAD));
        assert_eq!(read("PageUp"), Some(KeyCode::PageUp));
        assert_eq!(Written(KeyEventKind::Repeat).to_string(), "Repeat");
    }
}

#[cfg(feature = "libc")]
#[test]
fn sizes_of_libc() {
    let size = libc::winsize { ws_row: 24, ws_col: 80, ws_xpixel: 640, ws_ypixel: 480 };
    let size = terminal::WindowSize::from(size);
    assert_eq!((size.rows, size.columns, size.width, size.height), (24, 80, 640, 480));
}

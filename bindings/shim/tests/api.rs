//! Each public name of crossterm 0.29 for Unix, and each trait of its types: if one lacks this doesn't compile.
#![allow(clippy::type_complexity)]

use crossterm::cursor::{
    position, DisableBlinking, EnableBlinking, Hide, MoveDown, MoveLeft, MoveRight, MoveTo, MoveToColumn, MoveToNextLine,
    MoveToPreviousLine, MoveToRow, MoveUp, RestorePosition, SavePosition, SetCursorStyle, Show,
};
use crossterm::event::{
    poll, read, try_read, DisableBracketedPaste, DisableFocusChange, DisableMouseCapture, EnableBracketedPaste, EnableFocusChange,
    EnableMouseCapture, Event, KeyCode, KeyEvent, KeyEventKind, KeyEventState, KeyModifiers, KeyboardEnhancementFlags, MediaKeyCode,
    ModifierKeyCode, MouseButton, MouseEvent, MouseEventKind, PopKeyboardEnhancementFlags, PushKeyboardEnhancementFlags,
};
use crossterm::style::{
    available_color_count, force_color_output, style, Attribute, Attributes, Color, Colored, Colors, ContentStyle, Print,
    PrintStyledContent, ResetColor, SetAttribute, SetAttributes, SetBackgroundColor, SetColors, SetForegroundColor, SetStyle,
    SetUnderlineColor, StyledContent, Stylize,
};
use crossterm::terminal::{
    disable_raw_mode, enable_raw_mode, is_raw_mode_enabled, size, supports_keyboard_enhancement, window_size, BeginSynchronizedUpdate,
    Clear, ClearType, DisableLineWrap, EnableLineWrap, EndSynchronizedUpdate, EnterAlternateScreen, LeaveAlternateScreen, ScrollDown,
    ScrollUp, SetSize, SetTitle, WindowSize,
};
use crossterm::tty::IsTty;
use crossterm::{execute, queue, Command, ExecutableCommand, QueueableCommand, SynchronizedUpdate};
use std::convert::TryFrom;
use std::fmt::{Debug, Display};
use std::hash::Hash;
use std::io;
use std::ops::{BitAnd, BitOr, BitXor};
use std::str::FromStr;
use std::time::Duration;

/// That types have traits.
macro_rules! have {
    ($($of:ty),* : $($bound:tt)+) => {{
        fn has<T: $($bound)+>() {}
        $(has::<$of>();)*
    }};
}

/// That calls have types.
macro_rules! calls {
    ($($call:expr => $of:ty;)*) => {$(
        let _: $of = $call;
    )*};
}

#[test]
fn commands() {
    have!(
        MoveTo, MoveToNextLine, MoveToPreviousLine, MoveToColumn, MoveToRow, MoveUp, MoveRight, MoveDown, MoveLeft, SavePosition,
        RestorePosition, Hide, Show, EnableBlinking, DisableBlinking, SetCursorStyle, EnableMouseCapture, DisableMouseCapture,
        EnableFocusChange, DisableFocusChange, EnableBracketedPaste, DisableBracketedPaste, PushKeyboardEnhancementFlags,
        PopKeyboardEnhancementFlags, SetForegroundColor, SetBackgroundColor, SetUnderlineColor, SetColors, SetAttribute, SetAttributes,
        SetStyle, ResetColor, Print<u8>, DisableLineWrap, EnableLineWrap, EnterAlternateScreen, LeaveAlternateScreen, ScrollUp,
        ScrollDown, Clear, SetSize, SetTitle<&str>, BeginSynchronizedUpdate, EndSynchronizedUpdate:
        Command + Clone + Copy + Debug + PartialEq + Eq
    );
    have!(PrintStyledContent<&str>: Command + Clone + Copy + Debug);
    have!(
        MoveTo, MoveToNextLine, MoveToPreviousLine, MoveToColumn, MoveToRow, MoveUp, MoveRight, MoveDown, MoveLeft, SavePosition,
        RestorePosition, Hide, Show, EnableBlinking, DisableBlinking, SetCursorStyle, SetForegroundColor, SetBackgroundColor, SetColors,
        SetAttribute, PrintStyledContent<String>, PrintStyledContent<&'static str>, ResetColor, Print<u8>, ScrollUp, ScrollDown, SetSize,
        Clear:
        Display
    );
    have!(&MoveTo, &&SetTitle<String>: Command);
    have!(SetCursorStyle: Hash);
    let _ = (MoveTo(1, 2).0, MoveTo(1, 2).1, SetSize(1, 2).1, Print("").0, SetTitle("").0, PrintStyledContent(style(1)).0);
}

#[test]
fn writers() -> io::Result<()> {
    have!(Vec<u8>, io::Stdout, &mut dyn io::Write, dyn io::Write: QueueableCommand + ExecutableCommand + SynchronizedUpdate + ?Sized);
    let mut out = Vec::new();
    out.queue(Hide)?.execute(Show)?.sync_update(|out| out.queue(Print(1)).map(|_| ()))??;
    queue!(out)?;
    queue!(out, Hide, Show,)?;
    execute!(&mut out, Hide)?;
    execute!(io::sink(), Hide)?;
    let inner = &mut out;
    queue!(inner, &Hide)?;
    let mut dynamic: &mut dyn io::Write = inner;
    queue!(&mut dynamic, Hide)?;
    dynamic.execute(Hide)?;
    Ok(())
}

#[test]
fn traits_of_events() {
    have!(KeyModifiers, KeyEventState, KeyboardEnhancementFlags: Debug + PartialOrd + Eq + Clone + Copy + Hash);
    have!(Event: Debug + PartialOrd + PartialEq + Eq + Clone + Hash);
    have!(
        MouseEvent, MouseEventKind, MouseButton, KeyEvent, KeyEventKind, KeyCode, MediaKeyCode, ModifierKeyCode:
        Debug + PartialOrd + PartialEq + Eq + Clone + Copy + Hash
    );
    have!(KeyModifiers, KeyCode, MediaKeyCode, ModifierKeyCode: Display);
    have!(KeyEvent: From<KeyCode>);
}

#[test]
fn calls_of_events() {
    const KEY: KeyEvent = KeyEvent::new(KeyCode::Enter, KeyModifiers::NONE);
    calls! {
        poll => fn(Duration) -> io::Result<bool>;
        read => fn() -> io::Result<Event>;
        try_read => fn() -> Option<Event>;
        position => fn() -> io::Result<(u16, u16)>;
        supports_keyboard_enhancement => fn() -> io::Result<bool>;
        KeyEvent::new => fn(KeyCode, KeyModifiers) -> KeyEvent;
        KeyEvent::new_with_kind => fn(KeyCode, KeyModifiers, KeyEventKind) -> KeyEvent;
        KeyEvent::new_with_kind_and_state => fn(KeyCode, KeyModifiers, KeyEventKind, KeyEventState) -> KeyEvent;
        KeyEvent::is_press => fn(&KeyEvent) -> bool;
        KeyEvent::is_release => fn(&KeyEvent) -> bool;
        KeyEvent::is_repeat => fn(&KeyEvent) -> bool;
        KeyCode::is_function_key => fn(&KeyCode, u8) -> bool;
        KeyCode::is_char => fn(&KeyCode, char) -> bool;
        KeyCode::as_char => fn(&KeyCode) -> Option<char>;
        KeyCode::is_media_key => fn(&KeyCode, MediaKeyCode) -> bool;
        KeyCode::is_modifier => fn(&KeyCode, ModifierKeyCode) -> bool;
        Event::is_key_press => fn(&Event) -> bool;
        Event::is_key_release => fn(&Event) -> bool;
        Event::is_key_repeat => fn(&Event) -> bool;
        Event::as_key_event => fn(&Event) -> Option<KeyEvent>;
        Event::as_key_press_event => fn(&Event) -> Option<KeyEvent>;
        Event::as_key_release_event => fn(&Event) -> Option<KeyEvent>;
        Event::as_key_repeat_event => fn(&Event) -> Option<KeyEvent>;
        Event::as_mouse_event => fn(&Event) -> Option<MouseEvent>;
        Event::as_paste_event => fn(&Event) -> Option<&str>;
        Event::as_resize_event => fn(&Event) -> Option<(u16, u16)>;
    }
    assert_eq!(KeyEvent { state: KeyEventState::NONE, ..KEY }, KeyCode::Enter.into());
    assert!(KEY.is_press() && KeyCode::F(3).is_function_key(3) && KeyCode::Char('a').is_char('a'));
}

/// The calls that `bitflags` gives to a set, on each of the three.
macro_rules! set_calls {
    ($($set:ident)*) => {$(
        const _: ($set, $set, Option<$set>) = ($set::empty(), $set::all(), $set::from_bits(1));
        assert_eq!($set::from_bits_truncate(0xFF), $set::all());
        assert_eq!($set::from_bits_retain(0x80).bits(), 0x80);
        let mut set = $set::all() - $set::from_bits_truncate(1) | $set::from_bits_truncate(2) & $set::all();
        set ^= $set::from_bits_truncate(2);
        set |= $set::from_bits_truncate(1);
        set &= $set::all();
        set -= $set::from_bits_truncate(4);
        set.insert($set::from_bits_truncate(2));
        set.remove($set::from_bits_truncate(1));
        set.toggle($set::from_bits_truncate(1));
        set.set($set::from_bits_truncate(4), true);
        set.extend([$set::from_bits_truncate(1)]);
        assert!(set.is_all() && !set.is_empty() && set.contains($set::all()) && set.intersects($set::all()));
        assert_eq!(set.union(!set).intersection(set).difference(set).symmetric_difference(set).complement(), $set::empty());
        assert_eq!(set.iter().collect::<$set>(), set.into_iter().collect());
        assert_eq!(set.iter_names().next().map(|(name, flag)| $set::from_name(name) == Some(flag)), Some(true));
        assert_eq!(format!("{set:b} {set:o} {set:x} {set:X}"), format!("{0:b} {0:o} {0:x} {0:X}", set.bits()));
    )*};
}

#[test]
fn sets_of_flags() {
    set_calls!(KeyModifiers KeyEventState KeyboardEnhancementFlags);
    let _ = [KeyModifiers::SHIFT, KeyModifiers::CONTROL, KeyModifiers::ALT, KeyModifiers::SUPER, KeyModifiers::HYPER, KeyModifiers::META];
    let _ = [KeyModifiers::NONE];
    let _ = [KeyEventState::KEYPAD, KeyEventState::CAPS_LOCK, KeyEventState::NUM_LOCK, KeyEventState::NONE];
    let flags = KeyboardEnhancementFlags::DISAMBIGUATE_ESCAPE_CODES
        | KeyboardEnhancementFlags::REPORT_EVENT_TYPES
        | KeyboardEnhancementFlags::REPORT_ALTERNATE_KEYS
        | KeyboardEnhancementFlags::REPORT_ALL_KEYS_AS_ESCAPE_CODES;
    assert_eq!(flags, KeyboardEnhancementFlags::all());
}

/// A match of each variant by name: none is missing, and none is more.
#[test]
fn variants_of_events() {
    let _ = |event: Event| match event {
        Event::FocusGained | Event::FocusLost | Event::Key(_) | Event::Mouse(_) | Event::Paste(_) | Event::Resize(..) => (),
    };
    let _ = |kind: MouseEventKind| match kind {
        MouseEventKind::Down(button) | MouseEventKind::Up(button) | MouseEventKind::Drag(button) => match button {
            MouseButton::Left | MouseButton::Right | MouseButton::Middle => (),
        },
        MouseEventKind::Moved | MouseEventKind::ScrollDown | MouseEventKind::ScrollUp => (),
        MouseEventKind::ScrollLeft | MouseEventKind::ScrollRight => (),
    };
    let _ = |kind: KeyEventKind| match kind {
        KeyEventKind::Press | KeyEventKind::Repeat | KeyEventKind::Release => (),
    };
    let _ = |code: KeyCode| match code {
        KeyCode::Backspace | KeyCode::Enter | KeyCode::Left | KeyCode::Right | KeyCode::Up | KeyCode::Down | KeyCode::Home => (),
        KeyCode::End | KeyCode::PageUp | KeyCode::PageDown | KeyCode::Tab | KeyCode::BackTab | KeyCode::Delete => (),
        KeyCode::Insert | KeyCode::F(_) | KeyCode::Char(_) | KeyCode::Null | KeyCode::Esc | KeyCode::CapsLock => (),
        KeyCode::ScrollLock | KeyCode::NumLock | KeyCode::PrintScreen | KeyCode::Pause | KeyCode::Menu => (),
        KeyCode::KeypadBegin | KeyCode::Media(_) | KeyCode::Modifier(_) => (),
    };
    let _ = |media: MediaKeyCode| match media {
        MediaKeyCode::Play | MediaKeyCode::Pause | MediaKeyCode::PlayPause | MediaKeyCode::Reverse | MediaKeyCode::Stop => (),
        MediaKeyCode::FastForward | MediaKeyCode::Rewind | MediaKeyCode::TrackNext | MediaKeyCode::TrackPrevious => (),
        MediaKeyCode::Record | MediaKeyCode::LowerVolume | MediaKeyCode::RaiseVolume | MediaKeyCode::MuteVolume => (),
    };
    let _ = |modifier: ModifierKeyCode| match modifier {
        ModifierKeyCode::LeftShift | ModifierKeyCode::LeftControl | ModifierKeyCode::LeftAlt | ModifierKeyCode::LeftSuper => (),
        ModifierKeyCode::LeftHyper | ModifierKeyCode::LeftMeta | ModifierKeyCode::RightShift => (),
        ModifierKeyCode::RightControl | ModifierKeyCode::RightAlt | ModifierKeyCode::RightSuper | ModifierKeyCode::RightHyper => (),
        ModifierKeyCode::RightMeta | ModifierKeyCode::IsoLevel3Shift | ModifierKeyCode::IsoLevel5Shift => (),
    };
    let MouseEvent { kind: _, column: _, row: _, modifiers: _ } =
        MouseEvent { kind: MouseEventKind::Moved, column: 0, row: 0, modifiers: KeyModifiers::NONE };
    let KeyEvent { code: _, modifiers: _, kind: _, state: _ } = KeyCode::Tab.into();
}

/// What the feature `derive-more` gives.
#[cfg(feature = "derive-more")]
#[test]
fn variants_by_name() {
    let event = Event::Resize(1, 1);
    assert!(event.is_resize() && !event.is_focus_gained() && !event.is_focus_lost());
    assert!(!event.is_key() && !event.is_mouse() && !event.is_paste());
    let kind = MouseEventKind::Down(MouseButton::Left);
    assert!(kind.is_down() && !kind.is_up() && !kind.is_drag() && !kind.is_moved() && !kind.is_scroll_down());
    assert!(!kind.is_scroll_up() && !kind.is_scroll_left() && !kind.is_scroll_right());
    assert!(MouseButton::Left.is_left() && !MouseButton::Left.is_right() && !MouseButton::Left.is_middle());
    assert!(KeyEventKind::Press.is_press() && !KeyEventKind::Press.is_repeat() && !KeyEventKind::Press.is_release());
    let tests: [(fn(&KeyCode) -> bool, KeyCode); 23] = [
        (KeyCode::is_backspace, KeyCode::Backspace),
        (KeyCode::is_enter, KeyCode::Enter),
        (KeyCode::is_left, KeyCode::Left),
        (KeyCode::is_right, KeyCode::Right),
        (KeyCode::is_up, KeyCode::Up),
        (KeyCode::is_down, KeyCode::Down),
        (KeyCode::is_home, KeyCode::Home),
        (KeyCode::is_end, KeyCode::End),
        (KeyCode::is_page_up, KeyCode::PageUp),
        (KeyCode::is_page_down, KeyCode::PageDown),
        (KeyCode::is_tab, KeyCode::Tab),
        (KeyCode::is_back_tab, KeyCode::BackTab),
        (KeyCode::is_delete, KeyCode::Delete),
        (KeyCode::is_insert, KeyCode::Insert),
        (KeyCode::is_null, KeyCode::Null),
        (KeyCode::is_esc, KeyCode::Esc),
        (KeyCode::is_caps_lock, KeyCode::CapsLock),
        (KeyCode::is_scroll_lock, KeyCode::ScrollLock),
        (KeyCode::is_num_lock, KeyCode::NumLock),
        (KeyCode::is_print_screen, KeyCode::PrintScreen),
        (KeyCode::is_pause, KeyCode::Pause),
        (KeyCode::is_menu, KeyCode::Menu),
        (KeyCode::is_keypad_begin, KeyCode::KeypadBegin),
    ];
    for (place, (test, _)) in tests.iter().enumerate() {
        for (other, (_, code)) in tests.iter().enumerate() {
            assert_eq!(test(code), place == other);
        }
    }
}

#[test]
fn of_styles() {
    have!(Attributes: BitAnd + BitOr + BitXor + BitAnd<Attribute> + BitOr<Attribute> + BitXor<Attribute>);
    have!(Attributes: Debug + Default + Clone + Copy + PartialEq + Eq + From<Attribute> + for<'a> From<&'a [Attribute]>);
    have!(Attribute: Copy + Clone + Debug + PartialEq + Eq + Ord + PartialOrd + Hash + Display);
    have!(Color: Copy + Clone + Debug + PartialEq + Eq + Ord + PartialOrd + Hash + FromStr + From<(u8, u8, u8)> + for<'a> TryFrom<&'a str>);
    have!(Colored: Copy + Clone + Debug + PartialEq + Eq + Ord + PartialOrd + Hash + Display);
    have!(Colors: Copy + Clone + Debug + PartialEq + Eq + From<Colored>);
    have!(ContentStyle: Copy + Clone + Debug + Default + PartialEq + Eq + AsRef<ContentStyle> + AsMut<ContentStyle>);
    have!(StyledContent<char>: Copy + Clone + Debug + PartialEq + Eq + AsRef<ContentStyle> + AsMut<ContentStyle> + Display);
    have!(ContentStyle, StyledContent<u8>, String, char, &str: Stylize);
    calls! {
        Attribute::bytes => fn(Attribute) -> u32;
        Attribute::sgr => fn(Attribute) -> String;
        Attributes::none => fn() -> Attributes;
        Attributes::with => fn(Attributes, Attribute) -> Attributes;
        Attributes::without => fn(Attributes, Attribute) -> Attributes;
        Attributes::set => fn(&mut Attributes, Attribute);
        Attributes::unset => fn(&mut Attributes, Attribute);
        Attributes::toggle => fn(&mut Attributes, Attribute);
        Attributes::has => fn(Attributes, Attribute) -> bool;
        Attributes::extend => fn(&mut Attributes, Attributes);
        Attributes::is_empty => fn(Attributes) -> bool;
        Color::parse_ansi => fn(&str) -> Option<Color>;
        Colored::parse_ansi => fn(&str) -> Option<Colored>;
        Colored::ansi_color_disabled => fn() -> bool;
        Colored::ansi_color_disabled_memoized => fn() -> bool;
        Colored::set_ansi_color_disabled => fn(bool);
        Colors::new => fn(Color, Color) -> Colors;
        Colors::then => fn(&Colors, &Colors) -> Colors;
        ContentStyle::new => fn() -> ContentStyle;
        ContentStyle::apply => fn(ContentStyle, u8) -> StyledContent<u8>;
        StyledContent::new => fn(ContentStyle, u8) -> StyledContent<u8>;
        StyledContent::content => fn(&StyledContent<u8>) -> &u8;
        StyledContent::style => fn(&StyledContent<u8>) -> &ContentStyle;
        StyledContent::style_mut => fn(&mut StyledContent<u8>) -> &mut ContentStyle;
        style => fn(u8) -> StyledContent<u8>;
        available_color_count => fn() -> u16;
        force_color_output => fn(bool);
    }
    const BOLD: Attributes = Attributes::none().with(Attribute::Bold).without(Attribute::Dim);
    const _: (bool, bool, u32) = (BOLD.has(Attribute::Bold), BOLD.is_empty(), Attribute::Bold.bytes());
    let ContentStyle { foreground_color, background_color, underline_color, attributes: _ } = ContentStyle::new();
    let Colors { foreground, background } = Colors::new(Color::Red, Color::Blue);
    let _: [Option<Color>; 5] = [foreground_color, background_color, underline_color, foreground, background];
}

/// Each colour's three methods, and each attribute's one, with what they set.
#[test]
fn methods_of_stylize() {
    macro_rules! colors {
        ($($color:ident $with:ident $on:ident $underline:ident,)*) => {$(
            let styled = "".$with().$on().$underline();
            let all = [styled.style().foreground_color, styled.style().background_color, styled.style().underline_color];
            assert_eq!(all, [Some(Color::$color); 3]);
        )*};
    }
    colors! {
        Black black on_black underline_black,
        DarkGrey dark_grey on_dark_grey underline_dark_grey,
        Red red on_red underline_red,
        DarkRed dark_red on_dark_red underline_dark_red,
        Green green on_green underline_green,
        DarkGreen dark_green on_dark_green underline_dark_green,
        Yellow yellow on_yellow underline_yellow,
        DarkYellow dark_yellow on_dark_yellow underline_dark_yellow,
        Blue blue on_blue underline_blue,
        DarkBlue dark_blue on_dark_blue underline_dark_blue,
        Magenta magenta on_magenta underline_magenta,
        DarkMagenta dark_magenta on_dark_magenta underline_dark_magenta,
        Cyan cyan on_cyan underline_cyan,
        DarkCyan dark_cyan on_dark_cyan underline_dark_cyan,
        White white on_white underline_white,
        Grey grey on_grey underline_grey,
    }
    let styles: [(fn(ContentStyle) -> ContentStyle, Attribute); 11] = [
        (Stylize::reset, Attribute::Reset),
        (Stylize::bold, Attribute::Bold),
        (Stylize::underlined, Attribute::Underlined),
        (Stylize::reverse, Attribute::Reverse),
        (Stylize::negative, Attribute::Reverse),
        (Stylize::dim, Attribute::Dim),
        (Stylize::italic, Attribute::Italic),
        (Stylize::slow_blink, Attribute::SlowBlink),
        (Stylize::rapid_blink, Attribute::RapidBlink),
        (Stylize::hidden, Attribute::Hidden),
        (Stylize::crossed_out, Attribute::CrossedOut),
    ];
    for (method, attribute) in styles {
        assert_eq!(method(ContentStyle::new()), ContentStyle::new().attribute(attribute).stylize());
    }
    let any = 'x'.with(Color::AnsiValue(1)).on(Color::Rgb { r: 1, g: 2, b: 3 }).underline(Color::Reset);
    assert!(any.attribute(Attribute::Dim).style().attributes.has(Attribute::Dim));
}

#[test]
fn variants_of_styles() {
    use Attribute::*;
    let all = [
        Reset,
        Bold,
        Dim,
        Italic,
        Underlined,
        DoubleUnderlined,
        Undercurled,
        Underdotted,
        Underdashed,
        SlowBlink,
        RapidBlink,
        Reverse,
        Hidden,
        CrossedOut,
        Fraktur,
        NoBold,
        NormalIntensity,
        NoItalic,
        NoUnderline,
        NoBlink,
        NoReverse,
        NoHidden,
        NotCrossedOut,
        Framed,
        Encircled,
        OverLined,
        NotFramedOrEncircled,
        NotOverLined,
    ];
    assert!(Attribute::iterator().eq(all));
    let _ = |color: Color| match color {
        Color::Reset | Color::Black | Color::DarkGrey | Color::Red | Color::DarkRed | Color::Green | Color::DarkGreen => (),
        Color::Yellow | Color::DarkYellow | Color::Blue | Color::DarkBlue | Color::Magenta | Color::DarkMagenta => (),
        Color::Cyan | Color::DarkCyan | Color::White | Color::Grey | Color::Rgb { .. } | Color::AnsiValue(_) => (),
    };
    let _ = |colored: Colored| match colored {
        Colored::ForegroundColor(_) | Colored::BackgroundColor(_) | Colored::UnderlineColor(_) => (),
    };
    let _ = |shape: SetCursorStyle| match shape {
        SetCursorStyle::DefaultUserShape | SetCursorStyle::BlinkingBlock | SetCursorStyle::SteadyBlock => (),
        SetCursorStyle::BlinkingUnderScore | SetCursorStyle::SteadyUnderScore => (),
        SetCursorStyle::BlinkingBar | SetCursorStyle::SteadyBar => (),
    };
    let _ = |part: ClearType| match part {
        ClearType::All | ClearType::Purge | ClearType::FromCursorDown | ClearType::FromCursorUp => (),
        ClearType::CurrentLine | ClearType::UntilNewLine => (),
    };
}

#[test]
fn of_terminals() {
    have!(ClearType: Copy + Clone + Debug + PartialEq + Eq + Ord + PartialOrd + Hash);
    have!(WindowSize: Debug);
    have!(io::Stdin, io::Stdout, io::Stderr, std::fs::File: IsTty);
    calls! {
        enable_raw_mode => fn() -> io::Result<()>;
        disable_raw_mode => fn() -> io::Result<()>;
        is_raw_mode_enabled => fn() -> io::Result<bool>;
        size => fn() -> io::Result<(u16, u16)>;
        window_size => fn() -> io::Result<WindowSize>;
        io::Stdin::is_tty => fn(&io::Stdin) -> bool;
    }
    let _ = |size: WindowSize| {
        let WindowSize { rows, columns, width, height } = size;
        [rows, columns, width, height]
    };
    assert_eq!(crossterm::csi!("?", 25, "h"), "\x1b[?25h");
}

#[cfg(feature = "osc52")]
#[test]
fn of_clipboards() {
    use crossterm::clipboard::{ClipboardSelection, ClipboardType, CopyToClipboard};
    // It came with the clipboard.
    assert_eq!(crossterm::osc!("0;", "t"), "\x1b]0;t\x1b\\");
    have!(ClipboardType: Debug + Clone + PartialEq + Eq + From<char>);
    have!(ClipboardSelection: Debug + Clone + PartialEq + Eq + Display + FromStr<Err = ()>);
    have!(CopyToClipboard<&str>: Debug + Clone + PartialEq + Eq + Command);
    have!(char: for<'a> From<&'a ClipboardType>);
    let both: ClipboardSelection = "cpx".parse().unwrap();
    assert_eq!(both, ClipboardSelection(vec![ClipboardType::Clipboard, ClipboardType::Primary, ClipboardType::Other('x')]));
    assert_eq!(both.to_string(), "cpx");
    assert_eq!(CopyToClipboard::to_primary_from("a").destination, "p".parse().unwrap());
    assert_eq!(CopyToClipboard::to_clipboard_from(vec![1u8]).destination, "c".parse().unwrap());
    let _ = CopyToClipboard { content: "a", destination: both };
}

#[cfg(feature = "event-stream")]
#[test]
fn of_streams() {
    use crossterm::event::EventStream;
    have!(EventStream: Debug + Default + Send + Unpin + futures_core::Stream<Item = io::Result<Event>>);
    calls! { EventStream::new => fn() -> EventStream; }
}

#[cfg(feature = "serde")]
#[test]
fn of_serde() {
    have!(
        Event, KeyEvent, KeyCode, KeyEventKind, KeyModifiers, KeyEventState, KeyboardEnhancementFlags, MediaKeyCode, ModifierKeyCode,
        MouseEvent, MouseEventKind, MouseButton, Color, Colored, Attribute, ClearType:
        serde::Serialize + for<'a> serde::Deserialize<'a>
    );
}

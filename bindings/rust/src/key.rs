//! Keys: which one it was, how it was touched, and what else was held.

use crate::flags::flags;
use crate::variants::is_variants;
use core::cmp::Ordering;
use core::fmt::{self, Display};
use core::hash::{Hash, Hasher};

flags! {
    /// The modifiers that were held, as a set.
    ///
    /// ```
    /// use gelvanh::KeyModifiers;
    ///
    /// let held = KeyModifiers::CONTROL | KeyModifiers::ALT;
    /// assert!(held.contains(KeyModifiers::ALT));
    /// assert_eq!(held.to_string(), "Control+Alt");
    /// ```
    KeyModifiers {
        /// Shift.
        SHIFT = 1;
        /// Control.
        CONTROL = 2;
        /// Alt, or Option.
        ALT = 4;
        /// Super, or the key with a logo.
        SUPER = 8;
        /// Hyper.
        HYPER = 16;
        /// Meta.
        META = 32;
    } also {
        /// No modifier.
        NONE = 0;
    }
}

flags! {
    /// What else the keyboard reported of a key.
    KeyEventState {
        /// The key is one of the keypad.
        KEYPAD = 1;
        /// Caps Lock was on.
        CAPS_LOCK = 2;
        /// Num Lock was on.
        NUM_LOCK = 4;
    } also {
        /// Nothing.
        NONE = 0;
    }
}

flags! {
    /// What a terminal is asked to report of keys, by kitty's keyboard protocol.
    ///
    /// ```
    /// use gelvanh::{write_command, Command, KeyboardEnhancementFlags as Flags};
    ///
    /// let mut out = Vec::new();
    /// let flags = Flags::DISAMBIGUATE_ESCAPE_CODES | Flags::REPORT_EVENT_TYPES;
    /// write_command(&mut out, &Command::PushKeyboardEnhancementFlags(flags), true)?;
    /// assert_eq!(out, b"\x1b[>3u");
    /// # Ok::<(), std::io::Error>(())
    /// ```
    KeyboardEnhancementFlags {
        /// Escape and keys with modifiers come so that none reads as the start of another.
        DISAMBIGUATE_ESCAPE_CODES = 1;
        /// Keys that are held or let go are reported, apart from those pressed.
        REPORT_EVENT_TYPES = 2;
        /// The shifted key comes beside the key.
        REPORT_ALTERNATE_KEYS = 4;
        /// All keys come as sequences, letters too.
        REPORT_ALL_KEYS_AS_ESCAPE_CODES = 8;
    } also {
        /// A key's text comes beside it. It isn't in `all`, as no event has such a text.
        REPORT_ASSOCIATED_TEXT = 16;
    }
}

/// The names with `+` between them, as `Control+Alt`; bits without a name aren't shown.
impl Display for KeyModifiers {
    fn fmt(&self, f: &mut fmt::Formatter<'_>) -> fmt::Result {
        const NAMES: [(KeyModifiers, &str); 6] = [
            (KeyModifiers::SHIFT, "Shift"),
            (KeyModifiers::CONTROL, "Control"),
            (KeyModifiers::ALT, "Alt"),
            (KeyModifiers::SUPER, "Super"),
            (KeyModifiers::HYPER, "Hyper"),
            (KeyModifiers::META, "Meta"),
        ];
        let mut between = "";
        for (_, name) in NAMES.iter().filter(|(flag, _)| self.contains(*flag)) {
            write!(f, "{between}{name}")?;
            between = "+";
        }
        Ok(())
    }
}

/// A key that was pressed, held or let go.
///
/// Two events are equal if they are the same stroke: `A`, `A` with Shift and `a` with Shift are. Order and hash follow.
///
/// ```
/// use gelvanh::{KeyCode, KeyEvent, KeyModifiers};
///
/// let key = KeyEvent::new(KeyCode::Char('a'), KeyModifiers::SHIFT);
/// assert_eq!(key, KeyCode::Char('A').into());
/// assert!(key.is_press());
/// ```
#[derive(Clone, Copy, Debug)]
#[cfg_attr(feature = "serde", derive(serde::Serialize, serde::Deserialize))]
pub struct KeyEvent {
    /// Which key.
    pub code: KeyCode,
    /// The modifiers that were held.
    pub modifiers: KeyModifiers,
    /// Whether it was pressed, held or let go.
    pub kind: KeyEventKind,
    /// What else the keyboard reported.
    pub state: KeyEventState,
}

impl KeyEvent {
    /// A key that was pressed.
    pub const fn new(code: KeyCode, modifiers: KeyModifiers) -> KeyEvent {
        KeyEvent::new_with_kind(code, modifiers, KeyEventKind::Press)
    }

    /// A key that was pressed, held or let go.
    pub const fn new_with_kind(code: KeyCode, modifiers: KeyModifiers, kind: KeyEventKind) -> KeyEvent {
        KeyEvent::new_with_kind_and_state(code, modifiers, kind, KeyEventState::NONE)
    }

    /// A key with all that is known of it.
    pub const fn new_with_kind_and_state(code: KeyCode, modifiers: KeyModifiers, kind: KeyEventKind, state: KeyEventState) -> KeyEvent {
        KeyEvent { code, modifiers, kind, state }
    }

    /// Whether the key was pressed.
    pub fn is_press(&self) -> bool {
        self.kind == KeyEventKind::Press
    }

    /// Whether the key was let go.
    pub fn is_release(&self) -> bool {
        self.kind == KeyEventKind::Release
    }

    /// Whether the key was held.
    pub fn is_repeat(&self) -> bool {
        self.kind == KeyEventKind::Repeat
    }

    /// The stroke in its one form: an ASCII letter is upper case exactly if Shift is held.
    fn stroke(&self) -> (KeyCode, KeyModifiers, KeyEventKind, KeyEventState) {
        let (code, modifiers) = match self.code {
            KeyCode::Char(c) if c.is_ascii_uppercase() => (self.code, self.modifiers | KeyModifiers::SHIFT),
            KeyCode::Char(c) if self.modifiers.contains(KeyModifiers::SHIFT) => (KeyCode::Char(c.to_ascii_uppercase()), self.modifiers),
            code => (code, self.modifiers),
        };
        (code, modifiers, self.kind, self.state)
    }
}

impl From<KeyCode> for KeyEvent {
    fn from(code: KeyCode) -> KeyEvent {
        KeyEvent::new(code, KeyModifiers::NONE)
    }
}

impl PartialEq for KeyEvent {
    fn eq(&self, other: &KeyEvent) -> bool {
        self.stroke() == other.stroke()
    }
}

impl Eq for KeyEvent {}

impl PartialOrd for KeyEvent {
    fn partial_cmp(&self, other: &KeyEvent) -> Option<Ordering> {
        Some(self.cmp(other))
    }
}

impl Ord for KeyEvent {
    fn cmp(&self, other: &KeyEvent) -> Ordering {
        self.stroke().cmp(&other.stroke())
    }
}

impl Hash for KeyEvent {
    fn hash<H: Hasher>(&self, state: &mut H) {
        self.stroke().hash(state);
    }
}

/// How a key was touched.
#[derive(Clone, Copy, Debug, PartialEq, Eq, PartialOrd, Ord, Hash)]
#[cfg_attr(feature = "serde", derive(serde::Serialize, serde::Deserialize))]
pub enum KeyEventKind {
    /// Pressed.
    Press,
    /// Held.
    Repeat,
    /// Let go.
    Release,
}

is_variants!(KeyEventKind { Press is_press, Repeat is_repeat, Release is_release, });

/// A key.
///
/// ```
/// use gelvanh::KeyCode;
///
/// assert_eq!(KeyCode::PageUp.to_string(), "Page Up");
/// assert_eq!(KeyCode::Char('x').as_char(), Some('x'));
/// assert!(KeyCode::F(5).is_function_key(5));
/// ```
#[derive(Clone, Copy, Debug, PartialEq, Eq, PartialOrd, Ord, Hash)]
#[cfg_attr(feature = "serde", derive(serde::Serialize, serde::Deserialize))]
pub enum KeyCode {
    /// Backspace, the bytes 127 and 8.
    Backspace,
    /// Enter.
    Enter,
    /// The arrow to the left.
    Left,
    /// The arrow to the right.
    Right,
    /// The arrow up.
    Up,
    /// The arrow down.
    Down,
    /// Home.
    Home,
    /// End.
    End,
    /// Page Up.
    PageUp,
    /// Page Down.
    PageDown,
    /// Tab.
    Tab,
    /// Tab with Shift.
    BackTab,
    /// Delete.
    Delete,
    /// Insert.
    Insert,
    /// A function key: `F(1)` is F1.
    F(u8),
    /// A key that writes a character.
    Char(char),
    /// Control with Space or `@`, the byte 0.
    Null,
    /// Escape.
    Esc,
    /// Caps Lock. Kitty's protocol alone reports it, and those below.
    CapsLock,
    /// Scroll Lock.
    ScrollLock,
    /// Num Lock.
    NumLock,
    /// Print Screen.
    PrintScreen,
    /// Pause.
    Pause,
    /// Menu.
    Menu,
    /// The middle key of the keypad.
    KeypadBegin,
    /// A key of a player of music. Kitty's protocol alone reports it.
    Media(MediaKeyCode),
    /// A modifier by itself. Kitty's protocol alone reports it.
    Modifier(ModifierKeyCode),
}

is_variants!(KeyCode {
    Backspace is_backspace, Enter is_enter, Left is_left, Right is_right, Up is_up, Down is_down, Home is_home, End is_end,
    PageUp is_page_up, PageDown is_page_down, Tab is_tab, BackTab is_back_tab, Delete is_delete, Insert is_insert,
    Null is_null, Esc is_esc, CapsLock is_caps_lock, ScrollLock is_scroll_lock, NumLock is_num_lock,
    PrintScreen is_print_screen, Pause is_pause, Menu is_menu, KeypadBegin is_keypad_begin,
});

impl KeyCode {
    /// Whether it is the function key of a number.
    pub fn is_function_key(&self, n: u8) -> bool {
        *self == KeyCode::F(n)
    }

    /// Whether it is the key of a character.
    pub fn is_char(&self, c: char) -> bool {
        *self == KeyCode::Char(c)
    }

    /// The character that the key writes, if it does.
    pub fn as_char(&self) -> Option<char> {
        match *self {
            KeyCode::Char(c) => Some(c),
            _ => None,
        }
    }

    /// Whether it is a given key of a player.
    pub fn is_media_key(&self, media: MediaKeyCode) -> bool {
        *self == KeyCode::Media(media)
    }

    /// Whether it is a given modifier by itself.
    pub fn is_modifier(&self, modifier: ModifierKeyCode) -> bool {
        *self == KeyCode::Modifier(modifier)
    }
}

/// The key's name as menus have it: `Page Up`, `Esc`, `F5`, `Space`, `a`.
impl Display for KeyCode {
    fn fmt(&self, f: &mut fmt::Formatter<'_>) -> fmt::Result {
        let name = match *self {
            KeyCode::F(n) => return write!(f, "F{n}"),
            KeyCode::Char(' ') => "Space",
            KeyCode::Char(c) => return write!(f, "{c}"),
            KeyCode::Media(media) => return write!(f, "{media}"),
            KeyCode::Modifier(modifier) => return write!(f, "{modifier}"),
            KeyCode::Backspace => "Backspace",
            KeyCode::Enter => "Enter",
            KeyCode::Left => "Left",
            KeyCode::Right => "Right",
            KeyCode::Up => "Up",
            KeyCode::Down => "Down",
            KeyCode::Home => "Home",
            KeyCode::End => "End",
            KeyCode::PageUp => "Page Up",
            KeyCode::PageDown => "Page Down",
            KeyCode::Tab => "Tab",
            KeyCode::BackTab => "Back Tab",
            KeyCode::Delete => "Del",
            KeyCode::Insert => "Insert",
            KeyCode::Null => "Null",
            KeyCode::Esc => "Esc",
            KeyCode::CapsLock => "Caps Lock",
            KeyCode::ScrollLock => "Scroll Lock",
            KeyCode::NumLock => "Num Lock",
            KeyCode::PrintScreen => "Print Screen",
            KeyCode::Pause => "Pause",
            KeyCode::Menu => "Menu",
            KeyCode::KeypadBegin => "Begin",
        };
        f.write_str(name)
    }
}

/// An enum whose variants have names to show, and a table of them in declared order.
macro_rules! named {
    ($(#[$doc:meta])* $name:ident $table:ident { $($variant:ident $shown:literal,)* }) => {
        $(#[$doc])*
        #[derive(Clone, Copy, Debug, PartialEq, Eq, PartialOrd, Ord, Hash)]
        #[cfg_attr(feature = "serde", derive(serde::Serialize, serde::Deserialize))]
        pub enum $name {
            $(
                #[doc = concat!("Shown as `", $shown, "`.")]
                $variant,
            )*
        }

        pub(crate) const $table: &[$name] = &[$($name::$variant),*];

        impl Display for $name {
            fn fmt(&self, f: &mut fmt::Formatter<'_>) -> fmt::Result {
                f.write_str(match self {
                    $($name::$variant => $shown,)*
                })
            }
        }
    };
}

named! {
    /// A key of a player of music.
    MediaKeyCode MEDIA {
        Play "Play",
        Pause "Pause",
        PlayPause "Play/Pause",
        Reverse "Reverse",
        Stop "Stop",
        FastForward "Fast Forward",
        Rewind "Rewind",
        TrackNext "Next Track",
        TrackPrevious "Previous Track",
        Record "Record",
        LowerVolume "Lower Volume",
        RaiseVolume "Raise Volume",
        MuteVolume "Mute Volume",
    }
}

named! {
    /// A modifier that was touched by itself.
    ModifierKeyCode MODIFIERS {
        LeftShift "Left Shift",
        LeftControl "Left Ctrl",
        LeftAlt "Left Alt",
        LeftSuper "Left Super",
        LeftHyper "Left Hyper",
        LeftMeta "Left Meta",
        RightShift "Right Shift",
        RightControl "Right Ctrl",
        RightAlt "Right Alt",
        RightSuper "Right Super",
        RightHyper "Right Hyper",
        RightMeta "Right Meta",
        IsoLevel3Shift "Iso Level 3 Shift",
        IsoLevel5Shift "Iso Level 5 Shift",
    }
}

//! The archive's calls, as `bindings/c/gelvanh.h` has them.

#[repr(C)]
#[derive(Clone, Copy, Default)]
struct Number {
    kind: u32,
    value: u32,
}

/// The parser's state.
#[repr(C)]
#[derive(Clone, Copy, Default)]
pub struct State {
    bytes: [u8; 12],
    numbers: [Number; 5],
}

/// An event as numbers: `bindings/c/gelvanh.h` says which.
#[repr(C)]
#[derive(Clone, Copy, Default, Debug, PartialEq, Eq)]
pub struct Event {
    /// What it is.
    pub kind: u16,
    /// Which key, or what the mouse did.
    pub code: u16,
    /// The key's character or number, or the mouse's button.
    pub value: u32,
    /// The column, from 0, or how many the window has.
    pub column: u16,
    /// The row, from 0, or how many rows.
    pub row: u16,
    /// The modifiers' bits.
    pub modifiers: u8,
    /// Pressed, held or let go.
    pub press: u8,
    /// The bits of the key's state.
    pub state: u8,
    /// The bits of the keyboard's flags.
    pub flags: u8,
}

/// An event that is held, and its number.
#[repr(C)]
#[derive(Clone, Copy, Default, Debug, PartialEq, Eq)]
pub struct Held {
    /// The event.
    pub event: Event,
    /// How many events arrived before it.
    pub arrival: u64,
}

impl Held {
    /// An entry of a table without an event.
    pub const NONE: Held =
        Held { event: Event { kind: 0, code: 0, value: 0, column: 0, row: 0, modifiers: 0, press: 0, state: 0, flags: 0 }, arrival: 0 };
}

/// Which places of a table hold events.
#[repr(C)]
#[derive(Clone, Copy, Default, Debug, PartialEq, Eq)]
pub struct Reader {
    /// The place of the first held event.
    pub first: usize,
    /// How many are held.
    pub held: usize,
    /// The number of the next event.
    pub arrivals: u64,
}

#[repr(C)]
#[derive(Clone, Copy, Default)]
pub struct Color {
    pub kind: u8,
    pub r: u8,
    pub g: u8,
    pub b: u8,
}

#[repr(C)]
#[derive(Clone, Copy, Default)]
pub struct Command {
    pub kind: u32,
    pub attributes: u32,
    pub first: u16,
    pub second: u16,
    pub foreground: Color,
    pub background: Color,
    pub underline: Color,
}

const _: () = {
    assert!(size_of::<State>() == 52 && align_of::<State>() == 4);
    assert!(size_of::<Event>() == 16 && align_of::<Event>() == 4);
    assert!(size_of::<Held>() == 24 && align_of::<Held>() == 8);
    assert!(size_of::<Reader>() == 24 && align_of::<Reader>() == 8);
    assert!(size_of::<Color>() == 4);
    assert!(size_of::<Command>() == 24 && align_of::<Command>() == 4);
};

use core::mem::{align_of, size_of};

extern "C" {
    fn gelvanh_version() -> u32;
    fn gelvanh_feed(
        state: *mut State,
        piece: *const u8,
        length: usize,
        more: bool,
        raw: bool,
        events: *mut Event,
        room: usize,
        count: *mut usize,
    ) -> usize;
    fn gelvanh_is_undecided(state: *const State) -> bool;
    fn gelvanh_is_pasting(state: *const State) -> bool;
    fn gelvanh_paste_text(bytes: *const u8, length: usize, text: *mut u8, room: usize, written: *mut usize) -> usize;
    fn gelvanh_hold(reader: *mut Reader, table: *mut Held, room: usize, event: *const Event) -> bool;
    fn gelvanh_holds(reader: *const Reader, table: *const Held, room: usize, classes: u32) -> bool;
    fn gelvanh_take(reader: *mut Reader, table: *mut Held, room: usize, classes: u32, taken: *mut Held) -> bool;
    fn gelvanh_feed_held(
        state: *mut State,
        piece: *const u8,
        length: usize,
        more: bool,
        raw: bool,
        reader: *mut Reader,
        table: *mut Held,
        room: usize,
        count: *mut usize,
    ) -> usize;
    fn gelvanh_take_some(reader: *mut Reader, table: *mut Held, room: usize, classes: u32, taken: *mut Held, most: usize) -> usize;
    fn gelvanh_command(command: *const Command, colors: bool, slice: *mut u8, room: usize, length: *mut usize) -> u32;
    fn gelvanh_print(text: *const u8, length: usize, slice: *mut u8, room: usize, written: *mut usize) -> u32;
    fn gelvanh_set_title(title: *const u8, length: usize, slice: *mut u8, room: usize, written: *mut usize) -> u32;
    fn gelvanh_print_styled(
        style: *const Command,
        text: *const u8,
        length: usize,
        colors: bool,
        slice: *mut u8,
        room: usize,
        written: *mut usize,
    ) -> u32;
    fn gelvanh_copy_to_clipboard(
        content: *const u8,
        length: usize,
        places: *const u8,
        places_length: usize,
        slice: *mut u8,
        room: usize,
        written: *mut usize,
    ) -> u32;
}

// SAFETY of each block below: the declarations are the header's, each pointer is a live reference's or a slice's with its own length, and
// what is written is borrowed mutably, so nothing overlaps. The archive's functions keep no pointer.

pub fn version() -> u32 {
    unsafe { gelvanh_version() }
}

#[inline]
pub fn feed(state: &mut State, piece: &[u8], more: bool, raw: bool, events: &mut [Event]) -> (usize, usize) {
    let mut count = 0;
    let taken = unsafe { gelvanh_feed(state, piece.as_ptr(), piece.len(), more, raw, events.as_mut_ptr(), events.len(), &mut count) };
    (taken, count)
}

#[inline]
pub fn is_undecided(state: &State) -> bool {
    unsafe { gelvanh_is_undecided(state) }
}

#[inline]
pub fn is_pasting(state: &State) -> bool {
    unsafe { gelvanh_is_pasting(state) }
}

/// Writes the text of a paste's bytes, without the six of its end, and returns how many bytes were read and written. What isn't UTF-8 is
/// U+FFFD. It stops at a character for which there is no room; with room for three times the bytes all are read.
pub fn paste_text(bytes: &[u8], text: &mut [u8]) -> (usize, usize) {
    let mut written = 0;
    let read = unsafe { gelvanh_paste_text(bytes.as_ptr(), bytes.len(), text.as_mut_ptr(), text.len(), &mut written) };
    (read, written)
}

/// Whether there was room.
#[inline]
pub fn hold(reader: &mut Reader, table: &mut [Held], event: &Event) -> bool {
    unsafe { gelvanh_hold(reader, table.as_mut_ptr(), table.len(), event) }
}

#[inline]
pub fn holds(reader: &Reader, table: &[Held], classes: u32) -> bool {
    unsafe { gelvanh_holds(reader, table.as_ptr(), table.len(), classes) }
}

#[inline]
pub fn take(reader: &mut Reader, table: &mut [Held], classes: u32) -> Option<Held> {
    let mut taken = Held::default();
    let is_taken = unsafe { gelvanh_take(reader, table.as_mut_ptr(), table.len(), classes, &mut taken) };
    is_taken.then_some(taken)
}

/// Takes bytes and holds their events, and returns how many bytes it took, and how many events it held.
#[inline]
pub fn feed_held(state: &mut State, piece: &[u8], more: bool, raw: bool, reader: &mut Reader, table: &mut [Held]) -> (usize, usize) {
    let mut count = 0;
    let (bytes, places) = (piece.as_ptr(), table.as_mut_ptr());
    let taken = unsafe { gelvanh_feed_held(state, bytes, piece.len(), more, raw, reader, places, table.len(), &mut count) };
    (taken, count)
}

/// Takes the first held events of some classes, as far as there is room, and returns how many.
#[inline]
pub fn take_some(reader: &mut Reader, table: &mut [Held], classes: u32, taken: &mut [Held]) -> usize {
    unsafe { gelvanh_take_some(reader, table.as_mut_ptr(), table.len(), classes, taken.as_mut_ptr(), taken.len()) }
}

/// What came of a command, and its length.
pub type Told = (u32, usize);

/// The text of a command that a call wrote into a slice.
#[inline]
pub fn text_of(written: &[u8]) -> &str {
    // SAFETY: the archive's contract: these are the command's characters, which are ASCII but for those of a `&str`.
    unsafe { core::str::from_utf8_unchecked(written) }
}

#[inline]
pub fn command(command: &Command, colors: bool, slice: &mut [u8]) -> Told {
    let mut length = 0;
    let told = unsafe { gelvanh_command(command, colors, slice.as_mut_ptr(), slice.len(), &mut length) };
    (told, length)
}

#[inline]
pub fn print(text: &str, slice: &mut [u8]) -> Told {
    let mut length = 0;
    let told = unsafe { gelvanh_print(text.as_ptr(), text.len(), slice.as_mut_ptr(), slice.len(), &mut length) };
    (told, length)
}

pub fn set_title(title: &str, slice: &mut [u8]) -> Told {
    let mut length = 0;
    let told = unsafe { gelvanh_set_title(title.as_ptr(), title.len(), slice.as_mut_ptr(), slice.len(), &mut length) };
    (told, length)
}

pub fn print_styled(style: &Command, text: &str, colors: bool, slice: &mut [u8]) -> Told {
    let mut length = 0;
    let told = unsafe { gelvanh_print_styled(style, text.as_ptr(), text.len(), colors, slice.as_mut_ptr(), slice.len(), &mut length) };
    (told, length)
}

pub fn copy_to_clipboard(content: &[u8], places: &str, slice: &mut [u8]) -> Told {
    let mut length = 0;
    let told = unsafe {
        gelvanh_copy_to_clipboard(
            content.as_ptr(),
            content.len(),
            places.as_ptr(),
            places.len(),
            slice.as_mut_ptr(),
            slice.len(),
            &mut length,
        )
    };
    (told, length)
}

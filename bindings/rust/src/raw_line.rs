//! The calls of the archive of lines, as `bindings/c/gelvanh_line.h` has them.

use crate::raw::{Color, Event};
use std::mem::size_of;
use std::ptr;

/// How much an editor holds at most.
///
/// ```
/// use gelvanh::line::Limits;
///
/// let limits = Limits { bytes: 200, ..Limits::default() };
/// assert_eq!(limits.steps, 1_000);
/// ```
#[repr(C)]
#[derive(Clone, Copy, Debug, PartialEq, Eq)]
pub struct Limits {
    /// The bytes of a line in UTF-8. A longer one is refused.
    pub bytes: usize,
    /// The accepted lines in the history. The oldest one is forgotten for a further one.
    pub lines: usize,
    /// The changes of each line that can be undone. The oldest one is forgotten for a further one.
    pub steps: usize,
    /// The texts of kills that can be yanked. The oldest one is forgotten for a further one.
    pub kills: usize,
    /// Whether an accepted line that equals the newest one isn't kept once more, as by `ignoredups` of bash's `HISTCONTROL`.
    pub ignore_dups: bool,
    /// Whether an accepted line that begins with a blank isn't kept, as by `ignorespace`.
    pub ignore_space: bool,
}

impl Default for Limits {
    /// 65,536 bytes, 1,000 lines, 1,000 steps and 60 kills. Each accepted line is kept but an empty one.
    fn default() -> Limits {
        Limits { bytes: 65_536, lines: 1_000, steps: 1_000, kills: 60, ignore_dups: false, ignore_space: false }
    }
}

/// What the archive's calls answer.
#[derive(Clone, Copy, Debug, PartialEq, Eq)]
pub enum Answer {
    GoesOn,
    Accepted,
    Interrupted,
    Closed,
    TooLong,
    NoMemory,
    Unknown,
    Rings,
}

impl From<u32> for Answer {
    fn from(number: u32) -> Answer {
        match number {
            0 => Answer::GoesOn,
            1 => Answer::Accepted,
            2 => Answer::Interrupted,
            3 => Answer::Closed,
            4 => Answer::TooLong,
            5 => Answer::NoMemory,
            6 => Answer::Unknown,
            7 => Answer::Rings,
            // One that may follow: the line goes on.
            _ => Answer::GoesOn,
        }
    }
}

/// A style by its numbers.
#[repr(C)]
#[derive(Clone, Copy)]
pub struct Style {
    pub foreground: Color,
    pub background: Color,
    pub underline: Color,
    pub attributes: u32,
}

/// What C keeps of a line.
#[repr(C)]
struct At(*mut u8);

const _: () = {
    assert!(size_of::<At>() == size_of::<usize>());
    assert!(size_of::<Limits>() == 40);
    assert!(size_of::<Style>() == 16);
};

extern "C" {
    fn gelvanh_line_new(line: *mut At, limits: *const Limits) -> u32;
    fn gelvanh_line_free(line: At);
    fn gelvanh_line_begin(line: *mut At, prompt: *const u8, length: usize, columns: u16, rows: u16) -> u32;
    fn gelvanh_line_prompt(line: *mut At, text: *const u8, length: usize, style: *const Style) -> u32;
    fn gelvanh_line_resize(line: *mut At, columns: u16, rows: u16) -> u32;
    fn gelvanh_line_hide(line: *mut At, how: u32) -> u32;
    fn gelvanh_line_list(line: *mut At, names: *const u8, length: usize) -> u32;
    fn gelvanh_line_event(line: *mut At, event: *const Event) -> u32;
    fn gelvanh_line_paste(line: *mut At, text: *const u8, length: usize) -> u32;
    fn gelvanh_line_hint(line: *mut At, hint: *const u8, length: usize) -> u32;
    fn gelvanh_line_show(line: *mut At) -> u32;
    fn gelvanh_line_output(line: *mut At, slice: *mut u8, room: usize) -> usize;
    fn gelvanh_line_text(line: *mut At, slice: *mut u8, room: usize) -> usize;
    fn gelvanh_line_cursor(line: *mut At) -> usize;
    fn gelvanh_line_accepted(line: *mut At, slice: *mut u8, room: usize) -> usize;
    fn gelvanh_line_history(line: *mut At, slice: *mut u8, room: usize, length: *mut usize) -> u32;
    fn gelvanh_line_load_history(line: *mut At, text: *const u8, length: usize) -> u32;
}

/// A line of the archive's.
pub struct Handle(At);

// SAFETY: what is behind the pointer belongs to this handle alone, and the archive keeps nothing of a thread. As the pointer isn't `Sync`, two
// threads can't call with it at once.
unsafe impl Send for Handle {}

// SAFETY of each block below: the declarations are the header's; the pointer is one that `gelvanh_line_new` gave and `drop` alone ends; each slice
// has its own length, and what is written is borrowed mutably. The archive keeps no other pointer, and its calls that read alone change
// nothing behind the pointer: so they are given a copy of it.
impl Handle {
    /// `None` if memory was refused.
    pub fn new(limits: &Limits) -> Option<Handle> {
        let mut at = At(ptr::null_mut());
        let answer = unsafe { gelvanh_line_new(&mut at, limits) };
        (answer == 0).then(|| Handle(at))
    }

    pub fn begin(&mut self, prompt: &str, columns: u16, rows: u16) -> Answer {
        unsafe { gelvanh_line_begin(&mut self.0, prompt.as_ptr(), prompt.len(), columns, rows) }.into()
    }

    pub fn prompt(&mut self, text: &str, style: &Style) -> Answer {
        unsafe { gelvanh_line_prompt(&mut self.0, text.as_ptr(), text.len(), style) }.into()
    }

    pub fn resize(&mut self, columns: u16, rows: u16) -> Answer {
        unsafe { gelvanh_line_resize(&mut self.0, columns, rows) }.into()
    }

    pub fn hide(&mut self, how: u32) -> Answer {
        unsafe { gelvanh_line_hide(&mut self.0, how) }.into()
    }

    /// Lists names with a line feed between them.
    pub fn list(&mut self, names: &str) -> Answer {
        unsafe { gelvanh_line_list(&mut self.0, names.as_ptr(), names.len()) }.into()
    }

    pub fn event(&mut self, event: &Event) -> Answer {
        unsafe { gelvanh_line_event(&mut self.0, event) }.into()
    }

    pub fn paste(&mut self, text: &str) -> Answer {
        unsafe { gelvanh_line_paste(&mut self.0, text.as_ptr(), text.len()) }.into()
    }

    pub fn hint(&mut self, hint: &str) -> Answer {
        unsafe { gelvanh_line_hint(&mut self.0, hint.as_ptr(), hint.len()) }.into()
    }

    pub fn show(&mut self) -> Answer {
        unsafe { gelvanh_line_show(&mut self.0) }.into()
    }

    /// Moves output into a slice, and returns the part that it filled.
    pub fn output<'a>(&mut self, slice: &'a mut [u8]) -> &'a [u8] {
        let count = unsafe { gelvanh_line_output(&mut self.0, slice.as_mut_ptr(), slice.len()) };
        &slice[..count]
    }

    pub fn load_history(&mut self, text: &str) -> Answer {
        unsafe { gelvanh_line_load_history(&mut self.0, text.as_ptr(), text.len()) }.into()
    }

    fn copied(&self) -> At {
        At(self.0 .0)
    }

    pub fn text(&self) -> String {
        whole(|slice| unsafe { gelvanh_line_text(&mut self.copied(), slice.as_mut_ptr(), slice.len()) })
    }

    pub fn cursor(&self) -> usize {
        unsafe { gelvanh_line_cursor(&mut self.copied()) }
    }

    pub fn accepted(&self) -> String {
        whole(|slice| unsafe { gelvanh_line_accepted(&mut self.copied(), slice.as_mut_ptr(), slice.len()) })
    }

    /// `None` if memory was refused.
    pub fn history(&self) -> Option<String> {
        let mut is_there = true;
        let text = whole(|slice| {
            let mut length = 0;
            is_there = unsafe { gelvanh_line_history(&mut self.copied(), slice.as_mut_ptr(), slice.len(), &mut length) } == 0;
            length
        });
        is_there.then_some(text)
    }
}

/// The text that a call copies into a slice, if it fits. The call returns its length.
fn whole(mut copy: impl FnMut(&mut [u8]) -> usize) -> String {
    let mut bytes = vec![0; 128];
    let mut length = copy(&mut bytes);
    if length > bytes.len() {
        bytes.resize(length, 0);
        length = copy(&mut bytes);
    }
    bytes.truncate(length);
    // SAFETY: the archive's contract: these are a text's characters. A slice that was too short is as long as the text the second time.
    unsafe { String::from_utf8_unchecked(bytes) }
}

impl Drop for Handle {
    fn drop(&mut self) {
        // SAFETY: nothing calls with it any more.
        unsafe { gelvanh_line_free(self.copied()) }
    }
}

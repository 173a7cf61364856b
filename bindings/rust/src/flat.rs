//! The events before they are given a shape, as numbers.

use crate::raw;

#[cfg(feature = "std")]
pub use crate::parser::FlatEvents;
pub use crate::raw::{paste_text, Event, Held, Reader};

/// A parser whose events are numbers: the archive's state alone, with no memory. The bytes of a paste are the caller's to keep.
#[derive(Clone, Copy, Default)]
pub struct FlatParser {
    state: raw::State,
}

impl FlatParser {
    /// Takes bytes, and returns how many, and how many events they gave in front of the table. It stops if the table is full, and after
    /// the byte with which a paste opens or is over.
    #[inline]
    pub fn feed(&mut self, piece: &[u8], more: bool, raw: bool, events: &mut [raw::Event]) -> (usize, usize) {
        raw::feed(&mut self.state, piece, more, raw, events)
    }

    /// Takes bytes, and holds their events in a table behind those that are held there. It returns how many bytes it took, and how many
    /// events it held. It stops if the table is full, and after the byte with which a paste opens or is over.
    #[inline]
    pub fn feed_held(&mut self, piece: &[u8], more: bool, raw: bool, reader: &mut Reader, table: &mut [Held]) -> (usize, usize) {
        raw::feed_held(&mut self.state, piece, more, raw, reader, table)
    }

    /// Whether a paste is open: then all bytes that are taken are of it.
    #[inline]
    pub fn is_pasting(&self) -> bool {
        raw::is_pasting(&self.state)
    }

    /// Whether bytes were taken that are no whole sequence yet.
    #[inline]
    pub fn is_undecided(&self) -> bool {
        raw::is_undecided(&self.state)
    }
}

//! From bytes to events.

use crate::event::InternalEvent;
use crate::flat::FlatParser;
use crate::raw;

const ROOM: usize = 64;

/// A parser that has seen some bytes.
pub struct Parser {
    flat: FlatParser,
    /// The bytes of an open paste, or of the one whose event was given last.
    kept: Vec<u8>,
    events: [raw::Event; ROOM],
}

impl Default for Parser {
    fn default() -> Parser {
        Parser { flat: FlatParser::default(), kept: Vec::new(), events: [raw::Event::default(); ROOM] }
    }
}

impl Parser {
    /// The events of some bytes, in order, as numbers: `to_event` makes an event of those that are asked for.
    ///
    /// `more` says that bytes of the same answer of the terminal follow at once, so that ESC at the end is no Esc key yet; `raw` is the
    /// mode that the bytes came in. All bytes are taken even if not all events are: those are lost then.
    ///
    /// ```
    /// use gelvanh::{InternalEvent, Parser};
    ///
    /// let mut parser = Parser::default();
    /// let mut letters = 0;
    /// let mut last = None;
    /// for event in parser.flat(b"ab\x1b[A", false, true) {
    ///     letters += usize::from(event.code == 15);
    ///     last = event.to_event();
    /// }
    /// assert_eq!(letters, 2);
    /// assert!(matches!(last, Some(InternalEvent::Event(_))));
    /// ```
    #[inline]
    pub fn flat<'a>(&'a mut self, piece: &'a [u8], more: bool, raw: bool) -> FlatEvents<'a> {
        FlatEvents { parser: self, piece, more, raw, next: 0, count: 0 }
    }

    /// The events of some bytes, in order, each made when it is asked for: `flat`'s, in their shape.
    ///
    /// ```
    /// use gelvanh::{Event, InternalEvent, KeyCode, Parser};
    ///
    /// let mut parser = Parser::default();
    /// // Half of a sequence, and the other half.
    /// assert_eq!(parser.feed(b"\x1b[", true, true).count(), 0);
    /// assert!(parser.is_undecided());
    /// assert_eq!(parser.feed(b"A", false, true).next(), Some(InternalEvent::Event(Event::Key(KeyCode::Up.into()))));
    /// ```
    #[inline]
    pub fn feed<'a>(&'a mut self, piece: &'a [u8], more: bool, raw: bool) -> Events<'a> {
        Events(self.flat(piece, more, raw))
    }

    /// Takes bytes in front, as far as one call of the archive does, and holds their events in a table. It returns how many bytes it took,
    /// how many events it held, and the text of the paste if the event is one's.
    pub(crate) fn feed_held(
        &mut self,
        piece: &[u8],
        more: bool,
        raw: bool,
        reader: &mut raw::Reader,
        table: &mut [raw::Held],
    ) -> (usize, usize, Option<String>) {
        let pasting = self.flat.is_pasting();
        let (taken, count) = self.flat.feed_held(piece, more, raw, reader, table);
        self.keep(&piece[..taken], pasting);
        (taken, count, (pasting && count > 0).then(|| self.paste_text()))
    }

    /// Keeps bytes that were taken, if they are a paste's.
    #[inline]
    fn keep(&mut self, taken: &[u8], pasting: bool) {
        if pasting {
            self.kept.extend_from_slice(taken);
        } else if self.flat.is_pasting() {
            self.kept.clear();
        }
    }

    /// Whether bytes were taken that are no whole sequence yet.
    pub fn is_undecided(&self) -> bool {
        self.flat.is_undecided()
    }

    /// The text of the paste that is over.
    #[cold]
    fn paste_text(&self) -> String {
        let end = self.kept.len().saturating_sub(6);
        // The archive writes at most three bytes for one, and stops only if the next character has no room.
        let mut text = vec![0; 3 * end];
        let (_, written) = raw::paste_text(&self.kept[..end], &mut text);
        text.truncate(written);
        String::from_utf8(text).unwrap_or_default()
    }
}

/// The events of some bytes, as numbers.
pub struct FlatEvents<'a> {
    parser: &'a mut Parser,
    piece: &'a [u8],
    more: bool,
    raw: bool,
    next: usize,
    count: usize,
}

impl FlatEvents<'_> {
    /// The text of the paste, if the event that was given last is a paste's.
    pub fn paste_text(&self) -> Option<String> {
        let is_paste = self.next == 1 && self.parser.events[0].is_paste();
        is_paste.then(|| self.parser.paste_text())
    }

    /// Takes more bytes, and returns whether there were any.
    #[inline(never)]
    fn take(&mut self) -> bool {
        if self.piece.is_empty() {
            return false;
        }
        let parser = &mut *self.parser;
        let pasting = parser.flat.is_pasting();
        let (taken, count) = parser.flat.feed(self.piece, self.more, self.raw, &mut parser.events);
        let (front, rest) = self.piece.split_at(taken);
        parser.keep(front, pasting);
        self.piece = rest;
        self.next = 0;
        self.count = count;
        true
    }
}

impl Iterator for FlatEvents<'_> {
    type Item = raw::Event;

    #[inline]
    fn next(&mut self) -> Option<raw::Event> {
        while self.next >= self.count {
            if !self.take() {
                return None;
            }
        }
        let event = self.parser.events[self.next % ROOM];
        self.next += 1;
        Some(event)
    }
}

impl Drop for FlatEvents<'_> {
    fn drop(&mut self) {
        while self.take() {}
    }
}

/// The events of some bytes.
pub struct Events<'a>(FlatEvents<'a>);

impl Iterator for Events<'_> {
    type Item = InternalEvent;

    #[inline]
    fn next(&mut self) -> Option<InternalEvent> {
        loop {
            let event = self.0.next()?;
            if let Some(event) = event.to_event_with(|| self.0.paste_text()) {
                return Some(event);
            }
        }
    }
}

//! Events that wait to be asked for.

use crate::event::{Classes, Event, InternalEvent};
use crate::parser::Parser;
use crate::raw;

/// An event that was taken, as numbers, which become an event without the table.
#[derive(Debug)]
pub enum Taken {
    /// Any but a paste.
    Numbers(raw::Event),
    /// The text of a paste.
    Paste(String),
}

impl Taken {
    /// The event. It is `None` if the numbers are no event's, as those of a parser never are, and for a paste without the feature
    /// `bracketed-paste`.
    #[inline]
    pub fn into_event(self) -> Option<InternalEvent> {
        match self {
            Taken::Numbers(event) => event.to_event(),
            paste => paste.into_user_event().map(InternalEvent::Event),
        }
    }

    /// The same, if a user brought the event about.
    #[inline]
    pub fn into_user_event(self) -> Option<Event> {
        match self {
            Taken::Numbers(event) => event.to_user_event(),
            #[cfg(feature = "bracketed-paste")]
            Taken::Paste(text) => Some(Event::Paste(text)),
            #[cfg(not(feature = "bracketed-paste"))]
            Taken::Paste(_) => None,
        }
    }
}

/// Events in the order of their arrival, each of which is taken by its class: the archive's reader, with a table that grows.
///
/// ```
/// use gelvanh::flat::Event as Flat;
/// use gelvanh::{Classes, Event, HeldEvents, InternalEvent, KeyCode, Parser};
///
/// let mut held = HeldEvents::default();
/// for event in Parser::default().flat(b"a\x1b[3;4Rb", false, true) {
///     held.hold(event, String::new());
/// }
/// held.hold(Flat::resize(80, 24), String::new());
/// assert_eq!(held.take(Classes::CURSOR), Some(InternalEvent::CursorPosition(3, 2)));
/// assert_eq!(held.take(Classes::EVENTS), Some(InternalEvent::Event(Event::Key(KeyCode::Char('a').into()))));
/// assert_eq!(held.take(Classes::EVENTS), Some(InternalEvent::Event(Event::Key(KeyCode::Char('b').into()))));
/// assert_eq!(held.take(Classes::EVENTS), Some(InternalEvent::Event(Event::Resize(80, 24))));
/// assert!(!held.holds(Classes::EVENTS));
/// ```
#[derive(Debug)]
pub struct HeldEvents {
    reader: raw::Reader,
    table: Vec<raw::Held>,
    /// The texts of the pastes among them, each with its event's number.
    texts: Vec<(u64, String)>,
    /// Whether a reply may be held. If none is, no table is searched for one.
    may_hold_replies: bool,
}

impl Default for HeldEvents {
    fn default() -> HeldEvents {
        HeldEvents::new()
    }
}

impl HeldEvents {
    /// None, and no table yet.
    pub const fn new() -> HeldEvents {
        HeldEvents { reader: raw::Reader { first: 0, held: 0, arrivals: 0 }, table: Vec::new(), texts: Vec::new(), may_hold_replies: false }
    }

    /// Makes room for so many more events, or for some of them at least.
    #[inline]
    fn reserve(&mut self, more: usize) {
        let behind = self.table.len() - self.reader.first - self.reader.held;
        // If the end is reached, the archive moves the events to the front: that pays if half of the table is free there.
        if behind < more && self.reader.first < self.table.len() / 2 + 1 {
            let more = more.max(self.table.len()).max(16);
            self.table.resize(self.table.len() + more, raw::Held::NONE);
        }
    }

    /// Holds an event behind the others. The text is that of a paste; other events have none.
    pub fn hold(&mut self, event: raw::Event, text: String) {
        if event.is_paste() {
            self.texts.push((self.reader.arrivals, text));
        }
        self.may_hold_replies |= !Classes::EVENTS.has(event.class());
        self.reserve(1);
        let is_held = raw::hold(&mut self.reader, &mut self.table, &event);
        debug_assert!(is_held, "the table has room");
    }

    /// Holds the events of some bytes behind the others, as `Parser::flat` gives them. Those of other classes than these are dropped.
    ///
    /// ```
    /// use gelvanh::{Classes, HeldEvents, Parser};
    ///
    /// let (mut parser, mut held) = (Parser::default(), HeldEvents::default());
    /// held.feed(&mut parser, b"a\x1b[3;4Rb", false, true, Classes::EVENTS);
    /// assert!(held.holds(Classes::EVENTS) && !held.holds(Classes::CURSOR));
    /// ```
    pub fn feed(&mut self, parser: &mut Parser, piece: &[u8], more: bool, raw: bool, classes: Classes) {
        let mut rest = piece;
        while !rest.is_empty() {
            self.reserve(rest.len().min(1024));
            let number = self.reader.arrivals;
            let (taken, count, text) = parser.feed_held(rest, more, raw, &mut self.reader, &mut self.table);
            if let Some(text) = text.filter(|_| classes.has(Classes::EVENTS)) {
                self.texts.push((number, text));
            }
            self.drop_others(count, classes);
            rest = &rest[taken..];
        }
    }

    /// Drops those of the last events that aren't of these classes.
    fn drop_others(&mut self, count: usize, classes: Classes) {
        self.may_hold_replies |= !Classes::EVENTS.has(classes);
        let others = Classes::ALL.bits() & !classes.bits();
        let start = self.reader.first + self.reader.held - count;
        let mut last = raw::Reader { first: start, held: count, arrivals: 0 };
        if others == 0 || !raw::holds(&last, &self.table, others) {
            return;
        }
        while raw::take(&mut last, &mut self.table, others).is_some() {}
        self.table.copy_within(last.first..last.first + last.held, start);
        self.reader.held -= count - last.held;
    }

    /// Whether an event of these classes is held.
    #[inline]
    pub fn holds(&self, classes: Classes) -> bool {
        self.may_hold(classes) && raw::holds(&self.reader, &self.table, classes.bits())
    }

    #[inline]
    fn may_hold(&self, classes: Classes) -> bool {
        self.may_hold_replies || classes.has(Classes::EVENTS)
    }

    /// Takes the first event of these classes. The others stay, in their order.
    #[inline]
    pub fn take(&mut self, classes: Classes) -> Option<InternalEvent> {
        loop {
            if let Some(event) = self.take_flat(classes)?.into_event() {
                return Some(event);
            }
        }
    }

    /// The same, as numbers.
    #[inline]
    pub fn take_flat(&mut self, classes: Classes) -> Option<Taken> {
        let mut taken = [raw::Held::NONE];
        let count = self.take_some(classes, &mut taken);
        (count > 0).then(|| self.with_text(taken[0]))
    }

    /// Takes the first events of these classes, in their order, as far as there is room, and returns how many. `with_text` gives a paste
    /// among them its text.
    ///
    /// ```
    /// use gelvanh::flat::Held;
    /// use gelvanh::{Classes, HeldEvents, Parser};
    ///
    /// let (mut parser, mut held) = (Parser::default(), HeldEvents::default());
    /// held.feed(&mut parser, b"ab\x1b[3;4Rcd", false, true, Classes::ALL);
    /// let mut taken = [Held::NONE; 3];
    /// assert_eq!(held.take_some(Classes::EVENTS, &mut taken), 3);
    /// assert_eq!(taken.map(|it| it.event.value), [97, 98, 99]);
    /// assert_eq!(held.take_some(Classes::EVENTS, &mut taken), 1);
    /// ```
    #[inline]
    pub fn take_some(&mut self, classes: Classes, taken: &mut [raw::Held]) -> usize {
        if self.reader.held == 0 || !self.may_hold(classes) {
            return 0;
        }
        let count = raw::take_some(&mut self.reader, &mut self.table, classes.bits(), taken);
        if count < taken.len() && classes.has(Classes::CURSOR | Classes::FLAGS | Classes::ATTRIBUTES) {
            self.may_hold_replies = false;
        }
        count
    }

    /// An event that `take_some` took, with the text of a paste.
    #[inline]
    pub fn with_text(&mut self, held: raw::Held) -> Taken {
        if held.event.is_paste() {
            return Taken::Paste(self.text_of(held.arrival).unwrap_or_default());
        }
        Taken::Numbers(held.event)
    }

    #[cold]
    fn text_of(&mut self, arrival: u64) -> Option<String> {
        let place = self.texts.iter().position(|(number, _)| *number == arrival)?;
        Some(self.texts.remove(place).1)
    }
}

//! A reader over a script: the archive's parser makes events of the bytes, and its reader holds them until they are taken.

use super::statement::{Act, Call};
use gelvanh::flat::Event as Flat;
use gelvanh::{Classes, HeldEvents, InternalEvent, KeyboardEnhancementFlags, Parser};
use std::collections::VecDeque;
use std::io::ErrorKind;
use std::vec;

/// How many bytes are read at once. If so many came, more follow, so ESC at their end is no key yet.
const AT_ONCE: usize = 1024;

/// What a call replied.
pub enum Reply {
    /// Whether an event is there.
    Poll(bool),
    /// The event that was taken, if there was one.
    Event(Option<InternalEvent>),
    /// The cursor's column and row.
    Position(u16, u16),
    /// The keyboard's flags, if the terminal has them.
    Keyboard(Option<KeyboardEnhancementFlags>),
    /// An error of this kind.
    Fault(ErrorKind),
}

/// What a call does when the reader is woken.
#[derive(PartialEq)]
enum AtWake {
    Stops,
    GoesOn,
}

/// An event, and its text if it is a paste.
type Arrived = (Flat, String);

/// A reader, and the script that it asks.
pub struct Reader {
    script: vec::IntoIter<Act>,
    parser: Parser,
    /// The events of the bytes that were read last, as far as no call has asked for them.
    waiting: VecDeque<Arrived>,
    held: HeldEvents,
}

/// An act as it is read: a long piece comes in several parts.
fn reads(act: Act) -> Vec<Act> {
    match act {
        Act::Piece { bytes, raw } => bytes.chunks(AT_ONCE).map(|part| Act::Piece { bytes: part.to_vec(), raw }).collect(),
        act => vec![act],
    }
}

impl Reader {
    /// A reader of these acts, behind which the input ends.
    pub fn new(acts: Vec<Act>) -> Reader {
        let script = acts.into_iter().flat_map(reads).collect::<Vec<Act>>().into_iter();
        Reader { script, parser: Parser::default(), waiting: VecDeque::new(), held: HeldEvents::new() }
    }

    /// Makes a call.
    pub fn call(&mut self, call: Call) -> Reply {
        let replied = match call {
            Call::Poll(classes, tries) => self.poll(classes, tries).map(Reply::Poll),
            Call::Read(classes, tries) => self.read(classes, tries).map(Reply::Event),
            Call::Take(classes) => Ok(Reply::Event(self.held.take(classes))),
            Call::Position(tries) => self.position(tries),
            Call::Keyboard(tries) => self.keyboard(tries),
        };
        replied.unwrap_or_else(Reply::Fault)
    }

    /// Takes the first event that is held, of whatever class.
    pub fn take_any(&mut self) -> Option<InternalEvent> {
        self.held.take(Classes::EVENTS | Classes::CURSOR | Classes::FLAGS | Classes::ATTRIBUTES)
    }

    /// Whether an event of these classes is held, after so many questions at most. A wake-up ends it.
    fn poll(&mut self, classes: Classes, tries: u32) -> Result<bool, ErrorKind> {
        self.ask(classes, tries, AtWake::Stops)
    }

    /// Takes the first event of these classes, after so many questions at most. A wake-up is a question like any other.
    fn read(&mut self, classes: Classes, tries: u32) -> Result<Option<InternalEvent>, ErrorKind> {
        self.ask(classes, tries, AtWake::GoesOn)?;
        Ok(self.held.take(classes))
    }

    /// Polls for a reply of the terminal, and takes it.
    fn query(&mut self, classes: Classes, tries: u32) -> Result<InternalEvent, ErrorKind> {
        self.poll(classes, tries)?;
        self.held.take(classes).ok_or(ErrorKind::Other)
    }

    fn position(&mut self, tries: u32) -> Result<Reply, ErrorKind> {
        match self.query(Classes::CURSOR, tries)? {
            InternalEvent::CursorPosition(column, row) => Ok(Reply::Position(column, row)),
            _ => Err(ErrorKind::Other),
        }
    }

    /// A terminal without the flags sends its attributes alone. One that has them sends those behind, which are taken too if they come.
    fn keyboard(&mut self, tries: u32) -> Result<Reply, ErrorKind> {
        match self.query(Classes::FLAGS | Classes::ATTRIBUTES, tries)? {
            InternalEvent::KeyboardEnhancementFlags(flags) => {
                let _ = self.query(Classes::ATTRIBUTES, tries);
                Ok(Reply::Keyboard(Some(flags)))
            }
            _ => Ok(Reply::Keyboard(None)),
        }
    }

    /// Asks for events until one of these classes is held, and returns whether one is. All that come are held.
    fn ask(&mut self, classes: Classes, tries: u32, at_wake: AtWake) -> Result<bool, ErrorKind> {
        if self.held.holds(classes) {
            return Ok(true);
        }
        for _ in 0..tries {
            match self.next_event() {
                Ok(Some((event, text))) => {
                    self.held.hold(event, text);
                    if classes | event.class() == classes {
                        return Ok(true);
                    }
                }
                Ok(None) => {}
                Err(ErrorKind::Interrupted) if at_wake == AtWake::GoesOn => {}
                Err(ErrorKind::Interrupted) => return Ok(false),
                Err(kind) => return Err(kind),
            }
        }
        Ok(false)
    }

    /// The next event, for which the script is asked once if none waits. It is `None` if nothing came, or bytes that end no event.
    fn next_event(&mut self) -> Result<Option<Arrived>, ErrorKind> {
        if let Some(event) = self.waiting.pop_front() {
            return Ok(Some(event));
        }
        match self.script.next() {
            Some(Act::Piece { bytes, raw }) => {
                self.feed(&bytes, raw);
                Ok(self.waiting.pop_front())
            }
            Some(Act::Resize(columns, rows)) => Ok(Some((Flat::resize(columns, rows), String::new()))),
            Some(Act::Wake) => Err(ErrorKind::Interrupted),
            Some(Act::Idle) => Ok(None),
            Some(Act::Fault) => Err(ErrorKind::Other),
            None => Err(ErrorKind::UnexpectedEof),
        }
    }

    /// Lets the events of some bytes wait.
    fn feed(&mut self, bytes: &[u8], raw: bool) {
        let mut events = self.parser.flat(bytes, bytes.len() == AT_ONCE, raw);
        while let Some(event) = events.next() {
            let text = events.paste_text().unwrap_or_default();
            self.waiting.push_back((event, text));
        }
    }
}

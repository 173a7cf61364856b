//! The terminal's bytes and the window's resizes, as events.

use crate::system::{self, Terminal};
use gelvanh::{flat, Classes, HeldEvents, Parser};
use std::io;
use std::mem;
use std::os::unix::io::{AsRawFd, RawFd};
use std::time::{Duration, Instant};

const ESC: u8 = 0x1b;
/// How many bytes are read at once.
const ROOM: usize = 1024;
/// How long the rest of a sequence may be late, if its ESC was the last byte that was read: a busy machine is late, too.
const PAUSE: Duration = Duration::from_millis(50);
/// How shortly after a key an ESC that is read alone is no key at once, but such a byte. After a block, which Linux cuts behind 4,095 bytes,
/// it is `PAUSE`.
const SHORTLY: Duration = Duration::from_millis(10);
/// So many bytes that are read at once are a block.
const BLOCK: usize = 64;

/// An ESC that was read last: a key, or the first byte of a sequence that was cut. The parser hasn't got it yet.
#[derive(Clone, Copy)]
struct Open {
    /// How long the next byte is waited for; `None` if it didn't come, and the ESC is still open.
    until: Option<Instant>,
    /// Whether the read had no room for more: then the next byte decides, however late it is.
    is_full: bool,
}

/// What a wait found. `Source::give` makes events of it.
pub struct Came {
    /// How many bytes were read, if there were to be some.
    bytes: Option<io::Result<Option<usize>>>,
    /// The window's columns and rows, if it was resized.
    size: Option<io::Result<(u16, u16)>>,
}

/// Where events go: they are held, but replies that nobody asked for.
pub struct Sink<'a> {
    pub held: &'a mut HeldEvents,
    pub classes: Classes,
}

pub struct Source {
    parser: Parser,
    terminal: Terminal,
    pipe: RawFd,
    buffer: [u8; ROOM],
    /// Until when an ESC that is read alone is no key at once.
    shortly: Option<Instant>,
    open: Option<Open>,
    /// Whether the end of input came, and wasn't reported yet.
    has_ended: bool,
}

impl Source {
    pub fn open() -> io::Result<Source> {
        let (terminal, pipe) = (Terminal::open()?, system::resize_pipe()?);
        Ok(Source { parser: Parser::default(), terminal, pipe, buffer: [0; ROOM], shortly: None, open: None, has_ended: false })
    }

    /// Whether an ESC is open that may still be decided shortly.
    pub fn is_open(&self) -> bool {
        self.until().is_some()
    }

    fn until(&self) -> Option<Instant> {
        self.open.and_then(|open| open.until)
    }

    /// Waits once, so long at most, and reads what is there. With `for_rest` it waits for what follows an open ESC, and no longer.
    pub fn wait(&mut self, time: Option<Duration>, for_rest: bool) -> io::Result<Came> {
        if mem::take(&mut self.has_ended) {
            return Err(io::ErrorKind::UnexpectedEof.into());
        }
        let until = self.until().filter(|_| for_rest);
        let time = until.map_or(time, |until| Some(until.saturating_duration_since(Instant::now())));
        let [has_bytes, has_signal] = system::wait_for([self.terminal.as_raw_fd(), self.pipe], time)?;
        if has_signal {
            while let Some([_, ..]) = system::read_some(self.pipe, &mut [0; 64])? {}
        }
        let (fd, buffer) = (self.terminal.as_raw_fd(), &mut self.buffer);
        let bytes = has_bytes.then(|| system::read_some(fd, buffer).map(|piece| piece.map(<[u8]>::len)));
        let size = system::was_resized().then(crate::terminal::size);
        Ok(Came { bytes, size })
    }

    /// Gives the events of what came. Those before an error are given too.
    pub fn give(&mut self, came: Came, mut sink: Sink<'_>) -> io::Result<()> {
        let bytes = match came.bytes {
            None => {
                self.close_if_late(&mut sink);
                Ok(())
            }
            Some(Ok(None)) => Ok(()),
            Some(Ok(Some(count))) => self.give_bytes(count, &mut sink),
            Some(Err(error)) => Err(error),
        };
        if let Some(size) = came.size {
            let (columns, rows) = size?;
            sink.held.hold(flat::Event::resize(columns, rows), String::new());
        }
        bytes
    }

    fn give_bytes(&mut self, count: usize, sink: &mut Sink<'_>) -> io::Result<()> {
        // An open ESC is a key if a second one follows, or nothing ever.
        let is_key = matches!(self.buffer[..count], [] | [ESC, ..]);
        let had_open = self.close(!is_key, sink);
        let now = Instant::now();
        let until = now + if count < BLOCK { SHORTLY } else { PAUSE };
        let is_shortly = self.shortly.replace(until).map_or(false, |until| now < until);
        match self.buffer[..count] {
            [] if had_open => self.has_ended = true,
            [] => return Err(io::ErrorKind::UnexpectedEof.into()),
            [ref front @ .., ESC] if is_shortly || !front.is_empty() => {
                feed(&mut self.parser, front, true, sink);
                self.open = Some(Open { until: Some(now + PAUSE), is_full: count == ROOM });
                // In a sequence, in a paste or behind an ESC it isn't the first of a sequence.
                if self.parser.is_undecided() {
                    self.close(false, sink);
                }
            }
            ref piece => feed(&mut self.parser, piece, false, sink),
        }
        Ok(())
    }

    /// Closes the open ESC if it is late for the next byte, but behind a full read.
    fn close_if_late(&mut self, sink: &mut Sink<'_>) {
        match &mut self.open {
            Some(Open { until: Some(until), .. }) if *until > Instant::now() => (),
            Some(open) if open.is_full => open.until = None,
            _ => drop(self.close(false, sink)),
        }
    }

    /// Gives the open ESC to the parser, and returns whether there was one; `more` is false if it is a key.
    fn close(&mut self, more: bool, sink: &mut Sink<'_>) -> bool {
        let had_open = self.open.take().is_some();
        if had_open {
            feed(&mut self.parser, &[ESC], more, sink);
        }
        had_open
    }
}

fn feed(parser: &mut Parser, piece: &[u8], more: bool, sink: &mut Sink<'_>) {
    sink.held.feed(parser, piece, more, system::is_raw(), sink.classes);
}

//! A stream of events, taken by one thread that sleeps between them.
use crossterm::event::EventStream;
use futures_core::Stream;
use std::hint::black_box;
use std::io;
use std::pin::Pin;
use std::sync::Arc;
use std::task::{Context, Poll, Wake, Waker};
use std::thread::{self, Thread};

/// Wakes the thread.
struct Unpark(Thread);

impl Wake for Unpark {
    fn wake(self: Arc<Self>) {
        self.0.unpark();
    }
}

pub struct Blocking {
    stream: EventStream,
    waker: Waker,
}

impl Blocking {
    pub fn new() -> Blocking {
        Blocking { stream: EventStream::new(), waker: Arc::new(Unpark(thread::current())).into() }
    }

    pub fn read_one(&mut self) -> io::Result<()> {
        loop {
            match Pin::new(&mut self.stream).poll_next(&mut Context::from_waker(&self.waker)) {
                Poll::Ready(Some(event)) => return event.map(|event| drop(black_box(event))),
                Poll::Ready(None) => return Err(io::ErrorKind::UnexpectedEof.into()),
                Poll::Pending => thread::park(),
            }
        }
    }
}

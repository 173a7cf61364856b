//! Events as a stream, on the smallest of executors.

use crate::{name, tell};
use crossterm::event::EventStream;
use crossterm::terminal;
use futures_core::Stream;
use std::io;
use std::pin::Pin;
use std::sync::Arc;
use std::task::{Context, Poll, Wake, Waker};
use std::thread::{self, Thread};

struct Unpark(Thread);

impl Wake for Unpark {
    fn wake(self: Arc<Self>) {
        self.0.unpark();
    }
}

/// The next item of a stream, for which it waits.
pub(crate) fn next<S: Stream + Unpin>(stream: &mut S) -> Option<S::Item> {
    let waker = Waker::from(Arc::new(Unpark(thread::current())));
    loop {
        match Pin::new(&mut *stream).poll_next(&mut Context::from_waker(&waker)) {
            Poll::Ready(item) => return item,
            Poll::Pending => thread::park(),
        }
    }
}

/// How many threads the process has.
fn threads() -> usize {
    std::fs::read_dir("/proc/self/task").map_or(0, Iterator::count)
}

pub fn run() -> io::Result<()> {
    terminal::enable_raw_mode()?;
    let mut stream = EventStream::new();
    tell!("ready");
    for _ in 0..3 {
        let event = next(&mut stream).ok_or(io::ErrorKind::UnexpectedEof)??;
        tell!("{}", name(&event));
    }
    // It waits for the next one when it is dropped.
    let waker = Waker::from(Arc::new(Unpark(thread::current())));
    tell!("pending {}", Pin::new(&mut stream).poll_next(&mut Context::from_waker(&waker)).is_pending());
    tell!("threads {}", threads());
    drop(stream);
    let mut waited = 0;
    while threads() > 1 && waited < 200 {
        thread::sleep(std::time::Duration::from_millis(10));
        waited += 1;
    }
    tell!("threads {}", threads());
    terminal::disable_raw_mode()?;
    // In lines: the end of input ends a stream.
    let mut stream = EventStream::new();
    tell!("ready");
    while let Some(item) = next(&mut stream) {
        tell!("{:?}", item.map(|event| name(&event)).map_err(|e| e.kind()));
    }
    tell!("over");
    Ok(())
}

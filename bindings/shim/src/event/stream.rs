//! Events as a stream.

use crate::event::reader::{self, State};
use crate::event::Event;
use futures_core::stream::Stream;
use std::io;
use std::pin::Pin;
use std::sync::atomic::{AtomicBool, Ordering};
use std::sync::{Arc, Condvar, Mutex, MutexGuard, PoisonError};
use std::task::{Context, Poll, Waker};
use std::thread;

/// Events as a stream, which ends after the error `UnexpectedEof`.
///
/// A thread of its own waits while the stream is pending; it ends with the stream.
///
/// ```no_run
/// use crossterm::event::EventStream;
/// use futures_core::Stream;
/// use std::pin::Pin;
/// use std::task::Context;
///
/// // In a task of any executor: `poll_next` of a stream that is pinned. With the crate `futures` it is `stream.next().await`.
/// fn poll(stream: &mut EventStream, context: &mut Context<'_>) -> bool {
///     Pin::new(stream).poll_next(context).is_ready()
/// }
/// ```
#[derive(Debug, Default)]
pub struct EventStream {
    watch: Option<Arc<Watch>>,
    has_ended: bool,
}

/// What the stream and its thread share.
#[derive(Debug, Default)]
struct Watch {
    task: Mutex<Task>,
    has_task: Condvar,
    is_over: AtomicBool,
}

#[derive(Debug, Default)]
struct Task {
    /// Who is to be woken at the next event.
    waker: Option<Waker>,
    /// What kept the thread from waiting, which may not come again: the stream gives it.
    fault: Option<io::Error>,
}

impl Watch {
    fn lock(&self) -> MutexGuard<'_, Task> {
        self.task.lock().unwrap_or_else(PoisonError::into_inner)
    }

    fn is_over(&self) -> bool {
        self.is_over.load(Ordering::SeqCst)
    }

    /// Waits until a task is to be woken, and returns whether one is: else the stream is gone.
    fn wait_for_task(&self) -> bool {
        let mut task = self.lock();
        while task.waker.is_none() && !self.is_over() {
            task = self.has_task.wait(task).unwrap_or_else(PoisonError::into_inner);
        }
        !self.is_over()
    }

    /// Wakes whoever waits, at each event and each error, as long as the stream is there.
    fn run(&self) {
        while self.wait_for_task() {
            let waited = reader::wait(None, |state| (state.has_event() || self.is_over()).then_some(()));
            let mut task = self.lock();
            task.fault = waited.err().or_else(|| task.fault.take());
            let waker = task.waker.take();
            drop(task);
            if let Some(waker) = waker {
                waker.wake();
            }
        }
    }
}

impl EventStream {
    /// A stream of the events that aren't read yet.
    pub fn new() -> EventStream {
        EventStream::default()
    }

    /// Lets a task be woken at the next event.
    fn watch_for(&mut self, waker: &Waker) -> io::Result<()> {
        let watch = match &self.watch {
            Some(watch) => watch,
            None => {
                let watch = Arc::new(Watch::default());
                let shared = watch.clone();
                thread::Builder::new().name("crossterm events".into()).spawn(move || shared.run())?;
                self.watch.insert(watch)
            }
        };
        watch.lock().waker = Some(waker.clone());
        watch.has_task.notify_one();
        Ok(())
    }

    /// The next event, if one is there.
    fn next_now(&self) -> io::Result<Option<Event>> {
        if let Some(fault) = self.watch.as_ref().and_then(|watch| watch.lock().fault.take()) {
            return Err(fault);
        }
        while let Some(taken) = reader::find_now(State::take_event)? {
            if let Some(event) = taken.into_user_event() {
                return Ok(Some(event));
            }
        }
        Ok(None)
    }
}

impl Stream for EventStream {
    type Item = io::Result<Event>;

    fn poll_next(mut self: Pin<&mut Self>, cx: &mut Context<'_>) -> Poll<Option<io::Result<Event>>> {
        if self.has_ended {
            return Poll::Ready(None);
        }
        match self.next_now() {
            Ok(Some(event)) => Poll::Ready(Some(Ok(event))),
            Ok(None) => match self.watch_for(cx.waker()) {
                Ok(()) => Poll::Pending,
                Err(error) => Poll::Ready(Some(Err(error))),
            },
            Err(error) => {
                self.has_ended = error.kind() == io::ErrorKind::UnexpectedEof;
                Poll::Ready(Some(Err(error)))
            }
        }
    }
}

impl Drop for EventStream {
    fn drop(&mut self) {
        if let Some(watch) = &self.watch {
            watch.is_over.store(true, Ordering::SeqCst);
            // With the lock, so that the thread either waits already or sees it before it does.
            let task = watch.lock();
            watch.has_task.notify_one();
            drop(task);
            reader::wake_all();
        }
    }
}

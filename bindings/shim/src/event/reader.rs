//! The events that all threads share: held, found and taken by the proved reader.
//!
//! One thread at a time waits for the terminal: it has taken the source out, and holds no lock. The others wait, each until its own
//! limit. A thread that came back, with events or without, wakes all others, and one of these takes the source then.

use crate::event::source::{Sink, Source};
use gelvanh::flat::Held;
use gelvanh::{Classes, HeldEvents, Taken};
use std::io;
use std::mem;
use std::sync::{Condvar, Mutex, MutexGuard, PoisonError};
use std::time::{Duration, Instant};

/// Where the source is.
enum Seat {
    /// It wasn't needed yet, or couldn't be opened.
    Unopened,
    /// Nobody waits for the terminal.
    Free(Box<Source>),
    /// A thread waits with it.
    Taken,
}

/// The classes of the terminal's replies.
fn replies() -> Classes {
    Classes::CURSOR | Classes::FLAGS | Classes::ATTRIBUTES
}

/// So many events are taken at once.
const MOST: usize = 32;

/// What was read and is still to be given.
pub struct State {
    /// Events, and while somebody asks replies of the terminal too.
    held: HeldEvents,
    /// The events that were taken last, which are given before the held ones.
    front: [Held; MOST],
    /// Which of these is the next, and how many they are.
    next: usize,
    count: usize,
    /// How many calls wait for a reply.
    asking: usize,
    /// How many threads wait for a change.
    waiting: usize,
    seat: Seat,
}

static STATE: Mutex<State> = Mutex::new(State {
    held: HeldEvents::new(),
    front: [Held::NONE; MOST],
    next: 0,
    count: 0,
    asking: 0,
    waiting: 0,
    seat: Seat::Unopened,
});
static CHANGED: Condvar = Condvar::new();

fn lock() -> MutexGuard<'static, State> {
    STATE.lock().unwrap_or_else(PoisonError::into_inner)
}

impl State {
    #[inline]
    pub fn has_event(&self) -> bool {
        self.next < self.count || self.held.holds(Classes::EVENTS)
    }

    #[inline]
    pub fn take_event(&mut self) -> Option<Taken> {
        if self.next >= self.count {
            self.next = 0;
            self.count = self.held.take_some(Classes::EVENTS, &mut self.front);
        }
        let event = *self.front[..self.count].get(self.next)?;
        self.next += 1;
        Some(self.held.with_text(event))
    }

    /// The first reply of some classes.
    pub fn take_reply(&mut self, classes: Classes) -> Option<Taken> {
        self.held.take_flat(classes)
    }

    /// Where events go. A reply that nobody asked for is dropped.
    fn sink(&mut self) -> Sink<'_> {
        let classes = if self.asking > 0 { Classes::ALL } else { Classes::EVENTS };
        Sink { held: &mut self.held, classes }
    }

    /// Wakes the threads that wait for a change.
    fn tell(&self) {
        if self.waiting > 0 {
            CHANGED.notify_all();
        }
    }
}

/// How long it is until the limit.
fn left(limit: Option<Instant>) -> Option<Duration> {
    limit.map(|limit| limit.saturating_duration_since(Instant::now()))
}

/// What a function finds in the state, for which it waits until the limit: with none it waits on. It looks once at least.
pub fn wait<T>(limit: Option<Instant>, mut find: impl FnMut(&mut State) -> Option<T>) -> io::Result<Option<T>> {
    let mut state = lock();
    let mut has_looked = false;
    loop {
        if let Some(found) = find(&mut state) {
            return Ok(Some(found));
        }
        let left = left(limit);
        if has_looked && left == Some(Duration::ZERO) {
            return Ok(None);
        }
        state = look(state, left, true)?;
        has_looked = true;
    }
}

/// What a function finds in the state, or in what the terminal has now. It waits for nothing: not even for what follows an open ESC, so
/// that somebody has to wait then.
#[cfg(feature = "event-stream")]
pub fn find_now<T>(mut find: impl FnMut(&mut State) -> Option<T>) -> io::Result<Option<T>> {
    let mut state = lock();
    if let Some(found) = find(&mut state) {
        return Ok(Some(found));
    }
    let mut state = look(state, Some(Duration::ZERO), false)?;
    Ok(find(&mut state))
}

/// Waits for the terminal, or if another thread does, for what that one reads.
fn look(mut state: MutexGuard<'static, State>, left: Option<Duration>, for_rest: bool) -> io::Result<MutexGuard<'static, State>> {
    let mut source = match mem::replace(&mut state.seat, Seat::Taken) {
        Seat::Taken if left == Some(Duration::ZERO) => return Ok(state),
        Seat::Taken => return Ok(wait_to_be_told(state, left)),
        Seat::Free(source) => source,
        Seat::Unopened => match Source::open() {
            Ok(source) => Box::new(source),
            Err(error) => {
                state.seat = Seat::Unopened;
                return Err(error);
            }
        },
    };
    loop {
        drop(state);
        let came = source.wait(left, for_rest);
        state = lock();
        let given = came.and_then(|came| source.give(came, state.sink()));
        // A program that polls with no time stops if there is no event of a user, and would miss the Esc: the open ESC is waited for.
        if given.is_err() || !for_rest || !source.is_open() || state.has_event() {
            state.seat = Seat::Free(source);
            state.tell();
            return given.map(|()| state);
        }
    }
}

fn wait_to_be_told(mut state: MutexGuard<'static, State>, left: Option<Duration>) -> MutexGuard<'static, State> {
    state.waiting += 1;
    state = match left {
        None => CHANGED.wait(state).unwrap_or_else(PoisonError::into_inner),
        Some(left) => CHANGED.wait_timeout(state, left).unwrap_or_else(PoisonError::into_inner).0,
    };
    state.waiting -= 1;
    state
}

/// Lets each waiting thread look again at what it waits for.
#[cfg(feature = "event-stream")]
pub fn wake_all() {
    // With the lock, so that a thread either waits already or hasn't looked yet.
    let state = lock();
    crate::system::wake();
    state.tell();
    drop(state);
}

/// A call that waits for a reply: while there is one, replies are kept.
pub struct Asking(());

impl Asking {
    pub fn begin() -> Asking {
        lock().asking += 1;
        Asking(())
    }
}

impl Drop for Asking {
    fn drop(&mut self) {
        let mut state = lock();
        state.asking -= 1;
        if state.asking == 0 {
            // A reply that came too late answers no later call.
            while state.held.take(replies()).is_some() {}
        }
    }
}

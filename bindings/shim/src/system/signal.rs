//! The signal of a resize, and the pipe that ends a wait.

use super::check;
use std::io;
use std::os::unix::io::{IntoRawFd, RawFd};
use std::os::unix::net::UnixStream;
use std::ptr;
use std::sync::atomic::{AtomicBool, AtomicI32, AtomicUsize, Ordering};
use std::sync::{Mutex, PoisonError};

/// `struct sigaction` of Linux's libc.
#[repr(C)]
struct Action {
    handler: usize,
    mask: [u64; 16],
    flags: i32,
    restorer: usize,
}

type Simple = extern "C" fn(i32);
type Informed = extern "C" fn(i32, *const u8, *const u8);

const SIGWINCH: i32 = 28;
const SA_SIGINFO: i32 = 4;
const SA_ONSTACK: i32 = 0x0800_0000;
const SA_RESTART: i32 = 0x1000_0000;

extern "C" {
    fn sigaction(signal: i32, new: *const Action, old: *mut Action) -> i32;
    fn write(fd: i32, bytes: *const u8, length: usize) -> isize;
    fn __errno_location() -> *mut i32;
}

/// Whether a signal came that no event reported yet.
static RESIZED: AtomicBool = AtomicBool::new(false);
/// The end of the pipe that is written to.
static SENDER: AtomicI32 = AtomicI32::new(-1);
/// The handler before ours, and its flags: it is called too.
static BEFORE: AtomicUsize = AtomicUsize::new(0);
static BEFORE_FLAGS: AtomicI32 = AtomicI32::new(0);

/// Ends the wait for the pipe.
pub fn wake() {
    let fd = SENDER.load(Ordering::SeqCst);
    if fd >= 0 {
        // SAFETY: one byte. If the pipe is full, the wait ends anyway.
        unsafe { write(fd, [0u8].as_ptr(), 1) };
    }
}

extern "C" fn on_signal(signal: i32, info: *const u8, context: *const u8) {
    // SAFETY: the thread's own `errno`, which the interrupted code may be about to read. What is called is safe in a handler.
    let errno = unsafe { *__errno_location() };
    RESIZED.store(true, Ordering::SeqCst);
    wake();
    let before = BEFORE.load(Ordering::SeqCst);
    // 0 and 1 are the system's own ways, which do nothing at this signal.
    if before > 1 && BEFORE_FLAGS.load(Ordering::SeqCst) & SA_SIGINFO != 0 {
        // SAFETY: the system returned it as a handler of this shape.
        unsafe { std::mem::transmute::<usize, Informed>(before)(signal, info, context) };
    } else if before > 1 {
        // SAFETY: as above.
        unsafe { std::mem::transmute::<usize, Simple>(before)(signal) };
    }
    unsafe { *__errno_location() = errno };
}

fn listen() -> io::Result<()> {
    let mut before = Action { handler: 0, mask: [0; 16], flags: 0, restorer: 0 };
    // SAFETY: the pointers are to actions, and NULL asks alone.
    check(unsafe { sigaction(SIGWINCH, ptr::null(), &mut before) })?;
    BEFORE.store(before.handler, Ordering::SeqCst);
    BEFORE_FLAGS.store(before.flags, Ordering::SeqCst);
    let handler = on_signal as Informed as usize;
    let ours = Action { handler, mask: [0; 16], flags: SA_SIGINFO | SA_ONSTACK | SA_RESTART, restorer: 0 };
    check(unsafe { sigaction(SIGWINCH, &ours, ptr::null_mut()) })
}

/// The descriptor that has bytes after a resize or a call of `wake`. The first call begins to listen to the signal.
pub fn resize_pipe() -> io::Result<RawFd> {
    static RECEIVER: Mutex<Option<RawFd>> = Mutex::new(None);
    let mut receiver = RECEIVER.lock().unwrap_or_else(PoisonError::into_inner);
    if let Some(fd) = *receiver {
        return Ok(fd);
    }
    let (from, to) = UnixStream::pair()?;
    from.set_nonblocking(true)?;
    to.set_nonblocking(true)?;
    // Both stay open for good: a handler may write at any time.
    SENDER.store(to.into_raw_fd(), Ordering::SeqCst);
    listen()?;
    let fd = from.into_raw_fd();
    *receiver = Some(fd);
    Ok(fd)
}

/// Whether the window was resized since the last call.
pub fn was_resized() -> bool {
    RESIZED.swap(false, Ordering::SeqCst)
}

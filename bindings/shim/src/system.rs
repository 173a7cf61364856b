//! The system's calls, on Linux: all `unsafe` of this crate.

use std::fs::{File, OpenOptions};
use std::io;
use std::os::unix::io::{AsRawFd, RawFd};
use std::sync::{Mutex, PoisonError};

#[cfg(feature = "events")]
mod signal;
#[cfg(feature = "events")]
mod wait;

#[cfg(feature = "event-stream")]
pub use signal::wake;
#[cfg(feature = "events")]
pub use signal::{resize_pipe, was_resized};
#[cfg(feature = "events")]
pub use wait::{read_some, wait_for};

/// `struct termios`, which these calls alone look into; it has 60 bytes on Linux.
#[derive(Clone, Copy)]
#[repr(C, align(8))]
struct Termios([u8; 128]);

const TIOCGWINSZ: u64 = 0x5413;
const STDIN: RawFd = 0;
const STDOUT: RawFd = 1;

extern "C" {
    fn isatty(fd: i32) -> i32;
    fn tcgetattr(fd: i32, termios: *mut Termios) -> i32;
    fn tcsetattr(fd: i32, actions: i32, termios: *const Termios) -> i32;
    fn cfmakeraw(termios: *mut Termios);
    fn ioctl(fd: i32, request: u64, ...) -> i32;
}

/// The mode before raw mode, if that is on.
static BEFORE: Mutex<Option<Termios>> = Mutex::new(None);

fn check(answer: i32) -> io::Result<()> {
    if answer < 0 {
        return Err(io::Error::last_os_error());
    }
    Ok(())
}

/// Whether a descriptor is a terminal.
pub fn is_terminal(fd: RawFd) -> bool {
    // SAFETY: any number may be asked.
    unsafe { isatty(fd) == 1 }
}

/// The terminal that keys come from.
pub enum Terminal {
    /// Standard input is one.
    Stdin,
    /// It isn't, so `/dev/tty` was opened.
    Opened(File),
}

impl Terminal {
    /// Standard input, or `/dev/tty` if that is no terminal.
    pub fn open() -> io::Result<Terminal> {
        if is_terminal(STDIN) {
            return Ok(Terminal::Stdin);
        }
        OpenOptions::new().read(true).write(true).open("/dev/tty").map(Terminal::Opened)
    }
}

impl AsRawFd for Terminal {
    fn as_raw_fd(&self) -> RawFd {
        match self {
            Terminal::Stdin => STDIN,
            Terminal::Opened(file) => file.as_raw_fd(),
        }
    }
}

/// Writes a query to standard output, or to `/dev/tty` if that is no terminal.
#[cfg(feature = "events")]
pub fn send(query: &[u8]) -> io::Result<()> {
    use std::io::Write;
    if !is_terminal(STDOUT) {
        if let Ok(mut file) = OpenOptions::new().write(true).open("/dev/tty") {
            return file.write_all(query);
        }
    }
    let mut out = io::stdout();
    out.write_all(query)?;
    out.flush()
}

pub fn is_raw() -> bool {
    BEFORE.lock().unwrap_or_else(PoisonError::into_inner).is_some()
}

pub fn enable_raw_mode() -> io::Result<()> {
    let mut before = BEFORE.lock().unwrap_or_else(PoisonError::into_inner);
    if before.is_some() {
        return Ok(());
    }
    let terminal = Terminal::open()?;
    let mut termios = Termios([0; 128]);
    // SAFETY: the pointers are to a termios with room to spare.
    check(unsafe { tcgetattr(terminal.as_raw_fd(), &mut termios) })?;
    let kept = termios;
    unsafe { cfmakeraw(&mut termios) };
    check(unsafe { tcsetattr(terminal.as_raw_fd(), 0, &termios) })?;
    *before = Some(kept);
    Ok(())
}

pub fn disable_raw_mode() -> io::Result<()> {
    let mut before = BEFORE.lock().unwrap_or_else(PoisonError::into_inner);
    if let Some(termios) = *before {
        let terminal = Terminal::open()?;
        // SAFETY: as above.
        check(unsafe { tcsetattr(terminal.as_raw_fd(), 0, &termios) })?;
        *before = None;
    }
    Ok(())
}

/// Rows, columns, and pixels across and down: of `/dev/tty`, or of standard output.
pub fn window_size() -> io::Result<[u16; 4]> {
    let opened = File::open("/dev/tty").ok();
    let fd = opened.as_ref().map_or(STDOUT, AsRawFd::as_raw_fd);
    let mut size = [0u16; 4];
    // SAFETY: a `struct winsize` is four 16-bit numbers.
    check(unsafe { ioctl(fd, TIOCGWINSZ, size.as_mut_ptr()) })?;
    Ok(size)
}

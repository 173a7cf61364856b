//! The wait for descriptors, and reading from one.

use super::check;
use std::io;
use std::os::unix::io::RawFd;
use std::time::Duration;

#[repr(C)]
struct PollFd {
    fd: i32,
    events: i16,
    revents: i16,
}

const POLLIN: i16 = 1;

extern "C" {
    fn poll(fds: *mut PollFd, count: u64, milliseconds: i32) -> i32;
    fn read(fd: i32, buffer: *mut u8, length: usize) -> isize;
}

/// The time in milliseconds, rounded up, so that a wait isn't over too soon; -1 waits on.
fn milliseconds(time: Option<Duration>) -> i32 {
    time.map_or(-1, |time| i32::try_from((time.as_nanos() + 999_999) / 1_000_000).unwrap_or(i32::MAX))
}

/// Which descriptors have bytes, or no more ever, within some time. A signal ends the wait, and then none has.
pub fn wait_for<const N: usize>(fds: [RawFd; N], time: Option<Duration>) -> io::Result<[bool; N]> {
    let mut fds = fds.map(|fd| PollFd { fd, events: POLLIN, revents: 0 });
    // SAFETY: the count is that of the array.
    match check(unsafe { poll(fds.as_mut_ptr(), N as u64, milliseconds(time)) }) {
        Ok(()) => Ok(fds.map(|fd| fd.revents != 0)),
        Err(e) if e.kind() == io::ErrorKind::Interrupted => Ok([false; N]),
        Err(e) => Err(e),
    }
}

/// The bytes that a descriptor has, as far as there is room: `None` if it has none now. At the end of input they are no bytes.
pub fn read_some(fd: RawFd, buffer: &mut [u8]) -> io::Result<Option<&[u8]>> {
    // SAFETY: the buffer's own length.
    let n = unsafe { read(fd, buffer.as_mut_ptr(), buffer.len()) };
    match usize::try_from(n) {
        Ok(n) => Ok(buffer.get(..n)),
        Err(_) => match io::Error::last_os_error() {
            e if matches!(e.kind(), io::ErrorKind::Interrupted | io::ErrorKind::WouldBlock) => Ok(None),
            e => Err(e),
        },
    }
}

//! Whether something is a terminal.

use std::os::unix::io::AsRawFd;

/// What may be a terminal.
///
/// ```
/// use crossterm::tty::IsTty;
///
/// let file = std::fs::File::open("/dev/null")?;
/// assert!(!file.is_tty());
/// # Ok::<(), std::io::Error>(())
/// ```
pub trait IsTty {
    /// Whether it is one.
    fn is_tty(&self) -> bool;
}

impl<S: AsRawFd> IsTty for S {
    fn is_tty(&self) -> bool {
        crate::system::is_terminal(self.as_raw_fd())
    }
}

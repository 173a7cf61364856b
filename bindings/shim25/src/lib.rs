//! crossterm 0.25's names on Linux, for programs that aren't at 0.29 yet: the crate beside this one, `bindings/shim`, under older names.
//!
//! What differs from it: `Result` and `ErrorKind` are there, cursors have three shapes, and the mouse's wheel doesn't tilt.
//!
//! ```toml
//! [patch.crates-io]
//! crossterm = { path = ".../bindings/shim25" }
//! ```
#![forbid(unsafe_code)]
#![deny(missing_docs)]

pub mod cursor;
pub mod event;

pub use newer::{execute, queue, style, terminal, tty, Command, ExecutableCommand, QueueableCommand};

/// What a call gives, or the system's error.
pub type Result<T> = std::io::Result<T>;
/// The error of all calls.
pub type ErrorKind = std::io::Error;

//! crossterm 0.29's names on Linux, over Gelvanh's proved parser and commands.
//!
//! A program that depends on crossterm 0.29 runs on them with one more line in its `Cargo.toml`:
//!
//! ```toml
//! [patch.crates-io]
//! crossterm = { path = ".../bindings/shim" }
//! ```
//!
//! Events are the proved parser's, held and taken by the proved reader, and the bytes of commands are the proved commands'. This crate's part is
//! ordinary Rust: the terminal's modes and size, a lock, the wait for its bytes, and the names. `bindings/README.md` has the
//! differences from crossterm.
//!
//! ```
//! use crossterm::{cursor::MoveTo, queue, style::{Print, Stylize}};
//!
//! let mut out = Vec::new();
//! queue!(out, MoveTo(2, 0), Print("plain "), Print("red".red()))?;
//! assert_eq!(out, b"\x1b[1;3Hplain \x1b[38;5;9mred\x1b[39m");
//! # Ok::<(), std::io::Error>(())
//! ```
#![deny(unsafe_code)]
#![deny(missing_docs)]

#[cfg(not(target_os = "linux"))]
compile_error!("the proved archive is built for Linux alone");

mod command;
mod macros;
#[allow(unsafe_code)]
mod system;

#[cfg(feature = "osc52")]
pub mod clipboard;
pub mod cursor;
#[cfg(feature = "events")]
pub mod event;
#[cfg(feature = "line")]
pub mod line;
pub mod style;
pub mod terminal;
pub mod tty;

#[doc(hidden)]
pub use command::Run;
pub use command::{Command, ExecutableCommand, QueueableCommand, SynchronizedUpdate};

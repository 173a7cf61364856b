//! crossterm 0.28's names on Linux: the crate beside this one, `bindings/shim`, under the number that ratatui 0.28 and 0.29 ask for.
//!
//! ```toml
//! [patch.crates-io]
//! crossterm = { path = ".../bindings/shim28" }
//! ```
//!
//! All names of 0.28 are in 0.29 too. What came with 0.29 isn't here: the module `clipboard`,
//!
//! ```compile_fail,E0432
//! use crossterm::clipboard::CopyToClipboard;
//! ```
//!
//! and a test for each variant of an event, of a key and the like.
//!
//! ```compile_fail,E0599
//! crossterm::event::Event::FocusGained.is_focus_gained();
//! ```
//!
//! A program that has crossterm 0.29 besides, through another crate, and patches both, has one queue of events for both.
//!
//! ```
//! use crossterm::{cursor::MoveTo, queue, style::{Print, Stylize}};
//!
//! let mut out = Vec::new();
//! queue!(out, MoveTo(2, 0), Print("plain "), Print("red".red()))?;
//! assert_eq!(out, b"\x1b[1;3Hplain \x1b[38;5;9mred\x1b[39m");
//! # Ok::<(), std::io::Error>(())
//! ```
#![forbid(unsafe_code)]
#![deny(missing_docs)]

#[cfg(feature = "events")]
pub use newer::event;
pub use newer::{csi, cursor, execute, queue, style, terminal, tty, Command, ExecutableCommand, QueueableCommand, SynchronizedUpdate};

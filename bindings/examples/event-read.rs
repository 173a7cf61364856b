//! Prints each event on a line: keys, clicks, pastes, focus and sizes. Esc ends it.
//!
//! cargo run --manifest-path bindings/Cargo.toml --example event-read
use crossterm::event::{
    read, DisableBracketedPaste, DisableFocusChange, DisableMouseCapture, EnableBracketedPaste, EnableFocusChange, EnableMouseCapture,
    Event, KeyCode,
};
use crossterm::{execute, terminal};
use std::io::{self, stdout};

/// Prints events until Esc.
fn print_events() -> io::Result<()> {
    loop {
        let event = read()?;
        print!("{event:?}\r\n");
        if event == Event::Key(KeyCode::Esc.into()) {
            return Ok(());
        }
    }
}

fn main() -> io::Result<()> {
    println!("Type, click, paste or resize; Esc ends it.");
    terminal::enable_raw_mode()?;
    execute!(stdout(), EnableMouseCapture, EnableFocusChange, EnableBracketedPaste)?;
    let printed = print_events();
    execute!(stdout(), DisableBracketedPaste, DisableFocusChange, DisableMouseCapture)?;
    terminal::disable_raw_mode()?;
    printed
}

//! A first program: a green line on the other screen, until Esc.
//!
//! cargo run --manifest-path bindings/Cargo.toml --example hello
use crossterm::event::{read, Event, KeyCode};
use crossterm::{
    execute,
    style::{Print, Stylize},
    terminal,
};

fn main() -> std::io::Result<()> {
    terminal::enable_raw_mode()?;
    execute!(std::io::stdout(), terminal::EnterAlternateScreen, Print("Esc ends it".green()))?;
    while read()? != Event::Key(KeyCode::Esc.into()) {}
    execute!(std::io::stdout(), terminal::LeaveAlternateScreen)?;
    terminal::disable_raw_mode()
}

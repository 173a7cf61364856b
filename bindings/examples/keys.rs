//! Reads events by itself, and gives them to a line. Esc gives it up.
//!
//! cargo run --manifest-path bindings/Cargo.toml --example keys
use crossterm::event::{read, Event, KeyCode};
use crossterm::line::{Editor, Limits, LineError, Outcome};
use crossterm::terminal;
use std::io::{self, stdout, Write};

const PROMPT: &str = "name: ";

/// Takes events until the line ends, or is given up.
fn ask(editor: &mut Editor, out: &mut impl Write) -> io::Result<Option<Outcome>> {
    let (columns, rows) = terminal::size()?;
    editor.begin(PROMPT, columns, rows)?;
    loop {
        editor.show(out)?;
        let event = read()?;
        match event {
            Event::Resize(columns, rows) => editor.resize(columns, rows)?,
            Event::Key(key) if key.code == KeyCode::Esc => return Ok(None),
            _ => match editor.turn(&event) {
                Ok(Outcome::Going) => {}
                Ok(Outcome::Ring) | Err(LineError::TooLong) => out.write_all(b"\x07")?,
                ended => return Ok(Some(ended?)),
            },
        }
    }
}

fn main() -> io::Result<()> {
    let mut editor = Editor::new(Limits { bytes: 20, ..Limits::default() })?;
    terminal::enable_raw_mode()?;
    let asked = ask(&mut editor, &mut stdout().lock());
    terminal::disable_raw_mode()?;
    editor.flush(&mut stdout())?;
    match asked? {
        Some(Outcome::Line(name)) => println!("Hello {name}."),
        _ => println!("\nNo name."),
    }
    Ok(())
}

//! Asks for lines until Ctrl-D.
use crossterm::line::{Editor, Limits, Outcome};

fn main() -> std::io::Result<()> {
    let mut editor = Editor::new(Limits::default())?;
    while let Outcome::Line(text) = editor.readline("> ")? {
        std::hint::black_box(text);
    }
    Ok(())
}

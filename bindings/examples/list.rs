//! A list to choose from: Up, Down, Home, End, or the wheel move the mark, Enter chooses, Esc leaves.
//!
//! cargo run --manifest-path bindings/Cargo.toml --example list
use crossterm::cursor::{Hide, MoveToNextLine, MoveToPreviousLine, Show};
use crossterm::event::{read, DisableMouseCapture, EnableMouseCapture, Event, KeyCode, KeyEventKind, MouseEventKind};
use crossterm::style::{Print, Stylize};
use crossterm::terminal::{self, Clear, ClearType};
use crossterm::{execute, queue};
use std::io::{self, stdout, Write};

const CHOICES: [&str; 6] = ["apples", "bread", "cheese", "dates", "eggs", "figs"];

/// What an event asks for.
enum Act {
    Move(usize),
    Choose,
    Leave,
    Nothing,
}

fn act_of(event: &Event, marked: usize) -> Act {
    let last = CHOICES.len() - 1;
    match event {
        Event::Key(key) if key.kind != KeyEventKind::Release => match key.code {
            KeyCode::Up => Act::Move(marked.saturating_sub(1)),
            KeyCode::Down => Act::Move(last.min(marked + 1)),
            KeyCode::Home => Act::Move(0),
            KeyCode::End => Act::Move(last),
            KeyCode::Enter => Act::Choose,
            KeyCode::Esc => Act::Leave,
            _ => Act::Nothing,
        },
        Event::Mouse(mouse) => match mouse.kind {
            MouseEventKind::ScrollUp => Act::Move(marked.saturating_sub(1)),
            MouseEventKind::ScrollDown => Act::Move(last.min(marked + 1)),
            _ => Act::Nothing,
        },
        _ => Act::Nothing,
    }
}

/// Draws the list from the cursor's line on, and leaves the cursor at its first line.
fn draw(out: &mut impl Write, marked: usize) -> io::Result<()> {
    for (place, choice) in CHOICES.iter().enumerate() {
        queue!(out, Clear(ClearType::CurrentLine))?;
        if place == marked {
            queue!(out, Print("> ".bold()), Print(choice.reverse()))?;
        } else {
            queue!(out, Print("  "), Print(choice))?;
        }
        queue!(out, Print("\r\n"))?;
    }
    queue!(out, MoveToPreviousLine(CHOICES.len() as u16))?;
    out.flush()
}

/// Lets the user choose, and returns what was chosen, or `None`.
fn choose(out: &mut impl Write) -> io::Result<Option<&'static str>> {
    let mut marked = 0;
    loop {
        draw(out, marked)?;
        match act_of(&read()?, marked) {
            Act::Move(place) => marked = place,
            Act::Choose => return Ok(Some(CHOICES[marked])),
            Act::Leave => return Ok(None),
            Act::Nothing => {}
        }
    }
}

fn main() -> io::Result<()> {
    terminal::enable_raw_mode()?;
    execute!(stdout(), EnableMouseCapture, Hide)?;
    let chosen = choose(&mut stdout().lock());
    execute!(stdout(), MoveToNextLine(CHOICES.len() as u16), Show, DisableMouseCapture)?;
    terminal::disable_raw_mode()?;
    match chosen? {
        Some(choice) => println!("You chose {choice}."),
        None => println!("You chose nothing."),
    }
    Ok(())
}

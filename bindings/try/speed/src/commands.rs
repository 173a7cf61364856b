//! Commands into a buffer, as a program draws: five of a frame, two with a styled text, and two that are flushed; and five to standard output.
use crossterm::cursor::MoveTo;
use crossterm::style::{Attribute, Color, Print, PrintStyledContent, SetAttribute, SetBackgroundColor, SetForegroundColor, Stylize};
use crossterm::{execute, queue};
use std::hint::black_box;
use std::io::{self, BufWriter, Write};
use std::time::Instant;

/// How many times they are written in a round.
const TIMES: u16 = 200;

fn plain(out: &mut impl Write, n: u16) -> io::Result<()> {
    let color = Color::Rgb { r: n as u8, g: 20, b: 200 };
    queue!(
        out,
        MoveTo(n, n),
        SetForegroundColor(color),
        SetBackgroundColor(Color::DarkBlue),
        SetAttribute(Attribute::Bold),
        Print("text")
    )
}

fn styled(out: &mut impl Write, n: u16) -> io::Result<()> {
    queue!(out, MoveTo(n, n), PrintStyledContent("text".red().on_blue().bold()))
}

fn executed(out: &mut impl Write, n: u16) -> io::Result<()> {
    execute!(out, MoveTo(n, n), Print("text"))
}

/// The nanoseconds of the fastest round.
fn fastest<W: Write>(mut out: W, rounds: u32, write: impl Fn(&mut W, u16) -> io::Result<()>) -> io::Result<f64> {
    let mut least = f64::MAX;
    for _ in 0..rounds {
        let from = Instant::now();
        for n in 0..TIMES {
            write(black_box(&mut out), black_box(n))?;
        }
        least = least.min(from.elapsed().as_nanos() as f64);
    }
    Ok(least)
}

/// The nanoseconds of a command in the fastest round.
pub fn least(what: &str, rounds: u32) -> io::Result<f64> {
    let buffer = BufWriter::new(io::sink());
    let (least, commands) = match what {
        "plain" => (fastest(buffer, rounds, |out, n| plain(out, n))?, 5),
        "styled" => (fastest(buffer, rounds, |out, n| styled(out, n))?, 2),
        "execute" => (fastest(buffer, rounds, |out, n| executed(out, n))?, 2),
        _ => (fastest(io::stdout(), rounds, |out, n| plain(out, n))?, 5),
    };
    Ok(least / f64::from(TIMES * commands))
}

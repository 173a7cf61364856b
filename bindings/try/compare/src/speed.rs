//! Nanoseconds a byte and a command: the least of several rounds.

use crate::alike::Draw;
use crossterm::event::source::unix::Parser as Theirs;
use crossterm::queue;
use gelvanh::flat::{Event as Flat, FlatParser};
use gelvanh::{put_command, Color, Command, Parser};
use std::collections::VecDeque;
use std::hint::black_box;
use std::time::{Duration, Instant};

const SIZE: usize = 1 << 20;

fn least(mut f: impl FnMut()) -> f64 {
    let end = Instant::now() + Duration::from_millis(700);
    let mut least = f64::MAX;
    while Instant::now() < end {
        let from = Instant::now();
        f();
        least = least.min(from.elapsed().as_nanos() as f64);
    }
    least
}

fn repeat(draw: &mut Draw, mut one: impl FnMut(&mut Draw) -> Vec<u8>) -> Vec<u8> {
    let mut bytes = Vec::with_capacity(SIZE + 64);
    while bytes.len() < SIZE {
        bytes.extend(one(draw));
    }
    bytes
}

fn inputs() -> Vec<(&'static str, Vec<u8>)> {
    let mut draw = Draw(7);
    let letters = repeat(&mut draw, |d| vec![32 + d.below(95) as u8]);
    let utf8 = repeat(&mut draw, |d| char::from_u32(0xC0 + d.below(0x2000) as u32).unwrap().to_string().into_bytes());
    let keys = repeat(&mut draw, |d| format!("\x1b[1;{}{}", 2 + d.below(7), b"ABCDHF"[d.below(6)] as char).into_bytes());
    let mouse = repeat(&mut draw, |d| format!("\x1b[<{};{};{}M", d.below(3), 1 + d.below(200), 1 + d.below(60)).into_bytes());
    let mut paste = b"\x1b[200~".to_vec();
    paste.extend(repeat(&mut draw, |d| vec![b" etaoinshrdlu\n"[d.below(14)]]));
    paste.extend(b"\x1b[201~");
    let mut hostile = b"\x1b[1".to_vec();
    hostile.extend(vec![b'0'; 4000]);
    hostile.push(b'~');
    let hostile = hostile.repeat(SIZE / hostile.len());
    vec![("letters", letters), ("utf8", utf8), ("keys", keys), ("mouse", mouse), ("paste", paste), ("hostile", hostile)]
}

/// The archive's table alone.
fn table(bytes: &[u8], kept: &mut Vec<u8>) -> usize {
    let mut parser = FlatParser::default();
    let mut events = [Flat::default(); 64];
    let (mut rest, mut all) = (bytes, 0);
    kept.clear();
    while !rest.is_empty() {
        let pasting = parser.is_pasting();
        let (taken, count) = parser.feed(rest, true, false, &mut events);
        if pasting {
            kept.extend_from_slice(&rest[..taken]);
        }
        black_box(&events);
        all += count;
        rest = &rest[taken..];
    }
    all
}

/// A program's way through the events in blocks of 1024 bytes, as a reader has them.
fn blocks(bytes: &[u8], mut f: impl FnMut(&[u8])) {
    bytes.chunks(1024).for_each(|block| f(block));
}

fn parsers() {
    println!("ns a byte     crossterm   gelvanh: queue         each event          flat events         table");
    for (name, bytes) in inputs() {
        let theirs = least(|| {
            let mut parser = Theirs::default();
            blocks(&bytes, |block| {
                parser.advance(block, true);
                while let Some(event) = parser.next() {
                    black_box(event);
                }
            });
        });
        let mut parser = Parser::default();
        let mut queue = VecDeque::new();
        let queued = least(|| {
            blocks(&bytes, |block| {
                queue.extend(parser.feed(block, true, false));
                while let Some(event) = queue.pop_front() {
                    black_box(event);
                }
            });
        });
        let each = least(|| {
            blocks(&bytes, |block| {
                for event in parser.feed(block, true, false) {
                    black_box(event);
                }
            });
        });
        let flat = least(|| {
            blocks(&bytes, |block| {
                for event in parser.flat(block, true, false) {
                    black_box(event);
                }
            });
        });
        let mut kept = Vec::new();
        let numbers = least(|| {
            black_box(table(&bytes, &mut kept));
        });
        let n = bytes.len() as f64;
        let part = |time: f64| format!("{:10.2} ({:.2})", time / n, time / theirs);
        println!("{name:10} {:12.2} {} {} {} {}", theirs / n, part(queued), part(each), part(flat), part(numbers));
    }
}

/// The commands of a screen of 50 x 200 cells: a place, two colours and a letter each.
fn cells(mut f: impl FnMut(u16, u16, u8)) {
    for row in 0..50 {
        for column in 0..200 {
            f(column, row, (row as u8).wrapping_mul(7).wrapping_add(column as u8));
        }
    }
}

fn commands() {
    use crossterm::{cursor::MoveTo, style};
    let mut theirs = Vec::with_capacity(1 << 20);
    let their_time = least(|| {
        theirs.clear();
        cells(|column, row, c| {
            let letter = (b'a' + c % 26) as char;
            let _ = queue!(
                theirs,
                MoveTo(column, row),
                style::SetForegroundColor(style::Color::AnsiValue(c)),
                style::SetBackgroundColor(style::Color::Rgb { r: c, g: 1, b: 2 }),
                style::Print(letter)
            );
        });
    });
    let mut ours = vec![0; 1 << 20];
    let mut length = 0;
    let our_time = least(|| {
        length = 0;
        let mut put = |command: Command| length += put_command(&mut ours[length..], &command, true).unwrap_or(0);
        cells(|column, row, c| {
            let letter = [b'a' + c % 26];
            put(Command::MoveTo(column, row));
            put(Command::SetForegroundColor(Color::AnsiValue(c)));
            put(Command::SetBackgroundColor(Color::Rgb { r: c, g: 1, b: 2 }));
            put(Command::Print(std::str::from_utf8(&letter).unwrap_or("")));
        });
    });
    let same = if theirs == ours[..length] { "the same" } else { "OTHER" };
    println!("40000 commands, {length} bytes, {same}: crossterm {:.1} ns a command, gelvanh {:.1} ({:.2})", their_time / 40e3, our_time / 40e3, our_time / their_time);
}

pub fn run() {
    parsers();
    commands();
}

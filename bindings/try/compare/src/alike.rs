//! The same events on random pieces.

use crossterm::event::source::unix::Parser as Theirs;
use crossterm::event::{self as theirs, InternalEvent as Told};
use gelvanh::{Event, InternalEvent, Parser};
use std::panic::{catch_unwind, AssertUnwindSafe};

pub struct Draw(pub u64);

impl Draw {
    pub fn below(&mut self, n: usize) -> usize {
        self.0 ^= self.0 << 13;
        self.0 ^= self.0 >> 7;
        self.0 ^= self.0 << 17;
        (self.0 >> 33) as usize % n
    }
}

/// crossterm's event in words, which are the same for both: `Debug`'s, with modifiers by their bits.
fn their_words(told: &Told) -> String {
    match told {
        Told::Event(theirs::Event::Key(k)) => {
            format!("key {:?} {} {:?} {}", k.code, k.modifiers.bits(), k.kind, k.state.bits())
        }
        Told::Event(theirs::Event::Mouse(m)) => format!("mouse {:?} {} {} {}", m.kind, m.column, m.row, m.modifiers.bits()),
        Told::Event(event) => format!("{event:?}"),
        Told::CursorPosition(column, row) => format!("cursor {column} {row}"),
    }
}

fn our_words(told: &InternalEvent) -> String {
    match told {
        InternalEvent::Event(Event::Key(k)) => {
            format!("key {:?} {} {:?} {}", k.code, k.modifiers.bits(), k.kind, k.state.bits())
        }
        InternalEvent::Event(Event::Mouse(m)) => format!("mouse {:?} {} {} {}", m.kind, m.column, m.row, m.modifiers.bits()),
        InternalEvent::Event(event) => format!("{event:?}"),
        InternalEvent::CursorPosition(column, row) => format!("cursor {column} {row}"),
        InternalEvent::KeyboardEnhancementFlags(flags) => format!("flags {}", flags.bits()),
        InternalEvent::PrimaryDeviceAttributes => "attributes".into(),
    }
}

/// A sequence that 0.25.0 knows: replies after `CSI ?`, `CSI P`, `Q` and `S` and wheels to the side came later.
fn sequence(draw: &mut Draw, out: &mut Vec<u8>) {
    let n = [0, 1, 2, 3, 9, 13, 27, 57358, 57399, 65535, 65536, 97][draw.below(12)];
    let m = draw.below(260);
    let text = match draw.below(14) {
        0 => "abcXYZ 09~".chars().nth(draw.below(10)).unwrap().to_string(),
        1 => char::from_u32(draw.below(0x3000) as u32).unwrap_or('x').to_string(),
        2 => format!("\x1b[{}", b"ABCDHFZIO"[draw.below(9)] as char),
        3 => format!("\x1bO{}", b"ABCDHFPQRS"[draw.below(10)] as char),
        4 => format!("\x1b[1;{}{}", 1 + m % 16, b"ABCDHFPQRS"[draw.below(10)] as char),
        5 => format!("\x1b[{};{}~", 1 + m % 35, 1 + m % 16),
        6 => format!("\x1b[{};{}:{}u", n, 1 + m % 64, m % 4),
        7 => format!("\x1b[<{};{};{}{}", m % 66, 1 + n % 300, 1 + m, ['M', 'm'][draw.below(2)]),
        8 => format!("\x1b[{};{};{}M", 32 + m % 66, 1 + m, 1 + n % 200),
        9 => format!("\x1b[200~{}\x1b[201~", ["one", "tw\n\u{e9}", "\x1b[201", ""][draw.below(4)]),
        10 => "\x1b\x1b".into(),
        11 => format!("\x1b[{};{}R", 1 + m, 1 + n % 500),
        12 => "\x1b".into(),
        _ => "\x1b[[A".into(),
    };
    out.extend_from_slice(text.as_bytes());
    if draw.below(20) == 0 {
        out.push(draw.below(256) as u8);
    }
}

/// How many of so many pieces give other events.
pub fn run(pieces: usize) -> usize {
    let mut draw = Draw(12345);
    let (mut events, mut panics, mut differ) = (0usize, 0, 0);
    let (mut ours, mut theirs) = (Parser::default(), Theirs::default());
    for _ in 0..pieces {
        let mut bytes = Vec::new();
        for _ in 0..1 + draw.below(4) {
            sequence(&mut draw, &mut bytes);
        }
        bytes.truncate(1 + draw.below(bytes.len()));
        let more = draw.below(2) == 0;
        let given: Vec<InternalEvent> = ours.feed(&bytes, more, false).collect();
        let advanced = catch_unwind(AssertUnwindSafe(|| theirs.advance(&bytes, more)));
        if advanced.is_err() {
            panics += 1;
            (ours, theirs) = (Parser::default(), Theirs::default());
            continue;
        }
        let their: Vec<String> = theirs.by_ref().map(|event| their_words(&event)).collect();
        let our: Vec<String> = given.iter().map(our_words).collect();
        events += our.len();
        if our != their {
            differ += 1;
            if differ <= 12 {
                println!("differ at {:?}:\n  crossterm {their:?}\n  gelvanh   {our:?}", String::from_utf8_lossy(&bytes));
            }
            (ours, theirs) = (Parser::default(), Theirs::default());
        }
    }
    println!("{pieces} pieces, {events} events: {differ} differ; crossterm panicked at {panics}");
    differ
}

//! What a long paste takes that comes in one piece: its bytes and its text, and no table of so many events.

use gelvanh::{Classes, Event, HeldEvents, InternalEvent, Parser};
use std::fs;

/// The most memory that this process had so far, in KiB.
fn peak() -> usize {
    let status = fs::read_to_string("/proc/self/status").unwrap();
    let line = status.lines().find_map(|line| line.strip_prefix("VmHWM:")).unwrap();
    line.trim().trim_end_matches(" kB").parse().unwrap()
}

#[test]
fn a_long_paste_takes_no_long_table() {
    const COUNT: usize = 8 << 20;
    let piece = [b"\x1b[200~".to_vec(), vec![b'x'; COUNT], b"\x1b[201~".to_vec()].concat();
    let (mut parser, mut held) = (Parser::default(), HeldEvents::default());
    held.feed(&mut parser, &piece, false, true, Classes::EVENTS);
    let taken = held.take(Classes::EVENTS);
    assert!(matches!(taken, Some(InternalEvent::Event(Event::Paste(text))) if text.len() == COUNT));
    assert!(peak() < 120 << 10, "{} KiB", peak());
}

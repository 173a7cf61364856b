//! What a program sees of a terminal, a line each: `behave.py` runs it in one, types, and reads the lines.
mod cuts;
mod stream;

use crossterm::event::{poll, read, try_read, Event, KeyCode};
use crossterm::{cursor, execute, style, terminal};
use std::io;
use std::sync::atomic::{AtomicUsize, Ordering};
use std::thread;
use std::time::{Duration, Instant};

/// Prints a line to the program's standard error, which `behave.py` reads apart from the terminal.
macro_rules! tell {
    ($($arg:tt)*) => { eprintln!($($arg)*) };
}
pub(crate) use tell;

const QUIT: KeyCode = KeyCode::Char('q');

fn is_quit(event: &Event) -> bool {
    event.as_key_event().map_or(false, |key| key.code == QUIT)
}

/// A short name of an event.
pub(crate) fn name(event: &Event) -> String {
    match event {
        Event::Key(key) => format!("{} {} {:?}", key.code, key.modifiers, key.kind),
        other => format!("{other:?}"),
    }
}

fn tell_events() -> io::Result<()> {
    loop {
        let event = read()?;
        tell!("{}", name(&event));
        if is_quit(&event) {
            return Ok(());
        }
    }
}

fn keys() -> io::Result<()> {
    terminal::enable_raw_mode()?;
    terminal::enable_raw_mode()?;
    tell!("raw {}", terminal::is_raw_mode_enabled()?);
    tell_events()?;
    terminal::disable_raw_mode()?;
    tell!("raw {}", terminal::is_raw_mode_enabled()?);
    Ok(())
}

/// How often letters come, until `q` does.
fn count() -> io::Result<()> {
    terminal::enable_raw_mode()?;
    poll(Duration::ZERO)?;
    tell!("ready");
    let mut n = 0;
    while !is_quit(&read()?) {
        n += 1;
    }
    terminal::disable_raw_mode()?;
    tell!("{n}");
    Ok(())
}

/// Waits for one event, and takes all that are there.
fn drain() -> io::Result<()> {
    terminal::enable_raw_mode()?;
    tell!("ready");
    poll(Duration::MAX)?;
    while poll(Duration::ZERO)? {
        tell!("{}", name(&read()?));
    }
    terminal::disable_raw_mode()
}

fn limits() -> io::Result<()> {
    terminal::enable_raw_mode()?;
    tell!("zero {} {:?}", poll(Duration::ZERO)?, try_read());
    let start = Instant::now();
    tell!("short {} {}", poll(Duration::from_millis(100))?, start.elapsed() >= Duration::from_millis(100));
    tell!("ready");
    tell!("max {}", poll(Duration::MAX)?);
    tell!("zero {}", poll(Duration::ZERO)?);
    tell!("{:?}", try_read().map(|event| name(&event)));
    tell!("huge {}", poll(Duration::from_secs(u64::MAX / 4))?);
    tell!("{}", name(&read()?));
    terminal::disable_raw_mode()
}

/// A thread reads while this one polls, and asks for the cursor's place.
fn two_threads() -> io::Result<()> {
    terminal::enable_raw_mode()?;
    let reading = thread::spawn(read);
    thread::sleep(Duration::from_millis(100));
    let start = Instant::now();
    let polled = poll(Duration::from_millis(300))?;
    let took = start.elapsed();
    tell!("poll {polled} {}", took >= Duration::from_millis(300) && took < Duration::from_millis(600));
    tell!("place {:?}", cursor::position()?);
    tell!("ready");
    let read = reading.join().map_err(|_| io::ErrorKind::Other)??;
    tell!("{}", name(&read));
    terminal::disable_raw_mode()
}

/// Whoever polls sees an event that came while the other thread waited, and one of both takes it.
fn shared_wait() -> io::Result<()> {
    terminal::enable_raw_mode()?;
    let polling = thread::spawn(|| poll(Duration::from_secs(5)));
    thread::sleep(Duration::from_millis(100));
    tell!("ready");
    let here = poll(Duration::from_secs(5))?;
    let there = polling.join().map_err(|_| io::ErrorKind::Other)??;
    tell!("{here} {there} {}", name(&read()?));
    terminal::disable_raw_mode()
}

fn place() -> io::Result<()> {
    for _ in 0..2 {
        tell!("{:?} raw {}", cursor::position().map_err(|e| e.kind()), terminal::is_raw_mode_enabled()?);
    }
    Ok(())
}

fn keyboard() -> io::Result<()> {
    for _ in 0..3 {
        tell!("{:?}", terminal::supports_keyboard_enhancement().map_err(|e| e.kind()));
    }
    Ok(())
}

/// What is printed if standard input or output is no terminal.
fn filter() -> io::Result<()> {
    tell!("size {:?}", terminal::size()?);
    let window = terminal::window_size()?;
    tell!("window {} {} {} {}", window.columns, window.rows, window.width, window.height);
    keys()
}

fn no_terminal() -> io::Result<()> {
    tell!("raw {}", terminal::enable_raw_mode().is_ok());
    tell!("poll {}", poll(Duration::from_millis(10)).is_ok());
    tell!("read {}", read().is_ok());
    tell!("window {}", terminal::window_size().is_ok());
    Ok(())
}

/// Reads at the end of input: each call reports it, and none runs on.
fn end() -> io::Result<()> {
    tell!("ready");
    tell!("{:?}", read().map_err(|e| e.kind()));
    tell!("{:?}", poll(Duration::MAX).map_err(|e| e.kind()));
    tell!("{}", name(&read()?));
    Ok(())
}

/// How often this program's own handler of the resize was called.
static HANDLED: AtomicUsize = AtomicUsize::new(0);

extern "C" fn handle(_: i32) {
    HANDLED.fetch_add(1, Ordering::SeqCst);
}

extern "C" {
    fn signal(signal: i32, handler: extern "C" fn(i32)) -> usize;
}

/// A handler from before the first call is called too.
fn chained() -> io::Result<()> {
    // SAFETY: the handler does what one may; 28 is SIGWINCH.
    unsafe { signal(28, handle) };
    poll(Duration::ZERO)?;
    tell!("ready");
    let event = read()?;
    tell!("{} handled {}", name(&event), HANDLED.load(Ordering::SeqCst));
    Ok(())
}

/// Reads from a terminal that is gone: no call waits for it.
fn hangup() -> io::Result<()> {
    // The terminal is open from here on.
    poll(Duration::ZERO)?;
    tell!("ready");
    for _ in 0..3 {
        tell!("{:?}", read().map_err(|e| e.kind()));
    }
    Ok(())
}

fn colours() -> io::Result<()> {
    let mut out = Vec::new();
    execute!(out, style::SetForegroundColor(style::Color::Red))?;
    style::force_color_output(true);
    execute!(out, style::SetForegroundColor(style::Color::Red))?;
    style::force_color_output(false);
    execute!(out, style::SetForegroundColor(style::Color::Red))?;
    tell!("{}", String::from_utf8_lossy(&out).escape_debug());
    Ok(())
}

fn main() -> io::Result<()> {
    match std::env::args().nth(1).as_deref() {
        Some("keys") => keys(),
        Some("count") => count(),
        Some("drain") => drain(),
        Some("limits") => limits(),
        Some("two_threads") => two_threads(),
        Some("shared_wait") => shared_wait(),
        Some("place") => place(),
        Some("keyboard") => keyboard(),
        Some("filter") => filter(),
        Some("no_terminal") => no_terminal(),
        Some("end") => end(),
        Some("chained") => chained(),
        Some("hangup") => hangup(),
        Some("colours") => colours(),
        Some("stream") => stream::run(),
        how => cuts::run(how.unwrap_or_default()),
    }
}

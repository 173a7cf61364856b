//! `readline` on a terminal that is played: its lines, what it writes, and the mode that it leaves.

use gelvanh::line::{read_hidden, Editor, Helper, Limits, LineError, Mask, Outcome, Prompt, Terminal, Words};
use gelvanh::{Attribute, Color, Event, KeyCode, KeyEvent, KeyModifiers, Style};
use std::collections::VecDeque;
use std::io::{self, ErrorKind, Write};
use std::panic::{catch_unwind, AssertUnwindSafe};

/// What a terminal does next.
enum Act {
    /// An event comes, and the next one with it.
    With(Event),
    /// An event comes alone.
    Alone(Event),
    Fail(ErrorKind),
}

/// A terminal of 40 columns that has acts, and keeps what it was shown.
struct Played {
    acts: VecDeque<Act>,
    shown: Vec<u8>,
    is_raw: bool,
    /// How often the mode was set.
    modes: usize,
    /// How many bytes it takes before it fails.
    room: usize,
}

impl Played {
    fn new(acts: Vec<Act>) -> Played {
        Played { acts: acts.into(), shown: Vec::new(), is_raw: false, modes: 0, room: usize::MAX }
    }

    fn shown(&self) -> String {
        String::from_utf8_lossy(&self.shown).replace('\x1b', "^[").replace('\x07', "^G")
    }

    /// How often it was shown a text.
    fn count(&self, text: &str) -> usize {
        self.shown().matches(text).count()
    }
}

impl Write for Played {
    fn write(&mut self, bytes: &[u8]) -> io::Result<usize> {
        if bytes.len() > self.room {
            return Err(ErrorKind::BrokenPipe.into());
        }
        self.room -= bytes.len();
        self.shown.extend_from_slice(bytes);
        Ok(bytes.len())
    }

    fn flush(&mut self) -> io::Result<()> {
        Ok(())
    }
}

impl Terminal for Played {
    fn set_raw_mode(&mut self, is_on: bool) -> io::Result<bool> {
        self.modes += 1;
        let was_raw = std::mem::replace(&mut self.is_raw, is_on);
        Ok(was_raw != is_on)
    }

    fn size(&mut self) -> io::Result<(u16, u16)> {
        Ok((40, 10))
    }

    fn has_event(&mut self) -> io::Result<bool> {
        Ok(matches!(self.acts.front(), Some(Act::With(_))))
    }

    fn read(&mut self) -> io::Result<Event> {
        match self.acts.pop_front() {
            Some(Act::With(event) | Act::Alone(event)) => Ok(event),
            Some(Act::Fail(kind)) => Err(kind.into()),
            None => Err(ErrorKind::UnexpectedEof.into()),
        }
    }
}

fn key(code: KeyCode) -> Event {
    Event::Key(code.into())
}

fn control(c: char) -> Event {
    Event::Key(KeyEvent::new(KeyCode::Char(c), KeyModifiers::CONTROL))
}

/// The acts of a text, a line feed of which is Enter, each alone.
fn typed(text: &str) -> Vec<Act> {
    text.chars().map(|c| Act::Alone(key(if c == '\n' { KeyCode::Enter } else { KeyCode::Char(c) }))).collect()
}

fn editor() -> Editor {
    Editor::new(Limits { bytes: 20, ..Limits::default() }).expect("there is memory")
}

#[test]
fn lines_end_as_keys_say() {
    let rows: [(Vec<Event>, Outcome); 5] = [
        (vec![key(KeyCode::Char('a')), key(KeyCode::Enter)], Outcome::Line("a".into())),
        (vec![Event::Paste("two\nlines".into()), key(KeyCode::Enter)], Outcome::Line("two lines".into())),
        (vec![Event::FocusLost, Event::Resize(20, 5), key(KeyCode::Char('b')), control('j')], Outcome::Line("b".into())),
        (vec![key(KeyCode::Char('a')), control('c')], Outcome::Interrupted),
        (vec![control('d')], Outcome::Closed),
    ];
    for (events, outcome) in rows {
        let mut terminal = Played::new(events.into_iter().map(Act::With).collect());
        assert_eq!(editor().readline("> ", &mut terminal).expect("it has an end"), outcome);
        assert!(!terminal.is_raw && terminal.shown().ends_with("\r\n^[[?2004l"), "{}", terminal.shown());
    }
}

#[test]
fn the_mode_is_as_it_was_however_it_ends() {
    // A raw mode that was on before stays on, and isn't set again.
    let mut terminal = Played { is_raw: true, ..Played::new(typed("a\n")) };
    assert_eq!(editor().readline("> ", &mut terminal).expect("a line"), Outcome::Line("a".into()));
    assert!(terminal.is_raw && terminal.modes == 1);

    let mut terminal = Played::new(vec![Act::With(key(KeyCode::Char('a'))), Act::Fail(ErrorKind::TimedOut)]);
    let mut editor = editor();
    assert_eq!(editor.readline("> ", &mut terminal).expect_err("it fails").kind(), ErrorKind::TimedOut);
    assert!(!terminal.is_raw && terminal.modes == 2 && terminal.shown().ends_with("^[[?2004l"));
    // What was typed before goes on.
    terminal.acts = typed("b\n").into();
    assert_eq!(editor.readline("> ", &mut terminal).expect("a line"), Outcome::Line("ab".into()));

    struct Panics;
    impl Helper for Panics {
        fn complete(&self, _: &str, _: &str) -> Option<String> {
            panic!("a helper may")
        }
    }
    let mut terminal = Played::new(vec![Act::Alone(key(KeyCode::Tab))]);
    let mut editor = editor_with(Panics);
    assert!(catch_unwind(AssertUnwindSafe(|| editor.readline("> ", &mut terminal))).is_err());
    assert!(!terminal.is_raw && terminal.shown().ends_with("^[[?2004l"));
}

fn editor_with<H: Helper>(helper: H) -> Editor<H> {
    editor().with_helper(helper)
}

#[test]
fn no_line_is_lost_by_a_terminal_that_fails() {
    let whole = {
        let mut terminal = Played::new(typed("ab\n"));
        editor().readline("> ", &mut terminal).expect("a line");
        terminal.shown.len()
    };
    let (mut lines, mut faults) = (0, 0);
    for room in 0..whole {
        let mut terminal = Played { room, ..Played::new(typed("ab\n")) };
        let mut editor = editor();
        let ended = editor.readline("> ", &mut terminal);
        assert!(!terminal.is_raw);
        match ended {
            Ok(outcome) => {
                assert_eq!(outcome, Outcome::Line("ab".into()));
                lines += 1;
            }
            Err(error) => {
                assert_eq!(error.kind(), ErrorKind::BrokenPipe);
                // All keys that were read are in the line.
                assert_eq!(editor.text(), "ab"[..3 - terminal.acts.len()]);
                faults += 1;
            }
        }
    }
    assert!(lines > 0 && faults > 0, "{lines} lines, {faults} faults");
}

#[test]
fn what_comes_at_once_is_shown_at_once() {
    let burst = |text: &str| text.chars().map(|c| Act::With(key(KeyCode::Char(c)))).collect::<Vec<Act>>();
    let mut acts = burst("burst");
    acts.extend(typed("y\n"));
    let mut terminal = Played::new(acts);
    assert_eq!(editor().readline("> ", &mut terminal).expect("a line"), Outcome::Line("bursty".into()));
    // The prompt, then all but the last two keys in one frame, and the rest.
    assert_eq!((terminal.count("burst"), terminal.count("^[[?25h")), (1, 3), "{}", terminal.shown());

    // Enter is in the burst, and the line is shown nevertheless.
    let mut acts = burst("quick");
    acts.push(Act::With(key(KeyCode::Enter)));
    let mut terminal = Played::new(acts);
    assert_eq!(editor().readline("> ", &mut terminal).expect("a line"), Outcome::Line("quick".into()));
    assert_eq!((terminal.count("quick"), terminal.count("^[[?25h")), (1, 2), "{}", terminal.shown());
}

#[test]
fn bells_hints_and_windows() {
    let mut acts = typed("01234567890123456789");
    acts.extend(typed("x\n"));
    let mut terminal = Played::new(acts);
    assert_eq!(editor().readline("> ", &mut terminal).expect("a line"), Outcome::Line("01234567890123456789".into()));
    assert_eq!(terminal.count("^G"), 1);

    let mut terminal = Played::new([control('g'), key(KeyCode::Enter)].map(Act::Alone).into());
    assert_eq!(editor().readline("> ", &mut terminal).expect("a line"), Outcome::Line("".into()));
    assert_eq!(terminal.count("^G"), 1);

    let names = || Words::new(["help", "history"]);
    let mut terminal = Played::new(typed("hi\n"));
    assert_eq!(editor_with(names()).readline("> ", &mut terminal).expect("a line"), Outcome::Line("hi".into()));
    // The hints of h and of hi; the last one is erased before the row is left.
    assert!(terminal.count("elp") == 1 && terminal.count("tory") == 1 && terminal.count("^[[K\r\n") == 1, "{}", terminal.shown());

    let mut acts = typed("hi");
    acts.extend([key(KeyCode::Tab), Event::Key(KeyEvent::new(KeyCode::Tab, KeyModifiers::ALT)), key(KeyCode::Enter)].map(Act::Alone));
    let mut terminal = Played::new(acts);
    assert_eq!(editor_with(names()).readline("> ", &mut terminal).expect("a line"), Outcome::Line("history".into()));

    let mut acts = typed("ab");
    acts.extend([Event::Resize(9, 3), control('l'), key(KeyCode::Enter)].map(Act::Alone));
    let mut terminal = Played::new(acts);
    assert_eq!(editor().readline("> ", &mut terminal).expect("a line"), Outcome::Line("ab".into()));
    let shown = terminal.shown();
    let (resized, cleared) = (shown.find("^[[1G^[[J").expect("a resize"), shown.find("^[[2J^[[1;1H").expect("Ctrl-L"));
    assert!(resized < cleared && shown[resized..cleared].contains("ab") && shown[cleared..].contains("ab"), "{shown}");
}

#[test]
fn a_second_tab_lists_and_a_password_is_hidden() {
    let mut acts = typed("h");
    acts.extend([KeyCode::Tab, KeyCode::Tab, KeyCode::Char('e'), KeyCode::Enter].map(|code| Act::Alone(key(code))));
    let mut terminal = Played::new(acts);
    let mut editor = editor_with(Words::new(["help", "history", "quit"]));
    assert_eq!(editor.readline("> ", &mut terminal).expect("a line"), Outcome::Line("he".into()));
    let shown = terminal.shown();
    let listed = shown.find("history").expect("a list");
    assert!(shown[..listed].contains("help") && !shown.contains("quit") && terminal.count("history") == 1, "{shown}");

    for (mask, stars) in [(Mask::Stars, 6), (Mask::Nothing, 0)] {
        let mut terminal = Played::new(typed("secret\n"));
        assert_eq!(read_hidden("PIN: ", mask, &mut terminal).expect("a line"), Outcome::Line("secret".into()));
        assert!(terminal.count("*") == stars && terminal.count("s") == 0 && terminal.count("PIN: ") == 1, "{}", terminal.shown());
    }
}

#[test]
fn a_prompt_has_parts_in_styles() {
    let blue = Style { foreground: Some(Color::Blue), ..Style::default() };
    let bold = Style { attributes: Attribute::Bold.into(), ..Style::default() };
    let prompt = Prompt::new("at ").part("~/src", blue).part("> ", bold);
    let mut terminal = Played::new(typed("a\n"));
    let mut editor = editor();
    assert_eq!(editor.readline(prompt.clone(), &mut terminal).expect("a line"), Outcome::Line("a".into()));
    let parts = "at ^[[38;5;12m~/src^[[0m^[[1m> ^[[0m";
    // The letter is in the eleventh column, behind all parts.
    assert!(terminal.count(parts) == 1 && terminal.count("^[[11Ga\r\n") == 1, "{}", terminal.shown());

    // The next prompt has no parts, and a string is one too.
    let mut terminal = Played::new(typed("b\n"));
    assert_eq!(editor.readline(&"> ".to_string(), &mut terminal).expect("a line"), Outcome::Line("b".into()));
    assert!(terminal.count("^[[K> ") == 1 && terminal.count("src") == 0, "{}", terminal.shown());

    let mut terminal = Played::new(typed("ab\n"));
    assert_eq!(read_hidden(prompt, Mask::Stars, &mut terminal).expect("a line"), Outcome::Line("ab".into()));
    assert!(terminal.count("~/src") == 1 && terminal.count("*") == 2, "{}", terminal.shown());

    let mut terminal = Played::new(typed("a\n"));
    let torn = Prompt::new("at ").part("~", blue).part("a\tb", bold);
    assert_eq!(editor.readline(torn, &mut terminal).expect_err("a control character").kind(), ErrorKind::InvalidInput);
    assert!(terminal.shown.is_empty() && terminal.modes == 0 && terminal.acts.len() == 2);
    editor.begin("", 80, 24).expect("a prompt");
    assert_eq!(editor.add_part("\x1b", blue), Err(LineError::Prompt));
    assert_eq!(editor.add_part("> ", Style::default()), Ok(()));
}

#[test]
fn what_is_refused_changes_nothing() {
    let mut terminal = Played::new(typed("a\n"));
    let mut editor = editor();
    assert_eq!(editor.readline("a\tb", &mut terminal).expect_err("a control character").kind(), ErrorKind::InvalidInput);
    assert!(terminal.shown.is_empty() && terminal.modes == 0 && terminal.acts.len() == 2);

    editor.paste("0123456789").expect("it has room");
    assert_eq!(editor.paste("01234567890"), Err(LineError::TooLong));
    let unnamed = KeyEvent::new(KeyCode::Char('a'), KeyModifiers::from_bits_retain(64));
    assert_eq!(editor.turn(&Event::Key(unnamed)), Ok(Outcome::Going));
    assert_eq!(editor.begin("\x1b", 80, 24), Err(LineError::Prompt));
    assert_eq!((editor.text(), editor.before().len()), ("0123456789".into(), 10));

    let rows = [
        (LineError::TooLong, ErrorKind::InvalidInput),
        (LineError::NoMemory, ErrorKind::OutOfMemory),
        (LineError::Prompt, ErrorKind::InvalidInput),
    ];
    for (error, kind) in rows {
        let made = io::Error::from(error);
        assert_eq!((made.kind(), made.to_string()), (kind, error.to_string()));
    }
}

/// An editor goes to another thread, and is freed there.
#[test]
fn an_editor_may_move_to_a_thread() {
    let mut editor = editor();
    editor.paste("here").expect("it has room");
    let text = std::thread::spawn(move || editor.text()).join().expect("it ends");
    assert_eq!(text, "here");
}

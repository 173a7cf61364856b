//! Plays the scripts of play.c through the crate `gelvanh`, and prints the same lines.
use gelvanh::{flat, Attribute, Attributes, Color, Style};
use gelvanh::line::{Editor, LineError, Limits, Mask, Outcome, Words};
use std::fmt::Write as _;
use std::io::{self, BufRead, Write};

/// Counts what is written, and its FNV-1a.
struct Sum {
    count: usize,
    hash: u64,
}

impl Write for Sum {
    fn write(&mut self, bytes: &[u8]) -> io::Result<usize> {
        self.count += bytes.len();
        self.hash = bytes.iter().fold(self.hash, |hash, byte| (hash ^ u64::from(*byte)).wrapping_mul(1_099_511_628_211));
        Ok(bytes.len())
    }

    fn flush(&mut self) -> io::Result<()> {
        Ok(())
    }
}

fn hex(text: &str) -> String {
    text.bytes().map(|byte| format!("{byte:02x}")).collect()
}

fn from_hex(digits: &str) -> String {
    let byte = |at| u8::from_str_radix(&digits[at..at + 2], 16).expect("digits");
    String::from_utf8((0..digits.len()).step_by(2).map(byte).collect()).expect("a text")
}

fn key_of(numbers: &str) -> flat::Event {
    let numbers: Vec<u32> = numbers.split(',').map(|number| number.parse().expect("a number")).collect();
    let [code, value, modifiers, press] = numbers[..] else { panic!("four numbers") };
    flat::Event { kind: 3, code: code as u16, value, modifiers: modifiers as u8, press: press as u8, ..flat::Event::default() }
}

/// Columns and rows.
fn size_of(numbers: &str) -> (u16, u16) {
    let (columns, rows) = numbers.split_once(',').expect("columns and rows");
    (columns.parse().expect("a number"), rows.parse().expect("a number"))
}

/// The style of a part by its place in play.c, or `None` for one that isn't there: nothing of this crate has its numbers.
fn style_of(place: &str) -> Option<Style> {
    let none = Style::default();
    match place {
        "0" => Some(none),
        "1" => Some(Style { foreground: Some(Color::Green), ..none }),
        "2" => Some(Style {
            foreground: Some(Color::Blue),
            background: Some(Color::White),
            attributes: Attribute::Bold.into(),
            ..none
        }),
        "3" => Some(Style {
            foreground: Some(Color::Rgb { r: 9, g: 8, b: 7 }),
            underline: Some(Color::AnsiValue(208)),
            attributes: Attributes::from(Attribute::Undercurled) | Attribute::Italic,
            ..none
        }),
        "4" => Some(Style { background: Some(Color::Reset), attributes: Attribute::Underdotted.into(), ..none }),
        _ => None,
    }
}

/// What comes of a word, as the number that the archive answers, and the line that was accepted.
fn act(editor: &mut Editor<Words>, word: &str, out: &mut Sum) -> (u32, Option<String>) {
    let (kind, rest) = word.split_at(1);
    let done = match kind {
        "b" => {
            let (size, prompt) = rest.split_once(':').expect("a size and a prompt");
            let (columns, rows) = size_of(size);
            editor.begin(&from_hex(prompt), columns, rows).map(|()| Outcome::Going)
        }
        "q" => {
            let (place, text) = rest.split_once(':').expect("a style and a text");
            let style = style_of(place).ok_or(LineError::Prompt);
            style.and_then(|style| editor.add_part(&from_hex(text), style)).map(|()| Outcome::Going)
        }
        "r" => {
            let (columns, rows) = size_of(rest);
            editor.resize(columns, rows).map(|()| Outcome::Going)
        }
        "h" => {
            editor.hide([None, Some(Mask::Nothing), Some(Mask::Stars)][rest.parse::<usize>().expect("a number")]);
            Ok(Outcome::Going)
        }
        "y" => editor.load_history(&from_hex(rest)).map(|()| Outcome::Going),
        "p" => editor.paste(&from_hex(rest)).map(|()| Outcome::Going),
        "s" => {
            editor.show(out).expect("a frame");
            Ok(Outcome::Going)
        }
        _ => editor.turn(&key_of(rest).to_user_event().expect("a key")),
    };
    match done {
        Ok(Outcome::Going) => (0, None),
        Ok(Outcome::Line(text)) => (1, Some(text)),
        Ok(Outcome::Interrupted) => (2, None),
        Ok(Outcome::Closed) => (3, None),
        Ok(Outcome::Ring) => (7, None),
        Err(LineError::TooLong) => (4, None),
        Err(LineError::NoMemory) => (5, None),
        Err(LineError::Prompt) => (6, None),
    }
}

fn run(script: &str) -> Result<String, LineError> {
    let editor = Editor::new(Limits { bytes: 60, lines: 4, steps: 20, kills: 3, ignore_dups: true, ignore_space: false })?;
    let mut editor = editor.with_helper(Words::new(["help", "history", "hi there"]));
    let mut out = Sum { count: 0, hash: 14_695_981_039_346_656_037 };
    let mut line = String::new();
    for word in script.split(' ') {
        let (answer, accepted) = act(&mut editor, word, &mut out);
        line += &answer.to_string();
        if let Some(text) = accepted {
            let _ = write!(line, "[{}]", hex(&text));
        }
    }
    editor.flush(&mut out).expect("a sum takes all bytes");
    let history = hex(&editor.history()?);
    let _ = write!(line, " {} {} {history} {} {:016x}", hex(&editor.text()), editor.before().len(), out.count, out.hash);
    Ok(line)
}

fn main() {
    for script in io::stdin().lock().lines() {
        println!("{}", run(&script.expect("a line")).expect("memory"));
    }
}

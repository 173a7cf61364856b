//! The rows of crates/probe, through the logic of the example `play`, and through the commands of `shim`.

mod form;
#[path = "../../examples/play/mod.rs"]
mod play;
mod say;

use form::Row;
use std::io::Write;

/// A mode of `probe`.
#[derive(Clone, Copy)]
enum Mode {
    Play,
    Say,
}

/// A run: where it is written, its input, and what has to come of it.
struct Run {
    place: String,
    given: Vec<u8>,
    want: Vec<u8>,
}

impl Mode {
    /// What the mode writes of an input: its output, and its error as `probe` writes it.
    fn written(self, given: &[u8]) -> Vec<u8> {
        let mut out = Vec::new();
        let done = match self {
            Mode::Play => play::run(given, &mut out),
            Mode::Say => say::run(given, &mut out),
        };
        if let Err(fault) = done {
            writeln!(out, "probe: {fault}").expect("a Vec takes all bytes");
        }
        out
    }

    /// What has to be written, by a row's text. Commands end no line.
    fn want(self, text: &str) -> Vec<u8> {
        let mut want = form::joined(text);
        let is_error = text.starts_with("probe: ");
        if !want.is_empty() && (matches!(self, Mode::Play) || is_error) {
            want.push(b'\n');
        }
        want
    }

    /// The run of a row whose lines are these. The bytes of acts become digits, unless the row is refused.
    fn run(self, row: Row) -> Run {
        let is_error = row.want.starts_with("probe: ");
        let given = match self {
            Mode::Play if !is_error => form::acts(&row.given),
            _ => form::joined(&row.given),
        };
        Run { given, want: self.want(&row.want), place: row.place }
    }

    /// Plays runs, of which there has to be one at least, and shows those that differ.
    fn check(self, name: &str, runs: &[Run]) {
        assert!(!runs.is_empty(), "{name} has nothing to play");
        let mut wrong = String::new();
        for run in runs {
            let came = self.written(&run.given);
            if came != run.want {
                let [given, want, came] = [&run.given, &run.want, &came].map(|bytes| form::shown(bytes));
                wrong += &format!("\n{}: {given}\n    must give {want}\n    and gave  {came}", run.place);
            }
        }
        assert!(wrong.is_empty(), "{wrong}");
        println!("{name}: {} runs", runs.len());
    }

    /// Plays all rows of a file.
    fn check_file(self, name: &str) {
        let runs: Vec<Run> = form::rows(name).into_iter().map(|row| self.run(row)).collect();
        self.check(name, &runs);
    }

    /// Plays the blocks of the page of `probe`, each of which has an answer behind it.
    fn check_page(self, mode: &str) {
        let page = form::read("README.md");
        let run = |(number, text): (usize, &str)| {
            let (given, rest) = text.split_once("```\n```text\n").expect("a block that answers");
            let want = rest.split("\n```").next().unwrap_or_default().replace('\n', " / ");
            Run { place: format!("crates/probe/README.md, block {number} of {mode}"), given: given.into(), want: self.want(&want) }
        };
        let runs: Vec<Run> = page.split(&format!("```{mode}\n")).enumerate().skip(1).map(run).collect();
        self.check("README.md", &runs);
    }
}

#[test]
fn rows_of_play() {
    Mode::Play.check_file("play.txt");
    Mode::Play.check_page("play");
}

/// Each row has the bytes of an event.
#[test]
fn rows_of_numbered() {
    let as_lines = |row: Row| Row { given: format!("piece {} / read event 1", row.given), ..row };
    let runs: Vec<Run> = form::rows("numbered.txt").into_iter().map(|row| Mode::Play.run(as_lines(row))).collect();
    Mode::Play.check("numbered.txt", &runs);
}

/// One file after the other, since colours are switched for the whole process.
#[test]
fn rows_of_commands() {
    Mode::Say.check_file("say.txt");
    Mode::Say.check_file("looks.txt");
    Mode::Say.check_page("say");
}

/// The command lines of `play` that have an input alone.
#[test]
fn rows_of_program() {
    let run = |row: Row| {
        let given = form::joined(row.given.strip_prefix("probe play <<< ")?);
        Some(Run { given, want: Mode::Play.want(&row.want), place: row.place })
    };
    let runs: Vec<Run> = form::rows("program.txt").into_iter().filter_map(run).collect();
    Mode::Play.check("program.txt", &runs);
}

/// The session in the folder of `probe`, and those below it.
#[test]
fn stored_sessions() {
    let folders = form::folders("sessions").into_iter().chain([String::from(".")]);
    let sessions = folders.filter(|folder| form::read(&format!("{folder}/args")).trim_end() == "play");
    let run = |folder: String| Run {
        given: form::read(&format!("{folder}/stdin")).into(),
        want: form::read(&format!("{folder}/stdout")).into(),
        place: format!("crates/probe/{folder}/stdout"),
    };
    Mode::Play.check("stored sessions", &sessions.map(run).collect::<Vec<Run>>());
}

//! The rows of lines in crates/test_values, through the archive: the default keys of GNU readline, as its manual says, and the lines of rustyline
//! 9.1.2 after random edits.

mod form;

use gelvanh::line::{Editor, Limits, LineError, Outcome};
use gelvanh::{Event, KeyCode, KeyEvent, KeyModifiers};

type Key = (KeyCode, KeyModifiers);

/// What keys do to a line whose cursor is at the bar.
struct Row {
    name: String,
    line: String,
    keys: Vec<Key>,
    after: String,
}

/// An editor with two lines in its history, and this line.
fn editor_of(line: &str) -> Result<Editor, LineError> {
    let mut editor = Editor::new(Limits::default())?;
    editor.load_history("first line\nsecond line\n")?;
    let (before, after) = line.split_once('|').expect("a line has a bar at its cursor");
    editor.paste(before)?;
    editor.paste(after)?;
    for _ in after.chars() {
        type_key(&mut editor, &(KeyCode::Left, KeyModifiers::NONE))?;
    }
    Ok(editor)
}

fn type_key(editor: &mut Editor, key: &Key) -> Result<Outcome, LineError> {
    editor.turn(&Event::Key(KeyEvent::new(key.0, key.1)))
}

/// The line, with a bar at the cursor.
fn shown(editor: &Editor) -> String {
    assert_eq!(editor.before() + &editor.after(), editor.text());
    format!("{}|{}", editor.before(), editor.after())
}

/// Ends the test if a file has other rows than it says, or if some differ, and shows these.
fn check(file: &str, what: &str, count: usize, said: usize, wrong: &[String]) {
    assert_eq!(count, said, "the number of {what} that crates/test_values/src/{file} has, and the number that lines.rt says");
    assert!(wrong.is_empty(), "crates/test_values/src/{file}, {what}:\n{}", wrong.join("\n"));
    println!("{what}: {count} rows");
}

/// Plays rows, and returns those that differ.
fn played(rows: &[Row]) -> Vec<String> {
    let came = |row: &Row| -> Result<String, LineError> {
        let mut editor = editor_of(&row.line)?;
        for key in &row.keys {
            type_key(&mut editor, key)?;
        }
        Ok(shown(&editor))
    };
    let differs = |row: &Row| {
        let came = came(row);
        let is_same = came.as_ref() == Ok(&row.after);
        (!is_same).then(|| format!("{}: {} must give {} and gave {came:?}", row.name, row.line, row.after))
    };
    rows.iter().filter_map(differs).collect()
}

/// A key of the table, as `(KeyCode::Char('k'), CONTROL)`.
fn key_of(text: &str) -> Key {
    let (code, modifiers) = text.rsplit_once(", ").unwrap_or_else(|| panic!("no key: {text}"));
    let modifiers = match modifiers {
        "NONE" => KeyModifiers::NONE,
        "CONTROL" => KeyModifiers::CONTROL,
        "ALT" => KeyModifiers::ALT,
        name => panic!("no modifiers: {name}"),
    };
    let code = match code {
        "Backspace" => KeyCode::Backspace,
        "Delete" => KeyCode::Delete,
        "Home" => KeyCode::Home,
        "End" => KeyCode::End,
        "Left" => KeyCode::Left,
        "Right" => KeyCode::Right,
        "Up" => KeyCode::Up,
        "Down" => KeyCode::Down,
        "Tab" => KeyCode::Tab,
        "F(5)" => KeyCode::F(5),
        code => {
            let letter = form::literal(code, '\'').filter(|_| code.starts_with("Char("));
            KeyCode::Char(letter.unwrap_or_else(|| panic!("no key: {code}")).0.chars().next().expect("a key has a character"))
        }
    };
    (code, modifiers)
}

/// A row of the table of keys.
fn row_of(text: &str) -> Row {
    let field = |name: &str| {
        let (_, rest) = text.split_once(&format!("{name}: ")).unwrap_or_else(|| panic!("no {name}: {text}"));
        form::literal(rest, '"').expect("a field has a text").0
    };
    let (_, keys) = text.split_once("keys: &[").expect("a row has keys");
    let (keys, _) = keys.split_once("],\n").expect("a list of keys ends");
    let keys = keys.split("(KeyCode::").skip(1).map(|key| key_of(key.trim_end().trim_end_matches(',').trim_end_matches(')')));
    Row { name: field("command"), line: field("line"), keys: keys.collect(), after: field("after") }
}

#[test]
fn keys_of_readline() {
    let source = form::read("lines.rt");
    let (text, count) = form::table(&source, "ROWS");
    let rows: Vec<Row> = text.split("Row {").skip(1).map(row_of).collect();
    check("lines.rt", "keys of readline", rows.len(), count, &played(&rows));
}

#[test]
fn pastes() -> Result<(), LineError> {
    let source = form::read("lines.rt");
    let (mut rest, said) = form::table(&source, "PASTES");
    let (mut wrong, mut count) = (Vec::new(), 0);
    while let Some((given, behind)) = form::literal(rest, '"') {
        let (want, behind) = form::literal(behind, '"').expect("a row has a line");
        rest = behind;
        count += 1;
        let mut editor = editor_of(">|")?;
        editor.paste(&given)?;
        if shown(&editor) != want {
            wrong.push(format!("{given:?} must give {want} and gave {}", shown(&editor)));
        }
    }
    check("lines.rt", "pastes", count, said, &wrong);
    Ok(())
}

/// The key of an edit.
fn key_of_edit(edit: &str) -> Key {
    let control = |c| (KeyCode::Char(c), KeyModifiers::CONTROL);
    let alt = |code| (code, KeyModifiers::ALT);
    let plain = |code| (code, KeyModifiers::NONE);
    match edit {
        "l" => plain(KeyCode::Left),
        "r" => plain(KeyCode::Right),
        "h" => plain(KeyCode::Home),
        "e" => plain(KeyCode::End),
        "b" => plain(KeyCode::Backspace),
        "d" => plain(KeyCode::Delete),
        "p" => alt(KeyCode::Char('b')),
        "n" => alt(KeyCode::Char('f')),
        "w" => alt(KeyCode::Backspace),
        "W" => alt(KeyCode::Char('d')),
        "k" | "u" | "t" => control(edit.chars().next().expect("a letter")),
        "iSP" => plain(KeyCode::Char(' ')),
        _ => plain(KeyCode::Char(edit.chars().nth(1).filter(|_| edit.starts_with('i')).unwrap_or_else(|| panic!("no edit: {edit}")))),
    }
}

/// The key of a word of a script.
fn key_of_word(word: &str) -> Key {
    let code = match word {
        "SP" => KeyCode::Char(' '),
        "BS" | "A-BS" => KeyCode::Backspace,
        "Del" => KeyCode::Delete,
        "Enter" => KeyCode::Enter,
        "Home" => KeyCode::Home,
        "End" => KeyCode::End,
        "Left" => KeyCode::Left,
        "Right" => KeyCode::Right,
        "Up" => KeyCode::Up,
        "Down" => KeyCode::Down,
        "PgUp" => KeyCode::PageUp,
        "PgDn" => KeyCode::PageDown,
        _ => {
            let letter = word.trim_start_matches("C-").trim_start_matches("A-");
            assert_eq!(letter.chars().count(), 1, "no key: {word}");
            KeyCode::Char(letter.chars().next().expect("a letter"))
        }
    };
    let modifiers = match word.get(..2) {
        Some("C-") => KeyModifiers::CONTROL,
        Some("A-") => KeyModifiers::ALT,
        _ => KeyModifiers::NONE,
    };
    (code, modifiers)
}

/// The history before most scripts.
const HISTORY: &str = "first line\nsecond line\nthird fine\nfirst again\n";

/// Scripts of keys, each with the line that readline 8.2 has after it, behind a history.
fn check_scripts(file: &str, text: &str, history: &str) -> Result<(), LineError> {
    let (mut wrong, mut count) = (Vec::new(), 0);
    for row in text.lines() {
        let (keys, after) = row.split_once(" = ").unwrap_or_else(|| panic!("no row: {row}"));
        let mut editor = Editor::new(Limits::default())?;
        editor.load_history(history)?;
        for word in keys.split(' ') {
            type_key(&mut editor, &key_of_word(word))?;
        }
        count += 1;
        if shown(&editor) != after {
            wrong.push(format!("{keys} must give {after} and gave {}", shown(&editor)));
        }
    }
    assert!(count > 0);
    check(file, "scripts of readline", count, count, &wrong);
    Ok(())
}

#[test]
fn scripts_of_readline() -> Result<(), LineError> {
    for file in ["lines/readline.rt", "lines/readline_history.rt", "lines/readline_words.rt"] {
        let (text, _) = form::literal(&form::read(file), '"').expect("a text of scripts");
        check_scripts(file, &text, HISTORY)?;
    }
    Ok(())
}

/// The words that these scripts take are of lines that they accept, so no line is in the history before.
#[test]
fn scripts_of_last_words() -> Result<(), LineError> {
    let file = "lines/readline_words.rt";
    let source = form::read(file);
    let (_, behind) = form::literal(&source, '"').expect("a text of scripts");
    let (text, _) = form::literal(behind, '"').expect("a text of scripts without a history");
    check_scripts(file, &text, "")
}

#[test]
fn edits_of_rustyline() {
    let (text, _) = form::literal(&form::read("lines/rustyline.rt"), '"').expect("a text of edits");
    let row_of = |text: &str| {
        let (edits, after) = text.split_once(" = ").unwrap_or_else(|| panic!("no row: {text}"));
        let keys = edits.split(' ').map(key_of_edit).collect();
        Row { name: edits.into(), line: "|".into(), keys, after: after.into() }
    };
    let rows: Vec<Row> = text.lines().map(row_of).collect();
    // As many as the test in Rattle counts.
    let source = form::read("lines.rt");
    let said = source.split_once("count == ").and_then(|(_, rest)| rest.split_once(')')?.0.parse().ok());
    check("lines/rustyline.rt", "edits of rustyline", rows.len(), said.expect("lines.rt has a count"), &played(&rows));
}

#[test]
fn limits_leave_lines_out_of_the_history() -> Result<(), LineError> {
    let rows = [
        (false, false, "one\n two\none\none\n"),
        (true, false, "one\n two\none\n"),
        (false, true, "one\none\none\n"),
        (true, true, "one\n"),
    ];
    for (ignore_dups, ignore_space, history) in rows {
        let mut editor = Editor::new(Limits { ignore_dups, ignore_space, ..Limits::default() })?;
        for line in ["one", " two", "one", "one", ""] {
            editor.paste(line)?;
            editor.turn(&Event::Key(KeyCode::Enter.into()))?;
        }
        assert_eq!(editor.history()?, history, "{ignore_dups} {ignore_space}");
    }
    Ok(())
}

/// Keys on a line, what comes of the last one, and the history then.
#[test]
fn ends_of_lines() -> Result<(), LineError> {
    let plain = |code| (code, KeyModifiers::NONE);
    let control = |c| (KeyCode::Char(c), KeyModifiers::CONTROL);
    let line = |text: &str| Outcome::Line(text.into());
    let rows = [
        ("o|ne", plain(KeyCode::Enter), line("one"), "|", "first line\nsecond line\none\n"),
        ("o|ne", control('j'), line("one"), "|", "first line\nsecond line\none\n"),
        ("o|ne", control('m'), line("one"), "|", "first line\nsecond line\none\n"),
        ("|", plain(KeyCode::Enter), line(""), "|", "first line\nsecond line\n"),
        ("o|ne", control('c'), Outcome::Interrupted, "|", "first line\nsecond line\n"),
        ("|", control('d'), Outcome::Closed, "|", "first line\nsecond line\n"),
        ("o|ne", control('g'), Outcome::Ring, "o|ne", "first line\nsecond line\n"),
        ("one|", control('d'), Outcome::Going, "one|", "first line\nsecond line\n"),
    ];
    for (given, key, outcome, after, history) in rows {
        let mut editor = editor_of(given)?;
        assert_eq!((type_key(&mut editor, &key)?, shown(&editor).as_str()), (outcome, after), "{given} {key:?}");
        assert_eq!(editor.history()?, history, "{given} {key:?}");
    }
    Ok(())
}

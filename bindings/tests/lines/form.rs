//! The tables of lines in crates/test_values: how they are written in Rattle.

use std::fs;
use std::path::PathBuf;

/// A file of crates/test_values, which a clone of the repository has beside `bindings`.
pub fn read(name: &str) -> String {
    let path = PathBuf::from(env!("CARGO_MANIFEST_DIR")).with_file_name("crates").join("test_values/src").join(name);
    let why = "The rows are in the repository's folder crates/test_values, beside bindings.";
    fs::read_to_string(&path).unwrap_or_else(|error| panic!("{} can't be read: {error}. {why}", path.display()))
}

/// The text of a table `NAME: [TYPE; COUNT] = [..]`, and its count.
pub fn table<'a>(source: &'a str, name: &str) -> (&'a str, usize) {
    let found = source.split_once(&format!("static {name}: [")).and_then(|(_, rest)| rest.split_once("\n];"));
    let (head, rows) = found.and_then(|(text, _)| text.split_once("] = [")).unwrap_or_else(|| panic!("there is no table {name}"));
    let count = head.rsplit_once("; ").and_then(|(_, count)| count.parse().ok());
    (rows, count.unwrap_or_else(|| panic!("the table {name} says no number of rows")))
}

/// The first literal of a text, without its quotes, and what is behind it. `quote` is `"` or `'`.
pub fn literal(text: &str, quote: char) -> Option<(String, &str)> {
    let (_, text) = text.split_once(quote)?;
    let (mut found, mut rest) = (String::new(), text.chars());
    loop {
        match rest.next()? {
            '\\' => found.extend(escaped(&mut rest)?),
            c if c == quote => return Some((found, rest.as_str())),
            c => found.push(c),
        }
    }
}

/// The character that is spelled behind a backslash; the end of a line is none.
fn escaped(rest: &mut std::str::Chars) -> Option<Option<char>> {
    Some(Some(match rest.next()? {
        'n' => '\n',
        'r' => '\r',
        't' => '\t',
        'u' => {
            let (digits, behind) = rest.as_str().strip_prefix('{')?.split_once('}')?;
            *rest = behind.chars();
            char::from_u32(u32::from_str_radix(digits, 16).ok()?)?
        }
        '\n' => return Some(None),
        c => c,
    }))
}

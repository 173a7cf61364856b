//! How rows are written: lines `INPUT -> OUTPUT`, of which the head of a file says how many there are, as tools/probe_rows.py reads them.

use std::fs;
use std::iter::repeat;
use std::path::PathBuf;

/// A line of a file of rows, and where it is written.
pub struct Row {
    /// The file, and the number of the line.
    pub place: String,
    /// What is in front of the arrow.
    pub given: String,
    /// What is behind it.
    pub want: String,
}

/// A path of crates/probe, which a clone of the repository has beside `bindings`.
fn path_of(name: &str) -> PathBuf {
    PathBuf::from(env!("CARGO_MANIFEST_DIR")).with_file_name("crates").join("probe").join(name)
}

/// Ends the test, since a path can't be read.
fn missing(name: &str, error: std::io::Error) -> ! {
    let path = path_of(name);
    panic!("{} can't be read: {error}. The rows are in the repository's folder crates/probe, beside bindings.", path.display())
}

/// A file of crates/probe.
pub fn read(name: &str) -> String {
    fs::read_to_string(path_of(name)).unwrap_or_else(|error| missing(name, error))
}

/// The folders in one of crates/probe.
pub fn folders(name: &str) -> Vec<String> {
    let entries = fs::read_dir(path_of(name)).unwrap_or_else(|error| missing(name, error));
    let names = entries.flatten().map(|entry| format!("{name}/{}", entry.file_name().to_string_lossy()));
    names.collect()
}

/// The number of rows, if a line of the head says it.
fn count_of(line: &str) -> Option<usize> {
    line.strip_prefix("# ")?.strip_suffix(" rows.")?.parse().ok()
}

/// The rows of a file: there are as many as its head says.
pub fn rows(file: &str) -> Vec<Row> {
    let (mut rows, mut said) = (Vec::new(), None);
    for (line, number) in read(&format!("rows/{file}")).split('\n').zip(1..) {
        let place = format!("crates/probe/rows/{file}:{number}");
        if line.is_empty() || line.starts_with('#') {
            said = said.or_else(|| count_of(line));
            continue;
        }
        let row = line.split_once(" ->").filter(|(_, want)| want.is_empty() || want.starts_with(' '));
        let (given, want) = row.unwrap_or_else(|| panic!("{place} isn't INPUT -> OUTPUT: {line}"));
        rows.push(Row { place, given: given.into(), want: want.get(1..).unwrap_or_default().into() });
    }
    assert_eq!(said, Some(rows.len()), "the number of rows that the head of crates/probe/rows/{file} says, and the number that it has");
    rows
}

/// The bytes that are given by digits: `c3 89` are two, `61*300` is one 300 times.
fn digits(text: &str) -> Option<Vec<u8>> {
    let (digits, times) = text.split_once('*').unwrap_or((text, "1"));
    let bytes = digits.split(' ').map(|digits| u8::from_str_radix(digits, 16).ok()).collect::<Option<Vec<u8>>>()?;
    Some(bytes.repeat(times.parse().ok()?))
}

/// Bytes as a row spells them: `^[` is ESC, `^G` the bell, and what is in braces are digits.
fn bytes_of(text: &str) -> Vec<u8> {
    let plain = text.replace("^[", "\x1b").replace("^G", "\x07");
    let parts: Vec<&str> = plain.split(['{', '}']).collect();
    assert_eq!(parts.len() % 2, 1, "a brace is alone: {text}");
    let byte = |(at, part): (usize, &&str)| match at % 2 {
        0 => part.as_bytes().to_vec(),
        _ => digits(part).unwrap_or_else(|| panic!("no bytes are between braces: {text}")),
    };
    parts.iter().enumerate().flat_map(byte).collect()
}

/// A line, and how often a row repeats it, as `(300 times)` says.
fn repeated(line: &str) -> (&str, usize) {
    let said = || line.strip_suffix(" times)")?.rsplit_once(" (");
    said().and_then(|(line, times)| Some((line, times.parse().ok()?))).unwrap_or((line, 1))
}

/// The lines of a row, each as often as it says.
fn lines_of(text: &str) -> impl Iterator<Item = &str> {
    text.split(" / ").map(repeated).flat_map(|(line, times)| repeat(line).take(times))
}

/// The lines of a row, as they are.
pub fn joined(text: &str) -> Vec<u8> {
    lines_of(text).map(bytes_of).collect::<Vec<_>>().join(&b'\n')
}

/// The lines of a row, with the bytes of its acts as digits.
pub fn acts(text: &str) -> Vec<u8> {
    let act = |line: &str| match line.split_once(' ') {
        Some((word @ ("piece" | "raw"), rest)) => {
            let digits: String = bytes_of(rest).iter().map(|byte| format!("{byte:02x}")).collect();
            format!("{word} {digits}\n").into_bytes()
        }
        _ => [bytes_of(line), b"\n".to_vec()].concat(),
    };
    lines_of(text).flat_map(act).collect()
}

/// The beginning of some bytes, as a failed test shows it.
pub fn shown(bytes: &[u8]) -> String {
    let text = String::from_utf8_lossy(bytes).escape_debug().to_string();
    text.chars().take(300).collect()
}

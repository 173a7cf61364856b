//! Calls of a reader over a script of acts, by the archive's parser and reader. The tests of `bindings/tests/rows` play them too.

mod line;
mod reader;
pub mod statement;

use line::{EventLine, ReplyLine};
use reader::Reader;
use statement::{Statement, Wrong};
use std::fmt::{self, Display};
use std::io::{self, Read, Write};

/// How many bytes of input are read at most, line ends counted.
const LIMIT: u64 = 1_048_576;

/// Why the program gives up. Lines are counted from 1.
#[derive(Debug)]
pub enum Fault {
    /// A line's first word is none that is known.
    UnknownWord(usize),
    /// Something else is wrong with a line.
    BadArgument(usize),
    /// The input isn't UTF-8.
    NotUtf8,
    /// The input has more bytes than are read.
    TooLong,
    /// The input can't be read.
    ReadFailed,
    /// The output takes no more.
    WriteFailed,
}

impl Display for Fault {
    fn fmt(&self, f: &mut fmt::Formatter<'_>) -> fmt::Result {
        match self {
            Fault::UnknownWord(line) => write!(f, "line {line}: unknown word"),
            Fault::BadArgument(line) => write!(f, "line {line}: bad argument"),
            Fault::NotUtf8 => f.write_str("input is not UTF-8"),
            Fault::TooLong => f.write_str("input too long"),
            Fault::ReadFailed => f.write_str("read failed"),
            Fault::WriteFailed => f.write_str("write failed"),
        }
    }
}

impl Wrong {
    /// The fault of the line with this number.
    fn at(self, line: usize) -> Fault {
        match self {
            Wrong::Word => Fault::UnknownWord(line),
            Wrong::Argument => Fault::BadArgument(line),
        }
    }
}

/// All input as text.
fn read_text(input: impl Read) -> Result<String, Fault> {
    let mut bytes = Vec::new();
    let count = input.take(LIMIT + 1).read_to_end(&mut bytes).map_err(|_| Fault::ReadFailed)?;
    if count as u64 > LIMIT {
        return Err(Fault::TooLong);
    }
    String::from_utf8(bytes).map_err(|_| Fault::NotUtf8)
}

/// What all lines of the input say, each by this function. Empty ones are passed over, and counted.
pub fn read_lines<T>(input: impl Read, read: impl Fn(&str) -> Result<T, Wrong>) -> Result<Vec<T>, Fault> {
    let text = read_text(input)?;
    let lines = text.split('\n').zip(1..).filter(|(line, _)| !line.is_empty());
    lines.map(|(line, number)| read(line).map_err(|wrong| wrong.at(number))).collect()
}

/// Prints what each statement that is a call replies, over the acts of all others, and then the events that are still held.
fn print(statements: Vec<Statement>, output: &mut impl Write) -> io::Result<()> {
    let (mut acts, mut calls) = (Vec::new(), Vec::new());
    for statement in statements {
        match statement {
            Statement::Act(act) => acts.push(act),
            Statement::Call(call) => calls.push(call),
        }
    }
    let mut reader = Reader::new(acts);
    for call in calls {
        writeln!(output, "{}", ReplyLine(&reader.call(call)))?;
    }
    while let Some(event) = reader.take_any() {
        writeln!(output, "held {}", EventLine(&event))?;
    }
    output.flush()
}

/// Reads lines, checks them all, runs the calls over the acts, and prints a line for each call and for each event that is still held.
///
/// # Errors
///
/// `WriteFailed` if the output takes no more; all others come before anything runs.
pub fn run(input: impl Read, mut output: impl Write) -> Result<(), Fault> {
    let statements = read_lines(input, Statement::read)?;
    print(statements, &mut output).map_err(|_| Fault::WriteFailed)
}

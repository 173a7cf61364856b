//! What a line says: an act of the device, or a call of the reader.

use gelvanh::Classes;
use std::str::FromStr;

/// What a device answers when it is asked.
pub enum Act {
    /// Bytes, and whether they come in raw mode.
    Piece {
        /// The bytes.
        bytes: Vec<u8>,
        /// Whether they come in raw mode.
        raw: bool,
    },
    /// A new size: columns and rows.
    Resize(u16, u16),
    /// The reader was woken.
    Wake,
    /// Nothing yet.
    Idle,
    /// The device failed.
    Fault,
}

/// What is asked of a reader. `tries` is how often it asks the device at most.
#[derive(Clone, Copy)]
pub enum Call {
    /// Whether an event of these classes is there.
    Poll(Classes, u32),
    /// The first event of these classes.
    Read(Classes, u32),
    /// The same, of those that are held already.
    Take(Classes),
    /// The cursor's place.
    Position(u32),
    /// The flags of the keyboard.
    Keyboard(u32),
}

/// What a line says.
pub enum Statement {
    /// The device does this next.
    Act(Act),
    /// This is called next.
    Call(Call),
}

/// What is wrong with a line.
#[derive(Clone, Copy)]
pub enum Wrong {
    /// Its first word.
    Word,
    /// Anything else.
    Argument,
}

/// A line's first word, and what follows the blank after it.
pub fn divided(line: &str) -> (&str, Option<&str>) {
    line.split_once(' ').map_or((line, None), |(word, rest)| (word, Some(rest)))
}

/// A number in decimal digits, without a sign, that is in the range of its type.
pub fn number<T: FromStr>(word: &str) -> Option<T> {
    word.parse().ok().filter(|_| !word.starts_with('+'))
}

/// Two numbers with a blank between.
pub fn pair(words: &str) -> Option<(u16, u16)> {
    let (first, second) = words.split_once(' ')?;
    Some((number(first)?, number(second)?))
}

/// One byte or more in hexadecimal digits of either case.
pub fn bytes(digits: &str) -> Option<Vec<u8>> {
    let digits = digits.chars().map(|digit| digit.to_digit(16)).collect::<Option<Vec<u32>>>()?;
    let is_whole = !digits.is_empty() && digits.len() % 2 == 0;
    is_whole.then(|| digits.chunks(2).map(|pair| (pair[0] * 16 + pair[1]) as u8).collect())
}

/// The classes of events that a filter's name admits.
fn classes(name: &str) -> Option<Classes> {
    match name {
        "event" => Some(Classes::EVENTS),
        "cursor" => Some(Classes::CURSOR),
        "flags" => Some(Classes::FLAGS | Classes::ATTRIBUTES),
        "attributes" => Some(Classes::ATTRIBUTES),
        _ => None,
    }
}

/// A filter, and how often the device is asked at most.
fn asked(words: &str) -> Option<(Classes, u32)> {
    let (name, tries) = words.split_once(' ')?;
    Some((classes(name)?, number(tries)?))
}

/// The act that a word names. It is `None` if what follows isn't what the act takes.
fn act(word: &str, rest: Option<&str>) -> Result<Option<Act>, Wrong> {
    let alone = |act| rest.is_none().then_some(act);
    Ok(match word {
        "piece" => rest.and_then(bytes).map(|bytes| Act::Piece { bytes, raw: false }),
        "raw" => rest.and_then(bytes).map(|bytes| Act::Piece { bytes, raw: true }),
        "resize" => rest.and_then(pair).map(|(columns, rows)| Act::Resize(columns, rows)),
        "wake" => alone(Act::Wake),
        "idle" => alone(Act::Idle),
        "fault" => alone(Act::Fault),
        _ => return Err(Wrong::Word),
    })
}

/// The call that a word names. It is `None` if what follows isn't what the call takes.
fn call(word: &str, rest: Option<&str>) -> Result<Option<Call>, Wrong> {
    Ok(match word {
        "poll" => rest.and_then(asked).map(|(classes, tries)| Call::Poll(classes, tries)),
        "read" => rest.and_then(asked).map(|(classes, tries)| Call::Read(classes, tries)),
        "take" => rest.and_then(classes).map(Call::Take),
        "position" => rest.and_then(number).map(Call::Position),
        "keyboard" => rest.and_then(number).map(Call::Keyboard),
        _ => return Err(Wrong::Word),
    })
}

impl Statement {
    /// Reads a line.
    ///
    /// # Errors
    ///
    /// What is wrong with it.
    pub fn read(line: &str) -> Result<Statement, Wrong> {
        let (word, rest) = divided(line);
        let read = match act(word, rest) {
            Ok(act) => act.map(Statement::Act),
            Err(_) => call(word, rest)?.map(Statement::Call),
        };
        read.ok_or(Wrong::Argument)
    }
}

//! The script program: what a line asks, what it does, and how it is answered.
use crate::record::{MOST_ROWS, Refusal};
use crate::{asks, moves, traverse};

enum Command {
    Open(u32),
    Nav(u32),
    Go(i32, u32),
    Tab,
    Drop(u32),
    Replace(u32),
}

/// The number that decimal digits without leading zeros spell, up to `top`.
fn numeral(text: &[u8], top: u32) -> Option<u32> {
    if text.is_empty() || text.len() > 1 && text[0] == b'0' {
        return None;
    }
    let mut number = 0u64;
    for digit in text {
        if !digit.is_ascii_digit() {
            return None;
        }
        number = number * 10 + (digit - b'0') as u64;
        if number > top as u64 {
            return None;
        }
    }
    Some(number as u32)
}

/// The signed number that digits spell, with a minus before those of one below 0.
fn amount(text: &[u8]) -> Option<i32> {
    match text.strip_prefix(b"-") {
        Some(digits) => match numeral(digits, 1 << 31)? {
            0 => None,
            amount => Some(amount.wrapping_neg() as i32),
        },
        None => Some(numeral(text, i32::MAX as u32)? as i32),
    }
}

/// What a line asks, if it is none that is answered `bad`.
fn parse(line: &[u8]) -> Option<Command> {
    if line.len() > 64 {
        return None;
    }
    if let Some(text) = line.strip_prefix(b"open ") {
        return Some(Command::Open(numeral(text, u32::MAX)?));
    }
    if let Some(text) = line.strip_prefix(b"nav ") {
        return Some(Command::Nav(numeral(text, u32::MAX)?));
    }
    if let Some(text) = line.strip_prefix(b"drop ") {
        return Some(Command::Drop(numeral(text, u32::MAX)?));
    }
    if let Some(text) = line.strip_prefix(b"replace ") {
        return Some(Command::Replace(numeral(text, u32::MAX)?));
    }
    if line == b"tab" {
        return Some(Command::Tab);
    }
    let text = line.strip_prefix(b"go ")?;
    match text.iter().position(|byte| *byte == b' ') {
        Some(end) => Some(Command::Go(amount(&text[..end])?, numeral(&text[end + 1..], u32::MAX)?)),
        None => Some(Command::Go(amount(text)?, 0)),
    }
}

/// Appends a number's decimal.
fn put_decimal(out: &mut Vec<u8>, number: usize) {
    if number >= 10 {
        put_decimal(out, number / 10);
    }
    out.push(b'0' + (number % 10) as u8);
}

/// What an accepted line answers: a number, or of a new window its document and root frame.
enum Value {
    Number(usize),
    Window(u32, u32),
}

/// Appends whether a command was accepted, with its numbers.
fn put_result(out: &mut Vec<u8>, result: Result<Value, Refusal>) {
    let (word, number, more) = match result {
        Ok(Value::Number(number)) => ("ok ", number, None),
        Ok(Value::Window(document, frame)) => ("ok ", document as usize, Some((" ", frame))),
        Err(Refusal::Hidden(document)) => ("no ", Refusal::Hidden(document).number() as usize, Some((" at ", document))),
        Err(refusal) => ("no ", refusal.number() as usize, None),
    };
    out.extend(word.as_bytes());
    put_decimal(out, number);
    if let Some((word, number)) = more {
        out.extend(word.as_bytes());
        put_decimal(out, number as usize);
    }
}

/// The table of a script.
pub struct Session {
    words: [u32; 3 + 4 * MOST_ROWS],
    changes: [u32; 4 * MOST_ROWS],
}

impl Session {
    /// A fresh record with room for 512 rows.
    pub fn new() -> Session {
        let mut session = Session { words: [0; 3 + 4 * MOST_ROWS], changes: [0; 4 * MOST_ROWS] };
        let _ = moves::fresh(&mut session.words);
        session
    }

    /// Does what a command asks: what is answered.
    fn call(&mut self, command: Command) -> Result<Value, Refusal> {
        let number = match command {
            Command::Tab => return moves::tab(&mut self.words).map(|(document, frame)| Value::Window(document, frame)),
            Command::Open(parent) => moves::open(&mut self.words, parent)?.0 as usize,
            Command::Nav(from) => moves::navigate(&mut self.words, from)? as usize,
            Command::Go(delta, root) => traverse::traverse(&mut self.words, root, delta, &mut self.changes)?,
            Command::Drop(frame) => moves::drop_frame(&mut self.words, frame)?,
            Command::Replace(document) => moves::replace(&mut self.words, document)? as usize,
        };
        Ok(Value::Number(number))
    }

    /// Does what a line asks and appends the answer.
    pub fn turn(&mut self, line: &[u8], out: &mut Vec<u8>) {
        let Some(command) = parse(line) else {
            out.extend(b"bad\n");
            return;
        };
        let result = self.call(command);
        let (position, steps) = asks::position(&self.words, 0).unwrap_or((0, 0));
        put_result(out, result);
        out.push(b' ');
        put_decimal(out, position);
        out.push(b'/');
        put_decimal(out, steps);
        out.push(b'\n');
    }
}

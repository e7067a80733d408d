//! The script program: lines in, one answer line each.
use crate::calls::{drop_frame, fresh, navigate, open, position, replace, tab, traverse, Refusal};
use crate::record::MOST_ROWS;

#[derive(Clone, Copy, Debug, PartialEq, Eq)]
pub enum Line {
    Open(u32),
    Nav(u32),
    /// δ, and the root frame of the window.
    Go(i32, u32),
    Drop(u32),
    Replace(u32),
    Tab,
}

/// The table of a script, with all its windows: a fresh record with C = 512.
pub struct Table {
    pub words: Vec<u32>,
}

impl Table {
    pub fn new() -> Table {
        let mut words = vec![0; 3 + 4 * MOST_ROWS];
        fresh(&mut words).expect("there is room for one row");
        Table { words }
    }

    /// The answer to one line, without its newline.
    pub fn answer(&mut self, line: &[u8]) -> String {
        let Some(line) = parse(line) else { return "bad".to_string() };
        let mut changes = vec![0; 4 * MOST_ROWS];
        let outcome = match line {
            Line::Open(parent) => open(&mut self.words, parent).map(|(document, _frame)| document.to_string()),
            Line::Nav(from) => navigate(&mut self.words, from).map(|document| document.to_string()),
            Line::Go(delta, root) => traverse(&mut self.words, root, delta, &mut changes).map(|count| count.to_string()),
            Line::Drop(frame) => drop_frame(&mut self.words, frame).map(|removed| removed.to_string()),
            Line::Replace(document) => replace(&mut self.words, document).map(|new| new.to_string()),
            // "its value: document and root frame, one space between"
            Line::Tab => tab(&mut self.words).map(|(document, frame)| format!("{document} {frame}")),
        };
        // "its position field is that of window 0", which no line takes out
        let (position, steps, _) = position(&self.words, 0).expect("the record stays sound, and has the root frame that it began with");
        match outcome {
            Ok(value) => format!("ok {value} {position}/{steps}"),
            // "the script prints `no 5 at D` before the position"
            Err(Refusal { number, hiding: Some(document) }) => format!("no {number} at {document} {position}/{steps}"),
            Err(Refusal { number, hiding: None }) => format!("no {number} {position}/{steps}"),
        }
    }
}

/// Everything that the program prints for an input.
pub fn output(input: &[u8]) -> Vec<u8> {
    let mut table = Table::new();
    let mut out = Vec::new();
    for line in lines(input) {
        out.extend(table.answer(line).bytes());
        out.push(b'\n');
    }
    out
}

/// The lines of an input, "ended by a newline (the last may lack it)".
fn lines(input: &[u8]) -> Vec<&[u8]> {
    let mut lines: Vec<&[u8]> = input.split(|&byte| byte == b'\n').collect();
    // What follows the last newline is a line only if there is something.
    if lines.last().is_some_and(|last| last.is_empty()) {
        lines.pop();
    }
    lines
}

/// A line of the script, or none when it is `bad`.
pub fn parse(line: &[u8]) -> Option<Line> {
    if line.len() > 64 {
        return None;
    }
    if let Some(digits) = line.strip_prefix(b"open ") {
        return Some(Line::Open(u32::try_from(decimal(digits)?).ok()?));
    }
    if let Some(digits) = line.strip_prefix(b"nav ") {
        return Some(Line::Nav(u32::try_from(decimal(digits)?).ok()?));
    }
    if let Some(digits) = line.strip_prefix(b"drop ") {
        return Some(Line::Drop(u32::try_from(decimal(digits)?).ok()?));
    }
    if let Some(digits) = line.strip_prefix(b"replace ") {
        return Some(Line::Replace(u32::try_from(decimal(digits)?).ok()?));
    }
    if line == b"tab" {
        return Some(Line::Tab);
    }
    // "`go N R` for root frame R, R being 0 when left out"
    let numbers = line.strip_prefix(b"go ")?;
    let (number, root) = match numbers.iter().position(|&byte| byte == b' ') {
        Some(space) => (&numbers[..space], u32::try_from(decimal(&numbers[space + 1..])?).ok()?),
        None => (numbers, 0),
    };
    let value = match number.strip_prefix(b"-") {
        Some(b"0") => return None,
        Some(digits) => -(decimal(digits)? as i128),
        None => decimal(number)? as i128,
    };
    Some(Line::Go(i32::try_from(value).ok()?, root))
}

/// "Decimal without leading zeros or plus." At most 64 digits come here, of which more than 20 are too many for any number.
fn decimal(digits: &[u8]) -> Option<u64> {
    let plain = !digits.is_empty() && digits.iter().all(u8::is_ascii_digit);
    if !plain || (digits.len() > 1 && digits[0] == b'0') {
        return None;
    }
    std::str::from_utf8(digits).unwrap().parse().ok()
}

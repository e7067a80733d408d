//! The working record: a lent run of 32-bit words, and the rows that stand in it.

/// As a parent this means none; as a next number, that all are used.
pub const NONE: u32 = u32::MAX;

/// "at most 512"
pub const MOST_ROWS: usize = 512;

/// The fewest words with room for the head and one row; below that every call but Stretch refuses with 1.
pub const FEWEST_WORDS: usize = 7;

#[derive(Clone, Copy, Debug, PartialEq, Eq)]
pub struct Row {
    pub document: u32,
    pub frame: u32,
    pub parent: u32,
    pub shown: u32,
}

/// "Capacity C is (words - 3) / 4 rounded down, at most 512."
pub fn capacity(word_count: usize) -> usize {
    (word_count.saturating_sub(3) / 4).min(MOST_ROWS)
}

/// The words that a call may read or write: "words past 3 + 4C are neither read nor written".
pub fn used_words(word_count: usize) -> usize {
    3 + 4 * capacity(word_count)
}

pub fn row_at(words: &[u32], place: usize) -> Row {
    let at = 3 + 4 * place;
    Row { document: words[at], frame: words[at + 1], parent: words[at + 2], shown: words[at + 3] }
}

/// The rows in use of a record whose count is at most its capacity.
pub fn rows(words: &[u32]) -> Vec<Row> {
    (0..words[0] as usize).map(|place| row_at(words, place)).collect()
}

/// Writes the head and the rows, and zeros up to 3 + 4C.
pub fn write(words: &mut [u32], next_document: u32, next_frame: u32, rows: &[Row]) {
    let end = used_words(words.len());
    assert!(rows.len() <= capacity(words.len()));
    words[..end].fill(0);
    words[0] = rows.len() as u32;
    words[1] = next_document;
    words[2] = next_frame;
    for (place, row) in rows.iter().enumerate() {
        let at = 3 + 4 * place;
        words[at..at + 4].copy_from_slice(&[row.document, row.frame, row.parent, row.shown]);
    }
}

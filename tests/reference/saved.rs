//! The saved forms: bytes, big-endian, four a number. The new one is document 02's L7, the old one document 01's.
use crate::history::History;
use crate::record::{rows, write, Row, MOST_ROWS};
use crate::sound::{is_sound, one_root_frame, rises};

/// What Save writes for a sound record: "each body entry becomes document number and row place, by rising row place".
pub fn bytes_of(words: &[u32]) -> Vec<u8> {
    let rows = rows(words);
    let entry = |(place, row): (usize, &Row)| [row.document, place as u32];
    let body = |frame: u32| rows.iter().enumerate().filter(|(_, row)| row.frame == frame).flat_map(entry).collect();
    with_bodies(words, body)
}

/// What Save wrote before for a sound record of one window whose numbers rise: "the m document numbers, rising".
pub fn old_bytes_of(words: &[u32]) -> Vec<u8> {
    let rows = rows(words);
    let body = |frame: u32| {
        let mut documents: Vec<u32> = rows.iter().filter(|row| row.frame == frame).map(|row| row.document).collect();
        documents.sort();
        documents
    };
    with_bodies(words, body)
}

/// The table of contents, which both forms have, and the bodies: "frame by frame in the same order".
fn with_bodies(words: &[u32], body: impl Fn(u32) -> Vec<u32>) -> Vec<u8> {
    let rows = rows(words);
    let frames = History::of(&rows).sessions();
    let documents = |frame: u32| rows.iter().filter(move |row| row.frame == frame);
    let mut numbers = vec![frames.len() as u32, words[1], words[2]];
    for &frame in &frames {
        let parent = documents(frame).next().unwrap().parent;
        let shown = documents(frame).position(|row| row.shown == 1).unwrap();
        numbers.extend([frame, parent, documents(frame).count() as u32, shown as u32]);
    }
    numbers.extend(frames.iter().flat_map(|&frame| body(frame)));
    numbers.iter().flat_map(|number| number.to_be_bytes()).collect()
}

/// The record, of capacity 512, that the bytes stand for: only when "the row places of all bodies [are] 0 to n - 1 once each", it is
/// sound, of however many windows, and Save would write these very bytes for it.
pub fn record_of(bytes: &[u8]) -> Option<Vec<u32>> {
    let mut told = told(bytes, 2)?;
    told.entries.sort_by_key(|(_, body)| body[1]);
    if !(0..).zip(&told.entries).all(|(place, (_, body))| body[1] == place) {
        return None;
    }
    let record = told.record()?;
    (is_sound(&record) && bytes_of(&record) == bytes).then_some(record)
}

/// The same of the old form, which tells the order of the rows by their numbers alone: "accepts exactly what it accepted", and so "old-form
/// loading [follows] the narrow one" of S5.
pub fn old_record_of(bytes: &[u8]) -> Option<Vec<u32>> {
    let mut told = told(bytes, 1)?;
    told.entries.sort_by_key(|(row, _)| row.document);
    let record = told.record()?;
    (is_sound(&record) && rises(&record) && one_root_frame(&record) && old_bytes_of(&record) == bytes).then_some(record)
}

/// What the contents alone tell, where an entry of the form's bodies has so many bytes: "position is the sum of the shown places, steps the sum of m - 1". Nothing "when there
/// is no frame, the contents don't fit, a shown place is not below its m, the documents exceed 512, or the length is not the form's" (document 02, L8).
pub fn contents_of(bytes: &[u8], entry: u64) -> Option<(u32, u32)> {
    let number = |at: usize| bytes.get(at..at + 4).map(|four| u32::from_be_bytes(four.try_into().unwrap()) as u64);
    let (length, frames) = (bytes.len() as u64, number(0)?);
    let contents = 12 + 16 * frames;
    if frames == 0 || length < contents {
        return None;
    }
    let line = |frame: u64| (number(20 + 16 * frame as usize).unwrap(), number(24 + 16 * frame as usize).unwrap());
    let lines: Vec<(u64, u64)> = (0..frames).map(line).collect();
    let documents: u64 = lines.iter().map(|(m, _)| m).sum();
    if lines.iter().any(|(m, shown)| shown >= m) || documents > MOST_ROWS as u64 || length != contents + entry * documents {
        return None;
    }
    Some((lines.iter().map(|(_, shown)| *shown as u32).sum(), lines.iter().map(|(m, _)| *m as u32 - 1).sum()))
}

/// What bytes tell: both next numbers, and of each document its row and its body entry.
struct Told {
    next_document: u32,
    next_frame: u32,
    entries: Vec<(Row, Vec<u32>)>,
}

impl Told {
    /// The record with the rows in the order of the entries.
    fn record(&self) -> Option<Vec<u32>> {
        let rows: Vec<Row> = self.entries.iter().map(|(row, _)| *row).collect();
        let mut record = vec![0; 3 + 4 * MOST_ROWS];
        (rows.len() <= MOST_ROWS).then(|| write(&mut record, self.next_document, self.next_frame, &rows))?;
        Some(record)
    }
}

/// Reads bytes whose body entries have so many numbers, the document first; nothing is tested but that they can be read to their end.
fn told(bytes: &[u8], width: usize) -> Option<Told> {
    if bytes.len() % 4 != 0 {
        return None;
    }
    let mut numbers = bytes.chunks(4).map(|four| u32::from_be_bytes(four.try_into().unwrap()));
    let (frame_count, next_document, next_frame) = (numbers.next()?, numbers.next()?, numbers.next()?);
    let mut contents = Vec::new();
    for _ in 0..frame_count {
        contents.push((numbers.next()?, numbers.next()?, numbers.next()?, numbers.next()?));
    }
    let mut entries = Vec::new();
    for (frame, parent, count, shown) in contents {
        for which in 0..count {
            let body: Vec<u32> = numbers.by_ref().take(width).collect();
            if body.len() < width {
                return None;
            }
            entries.push((Row { document: body[0], frame, parent, shown: (which == shown) as u32 }, body));
        }
    }
    Some(Told { next_document, next_frame, entries })
}

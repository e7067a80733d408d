//! Scroll places: what is set and asked in a store of four words an entry.
use crate::record::{Refusal, Row, examine, find};

/// Document, kind, the bits of x and of y.
type Entry = [u64; 4];

/// The document of a free entry.
const FREE: u64 = u32::MAX as u64;

/// Where a page stands.
#[derive(Clone, Copy)]
pub enum Place {
    Itself,
    At(f64, f64),
}

impl Place {
    /// Whether no coordinate is NaN or infinite.
    fn is_finite(self) -> bool {
        match self {
            Place::Itself => true,
            Place::At(x, y) => x.is_finite() && y.is_finite(),
        }
    }

    /// Each coordinate times the zoom.
    fn scaled(self, zoom: f64) -> Place {
        match self {
            Place::Itself => Place::Itself,
            Place::At(x, y) => Place::At(x * zoom, y * zoom),
        }
    }
}

/// The first entry of a document.
fn entry_of(entries: &[Entry], document: u64) -> Option<usize> {
    entries.iter().position(|entry| entry[0] == document)
}

/// The place that an entry holds; none where its kind is no kind or its point not finite.
fn held([_, kind, x, y]: Entry) -> Option<Place> {
    match kind {
        0 => Some(Place::Itself),
        1 => Some(Place::At(f64::from_bits(x), f64::from_bits(y))).filter(|place| place.is_finite()),
        _ => None,
    }
}

/// Whether every entry is free, or sane and of a document that no earlier one is of: one above all of theirs is not looked for.
fn fine(entries: &[Entry]) -> bool {
    let mut high = 0;
    for (at, &entry) in entries.iter().enumerate() {
        let document = entry[0];
        if document == FREE {
            continue;
        }
        if held(entry).is_none() || document <= high && entry_of(&entries[..at], document).is_some() {
            return false;
        }
        high = high.max(document);
    }
    true
}

/// The rows, and the number that no document of theirs reaches.
#[derive(Clone, Copy)]
struct Record<'a> {
    rows: &'a [Row],
    next: u32,
}

impl Record<'_> {
    fn has(self, document: u64) -> bool {
        document < self.next as u64 && find(self.rows, document as u32).is_some()
    }
}

/// Refusals 1, 2, 15 and 4.
fn judge<'a>(words: &'a [u32], places: &[u64], document: u32) -> Result<Record<'a>, Refusal> {
    let record = Record { rows: examine(words)?, next: words[1] };
    if !fine(places.as_chunks().0) {
        return Err(Refusal::BadPlaces);
    }
    if !record.has(document as u64) {
        return Err(Refusal::Absent);
    }
    Ok(record)
}

/// Sets a document's place.
pub fn set(words: &[u32], places: &mut [u64], document: u32, place: Place) -> Result<(), Refusal> {
    let record = judge(words, places, document)?;
    if !place.is_finite() {
        return Err(Refusal::NotFinite);
    }
    let entries = places.as_chunks_mut().0;
    let first_gone = |entries: &[Entry]| entries.iter().position(|entry| !record.has(entry[0]));
    let at = entry_of(entries, document as u64).or_else(|| first_gone(entries)).ok_or(Refusal::NoEntry)?;
    for entry in entries.iter_mut() {
        if !record.has(entry[0]) {
            entry[0] = FREE;
        }
    }
    let [owner, kind, x, y] = &mut entries[at];
    *owner = document as u64;
    match place {
        Place::Itself => *kind = 0,
        Place::At(a, b) => (*kind, *x, *y) = (1, a.to_bits(), b.to_bits()),
    }
    Ok(())
}

/// A document's place.
pub fn place(words: &[u32], places: &[u64], document: u32) -> Result<Place, Refusal> {
    judge(words, places, document)?;
    let entries = places.as_chunks().0;
    Ok(entry_of(entries, document as u64).and_then(|at| held(entries[at])).unwrap_or(Place::Itself))
}

/// A document's place at a page zoom.
pub fn place_at_zoom(words: &[u32], places: &[u64], document: u32, zoom: f64) -> Result<Place, Refusal> {
    let place = place(words, places, document)?.scaled(zoom);
    if !zoom.is_finite() || !place.is_finite() {
        return Err(Refusal::NotFinite);
    }
    Ok(place)
}

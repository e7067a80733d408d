//! Scroll places, document 02's L5: what is kept of each document in a store that the host lends beside the record.
use crate::calls::{examined, refuse_when, Answer};
use crate::doubles::{product, Double};
use std::collections::HashSet;

/// "either that the page places itself or a point in CSS pixels, two doubles"
#[derive(Clone, Copy, Debug, PartialEq, Eq)]
pub enum Place {
    Itself,
    Point(Double, Double),
}

/// "per entry a document (4294967295: free), a kind (0 itself, 1 point) and two doubles, used only for kind 1"
pub struct Entry {
    pub document: u64,
    pub kind: u64,
    pub point: [Double; 2],
}

pub const FREE: u64 = 4_294_967_295;

impl Entry {
    pub fn is_free(&self) -> bool {
        self.document == FREE
    }

    pub fn has_wrong_kind(&self) -> bool {
        self.kind > 1
    }

    pub fn has_wrong_point(&self) -> bool {
        self.kind == 1 && !self.point.iter().all(|coordinate| coordinate.is_finite())
    }

    fn place(&self) -> Place {
        let [x, y] = self.point;
        if self.kind == 1 { Place::Point(x, y) } else { Place::Itself }
    }
}

/// The whole entries of a store, four words each; the words past them are not looked at.
pub fn entries(store: &[u64]) -> Vec<Entry> {
    let entry = |four: &[u64]| Entry { document: four[0], kind: four[1], point: [Double(four[2]), Double(four[3])] };
    store.chunks_exact(4).map(entry).collect()
}

/// "entries not free hold a document twice"
pub fn has_twice(entries: &[Entry]) -> bool {
    let mut seen = HashSet::new();
    !entries.iter().filter(|entry| !entry.is_free()).all(|entry| seen.insert(entry.document))
}

/// Refusal 15: "a store whose entries not free hold a document twice, a kind above 1 or a point not finite".
fn is_bad(entries: &[Entry]) -> bool {
    has_twice(entries) || entries.iter().filter(|entry| !entry.is_free()).any(|entry| entry.has_wrong_kind() || entry.has_wrong_point())
}

/// Refusals 1, 2, 15 and 4; then the documents of the record, and the entries.
fn judged(words: &[u32], store: &[u64], document: u32) -> Answer<(HashSet<u64>, Vec<Entry>)> {
    let history = examined(words)?;
    let entries = entries(store);
    refuse_when(15, is_bad(&entries))?;
    refuse_when(4, history.place(document).is_none())?;
    Ok((history.documents.iter().map(|d| d.number as u64).collect(), entries))
}

fn refuse_not_finite(place: Place) -> Answer<()> {
    match place {
        Place::Itself => Ok(()),
        Place::Point(x, y) => refuse_when(11, !x.is_finite() || !y.is_finite()),
    }
}

fn set(words: &[u32], store: &mut [u64], document: u32, place: Place) -> Answer<()> {
    let (there, mut entries) = judged(words, store, document)?;
    refuse_not_finite(place)?;
    // "Setting first frees the entries of documents gone from the record, by their number alone"; "Freeing changes only the document".
    entries.iter_mut().filter(|entry| !there.contains(&entry.document)).for_each(|entry| entry.document = FREE);
    // "without an entry of its own the document takes the first free one, for either kind"; 12 "when a new entry would find no room".
    let first_of = |number: u64| entries.iter().position(|entry| entry.document == number);
    let at = first_of(document as u64).or(first_of(FREE)).ok_or(12u32)?;
    let entry = &mut entries[at];
    entry.document = document as u64;
    match place {
        // "kind 0 keeps the entry's doubles"
        Place::Itself => entry.kind = 0,
        Place::Point(x, y) => (entry.kind, entry.point) = (1, [x, y]),
    }
    for (four, entry) in store.chunks_exact_mut(4).zip(entries) {
        four.copy_from_slice(&[entry.document, entry.kind, entry.point[0].0, entry.point[1].0]);
    }
    Ok(())
}

pub fn place_itself(words: &[u32], store: &mut [u64], document: u32) -> Answer<()> {
    set(words, store, document, Place::Itself)
}

pub fn place_at(words: &[u32], store: &mut [u64], document: u32, [x, y]: [Double; 2]) -> Answer<()> {
    set(words, store, document, Place::Point(x, y))
}

pub fn place(words: &[u32], store: &[u64], document: u32) -> Answer<Place> {
    let (_, entries) = judged(words, store, document)?;
    // "A document without an entry reads as 'the page places itself'."
    Ok(entries.iter().find(|entry| entry.document == document as u64).map_or(Place::Itself, Entry::place))
}

/// "the point at a page zoom: each coordinate times the zoom, rounded once"; 11 for a "zoom, or product that is NaN or infinite".
pub fn place_at_zoom(words: &[u32], store: &[u64], document: u32, zoom: Double) -> Answer<Place> {
    let place = place(words, store, document)?;
    refuse_when(11, !zoom.is_finite())?;
    let zoomed = match place {
        Place::Itself => Place::Itself,
        Place::Point(x, y) => Place::Point(product(x, zoom), product(y, zoom)),
    };
    refuse_not_finite(zoomed)?;
    Ok(zoomed)
}

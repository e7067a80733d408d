//! A call with what is lent to it.
use crate::face::Face;
use std::hint::black_box;
use std::ops::Range;
use twin::face::Point;

/// The calls; those that name a window have its root frame first.
#[derive(Clone, Copy, PartialEq)]
pub enum Call {
    Fresh,
    Open(u32),
    Tab,
    Navigate(u32),
    Traverse(u32, i32),
    Drop(u32),
    Replace(u32),
    Position(u32),
    Visible(u32),
    Lists(u32),
    Stretch(i32),
    Outline(u32),
    Save,
    Load,
    LoadOld,
    Contents,
    ContentsOld,
    PlaceItself(u32),
    PlaceAt(u32),
    Place(u32),
    PlaceAtZoom(u32),
}

impl Call {
    /// Whether it is lent a store of places.
    pub fn has_store(self) -> bool {
        matches!(self, Call::PlaceItself(_) | Call::PlaceAt(_) | Call::Place(_) | Call::PlaceAtZoom(_))
    }
}

/// What is lent: the record, two runs of words, a run of bytes, the out words; a store of places with the bits of what goes with it, a point of which
/// the first is also the zoom, and those of the out doubles.
#[derive(Clone, PartialEq, Debug)]
pub struct Lent {
    pub words: Vec<u32>,
    pub first: Vec<u32>,
    pub second: Vec<u32>,
    pub bytes: Vec<u8>,
    pub outs: [u32; 3],
    pub places: Vec<u64>,
    pub given: [u64; 2],
    pub doubles: [u64; 2],
}

impl Lent {
    /// A record, with runs that are long enough for every answer.
    pub fn new(words: Vec<u32>) -> Lent {
        let len = words.len();
        let given = [1.25f64, -0.0].map(f64::to_bits);
        Lent { words, first: vec![7; len], second: vec![7; len], bytes: vec![7; 6 * len], outs: [7; 3], places: vec![], given, doubles: [7; 2] }
    }

    /// A record with a store of as many entries as it has documents, in their order and each at a point.
    pub fn with_store(words: Vec<u32>) -> Lent {
        let rows = &words[3..].as_chunks::<4>().0[..words[0] as usize];
        let places = rows.iter().flat_map(|row| [row[0] as u64, 1, (row[0] as f64 / 8.0).to_bits(), 0.5f64.to_bits()]).collect();
        Lent { places, ..Lent::new(words) }
    }
}

/// Makes a call; its answer is 0 or a refusal's number.
#[inline(always)]
pub fn make(face: &Face, call: Call, lent: &mut Lent) -> u32 {
    let count = lent.words.len();
    let words = black_box(lent.words.as_mut_ptr());
    let [a, b, c] = &mut lent.outs;
    let (first, first_count) = (lent.first.as_mut_ptr(), lent.first.len());
    let (second, second_count) = (lent.second.as_mut_ptr(), lent.second.len());
    let (bytes, bytes_count) = (lent.bytes.as_mut_ptr(), lent.bytes.len());
    let (places, places_count) = (black_box(lent.places.as_mut_ptr()), lent.places.len());
    let [x, y] = lent.given.map(f64::from_bits);
    let mut doubles = lent.doubles.map(f64::from_bits);
    let [p, q] = &mut doubles;
    // SAFETY: each pointer comes with the length of its own run, and the runs and out words are apart.
    let answer = unsafe {
        match call {
            Call::Fresh => (face.fresh)(words, count),
            Call::Open(parent) => (face.open)(words, count, black_box(parent), a, b, c),
            Call::Tab => (face.tab)(words, count, a, b),
            Call::Navigate(from) => (face.navigate)(words, count, black_box(from), a, b),
            Call::Traverse(root, delta) => (face.traverse)(words, count, black_box(root), black_box(delta), first, first_count, a),
            Call::Drop(frame) => (face.drop)(words, count, black_box(frame), a, b),
            Call::Replace(document) => (face.replace)(words, count, black_box(document), a, b),
            Call::Position(root) => (face.position)(words, count, black_box(root), a, b, c),
            Call::Visible(document) => (face.visible)(words, count, black_box(document), a, b, c),
            Call::Lists(root) => (face.lists)(words, count, black_box(root), first, first_count, second, second_count, a, b),
            Call::Stretch(delta) => (face.stretch)(first, first_count, second, second_count, black_box(delta), a),
            Call::Outline(root) => (face.outline)(words, count, black_box(root), first, first_count, a),
            Call::Save => (face.save)(words, count, bytes, bytes_count, a),
            Call::Load => (face.load)(words, count, bytes, bytes_count, a),
            Call::LoadOld => (face.load_old)(words, count, bytes, bytes_count, a),
            Call::Contents => (face.contents)(black_box(bytes), bytes_count, a, b),
            Call::ContentsOld => (face.contents_old)(black_box(bytes), bytes_count, a, b),
            Call::PlaceItself(document) => (face.place_itself)(words, count, places, places_count, black_box(document)),
            Call::PlaceAt(document) => (face.place_at)(words, count, places, places_count, black_box(document), black_box(Point { x, y })),
            Call::Place(document) => (face.place)(words, count, places, places_count, black_box(document), a, p, q),
            Call::PlaceAtZoom(document) => (face.place_at_zoom)(words, count, places, places_count, black_box(document), black_box(x), a, p, q),
        }
    };
    lent.doubles = doubles.map(f64::to_bits);
    black_box(answer)
}

/// The words that a call changes, as they are before it: the first three, and a range.
pub struct Undo {
    head: [u32; 3],
    range: Range<usize>,
    old: Vec<u32>,
}

impl Undo {
    /// What differs between a record before a call and after it.
    pub fn of(before: &[u32], after: &[u32]) -> Undo {
        let differs = |&k: &usize| before[k] != after[k];
        let start = (3..before.len()).find(differs).expect("a changed row");
        let end = (3..before.len()).rfind(differs).expect("a changed row") + 1;
        Undo { head: [before[0], before[1], before[2]], range: start..end, old: before[start..end].to_vec() }
    }

    /// Puts those words back.
    pub fn put_back(&self, words: &mut [u32]) {
        words[..3].copy_from_slice(&self.head);
        words[self.range.clone()].copy_from_slice(&self.old);
    }
}

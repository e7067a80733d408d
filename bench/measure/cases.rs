//! The calls that are measured, each on a record of a shape.
use crate::calls::{Call, Lent, make};
use crate::face::OURS;
use crate::shapes::{Shape, nested, record, replaced};

/// A call, and what is lent to it.
pub struct Case {
    pub name: &'static str,
    pub call: Call,
    pub lent: Lent,
}

impl Case {
    /// Whether it has to look at rows more than a few times: documents of a store, or of a record in which some were replaced.
    pub fn looks(&self) -> bool {
        let rows = &self.lent.words[3..].as_chunks::<4>().0[..self.lent.words[0] as usize];
        self.call.has_store() || !rows.is_sorted_by_key(|row| row[0])
    }
}

/// What is left after a call of the library that must be accepted.
pub fn after(call: Call, words: &[u32]) -> Lent {
    let mut lent = Lent::new(words.to_vec());
    assert_eq!(make(&OURS, call, &mut lent), 0, "a call that is measured is refused");
    lent
}

/// The window that is measured, by its root frame: that of the first row.
fn window(words: &[u32]) -> u32 {
    words[4]
}

/// Its rows: those of the root frame, and those whose parent is among them.
fn own_rows(words: &[u32]) -> Vec<[u32; 4]> {
    let mut own: Vec<[u32; 4]> = Vec::new();
    for row in &words[3..].as_chunks::<4>().0[..words[0] as usize] {
        if row[1] == window(words) || own.iter().any(|above| above[0] == row[2]) {
            own.push(*row);
        }
    }
    own
}

/// The document of its last row.
pub fn last(words: &[u32]) -> u32 {
    own_rows(words).last().expect("a row")[0]
}

/// The document of its last row that is shown.
fn last_shown(words: &[u32]) -> u32 {
    own_rows(words).iter().rfind(|row| row[3] == 1).expect("a shown row")[0]
}

/// Its first frame beneath the root document, if there is one.
fn second_frame(words: &[u32]) -> Option<u32> {
    own_rows(words).iter().map(|row| row[1]).find(|&frame| frame != window(words))
}

/// The document that a frame shows.
fn shown_in(words: &[u32], frame: u32) -> u32 {
    let rows = words[3..].as_chunks::<4>().0;
    rows.iter().find(|row| row[1] == frame && row[3] == 1).expect("a shown row")[0]
}

/// A record's saved form beside the record.
pub fn saved(words: &[u32]) -> Lent {
    let mut lent = after(Call::Save, words);
    lent.bytes.truncate(lent.outs[0] as usize);
    lent
}

/// The same in the old form, of a record whose numbers rise: the entries have no places.
pub fn saved_before(words: &[u32]) -> Lent {
    let mut lent = saved(words);
    let contents = lent.bytes.len() - 8 * words[0] as usize;
    let documents = lent.bytes[contents..].as_chunks::<8>().0.iter().flat_map(|entry| entry[..4].to_vec());
    lent.bytes = lent.bytes[..contents].iter().copied().chain(documents).collect();
    lent
}

/// Puts a case after the one of a name.
fn put_after(cases: &mut Vec<Case>, name: &str, case: Case) {
    let at = cases.iter().position(|other| other.name == name).expect("a case of that name");
    cases.insert(at + 1, case);
}

/// Every call on records of a shape with so many rows, before or after it.
pub fn cases(shape: Shape, rows: usize) -> Vec<Case> {
    let case = |name, call, words: &[u32]| Case { name, call, lent: Lent::new(words.to_vec()) };
    let placed = |name, call, words: &[u32]| Case { name, call, lent: Lent::with_store(words.to_vec()) };
    let whole = record(shape, rows, rows);
    let less = record(shape, rows - 1, rows);
    let root = window(&whole);
    let stepped = after(Call::Navigate(last(&less)), &less).words;
    let held = second_frame(&less).map_or(whole.clone(), |frame| after(Call::Open(shown_in(&less, frame)), &less).words);
    let second = second_frame(&held).expect("a frame to take out");
    let holder = shown_in(&held, second);
    let mut cases = vec![
        case("fresh", Call::Fresh, &whole),
        case("open", Call::Open(last(&less)), &less),
        case("tab", Call::Tab, &less),
        case("navigate", Call::Navigate(last(&less)), &less),
        case("traverse by 1", Call::Traverse(window(&stepped), -1), &stepped),
        case("drop", Call::Drop(second), &held),
        case("replace", Call::Replace(holder), &held),
        case("position", Call::Position(root), &whole),
        case("visible", Call::Visible(last(&whole)), &whole),
        case("lists", Call::Lists(root), &whole),
        case("stretch", Call::Stretch(-(rows as i32)), &whole),
        case("outline", Call::Outline(root), &whole),
        case("save", Call::Save, &whole),
        Case { name: "load", call: Call::Load, lent: saved(&whole) },
        Case { name: "contents", call: Call::Contents, lent: saved(&whole) },
        Case { name: "contents old", call: Call::ContentsOld, lent: saved_before(&whole) },
        placed("place itself", Call::PlaceItself(last(&whole)), &whole),
        placed("place at", Call::PlaceAt(last(&whole)), &whole),
        placed("place", Call::Place(last(&whole)), &whole),
        placed("place at zoom", Call::PlaceAtZoom(last(&whole)), &whole),
    ];
    if shape != Shape::Beside {
        put_after(&mut cases, "load", Case { name: "load old", call: Call::LoadOld, lent: saved_before(&whole) });
    }
    if shape == Shape::Desk || shape == Shape::Beside {
        let steps = after(Call::Position(root), &stepped).outs[1] as i32;
        let halfway = after(Call::Traverse(root, -(steps + 1) / 2), &stepped).words;
        put_after(&mut cases, "navigate", case("navigate, half upcoming", Call::Navigate(last_shown(&halfway)), &halfway));
        put_after(&mut cases, "traverse by 1", case("traverse by all steps", Call::Traverse(root, -steps), &stepped));
    }
    if shape == Shape::Desk {
        let nested = nested(rows);
        let inner = second_frame(&nested).expect("a frame to take out");
        put_after(&mut cases, "drop", case("drop, half beneath", Call::Drop(inner), &nested));
        put_after(&mut cases, "replace", case("replace, half beneath", Call::Replace(nested[7]), &nested));
        put_after(&mut cases, "position", case("position, ten replaced", Call::Position(root), &replaced(rows, 10)));
        put_after(&mut cases, "position", case("position, one replaced", Call::Position(root), &replaced(rows, 1)));
    }
    cases
}

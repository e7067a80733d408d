//! S1 to S8, each as document 01 words it, S2 as document 02's L7 does, S5 and S7 as its L10 does.
use crate::record::{capacity, rows, used_words, Row, NONE};
use crate::windows::root_frames;
use std::collections::{BTreeMap, HashMap, HashSet};

/// The clauses that do not hold, by number. When S1 fails the rows cannot be told, so it stands alone.
/// S7 speaks of each frame's shown document and of its window, so it is judged only where S4 and S6 hold.
pub fn broken(words: &[u32]) -> Vec<u8> {
    let room = capacity(words.len());
    let count = words[0] as usize;
    // "S1. 1 ≤ n ≤ C."
    if !(1 <= count && count <= room) {
        return vec![1];
    }
    let (next_document, next_frame, rows) = (words[1], words[2], rows(words));
    let mut out = Vec::new();
    // "S2 therefore changes: numbers are distinct and all below word 1, no longer rising."
    let mut numbers = HashSet::new();
    let distinct = rows.iter().all(|row| numbers.insert(row.document));
    if !(distinct && rows.iter().all(|row| row.document < next_document)) {
        out.push(2);
    }
    // "S3. Every frame number is below word 2."
    if !rows.iter().all(|row| row.frame < next_frame) {
        out.push(3);
    }
    // "S4. A parent is none or the document of an earlier row."
    let mut earlier = HashSet::new();
    let mut parents_stand = true;
    for row in &rows {
        parents_stand &= row.parent == NONE || earlier.contains(&row.parent);
        earlier.insert(row.document);
    }
    if !parents_stand {
        out.push(4);
    }
    // "S5. Rows of one frame have one parent." The sentence that followed is gone: "S5 now allows several root frames".
    let mut parents_of_frame: HashMap<u32, HashSet<u32>> = HashMap::new();
    for row in &rows {
        parents_of_frame.entry(row.frame).or_default().insert(row.parent);
    }
    if !parents_of_frame.values().all(|parents| parents.len() == 1) {
        out.push(5);
    }
    // "S6. Shown is 0 or 1, and each frame has exactly one shown row."
    let mut shown_of_frame: BTreeMap<u32, Vec<usize>> = BTreeMap::new();
    for (place, row) in rows.iter().enumerate() {
        let shown = shown_of_frame.entry(row.frame).or_default();
        if row.shown == 1 {
            shown.push(place);
        }
    }
    let flags = rows.iter().all(|row| row.shown <= 1);
    if !(flags && shown_of_frame.values().all(|places| places.len() == 1)) {
        out.push(6);
    } else if parents_stand && !upcoming_is_last(&rows, &shown_of_frame) {
        out.push(7);
    }
    // "S8. The words of rows n to C - 1 are zero."
    if !words[3 + 4 * count..used_words(words.len())].iter().all(|&word| word == 0) {
        out.push(8);
    }
    out
}

/// "S7. Every upcoming step is later than every shown document that is a step (001, definition 5)", which holds "per window".
fn upcoming_is_last(rows: &[Row], shown_of_frame: &BTreeMap<u32, Vec<usize>>) -> bool {
    let root_frames = root_frames(rows);
    let mut seen = HashSet::new();
    let mut upcoming = Vec::new();
    let mut shown_steps = Vec::new();
    for (place, row) in rows.iter().enumerate() {
        let step = !seen.insert(row.frame);
        let shown_place = shown_of_frame[&row.frame][0];
        if step && place > shown_place {
            upcoming.push(place);
        }
        if step && row.shown == 1 {
            shown_steps.push(place);
        }
    }
    let apart = |one: usize, other: usize| root_frames[one] != root_frames[other];
    upcoming.iter().all(|&later| shown_steps.iter().all(|&earlier| apart(later, earlier) || later > earlier))
}

pub fn is_sound(words: &[u32]) -> bool {
    broken(words).is_empty()
}

/// S2 as it was, by which the old saved form goes: "Document numbers rise strictly by row". That the last is below word 1 is in S2 as it is.
pub fn rises(words: &[u32]) -> bool {
    rows(words).windows(2).all(|pair| pair[0].document < pair[1].document)
}

/// The sentence of S5 that is gone, by which the old saved form goes: "All rows without a parent are one frame (the root frame)."
pub fn one_root_frame(words: &[u32]) -> bool {
    let root_frames: HashSet<u32> = rows(words).iter().filter(|row| row.parent == NONE).map(|row| row.frame).collect();
    root_frames.len() <= 1
}

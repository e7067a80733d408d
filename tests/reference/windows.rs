//! Windows, document 02's L10: "a window is a root frame with all beneath it".
use crate::record::{Row, NONE};
use std::collections::{BTreeMap, HashMap};

/// The root frame above each row: its own where it has no parent, else its parent's, which is the document of an earlier row (S4).
pub fn root_frames(rows: &[Row]) -> Vec<u32> {
    let mut of_document = HashMap::new();
    let mut root_frames = Vec::new();
    for row in rows {
        let root = if row.parent == NONE { row.frame } else { of_document[&row.parent] };
        of_document.insert(row.document, root);
        root_frames.push(root);
    }
    root_frames
}

/// The windows by their root frames, of each its rows in their order.
pub fn windows(rows: &[Row]) -> BTreeMap<u32, Vec<Row>> {
    let mut windows: BTreeMap<u32, Vec<Row>> = BTreeMap::new();
    for (row, root) in rows.iter().zip(root_frames(rows)) {
        windows.entry(root).or_default().push(*row);
    }
    windows
}

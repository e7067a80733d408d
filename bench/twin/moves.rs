//! Fresh, Open, Tab, Navigate, Drop and Replace.
use crate::record::{DOCUMENT, FRAME, NONE, PARENT, Refusal, Row, SHOWN, Stand, Table, capacity, examine, find, hider, locate, room_mut};
use crate::windows::Window;

/// The record of a new window.
pub fn fresh(words: &mut [u32]) -> Result<(), Refusal> {
    if words.len() < 7 {
        return Err(Refusal::ShortRecord);
    }
    words[..3].copy_from_slice(&[1, 1, 1]);
    let rows = room_mut(words);
    rows[0] = [0, 0, NONE, 1];
    rows[1..].fill([0; 4]);
    Ok(())
}

/// Refusals 4 and 5, or the document's row.
fn judge_visible(rows: &[Row], document: u32) -> Result<usize, Refusal> {
    let at = find(rows, document).ok_or(Refusal::Absent)?;
    hider(rows, at).map_or(Ok(at), |document| Err(Refusal::Hidden(document)))
}

/// Opens a frame: the new document and its frame.
pub fn open(words: &mut [u32], parent: u32) -> Result<(u32, u32), Refusal> {
    let rows = examine(words)?;
    judge_visible(rows, parent)?;
    let count = rows.len();
    begin(words, count, parent)
}

/// Opens a window: the new document and its root frame.
pub fn tab(words: &mut [u32]) -> Result<(u32, u32), Refusal> {
    let count = examine(words)?.len();
    begin(words, count, NONE)
}

/// Appends a frame's first row to so many rows, after refusals 7 and 8: its document and frame.
fn begin(words: &mut [u32], count: usize, parent: u32) -> Result<(u32, u32), Refusal> {
    if count == capacity(words) {
        return Err(Refusal::Full);
    }
    let (document, frame) = (words[1], words[2]);
    if document == NONE || frame == NONE {
        return Err(Refusal::UsedUp);
    }
    room_mut(words)[count] = [document, frame, parent, 1];
    words[..3].copy_from_slice(&[count as u32 + 1, document + 1, frame + 1]);
    Ok((document, frame))
}

/// Moves down every row from `start` up to `end` that is neither upcoming nor beneath what is; how many rows stay.
fn close_gaps(rows: &mut [Row], start: usize, end: usize) -> usize {
    let mut kept = start;
    for at in start..end {
        let row = rows[at];
        let stay = &rows[..kept];
        if !stay.iter().any(|other| other[FRAME] == row[FRAME]) && find(stay, row[PARENT]).is_some() {
            rows[kept] = row;
            kept += 1;
        }
    }
    kept
}

/// Moves down every row from `start` on but the upcoming steps of a row's window, as its hidden rows from there on are, and all beneath those; how many rows stay.
fn close_beside(rows: &mut [Row], at: usize, start: usize) -> usize {
    if start == rows.len() {
        return start;
    }
    let mut window = Window::above(rows, at);
    let mut kept = start;
    for at in start..rows.len() {
        let row = rows[at];
        if window.side(&rows[..kept], &row).is_some_and(|within| !within || row[SHOWN] == 1) {
            rows[kept] = row;
            kept += 1;
        }
    }
    kept
}

/// Refusals 7 and 8 of Navigate, where all rows stay or some go.
fn judge_step(words: &[u32], all_stay: bool) -> Result<(), Refusal> {
    if all_stay && words[0] as usize == capacity(words) {
        return Err(Refusal::Full);
    }
    if words[1] == NONE {
        return Err(Refusal::UsedUp);
    }
    Ok(())
}

/// Appends the step from a document to the rows that stay, and clears those behind them: the new document.
fn step_from(words: &mut [u32], from: u32, kept: usize) -> u32 {
    let (count, document) = (words[0] as usize, words[1]);
    let rows = room_mut(words);
    let left = find(&rows[..kept], from).expect("a visible document stays");
    rows[left][SHOWN] = 0;
    rows[kept] = [document, rows[left][FRAME], rows[left][PARENT], 1];
    if kept + 1 < count {
        rows[kept + 1..count].fill([0; 4]);
    }
    words[..2].copy_from_slice(&[kept as u32 + 1, document + 1]);
    document
}

/// Navigates from a document: the new document.
pub fn navigate(words: &mut [u32], from: u32) -> Result<u32, Refusal> {
    let kept = match locate(words)? {
        Table { stand, several: None } => {
            judge_visible(stand.rows, from)?;
            let (count, start) = (stand.rows.len(), stand.upcoming);
            let end = if stand.frames() + stand.position == start { start } else { count };
            judge_step(words, stand.position == stand.steps)?;
            close_gaps(room_mut(words), start, end)
        }
        Table { stand: Stand { rows, .. }, several: Some(several) } => {
            let at = judge_visible(rows, from)?;
            let (count, start) = (rows.len(), several.upcoming_beside(rows, at));
            judge_step(words, start == count)?;
            close_beside(&mut room_mut(words)[..count], at, start)
        }
    };
    Ok(step_from(words, from, kept))
}

/// Moves down every row from `start` on that neither goes by itself nor is beneath one that went; how many rows stay. The two parents last found
/// among the rows that stay, as two windows have them in turn, and the one last missed there need no search: one of each is given.
fn close_over(rows: &mut [Row], start: usize, mut known: u32, mut gone: u32, goes: impl Fn(&Row) -> bool) -> usize {
    let mut kept = start;
    let mut other = known;
    for at in start..rows.len() {
        let row = rows[at];
        if goes(&row) || row[PARENT] == gone {
            continue;
        }
        if row[PARENT] != known {
            if row[PARENT] != other && row[PARENT] != NONE && find(&rows[..kept], row[PARENT]).is_none() {
                gone = row[PARENT];
                continue;
            }
            (known, other) = (row[PARENT], known);
        }
        rows[kept] = row;
        kept += 1;
    }
    kept
}

/// Takes a frame out: how many rows went.
pub fn drop_frame(words: &mut [u32], frame: u32) -> Result<usize, Refusal> {
    let rows = examine(words)?;
    let count = rows.len();
    let start = rows.iter().position(|row| row[FRAME] == frame).ok_or(Refusal::Absent)?;
    let parent = rows[start][PARENT];
    if parent == NONE {
        return Err(Refusal::RootFrame);
    }
    judge_visible(&rows[..start], parent)?;
    let rows = &mut room_mut(words)[..count];
    let first = rows[start][DOCUMENT];
    let kept = close_over(rows, start, parent, first, |row| row[FRAME] == frame);
    rows[kept..].fill([0; 4]);
    words[0] = kept as u32;
    Ok(count - kept)
}

/// Replaces a document in its own row: the new document.
pub fn replace(words: &mut [u32], document: u32) -> Result<u32, Refusal> {
    let rows = examine(words)?;
    let count = rows.len();
    let at = judge_visible(rows, document)?;
    let next = words[1];
    if next == NONE {
        return Err(Refusal::UsedUp);
    }
    let rows = &mut room_mut(words)[..count];
    let kept = close_over(rows, at + 1, document, next, |row| row[PARENT] == document);
    rows[at][DOCUMENT] = next;
    rows[kept..].fill([0; 4]);
    words[..2].copy_from_slice(&[kept as u32, next + 1]);
    Ok(next)
}

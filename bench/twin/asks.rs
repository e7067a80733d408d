//! The questions: position (of `windows`), visible, lists, stretch.
use crate::record::{DOCUMENT, Refusal, Stand, climb, examine, find, steps};
pub use crate::windows::position;
use crate::windows::ask;

/// Who hides a document, nobody where it is visible; and how many parent links were followed.
pub fn visible(words: &[u32], document: u32) -> Result<(Option<u32>, usize), Refusal> {
    let rows = examine(words)?;
    let at = find(rows, document).ok_or(Refusal::Absent)?;
    Ok(climb(rows, at))
}

/// Stores the steps among the first rows, up to where every frame has begun; that place.
fn list_mixed(stand: &Stand, taken: &mut [u32], upcoming: &mut [u32]) -> usize {
    let (rows, position) = (stand.rows, stand.position);
    let mut passed = 0;
    for (at, step) in steps(rows).enumerate() {
        if at - passed == stand.frames() {
            return at;
        }
        if step {
            if passed < position {
                taken[position - 1 - passed] = rows[at][DOCUMENT];
            } else {
                upcoming[passed - position] = rows[at][DOCUMENT];
            }
            passed += 1;
        }
    }
    rows.len()
}

/// Fills both lists of a window; how many entries each has.
pub fn lists(words: &[u32], root: u32, taken: &mut [u32], upcoming: &mut [u32]) -> Result<(usize, usize), Refusal> {
    ask(words, root, |stand| list(stand, taken, upcoming))
}

/// Fills both lists from where a window stands.
fn list(stand: Stand, taken: &mut [u32], upcoming: &mut [u32]) -> Result<(usize, usize), Refusal> {
    let ahead = stand.steps - stand.position;
    if taken.len() < stand.position || upcoming.len() < ahead {
        return Err(Refusal::ShortBuffer);
    }
    let begun = list_mixed(&stand, taken, upcoming);
    let late = begun.max(stand.upcoming);
    let run = &stand.rows[begun..late];
    for (entry, row) in taken[..run.len()].iter_mut().zip(run.iter().rev()) {
        *entry = row[DOCUMENT];
    }
    let run = &stand.rows[late..];
    for (entry, row) in upcoming[ahead - run.len()..ahead].iter_mut().zip(run) {
        *entry = row[DOCUMENT];
    }
    Ok((stand.position, ahead))
}

/// The first entries of the caller's own list.
pub fn stretch<'a>(taken: &'a [u32], upcoming: &'a [u32], delta: i32) -> Result<&'a [u32], Refusal> {
    let list = if delta < 0 { taken } else { upcoming };
    list.get(..delta.unsigned_abs() as usize).ok_or(Refusal::Beyond)
}

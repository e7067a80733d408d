//! The calls. Each tests its refusals in the order of its table, so the first that applies is given; among document 01's nine that is the
//! smallest number. An error is the refusal; then nothing lent was written.
use crate::history::History;
use crate::record::{capacity, rows, write, Row, FEWEST_WORDS, NONE};
use crate::saved::{bytes_of, contents_of, old_record_of, record_of};
use crate::sound::is_sound;
use crate::windows::{root_frames, windows};

/// A refusal's number; and "refusal 5 [..] carries that number too", of the document that hides the one asked for.
#[derive(Clone, Copy, Debug, PartialEq, Eq)]
pub struct Refusal {
    pub number: u32,
    pub hiding: Option<u32>,
}

/// "A refusal returns its number alone."
impl From<u32> for Refusal {
    fn from(number: u32) -> Refusal {
        Refusal { number, hiding: None }
    }
}

pub type Answer<T> = Result<T, Refusal>;

pub fn no<T>(number: u32) -> Answer<T> {
    Err(number.into())
}

pub fn hidden_by<T>(document: u32) -> Answer<T> {
    Err(Refusal { number: 5, hiding: Some(document) })
}

pub(crate) fn refuse_when(number: u32, given: bool) -> Answer<()> {
    if given { no(number) } else { Ok(()) }
}

/// Refusals 1 and 2, then what stands in the record, all windows side by side.
pub(crate) fn examined(words: &[u32]) -> Answer<History> {
    refuse_when(1, words.len() < FEWEST_WORDS)?;
    refuse_when(2, !is_sound(words))?;
    let rows = rows(words);
    assert!(windows(&rows).values().all(|own| History::of(own).well_formed()), "S7 is definition 5 of each window");
    Ok(History::of(&rows))
}

/// Refusals 1, 2 and 13, "when no root frame has that number, after 2"; then the history of that window, which is that of its own rows.
fn window(words: &[u32], root: u32) -> Answer<History> {
    examined(words)?;
    let own = windows(&rows(words)).remove(&root).ok_or(13u32)?;
    Ok(History::of(&own))
}

/// Refusals 4 and 5, then the place of the document.
fn visible_place(history: &History, number: u32) -> Answer<usize> {
    let place = history.place(number).ok_or(4u32)?;
    refuse_hidden(history, number)?;
    Ok(place)
}

/// Refusal 5: "document there, not visible".
fn refuse_hidden(history: &History, document: u32) -> Answer<()> {
    sight(history, document).hiding.map_or(Ok(()), hidden_by)
}

pub fn fresh(words: &mut [u32]) -> Answer<()> {
    refuse_when(1, words.len() < FEWEST_WORDS)?;
    write(words, 1, 1, &[Row { document: 0, frame: 0, parent: NONE, shown: 1 }]);
    Ok(())
}

/// Answers the new document number and the new frame number.
pub fn open(words: &mut [u32], parent: u32) -> Answer<(u32, u32)> {
    let history = examined(words)?;
    visible_place(&history, parent)?;
    append(words, parent)
}

/// "Opening a window appends a root row with new numbers." Answers the new document number and the new root frame's number.
pub fn tab(words: &mut [u32]) -> Answer<(u32, u32)> {
    examined(words)?;
    append(words, NONE)
}

/// Refusals 7 and 8, then a row with both next numbers under this parent, shown.
fn append(words: &mut [u32], parent: u32) -> Answer<(u32, u32)> {
    let (document, frame, mut rows) = (words[1], words[2], rows(words));
    refuse_when(7, rows.len() == capacity(words.len()))?;
    refuse_when(8, document == NONE || frame == NONE)?;
    rows.push(Row { document, frame, parent, shown: 1 });
    write(words, document + 1, frame + 1, &rows);
    Ok((document, frame))
}

/// Answers the new document number.
pub fn navigate(words: &mut [u32], from: u32) -> Answer<u32> {
    let mut history = examined(words)?;
    let place = visible_place(&history, from)?;
    let (document, next_frame) = (words[1], words[2]);
    // Patch 4: "deleting the joint session future, and then replacing d by d'"; "the removal done by navigation [holds] per window".
    let root_frames = root_frames(&history.rows());
    let upcoming: Vec<usize> = history.joint_future().into_iter().filter(|&step| root_frames[step] == root_frames[place]).collect();
    history.delete(&upcoming);
    refuse_when(7, history.documents.len() == capacity(words.len()))?;
    refuse_when(8, document == NONE)?;
    let place = history.place(from).expect("a visible document is not upcoming, nor beneath one that is");
    history.replace(place, document);
    write(words, document + 1, next_frame, &history.rows());
    Ok(document)
}

/// Traverses the window of this root frame. Answers how many change rows were written.
pub fn traverse(words: &mut [u32], root: u32, delta: i32, changes: &mut [u32]) -> Answer<u32> {
    let before = window(words, root)?;
    let (position, steps) = standing(&before);
    let target = position as i64 + delta as i64;
    refuse_when(6, target < 0 || target > steps as i64)?;
    let mut after = before.clone();
    for _ in 0..delta.unsigned_abs() {
        if delta > 0 {
            let forward = after.forward_target().expect("an upcoming step is left");
            after.traverse_to(forward);
        } else {
            let back = after.back_target().expect("a taken step is left");
            after.traverse_from(back);
        }
    }
    let visible = after.fully_active();
    let mut written = Vec::new();
    for frame in before.sessions() {
        let (old, new) = (before.shown_in(frame), after.shown_in(frame));
        if old != new {
            written.push([frame, old, new, visible.contains(&new) as u32]);
        }
    }
    fill(changes, &written.concat())?;
    let (next_document, next_frame, rows) = (words[1], words[2], rows(words));
    write(words, next_document, next_frame, &with_window(&rows, &after));
    Ok(written.len() as u32)
}

/// The rows with those of a window as its history has them; all others stay "as they were and in their order".
fn with_window(rows: &[Row], window: &History) -> Vec<Row> {
    let own = window.rows();
    rows.iter().map(|row| *own.iter().find(|new| new.document == row.document).unwrap_or(row)).collect()
}

/// "removal of a frame by its number: all its rows and all beneath them go, gaps close in order, the rest keeps its flags".
/// Answers how many rows went.
pub fn drop_frame(words: &mut [u32], frame: u32) -> Answer<u32> {
    let mut history = examined(words)?;
    let own = history.of_session(frame);
    // "4 for a frame not in the record [..] 10 for the root frame; 10 comes after 4 and before 5"; "Removing any root frame is refused 10."
    let first = *own.first().ok_or(4u32)?;
    let holder = history.documents[first].parent.ok_or(10u32)?;
    // "The document that holds the frame must be visible"; "for removal, that of the parent's climb".
    refuse_hidden(&history, holder)?;
    let before = history.documents.len();
    history.delete(&own);
    let (next_document, next_frame) = (words[1], words[2]);
    write(words, next_document, next_frame, &history.rows());
    Ok((before - history.documents.len()) as u32)
}

/// "replacing a visible document in its own row". Answers the new document number.
pub fn replace(words: &mut [u32], document: u32) -> Answer<u32> {
    let mut history = examined(words)?;
    visible_place(&history, document)?;
    let (new, next_frame) = (words[1], words[2]);
    refuse_when(8, new == NONE)?;
    // "everything beneath it goes": its children, with what is beneath these. Every other document stays, upcoming ones too.
    let children: Vec<usize> = (0..history.documents.len()).filter(|&d| history.documents[d].parent == Some(document)).collect();
    history.delete(&children);
    // "the row takes the next document number, stays shown"
    let place = history.place(document).expect("a document is not beneath itself");
    history.documents[place].number = new;
    write(words, new + 1, next_frame, &history.rows());
    Ok(new)
}

/// Position and steps of a window's history.
fn standing(history: &History) -> (u32, u32) {
    let steps = (0..history.documents.len()).filter(|&d| history.can_go_back(d)).count();
    (history.taken().len() as u32, steps as u32)
}

/// Answers position, steps, and length for scripts of the window of this root frame; length counts the current entry too: "it is steps plus one".
pub fn position(words: &[u32], root: u32) -> Answer<(u32, u32, u32)> {
    let (position, steps) = standing(&window(words, root)?);
    Ok((position, steps, steps + 1))
}

/// What the visible question answers: "either that the document is visible or the number of the nearest document [..] that isn't shown",
/// and "the number of parent links followed".
#[derive(Clone, Copy, Debug, PartialEq, Eq)]
pub struct Sight {
    pub hiding: Option<u32>,
    pub links: u32,
}

impl Sight {
    pub fn visible(self) -> bool {
        self.hiding.is_none()
    }
}

pub fn visible(words: &[u32], document: u32) -> Answer<Sight> {
    let history = examined(words)?;
    refuse_when(4, history.place(document).is_none())?;
    Ok(sight(&history, document))
}

fn sight(history: &History, document: u32) -> Sight {
    let hiding = history.hiding(document);
    assert_eq!(hiding.is_none(), history.fully_active().contains(&document), "a document is visible or hidden by one that isn't shown");
    // "from the document upwards, none if it isn't shown itself, and no link above the first hidden one"
    let upwards = history.upwards(document);
    let links = upwards.iter().position(|d| !d.active).unwrap_or(upwards.len() - 1) as u32;
    assert!(links <= history.place(document).expect("a document of the record") as u32, "never more than the document's row place");
    Sight { hiding, links }
}

/// Answers the counts of taken and of upcoming steps of the window of this root frame.
pub fn lists(words: &[u32], root: u32, taken: &mut [u32], upcoming: &mut [u32]) -> Answer<(u32, u32)> {
    let history = window(words, root)?;
    let numbers = |places: Vec<usize>| places.iter().map(|&place| history.documents[place].number).collect::<Vec<_>>();
    let (past, future) = (numbers(history.taken()), numbers(history.joint_future()));
    refuse_when(9, taken.len() < past.len() || upcoming.len() < future.len())?;
    fill(taken, &past)?;
    fill(upcoming, &future)?;
    Ok((past.len() as u32, future.len() as u32))
}

/// Answers the part of the caller's own list: its first |δ| entries. The lists are taken as they stand.
pub fn stretch<'a>(taken: &'a [u32], upcoming: &'a [u32], delta: i32) -> Answer<&'a [u32]> {
    let list = if delta >= 0 { upcoming } else { taken };
    list.get(..delta.unsigned_abs() as usize).ok_or(6.into())
}

/// Answers the count of pairs (depth, document) of the window of this root frame.
pub fn outline(words: &[u32], root: u32, pairs: &mut [u32]) -> Answer<u32> {
    let history = window(words, root)?;
    let mut found = Vec::new();
    outline_document(&history, history.shown_in(root), 0, &mut found);
    assert_eq!(found.len(), history.fully_active().len(), "the outline holds the window's visible documents");
    fill(pairs, &found.concat())?;
    Ok(found.len() as u32)
}

/// "A document is followed by its frames by rising frame number, and a frame by its shown document, one level deeper."
fn outline_document(history: &History, document: u32, depth: u32, found: &mut Vec<[u32; 2]>) {
    found.push([depth, document]);
    let mut frames: Vec<u32> = history.documents.iter().filter(|d| d.parent == Some(document)).map(|d| d.session).collect();
    frames.sort();
    frames.dedup();
    for frame in frames {
        outline_document(history, history.shown_in(frame), depth + 1, found);
    }
}

/// Answers the length in bytes.
pub fn save(words: &[u32], bytes: &mut [u8]) -> Answer<u32> {
    examined(words)?;
    let saved = bytes_of(words);
    fill(bytes, &saved)?;
    Ok(saved.len() as u32)
}

/// Answers the number of rows.
pub fn load(words: &mut [u32], bytes: &[u8]) -> Answer<u32> {
    load_by(record_of, words, bytes)
}

/// "The old form has its own loading call."
pub fn load_old(words: &mut [u32], bytes: &[u8]) -> Answer<u32> {
    load_by(old_record_of, words, bytes)
}

fn load_by(record_of: fn(&[u8]) -> Option<Vec<u32>>, words: &mut [u32], bytes: &[u8]) -> Answer<u32> {
    refuse_when(1, words.len() < FEWEST_WORDS)?;
    let record = record_of(bytes).ok_or(3u32)?;
    refuse_when(7, record[0] as usize > capacity(words.len()))?;
    write(words, record[1], record[2], &rows(&record));
    Ok(record[0])
}

/// Answers position and steps of what was saved, the sums over all its windows, from the contents alone. "The caller names the form."
pub fn contents(bytes: &[u8]) -> Answer<(u32, u32)> {
    contents_of(bytes, 8).ok_or(3.into())
}

pub fn contents_old(bytes: &[u8]) -> Answer<(u32, u32)> {
    contents_of(bytes, 4).ok_or(3.into())
}

/// Writes an answer to the front of a lent buffer, or refuses with 9; what lies past it is kept.
fn fill<T: Copy>(buffer: &mut [T], answer: &[T]) -> Answer<()> {
    buffer.get_mut(..answer.len()).ok_or(9u32)?.copy_from_slice(answer);
    Ok(())
}

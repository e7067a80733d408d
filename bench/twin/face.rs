//! The calls as a host in C would call them, so that both libraries are measured through the same face: see include/frame_history.h.
use crate::places::{self, Place};
use crate::record::{NONE, Refusal};
use crate::{asks, moves, old, outline, saved, traverse};
use std::slice::{from_raw_parts as lent, from_raw_parts_mut as lent_mut};

/// Hands over the values of an accepted call and answers 0, or answers the refusal's number.
fn answer<T>(result: Result<T, Refusal>, give: impl FnOnce(T)) -> u32 {
    match result {
        Ok(values) => {
            give(values);
            0
        }
        Err(refusal) => refusal.number(),
    }
}

/// The same of a call whose refusal 5 hands over the document that hides the one that has to be visible.
fn answer_hiding<T>(result: Result<T, Refusal>, hiding: &mut u32, give: impl FnOnce(T)) -> u32 {
    if let Err(Refusal::Hidden(document)) = result {
        *hiding = document;
    }
    answer(result, give)
}

/// The record of a new window.
pub unsafe extern "C" fn fresh(words: *mut u32, count: usize) -> u32 {
    answer(moves::fresh(lent_mut(words, count)), |()| ())
}

/// Opens a frame: document and frame.
pub unsafe extern "C" fn open(words: *mut u32, count: usize, parent: u32, document: &mut u32, frame: &mut u32, hiding: &mut u32) -> u32 {
    answer_hiding(moves::open(lent_mut(words, count), parent), hiding, |numbers| (*document, *frame) = numbers)
}

/// Opens a window: document and root frame.
pub unsafe extern "C" fn tab(words: *mut u32, count: usize, document: &mut u32, frame: &mut u32) -> u32 {
    answer(moves::tab(lent_mut(words, count)), |numbers| (*document, *frame) = numbers)
}

/// Navigates: the new document.
pub unsafe extern "C" fn navigate(words: *mut u32, count: usize, from: u32, document: &mut u32, hiding: &mut u32) -> u32 {
    answer_hiding(moves::navigate(lent_mut(words, count), from), hiding, |number| *document = number)
}

/// Traverses in a window: how many change rows.
pub unsafe extern "C" fn traverse(
    words: *mut u32,
    count: usize,
    root: u32,
    delta: i32,
    changes: *mut u32,
    changes_count: usize,
    changed: &mut u32,
) -> u32 {
    answer(traverse::traverse(lent_mut(words, count), root, delta, lent_mut(changes, changes_count)), |n| *changed = n as u32)
}

/// Takes a frame out: how many rows went.
pub unsafe extern "C" fn drop(words: *mut u32, count: usize, frame: u32, removed: &mut u32, hiding: &mut u32) -> u32 {
    answer_hiding(moves::drop_frame(lent_mut(words, count), frame), hiding, |n| *removed = n as u32)
}

/// Replaces a document in its own row: the new document.
pub unsafe extern "C" fn replace(words: *mut u32, count: usize, document: u32, replacement: &mut u32, hiding: &mut u32) -> u32 {
    answer_hiding(moves::replace(lent_mut(words, count), document), hiding, |number| *replacement = number)
}

/// Position and steps of a window, and its length for scripts.
pub unsafe extern "C" fn position(words: *const u32, count: usize, root: u32, position: &mut u32, steps: &mut u32, length: &mut u32) -> u32 {
    answer(asks::position(lent(words, count), root), |(p, s)| (*position, *steps, *length) = (p as u32, s as u32, s as u32 + 1))
}

/// Whether a document is visible, who hides it, and how many parent links were followed.
pub unsafe extern "C" fn visible(words: *const u32, count: usize, document: u32, seen: &mut u32, hiding: &mut u32, links: &mut u32) -> u32 {
    let tell = |(hider, n): (Option<u32>, usize)| (*seen, *hiding, *links) = (hider.is_none() as u32, hider.unwrap_or(NONE), n as u32);
    answer(asks::visible(lent(words, count), document), tell)
}

/// Taken and upcoming steps of a window: how many of each.
pub unsafe extern "C" fn lists(
    words: *const u32,
    count: usize,
    root: u32,
    taken: *mut u32,
    taken_count: usize,
    upcoming: *mut u32,
    upcoming_count: usize,
    takens: &mut u32,
    upcomings: &mut u32,
) -> u32 {
    let (taken, upcoming) = (lent_mut(taken, taken_count), lent_mut(upcoming, upcoming_count));
    answer(asks::lists(lent(words, count), root, taken, upcoming), |(t, u)| (*takens, *upcomings) = (t as u32, u as u32))
}

/// How many entries of the own list.
pub unsafe extern "C" fn stretch(
    taken: *const u32,
    taken_count: usize,
    upcoming: *const u32,
    upcoming_count: usize,
    delta: i32,
    entries: &mut u32,
) -> u32 {
    answer(asks::stretch(lent(taken, taken_count), lent(upcoming, upcoming_count), delta), |part| *entries = part.len() as u32)
}

/// The visible documents of a window: how many pairs.
pub unsafe extern "C" fn outline(words: *const u32, count: usize, root: u32, pairs: *mut u32, pairs_count: usize, written: &mut u32) -> u32 {
    answer(outline::outline(lent(words, count), root, lent_mut(pairs, pairs_count)), |n| *written = n as u32)
}

/// The saved form: its length.
pub unsafe extern "C" fn save(words: *const u32, count: usize, bytes: *mut u8, bytes_count: usize, length: &mut u32) -> u32 {
    answer(saved::save(lent(words, count), lent_mut(bytes, bytes_count)), |n| *length = n as u32)
}

/// A record from its saved form: how many rows.
pub unsafe extern "C" fn load(words: *mut u32, count: usize, bytes: *const u8, bytes_count: usize, rows: &mut u32) -> u32 {
    answer(saved::load(lent_mut(words, count), lent(bytes, bytes_count)), |n| *rows = n as u32)
}

/// A record from the old form: how many rows.
pub unsafe extern "C" fn load_old(words: *mut u32, count: usize, bytes: *const u8, bytes_count: usize, rows: &mut u32) -> u32 {
    answer(old::load(lent_mut(words, count), lent(bytes, bytes_count)), |n| *rows = n as u32)
}

/// Position and steps of a saved form, by its contents.
pub unsafe extern "C" fn contents(bytes: *const u8, bytes_count: usize, position: &mut u32, steps: &mut u32) -> u32 {
    answer(saved::contents(lent(bytes, bytes_count), 8), |(p, s)| (*position, *steps) = (p as u32, s as u32))
}

/// The same of the old form.
pub unsafe extern "C" fn contents_old(bytes: *const u8, bytes_count: usize, position: &mut u32, steps: &mut u32) -> u32 {
    answer(saved::contents(lent(bytes, bytes_count), 4), |(p, s)| (*position, *steps) = (p as u32, s as u32))
}

/// A point in CSS pixels.
#[repr(C)]
#[derive(Clone, Copy)]
pub struct Point {
    pub x: f64,
    pub y: f64,
}

/// Sets that a document's page places itself.
pub unsafe extern "C" fn place_itself(words: *const u32, count: usize, places: *mut u64, places_count: usize, document: u32) -> u32 {
    answer(places::set(lent(words, count), lent_mut(places, places_count), document, Place::Itself), |()| ())
}

/// Sets a document's place at a point.
pub unsafe extern "C" fn place_at(words: *const u32, count: usize, places: *mut u64, places_count: usize, document: u32, point: Point) -> u32 {
    answer(places::set(lent(words, count), lent_mut(places, places_count), document, Place::At(point.x, point.y)), |()| ())
}

/// Hands over the kind of a place, and the point of one that has it.
fn answer_place(result: Result<Place, Refusal>, kind: &mut u32, x: &mut f64, y: &mut f64) -> u32 {
    answer(result, |place| match place {
        Place::Itself => *kind = 0,
        Place::At(a, b) => (*kind, *x, *y) = (1, a, b),
    })
}

/// A document's place: its kind and point.
pub unsafe extern "C" fn place(
    words: *const u32,
    count: usize,
    places: *const u64,
    places_count: usize,
    document: u32,
    kind: &mut u32,
    x: &mut f64,
    y: &mut f64,
) -> u32 {
    answer_place(places::place(lent(words, count), lent(places, places_count), document), kind, x, y)
}

/// The same at a page zoom.
pub unsafe extern "C" fn place_at_zoom(
    words: *const u32,
    count: usize,
    places: *const u64,
    places_count: usize,
    document: u32,
    zoom: f64,
    kind: &mut u32,
    x: &mut f64,
    y: &mut f64,
) -> u32 {
    answer_place(places::place_at_zoom(lent(words, count), lent(places, places_count), document, zoom), kind, x, y)
}

//! The records that are measured.
use crate::calls::{Call, Lent, make};
use crate::face::OURS;

#[derive(Clone, Copy, PartialEq)]
pub enum Shape {
    Desk,
    Wide,
    Deep,
    Worst,
    Beside,
}

/// The shapes with their names and what they are.
pub const SHAPES: [(Shape, &str, &str); 5] = [
    (Shape::Desk, "desk", "Three frames: the two beneath the root document are navigated in turn"),
    (Shape::Wide, "wide", "Every row a frame beneath the root document"),
    (Shape::Deep, "deep", "Every row a frame beneath the document before it"),
    (Shape::Worst, "worst", WORST),
    (Shape::Beside, "two windows in turn", BESIDE),
];

const WORST: &str = "Every row a frame, frame numbers falling, parents the documents 0 and 1 in turn: each row looks back to the start \
    twice, for its frame and for its parent. It is sound and Load takes it, but no other call builds it";

const BESIDE: &str = "A main window of three frames and a pop-up card of two: the frames beneath their root documents are navigated, one of \
    the main window's and the card's in turn. Calls that name a window name the main one, and the documents and frames of the others are its own. \
    3 rows are as near as it goes: the two root documents and the main window's first frame, with no step; what starts from 2 rows has the root \
    documents alone. Where *half* are *upcoming*, they are the main window's; the card has none, so that the table is not in order as a whole. *load old* \
    refuses two root frames and has no line. *to desk* is the library's time by its time for the same call on the desk record: the target is at most 2";

/// Makes a call of the library that must be accepted; its first out word.
fn accepted(call: Call, lent: &mut Lent) -> u32 {
    assert_eq!(make(&OURS, call, lent), 0, "a call that builds a record is refused");
    lent.outs[0]
}

/// A record of `rows` rows in words with room for `room`, built by the library's calls.
fn called(shape: Shape, rows: usize, room: usize) -> Vec<u32> {
    let mut lent = Lent::new(vec![0; 3 + 4 * room]);
    accepted(Call::Fresh, &mut lent);
    let mut latest = [0; 3];
    for row in 1..rows {
        let slot = if shape == Shape::Desk { 1 + (row - 1) % 2 } else { 0 };
        let call = match shape {
            Shape::Desk if row > 2 => Call::Navigate(latest[slot]),
            Shape::Deep => Call::Open(latest[slot]),
            _ => Call::Open(0),
        };
        latest[slot] = accepted(call, &mut lent);
    }
    lent.words
}

/// Two windows: the main window's root document and the card's, a frame beneath each and a second beneath the former, and then these navigated in turn;
/// with the last document of each of the three frames, the card's the second.
fn beside(rows: usize, room: usize) -> (Lent, [u32; 3]) {
    let mut lent = Lent::new(vec![0; 3 + 4 * room]);
    accepted(Call::Fresh, &mut lent);
    let mut latest = [0; 3];
    for row in 1..rows {
        let slot = [0, 1, 2, 1][(row + 2) % 4];
        let call = match row {
            1 => Call::Tab,
            2 | 4 => Call::Open(0),
            3 => Call::Open(1),
            _ => Call::Navigate(latest[slot]),
        };
        latest[slot] = accepted(call, &mut lent);
    }
    (lent, latest)
}

/// Two windows that are not in order as a whole: a frame was opened beneath a step of the main window, which then went back half its steps and opened another;
/// and the card went on, opened a frame and went back one step.
pub fn parted(rows: usize) -> Vec<u32> {
    let (mut lent, [step, card, _]) = beside(rows - 4, rows);
    accepted(Call::Open(step), &mut lent);
    let steps = accepted(Call::Position(0), &mut lent) as i32;
    accepted(Call::Traverse(0, -(steps + 1) / 2), &mut lent);
    accepted(Call::Open(0), &mut lent);
    let next = accepted(Call::Navigate(card), &mut lent);
    accepted(Call::Open(next), &mut lent);
    accepted(Call::Traverse(1, -1), &mut lent);
    lent.words
}

/// So many windows one after the other, each with as many rows: a root document, and beneath it a frame that is navigated. Where they went back, each did so by
/// one step, so that the taken steps of every one but the first come after an upcoming step of the one before it.
pub fn many(rows: usize, windows: usize, back: bool) -> Vec<u32> {
    let mut lent = Lent::new(vec![0; 3 + 4 * rows]);
    accepted(Call::Fresh, &mut lent);
    for window in 0..windows {
        let (mut document, mut root) = (0, 0);
        if window > 0 {
            document = accepted(Call::Tab, &mut lent);
            root = lent.outs[1];
        }
        for row in 1..rows / windows {
            let call = if row == 1 { Call::Open(document) } else { Call::Navigate(document) };
            document = accepted(call, &mut lent);
        }
        if back {
            accepted(Call::Traverse(root, -1), &mut lent);
        }
    }
    lent.words
}

/// A desk whose first frame holds one of the two that are navigated in turn.
pub fn nested(rows: usize) -> Vec<u32> {
    let mut lent = Lent::new(vec![0; 3 + 4 * rows]);
    accepted(Call::Fresh, &mut lent);
    let mut latest = [0; 2];
    for row in 1..rows {
        let call = match row {
            1 | 3 => Call::Open(0),
            2 => Call::Open(latest[1]),
            _ => Call::Navigate(latest[row % 2]),
        };
        latest[row % 2] = accepted(call, &mut lent);
    }
    lent.words
}

/// A desk of which so many documents were replaced: the second row's, and others spread over the steps, the earlier before the later. The clerk went back
/// to each, and then forward to the end. With fewer steps than that some are replaced more than once.
pub fn replaced(rows: usize, count: usize) -> Vec<u32> {
    let mut lent = Lent::new(called(Shape::Desk, rows, rows));
    let steps = accepted(Call::Position(0), &mut lent) as usize;
    let mut here = steps;
    let mut go = |lent: &mut Lent, to: usize| {
        accepted(Call::Traverse(0, to as i32 - here as i32), lent);
        here = to;
    };
    for turn in 0..count {
        go(&mut lent, turn * steps / count);
        let document = if accepted(Call::Lists(0), &mut lent) > 0 { lent.first[0] } else { lent.words[7] };
        accepted(Call::Replace(document), &mut lent);
    }
    go(&mut lent, steps);
    lent.words
}

/// The record that the test of soundness takes longest for, word by word.
fn worst(rows: usize, room: usize) -> Vec<u32> {
    let mut words = vec![0; 3 + 4 * room];
    words[..3].fill(rows as u32);
    for row in 0..rows {
        let parent = if row == 0 { u32::MAX } else { (row as u32 + 1) % 2 * (row > 1) as u32 };
        words[3 + 4 * row..7 + 4 * row].copy_from_slice(&[row as u32, (rows - 1 - row) as u32, parent, 1]);
    }
    words
}

/// A record of a shape.
pub fn record(shape: Shape, rows: usize, room: usize) -> Vec<u32> {
    match shape {
        Shape::Worst => worst(rows, room),
        Shape::Beside => beside(rows, room).0.words,
        _ => called(shape, rows, room),
    }
}

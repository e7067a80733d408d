//! Records for the calls: grown by moves, replacements and new windows among them, renumbered, damaged, cut, and noise.
use crate::random::Random;
use reference::calls;
use reference::history::History;
use reference::record::{capacity, rows, used_words, write, Row, NONE};
use reference::windows::windows;
use std::collections::{BTreeMap, HashSet};

/// A fresh record with room for so many rows and some words past them.
pub fn fresh(random: &mut Random, room: usize) -> Vec<u32> {
    let spare = if room == 512 { random.below(40) } else { random.below(4) };
    let mut words = random.words(3 + 4 * room + spare);
    calls::fresh(&mut words).expect("there is room for one row");
    words
}

/// How a record grows: how many windows it may have and how many of its moves open one, how many of the others traverse and how far, how many of
/// the rest replace, how many of what is left open a frame, and which visible documents it moves from.
#[derive(Clone, Copy)]
pub struct Shape {
    windows: usize,
    tab_percent: usize,
    traverse_percent: usize,
    reach: i32,
    replace_percent: usize,
    open_percent: usize,
    from: From,
}

#[derive(Clone, Copy)]
enum From {
    Any,
    Latest,
    Root,
}

impl Shape {
    pub fn any(random: &mut Random, windows: usize) -> Shape {
        Shape {
            windows,
            tab_percent: random.pick(&[5, 15, 60]),
            traverse_percent: 15,
            reach: random.pick(&[1, 2, 2, 700]),
            replace_percent: random.pick(&[0, 0, 5, 25]),
            open_percent: random.pick(&[5, 20, 50, 95]),
            from: random.pick(&[From::Any, From::Any, From::Latest, From::Root]),
        }
    }
}

/// One move that the record most likely accepts.
pub fn move_on(random: &mut Random, words: &mut [u32], shape: Shape) {
    let visible = visible_documents(words);
    let from = match shape.from {
        From::Latest if random.chance(80) => visible[visible.len() - 1],
        From::Root if random.chance(80) => visible[0],
        _ => random.pick(&visible),
    };
    let _ = if window_count(words) < shape.windows && random.chance(shape.tab_percent) {
        calls::tab(words).map(|(document, _frame)| document)
    } else if random.chance(shape.traverse_percent) {
        let root = root_frame(random, words);
        let delta = delta_within(random, words, root, 0).clamp(-shape.reach, shape.reach);
        calls::traverse(words, root, delta, &mut vec![0; 4 * 512])
    } else if random.chance(shape.replace_percent) {
        let document = if random.chance(70) { leaf(random, words) } else { from };
        calls::replace(words, document)
    } else if random.chance(shape.open_percent) {
        calls::open(words, from).map(|(document, _frame)| document)
    } else {
        calls::navigate(words, from)
    };
}

/// A record after so many moves, of at most so many windows.
pub fn grown(random: &mut Random, room: usize, moves: usize, windows: usize) -> Vec<u32> {
    let mut words = fresh(random, room);
    let shape = Shape::any(random, windows);
    for _ in 0..moves {
        move_on(random, &mut words, shape);
    }
    words
}

/// A record of which nearly all rows are in use, of at most so many windows.
pub fn nearly_full(random: &mut Random, room: usize, windows: usize) -> Vec<u32> {
    let mut words = fresh(random, room);
    let mut shape = Shape { traverse_percent: 3, reach: 2, ..Shape::any(random, windows) };
    for turn in 0.. {
        if words[0] as usize >= room - room / 20 {
            break;
        }
        // Removals may outweigh what comes; opening alone always ends.
        if turn == 3 * room {
            shape = Shape { traverse_percent: 0, replace_percent: 0, open_percent: 100, ..shape };
        }
        move_on(random, &mut words, shape);
    }
    words
}

/// Those of all windows, in the order of their rows.
fn visible_documents(words: &[u32]) -> Vec<u32> {
    let rows = rows(words);
    let visible = History::of(&rows).fully_active();
    rows.iter().map(|row| row.document).filter(|document| visible.contains(document)).collect()
}

pub fn visible_document(random: &mut Random, words: &[u32]) -> u32 {
    random.pick(&visible_documents(words))
}

/// How many windows a sound record has.
pub fn window_count(words: &[u32]) -> usize {
    windows(&rows(words)).len()
}

/// A root frame of a sound record.
pub fn root_frame(random: &mut Random, words: &[u32]) -> u32 {
    let roots: Vec<u32> = windows(&rows(words)).into_keys().collect();
    random.pick(&roots)
}

/// A visible document that holds no frame, so that its replacement removes nothing.
fn leaf(random: &mut Random, words: &[u32]) -> u32 {
    let held: HashSet<u32> = rows(words).iter().map(|row| row.parent).collect();
    let leaves: Vec<u32> = visible_documents(words).into_iter().filter(|document| !held.contains(document)).collect();
    random.pick(&leaves)
}

/// A visible document to replace, one that holds no frame among them more often than not.
pub fn document_to_replace(random: &mut Random, words: &[u32]) -> u32 {
    if random.chance(40) { leaf(random, words) } else { visible_document(random, words) }
}

/// A frame that a visible document holds; the root frame where there is none.
pub fn frame_to_drop(random: &mut Random, words: &[u32]) -> u32 {
    let visible = visible_documents(words);
    let held: Vec<u32> = rows(words).iter().filter(|row| visible.contains(&row.parent)).map(|row| row.frame).collect();
    if held.is_empty() { rows(words)[0].frame } else { random.pick(&held) }
}

/// A δ from so much below the lowest to so much above the highest that the window of this root frame accepts.
pub fn delta_within(random: &mut Random, words: &[u32], root: u32, beyond: i64) -> i32 {
    let (position, steps, _) = calls::position(words, root).unwrap_or_default();
    random.between(-(position as i64) - beyond, (steps - position) as i64 + beyond) as i32
}

/// The same history with other numbers: documents rise, or some do not, or they come in any order; so do frames, and the next numbers are
/// anything above.
pub fn renumber(random: &mut Random, words: &mut [u32]) {
    let exchanges = random.pick(&[0, 0, 1, 3, 2 * words[0] as usize]);
    renumber_with(random, words, exchanges);
}

/// The same with documents that rise.
pub fn renumber_rising(random: &mut Random, words: &mut [u32]) {
    renumber_with(random, words, 0);
}

/// Renumbers with documents that rise, but for so many exchanges of two.
fn renumber_with(random: &mut Random, words: &mut [u32], exchanges: usize) {
    let mut rows = rows(words);
    let mut documents = rising_numbers(random, rows.len() + 1);
    let next_document = documents.pop().unwrap();
    (0..exchanges).for_each(|_| documents.swap(random.below(rows.len()), random.below(rows.len())));
    let frames = History::of(&rows).sessions();
    let mut numbers = rising_numbers(random, frames.len() + 1);
    let next_frame = numbers.pop().unwrap();
    for i in (1..numbers.len()).rev() {
        numbers.swap(i, random.below(i + 1));
    }
    let frame_number: BTreeMap<u32, u32> = frames.into_iter().zip(numbers).collect();
    let mut document_number: BTreeMap<u32, u32> = rows.iter().map(|row| row.document).zip(documents).collect();
    document_number.insert(NONE, NONE);
    for row in &mut rows {
        *row = Row { document: document_number[&row.document], frame: frame_number[&row.frame], parent: document_number[&row.parent], shown: row.shown };
    }
    write(words, next_document, next_frame, &rows);
}

/// Rising numbers that are close together, spread over the whole range, or end at its end.
fn rising_numbers(random: &mut Random, count: usize) -> Vec<u32> {
    let widest = random.pick(&[1, 2, 5, 1000, u32::MAX as usize / (count + 1)]);
    let mut numbers = Vec::new();
    let mut at = random.below(widest);
    for _ in 0..count {
        numbers.push(at as u32);
        at += 1 + random.below(widest);
    }
    let last = random.pick(&[NONE, NONE - 1, NONE - 2, numbers[count - 1], numbers[count - 1]]);
    let rise = last - numbers[count - 1];
    // All of them move up, or the last alone, so that the end of the range is met in both ways.
    if random.chance(50) {
        numbers.iter_mut().for_each(|number| *number += rise);
    } else {
        numbers[count - 1] += rise;
    }
    numbers
}

/// Changes a sound record in one or a few places; now and then it stays sound.
pub fn damage(random: &mut Random, words: &mut Vec<u32>) {
    let count = words[0] as usize;
    let room = capacity(words.len());
    let row = 3 + 4 * random.below(count);
    let other = 3 + 4 * random.below(count);
    match random.below(17) {
        0 | 1 => change_words(random, words, 1),
        2 => {
            let places = 1 + random.below(4);
            change_words(random, words, places);
        }
        3 => words[0] = random.pick(&[0, (count - 1) as u32, (count + 1) as u32, room as u32, (room + 1) as u32, 0x4000_0000, NONE]),
        4 => (0..4).for_each(|i| words.swap(row + i, other + i)),
        5 | 14 => {
            let (row, other) = (step_or(random, words, row), step_or(random, words, other));
            move_flag(words, row, other);
        }
        6 if count < room => {
            let at = 3 + 4 * count + random.below(4 * (room - count));
            words[at] = random.pick(&[1, 2, NONE]);
        }
        7 => words[1] = rows(words).iter().map(|row| row.document).max().unwrap().saturating_sub(random.below(2) as u32),
        8 => words[2] = rows(words).iter().map(|row| row.frame).max().unwrap().saturating_sub(random.below(2) as u32),
        9 => {
            // The whole frame gets another parent: its own row, a later one, one that is not there, or none.
            let absent = random.telling_word();
            let parent = random.pick(&[words[row], words[other], absent, NONE]);
            let frame = words[row + 1];
            (0..count).map(|i| 3 + 4 * i).filter(|&at| words[at + 1] == frame).collect::<Vec<_>>().into_iter().for_each(|at| words[at + 2] = parent);
        }
        10 => words[row + 2] = random.pick(&[words[other], words[other + 2], NONE]),
        11 => words[row + 1] = words[other + 1],
        12 => words[row + 3] = random.pick(&[0, 1, 2, NONE, 0x0100_0001]),
        13 => words[row] = words[other],
        15 => words[row] = words[1].saturating_add(random.below(2) as u32),
        _ => {
            let end = used_words(words.len());
            words[end..].iter_mut().for_each(|word| *word = random.telling_word());
            words[row] = words[row].wrapping_add(random.pick(&[1, NONE]));
        }
    }
}

fn change_words(random: &mut Random, words: &mut [u32], places: usize) {
    let near = 3 + 4 * words[0] as usize;
    for _ in 0..places {
        let bound = if random.chance(80) { near } else { words.len() };
        let at = random.below(bound);
        words[at] = match random.below(3) {
            0 => words[at].wrapping_add(random.pick(&[1, NONE])),
            1 => words[random.below(near)],
            _ => random.telling_word(),
        };
    }
}

/// The start of a random row that is a step, or the given one when there is none.
fn step_or(random: &mut Random, words: &[u32], row: usize) -> usize {
    let frame = |place: usize| words[4 + 4 * place];
    let steps: Vec<usize> = (0..words[0] as usize).filter(|&i| (0..i).any(|j| frame(j) == frame(i))).collect();
    if steps.is_empty() { row } else { 3 + 4 * random.pick(&steps) }
}

/// Shows the one row instead of its frame's shown row, and the same for the other: S6 stays, S7 may not.
fn move_flag(words: &mut [u32], row: usize, other: usize) {
    let count = words[0] as usize;
    for at in [row, other] {
        let frame = words[at + 1];
        for place in 0..count {
            if words[4 + 4 * place] == frame {
                words[6 + 4 * place] = (3 + 4 * place == at) as u32;
            }
        }
    }
}

/// Words without any order, small or large, with a count that may fit.
pub fn noise(random: &mut Random, length: usize) -> Vec<u32> {
    let mut words: Vec<u32> = match random.below(3) {
        0 => random.words(length),
        1 => (0..length).map(|_| random.telling_word()).collect(),
        _ => (0..length).map(|_| random.below(3) as u32).collect(),
    };
    if length > 0 && random.chance(60) {
        words[0] = random.below(2 + capacity(length)) as u32;
    }
    words
}

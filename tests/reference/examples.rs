//! Document 01's examples, and examples of document 02's requests. Each check panics with its name when the reference gives something else.
use crate::calls::*;
use crate::doubles::{product, Double};
use crate::history::History;
use crate::places::{place, place_at, place_at_zoom, place_itself, Place, FREE};
use crate::record::{rows, NONE};
use crate::saved::old_bytes_of;
use crate::script;
use crate::sound::{broken, is_sound};
use std::fmt::Debug;

struct Checks {
    held: u32,
}

impl Checks {
    fn same<T: PartialEq + Debug>(&mut self, name: &str, given: T, wanted: T) {
        assert_eq!(given, wanted, "{name}");
        self.held += 1;
    }
}

/// A record of capacity c from rows (document, frame, parent, shown).
fn record(c: usize, next_document: u32, next_frame: u32, rows: &[[u32; 4]]) -> Vec<u32> {
    let mut words = vec![0; 3 + 4 * c];
    words[..3].copy_from_slice(&[rows.len() as u32, next_document, next_frame]);
    words[3..3 + 4 * rows.len()].copy_from_slice(&rows.concat());
    words
}

/// Record X: "documents 0 to 5, frames {0}, {1,5}, {2,4}, {3} numbered 0 to 3, parents none,0,1,0,1,0; shown 0,1,3,4".
pub fn record_x() -> Vec<u32> {
    let rows = [[0, 0, NONE, 1], [1, 1, 0, 1], [2, 2, 1, 0], [3, 3, 0, 1], [4, 2, 1, 1], [5, 1, 0, 0]];
    record(8, 6, 4, &rows)
}

fn fresh_record(c: usize) -> Vec<u32> {
    let mut words = vec![7; 3 + 4 * c];
    fresh(&mut words).unwrap();
    words
}

fn visible_documents(words: &[u32]) -> Vec<u32> {
    rows(words).iter().map(|row| row.document).filter(|&d| visible(words, d).is_ok_and(Sight::visible)).collect()
}

fn shown_documents(words: &[u32]) -> Vec<u32> {
    rows(words).iter().filter(|row| row.shown == 1).map(|row| row.document).collect()
}

fn documents(words: &[u32]) -> Vec<u32> {
    rows(words).iter().map(|row| row.document).collect()
}

/// What the visible question answers where a document is hidden by this one, so many links up; where it is visible.
fn hid(hiding: u32, links: u32) -> Answer<Sight> {
    Ok(Sight { hiding: Some(hiding), links })
}

fn sees(links: u32) -> Answer<Sight> {
    Ok(Sight { hiding: None, links })
}

/// Traverse of window 0 with ample room: the change rows.
fn go(words: &mut [u32], delta: i32) -> Answer<Vec<u32>> {
    go_in(words, 0, delta)
}

/// The same of the window of this root frame.
fn go_in(words: &mut [u32], root: u32, delta: i32) -> Answer<Vec<u32>> {
    let mut changes = vec![77; 64];
    let count = traverse(words, root, delta, &mut changes)? as usize;
    assert!(changes[4 * count..].iter().all(|&word| word == 77), "further rows keep what they held");
    changes.truncate(4 * count);
    Ok(changes)
}

pub fn check_all() -> u32 {
    let mut checks = Checks { held: 0 };
    numbered_examples(&mut checks);
    small_examples(&mut checks);
    drop_examples(&mut checks);
    hiding_examples(&mut checks);
    replace_examples(&mut checks);
    tab_examples(&mut checks);
    turn_examples(&mut checks);
    upcoming_examples(&mut checks);
    beneath_examples(&mut checks);
    root_examples(&mut checks);
    place_examples(&mut checks);
    freeing_examples(&mut checks);
    zoom_examples(&mut checks);
    saved_examples(&mut checks);
    replaced_saved_examples(&mut checks);
    old_saved_examples(&mut checks);
    windows_saved_examples(&mut checks);
    contents_examples(&mut checks);
    sound_clauses(&mut checks);
    script_examples(&mut checks);
    checks.held
}

fn numbered_examples(c: &mut Checks) {
    let x = record_x();
    c.same("P1 sound", is_sound(&x), true);
    c.same("P1 position", position(&x, 0), Ok((1, 2, 3)));
    c.same("P1 visible", visible_documents(&x), vec![0, 1, 3, 4]);

    let mut p2 = x.clone();
    c.same("P2 change rows", go(&mut p2, -1), Ok(vec![2, 4, 2, 1]));
    c.same("P2 shown", shown_documents(&p2), vec![0, 1, 2, 3]);

    let mut p3 = x.clone();
    c.same("P3 change rows", go(&mut p3, 1), Ok(vec![1, 1, 5, 1]));
    c.same("P3 4 is shown", shown_documents(&p3).contains(&4), true);
    c.same("P3 4 is not visible", visible(&p3, 4), hid(1, 1));

    for (name, delta) in [("P4", 2), ("P4", -2), ("P5", i32::MIN), ("the other end", i32::MAX)] {
        let mut words = x.clone();
        c.same(name, go(&mut words, delta), no(6));
        c.same(name, words, x.clone());
    }

    let mut p6 = x.clone();
    c.same("P6 number", navigate(&mut p6, 1), Ok(6));
    c.same("P6 documents", documents(&p6), vec![0, 1, 2, 3, 4, 6]);
    c.same("P6 position", position(&p6, 0), Ok((2, 2, 3)));
    c.same("P6 visible", visible_documents(&p6), vec![0, 3, 6]);
    c.same("P7 change rows", go(&mut p6, -1), Ok(vec![1, 6, 1, 1]));
    c.same("P7 visible", visible_documents(&p6), vec![0, 1, 3, 4]);

    for (from, refusal) in [(2, hidden_by(2)), (9, no(4))] {
        let mut words = x.clone();
        c.same("P8", navigate(&mut words, from), refusal);
        c.same("P8 keeps the words", words, x.clone());
    }

    let p9 = record(8, 5, 3, &[[0, 0, NONE, 1], [1, 1, 0, 1], [2, 2, 0, 0], [3, 1, 0, 0], [4, 2, 0, 1]]);
    c.same("P9 clause", broken(&p9), vec![7]);
    c.same("P9 refused", position(&p9, 0), no(2));
    c.same("P9 is not well formed", History::of(&rows(&p9)).well_formed(), false);

    let mut p10 = fresh_record(8);
    c.same("P10 open 0", open(&mut p10, 0), Ok((1, 1)));
    c.same("P10 navigate 0", navigate(&mut p10, 0), Ok(2));
    c.same("P10 open 2", open(&mut p10, 2), Ok((3, 2)));
    c.same("P10 the latest shown", shown_documents(&p10).last().copied(), Some(3));
    c.same("P10 by -1", go(&mut p10, -1), Ok(vec![0, 2, 0, 1]));
    c.same("P10 visible", visible_documents(&p10), vec![0, 1]);

    c.same("P11 number", navigate(&mut p10, 1), Ok(4));
    c.same("P11 2 and 3 go", documents(&p10), vec![0, 1, 4]);

    let mut p12 = fresh_record(3);
    c.same("P12 open 0", open(&mut p12, 0), Ok((1, 1)));
    c.same("P12 navigate 1", navigate(&mut p12, 1), Ok(2));
    c.same("P12 full", navigate(&mut p12, 2), no(7));
    c.same("P12 by -1", go(&mut p12, -1), Ok(vec![1, 2, 1, 1]));
    c.same("P12 room after the removal", navigate(&mut p12, 1), Ok(3));
    c.same("P12 documents", documents(&p12), vec![0, 1, 3]);
}

fn small_examples(c: &mut Checks) {
    c.same("six words", fresh(&mut [9; 6]), no(1));
    let mut seven = [9; 7];
    c.same("seven words", fresh(&mut seven), Ok(()));
    c.same("fresh", seven, [1, 1, 1, 0, 0, NONE, 1]);
    c.same("one row is taken", open(&mut seven, 0), no(7));
    let mut ten = [9; 10];
    c.same("three words past the rows", fresh(&mut ten), Ok(()));
    c.same("words past 3 + 4C are kept", ten, [1, 1, 1, 0, 0, NONE, 1, 9, 9, 9]);

    let x = record_x();
    let (mut taken, mut upcoming) = ([8; 3], [9; 1]);
    c.same("lists of X", lists(&x, 0, &mut taken, &mut upcoming), Ok((1, 1)));
    c.same("taken, the rest kept", taken, [4, 8, 8]);
    c.same("upcoming", upcoming, [5]);
    c.same("no room for taken", lists(&x, 0, &mut [], &mut upcoming), no(9));
    c.same("no room for upcoming", lists(&x, 0, &mut taken, &mut []), no(9));
    c.same("stretch forward", stretch(&[1, 2], &[3, 4, 5], 2), Ok(&[3, 4][..]));
    c.same("stretch by nothing", stretch(&[1, 2], &[], 0), Ok(&[][..]));
    c.same("stretch back", stretch(&[1, 2], &[3], -2), Ok(&[1, 2][..]));
    c.same("stretch too far back", stretch(&[1, 2], &[3, 4, 5], -3), no(6));
    c.same("stretch by the least number", stretch(&[1, 2], &[3], i32::MIN), no(6));
    let mut pairs = [6; 9];
    c.same("outline of X", outline(&x, 0, &mut pairs), Ok(4));
    c.same("pairs", pairs, [0, 0, 1, 1, 2, 4, 1, 3, 6]);
    c.same("outline in seven words", outline(&x, 0, &mut pairs[..7]), no(9));
    c.same("no change row lent", traverse(&mut x.clone(), 0, 1, &mut [0; 3]), no(9));
    c.same("nothing to change", traverse(&mut x.clone(), 0, 0, &mut []), Ok(0));
    c.same("not a document", visible(&x, NONE), no(4));

    for (next_document, next_frame, wanted) in [(NONE, 4, no(8)), (6, NONE, no(8)), (NONE - 1, NONE - 1, Ok((NONE - 1, NONE - 1)))] {
        let mut words = x.clone();
        words[1..3].copy_from_slice(&[next_document, next_frame]);
        c.same("open near the last number", open(&mut words, 0), wanted);
    }
    let mut frames_used = x.clone();
    frames_used[2] = NONE;
    c.same("navigate needs no frame number", navigate(&mut frames_used, 1), Ok(6));
    frames_used[1] = NONE;
    c.same("navigate with all numbers used", navigate(&mut frames_used, 6), no(8));
}

/// L1: "all its rows and all beneath them go, gaps close in order, the rest keeps its flags".
fn drop_examples(c: &mut Checks) {
    let x = record_x();
    let after = |frame: u32, mut words: Vec<u32>| {
        let removed = drop_frame(&mut words, frame);
        (removed, words)
    };
    let (root, list, third, later) = ([0, 0, NONE, 1], [1, 1, 0, 1], [3, 3, 0, 1], [5, 1, 0, 0]);

    let (removed, words) = after(1, x.clone());
    c.same("X drop 1: 1 and 5, and 2 and 4 beneath 1", removed, Ok(4));
    c.same("X drop 1 words", words.clone(), record(8, 6, 4, &[root, third]));
    c.same("X drop 1 position", position(&words, 0), Ok((0, 0, 1)));
    c.same("X drop 1 visible", visible_documents(&words), vec![0, 3]);

    let (removed, words) = after(2, x.clone());
    c.same("X drop 2: 2 and 4", removed, Ok(2));
    c.same("X drop 2 words", words.clone(), record(8, 6, 4, &[root, list, third, later]));
    c.same("X drop 2: position falls by the step taken, 5 stays upcoming", position(&words, 0), Ok((0, 1, 2)));
    c.same("X drop 2 visible", visible_documents(&words), vec![0, 1, 3]);

    let (removed, words) = after(3, x.clone());
    c.same("X drop 3", removed, Ok(1));
    c.same("X drop 3: no step goes", position(&words, 0), Ok((1, 2, 3)));

    let mut forward = x.clone();
    go(&mut forward, 1).unwrap();
    for (name, frame, words, refusal) in [
        ("X drop 0, the root frame", 0, &x, no(10)),
        ("X drop 9, not a frame", 9, &x, no(4)),
        ("X drop 5, a document and not a frame", 5, &x, no(4)),
        ("X drop 4294967295", NONE, &x, no(4)),
        ("X by +1, drop 2: 1 is hidden", 2, &forward, hidden_by(1)),
        ("X by +1, drop 0", 0, &forward, no(10)),
    ] {
        c.same(name, after(frame, words.clone()), (refusal, words.clone()));
    }
    let (removed, words) = after(1, forward);
    c.same("X by +1, drop 1: hidden rows go too", removed, Ok(4));
    c.same("X by +1, drop 1 words", words, record(8, 6, 4, &[root, third]));
    c.same("six words", drop_frame(&mut [9; 6], 0), no(1));
    c.same("X with a row too many", drop_frame(&mut [&[7], &x[1..]].concat(), 0), no(2));

    let mut again = fresh_record(8);
    c.same("open", open(&mut again, 0), Ok((1, 1)));
    c.same("drop", drop_frame(&mut again, 1), Ok(1));
    c.same("drop leaves the next numbers", again.clone(), record(8, 2, 2, &[root]));
    c.same("open once more: new numbers", open(&mut again, 0), Ok((2, 2)));
    c.same("the old frame does not come back", drop_frame(&mut again, 1), no(4));

    let mut full = fresh_record(3);
    c.same("full: open 0", open(&mut full, 0), Ok((1, 1)));
    c.same("full: navigate 1", navigate(&mut full, 1), Ok(2));
    c.same("full", open(&mut full, 0), no(7));
    c.same("full: drop 1", drop_frame(&mut full, 1), Ok(2));
    c.same("full: room for an open", open(&mut full, 0), Ok((3, 2)));
}

/// L4: "the nearest document, itself first and then upwards, that isn't shown".
fn hiding_examples(c: &mut Checks) {
    // 1 and 3 are a frame under 0, beneath 1 comes 2 and beneath 2 comes 5; 4 took the place of 0, and 3 that of 1.
    let nested = record(6, 6, 4, &[[0, 0, NONE, 0], [1, 1, 0, 0], [2, 2, 1, 1], [3, 1, 0, 1], [4, 0, NONE, 1], [5, 3, 2, 1]]);
    for (name, document, wanted) in [
        ("visible", 4, sees(0)),
        ("hidden by itself, with none above it", 0, hid(0, 0)),
        ("hidden by itself, and not by its parent", 1, hid(1, 0)),
        ("hidden by its parent, and not by the farthest", 2, hid(1, 1)),
        ("hidden by its parent's parent", 5, hid(1, 2)),
        ("hidden by the root's document", 3, hid(0, 1)),
        ("not a document", 6, no(4)),
    ] {
        c.same(name, visible(&nested, document), wanted);
    }
    // L6: "the number of parent links followed"; a visible document's are all above it.
    for (document, links) in [(0, 0), (1, 1), (3, 1), (4, 2)] {
        c.same("links of a visible document", visible(&record_x(), document), sees(links));
    }
    for (name, document, wanted) in [("own", 1, 1), ("above", 2, 1), ("two above", 5, 1), ("root", 3, 0), ("root itself", 0, 0)] {
        let mut words = nested.clone();
        c.same(name, open(&mut words, document), hidden_by(wanted));
        c.same(name, navigate(&mut words, document), hidden_by(wanted));
        c.same(name, words, nested.clone());
    }
    for (name, frame, refusal) in [
        ("the climb of 2, which holds the frame", 3, hidden_by(1)),
        ("1 holds the frame and is not shown", 2, hidden_by(1)),
        ("0 holds the frame and is not shown", 1, hidden_by(0)),
        ("nothing holds the root frame", 0, no(10)),
        ("not a frame", 4, no(4)),
    ] {
        let mut words = nested.clone();
        c.same(name, drop_frame(&mut words, frame), refusal);
        c.same(name, words, nested.clone());
    }
    c.same("full, and hidden", open(&mut nested.clone(), 2), hidden_by(1));
    c.same("full, and visible", open(&mut nested.clone(), 4), no(7));
}

/// L7: "A login page should vanish from Back": "everything beneath it goes, the row takes the next document number, stays shown, and upcoming
/// steps elsewhere stay".
fn replace_examples(c: &mut Checks) {
    let x = record_x();
    let after = |document: u32, mut words: Vec<u32>| {
        let new = replace(&mut words, document);
        (new, words)
    };
    let (root, list, third, later) = ([0, 0, NONE, 1], [1, 1, 0, 1], [3, 3, 0, 1], [5, 1, 0, 0]);

    let (new, mut login) = after(0, fresh_record(4));
    c.same("the login page gives way", new, Ok(1));
    c.same("in its own row", login.clone(), record(4, 2, 1, &[[1, 0, NONE, 1]]));
    c.same("no step", position(&login, 0), Ok((0, 0, 1)));
    c.same("back: nothing is there", go(&mut login, -1), no(6));
    c.same("the login page is gone", visible(&login, 0), no(4));
    c.same("a link", navigate(&mut login, 1), Ok(2));
    c.same("back is where the login page was", go(&mut login, -1), Ok(vec![0, 2, 1, 1]));

    let (new, mut words) = after(1, x.clone());
    c.same("X replace 1: 2 and 4 beneath it go", new, Ok(6));
    c.same("X replace 1 words", words.clone(), record(8, 7, 4, &[root, [6, 1, 0, 1], third, later]));
    c.same("X replace 1: position falls by 4, and 5 stays upcoming in its frame", position(&words, 0), Ok((0, 1, 2)));
    c.same("X replace 1 visible", visible_documents(&words), vec![0, 6, 3]);
    c.same("X replace 1: a new number beneath earlier ones is sound", is_sound(&words), true);
    c.same("X replace 1 and forward", go(&mut words, 1), Ok(vec![1, 6, 5, 1]));
    c.same("X replace 1, forward and back", go(&mut words, -1), Ok(vec![1, 5, 6, 1]));

    let (new, mut words) = after(3, x.clone());
    let (second, fourth) = ([2, 2, 1, 0], [4, 2, 1, 1]);
    c.same("X replace 3", new, Ok(6));
    c.same("X replace 3 words", words.clone(), record(8, 7, 4, &[root, list, second, [6, 3, 0, 1], fourth, later]));
    c.same("X replace 3: a step taken and one upcoming in other frames stay", position(&words, 0), Ok((1, 2, 3)));
    c.same("X replace 3 once more", replace(&mut words, 6), Ok(7));
    c.same("X replace 3 twice words", words.clone(), record(8, 8, 4, &[root, list, second, [7, 3, 0, 1], fourth, later]));
    c.same("the one between is gone", replace(&mut words, 6), no(4));
    let (mut taken, mut upcoming) = ([0; 1], [0; 1]);
    c.same("X replace 3 twice lists", lists(&words, 0, &mut taken, &mut upcoming), Ok((1, 1)));
    c.same("X replace 3 twice steps", (taken, upcoming), ([4], [5]));
    let mut pairs = [0; 8];
    c.same("X replace 3 twice outline", outline(&words, 0, &mut pairs), Ok(4));
    c.same("by frames, whatever the numbers", pairs, [0, 0, 1, 1, 2, 4, 1, 7]);
    c.same("X replace 3 twice and forward", go(&mut words, 1), Ok(vec![1, 1, 5, 1]));
    c.same("open under what replaced it", open(&mut words, 7), Ok((8, 4)));

    let (new, words) = after(4, x.clone());
    c.same("X replace 4, which is a step taken", new, Ok(6));
    c.same("X replace 4 words", words.clone(), record(8, 7, 4, &[root, list, second, third, [6, 2, 1, 1], later]));
    c.same("X replace 4: the step stays one", position(&words, 0), Ok((1, 2, 3)));

    let (new, words) = after(0, x.clone());
    c.same("X replace 0: all the others are beneath it", new, Ok(6));
    c.same("X replace 0 words: the frame numbers do not come back", words, record(8, 7, 4, &[[6, 0, NONE, 1]]));

    let mut p10 = fresh_record(4);
    open(&mut p10, 0).and(navigate(&mut p10, 0)).and(open(&mut p10, 2)).and(go(&mut p10, -1)).unwrap();
    let (new, mut words) = after(0, p10.clone());
    c.same("P10 replace 0: 1 goes; 2, upcoming in its own frame, stays with 3 beneath it", new, Ok(4));
    c.same("P10 replace 0 words", words.clone(), record(4, 5, 3, &[[4, 0, NONE, 1], [2, 0, NONE, 0], [3, 2, 2, 1]]));
    c.same("P10 replace 0 and forward", go(&mut words, 1), Ok(vec![0, 4, 2, 1]));
    c.same("P10 replace 0 and forward visible", visible_documents(&words), vec![2, 3]);
    c.same("P10 replace 0, forward: 4 is not visible now", replace(&mut words, 4), hidden_by(4));
    c.same("a full table has room for a replacement", after(1, p10).0, Ok(4));

    let mut forward = x.clone();
    go(&mut forward, 1).unwrap();
    let mut used_up = x.clone();
    used_up[1] = NONE;
    let (mut last, mut frames_used) = (x.clone(), x.clone());
    last[1] = NONE - 1;
    frames_used[2] = NONE;
    for (name, document, words, refusal) in [
        ("X replace 2, hidden by itself", 2, &x, hidden_by(2)),
        ("X replace 5, an upcoming step", 5, &x, hidden_by(5)),
        ("X by +1, replace 4: 1 hides it", 4, &forward, hidden_by(1)),
        ("X replace 9", 9, &x, no(4)),
        ("X replace 6, the next number", 6, &x, no(4)),
        ("X replace 4294967295", NONE, &x, no(4)),
        ("no number left", 1, &used_up, no(8)),
        ("5 before 8", 2, &used_up, hidden_by(2)),
        ("4 before 8", 9, &used_up, no(4)),
    ] {
        c.same(name, after(document, words.clone()), (refusal, words.clone()));
    }
    c.same("the last number", after(1, last).0, Ok(NONE - 1));
    c.same("no frame number is needed", after(1, frames_used).0, Ok(6));
    c.same("six words", replace(&mut [9; 6], 0), no(1));
    c.same("X with a row too many", replace(&mut [&[7], &x[1..]].concat(), 0), no(2));
}

/// The two lists of a window, each just as long as its count says.
fn steps_of(words: &[u32], root: u32) -> Answer<(Vec<u32>, Vec<u32>)> {
    let (mut taken, mut upcoming) = (vec![77; 16], vec![77; 16]);
    let (taken_count, upcoming_count) = lists(words, root, &mut taken, &mut upcoming)?;
    taken.truncate(taken_count as usize);
    upcoming.truncate(upcoming_count as usize);
    Ok((taken, upcoming))
}

/// The pairs of a window's outline.
fn outline_of(words: &[u32], root: u32) -> Answer<Vec<u32>> {
    let mut pairs = vec![77; 32];
    let count = outline(words, root, &mut pairs)? as usize;
    pairs.truncate(2 * count);
    Ok(pairs)
}

/// L10: "Opening a window appends a root row with new numbers"; "opening a window gives 1, 2, 7 and 8".
fn tab_examples(c: &mut Checks) {
    let (main, card) = ([0, 0, NONE, 1], [1, 1, NONE, 1]);
    let mut words = fresh_record(4);
    c.same("a window beside the first", tab(&mut words), Ok((1, 1)));
    c.same("its words", words.clone(), record(4, 2, 2, &[main, card]));
    c.same("the first window stands at its start", position(&words, 0), Ok((0, 0, 1)));
    c.same("and so does the new one", position(&words, 1), Ok((0, 0, 1)));
    c.same("the first window's outline", outline_of(&words, 0), Ok(vec![0, 0]));
    c.same("the new one's, at depth 0 too", outline_of(&words, 1), Ok(vec![0, 1]));
    c.same("visible in both", visible_documents(&words), vec![0, 1]);
    c.same("with no link up to the first", visible(&words, 1), sees(0));
    c.same("a third window", tab(&mut words), Ok((2, 2)));
    c.same("the second root frame cannot be taken out", drop_frame(&mut words, 1), no(10));
    c.same("nor the third, nor the first", (drop_frame(&mut words, 2), drop_frame(&mut words, 0)), (no(10), no(10)));
    c.same("not a frame", drop_frame(&mut words, 3), no(4));
    c.same("a frame in the second window", open(&mut words, 1), Ok((3, 3)));
    c.same("all rows", words.clone(), record(4, 4, 4, &[main, card, [2, 2, NONE, 1], [3, 3, 1, 1]]));
    c.same("full", tab(&mut words), no(7));
    c.same("as it was", words, record(4, 4, 4, &[main, card, [2, 2, NONE, 1], [3, 3, 1, 1]]));

    let x = record_x();
    let mut beside_x = x.clone();
    c.same("beside X", tab(&mut beside_x), Ok((6, 4)));
    let rows = [[0, 0, NONE, 1], [1, 1, 0, 1], [2, 2, 1, 0], [3, 3, 0, 1], [4, 2, 1, 1], [5, 1, 0, 0], [6, 4, NONE, 1]];
    c.same("X's upcoming step stays", beside_x.clone(), record(8, 7, 5, &rows));
    c.same("X stands where it stood", (position(&beside_x, 0), steps_of(&beside_x, 0)), (Ok((1, 2, 3)), Ok((vec![4], vec![5]))));
    c.same("its outline", outline_of(&beside_x, 0), Ok(vec![0, 0, 1, 1, 2, 4, 1, 3]));

    for (next_document, next_frame, wanted) in [(NONE, 4, no(8)), (6, NONE, no(8)), (NONE - 1, NONE - 1, Ok((NONE - 1, NONE - 1)))] {
        let mut words = x.clone();
        words[1..3].copy_from_slice(&[next_document, next_frame]);
        c.same("a window near the last number", tab(&mut words), wanted);
    }
    c.same("six words", tab(&mut [9; 6]), no(1));
    c.same("X with a row too many", tab(&mut [&[7], &x[1..]].concat()), no(2));
    c.same("7 before 8", tab(&mut [1, NONE, NONE, 0, 0, NONE, 1]), no(7));
}

/// Two windows navigated in turn, two steps each.
fn in_turn() -> Vec<u32> {
    let mut words = fresh_record(8);
    tab(&mut words).unwrap();
    [0, 1, 2, 3].into_iter().for_each(|from| assert_eq!(navigate(&mut words, from), Ok(from + 2)));
    words
}

/// L10: "S7, position, steps, traversal [..] hold per window"; "a call on one window leaves the other's rows as they were and in their order".
fn turn_examples(c: &mut Checks) {
    let flags = |shown: [u32; 6]| {
        let row = |document: u32| [document, document % 2, NONE, shown[document as usize]];
        record(8, 6, 2, &[row(0), row(1), row(2), row(3), row(4), row(5)])
    };
    let mut words = in_turn();
    c.same("in turn", words.clone(), flags([0, 0, 0, 0, 1, 1]));
    c.same("the first window's steps alone", (position(&words, 0), steps_of(&words, 0)), (Ok((2, 2, 3)), Ok((vec![4, 2], vec![]))));
    c.same("the second one's", (position(&words, 1), steps_of(&words, 1)), (Ok((2, 2, 3)), Ok((vec![5, 3], vec![]))));
    c.same("too far back, though both have four steps", go_in(&mut words, 0, -3), no(6));

    c.same("back in the first", go_in(&mut words, 0, -1), Ok(vec![0, 4, 2, 1]));
    c.same("the second shows what it showed", words.clone(), flags([0, 0, 1, 0, 0, 1]));
    c.same("the first stands lower", (position(&words, 0), steps_of(&words, 0)), (Ok((1, 2, 3)), Ok((vec![2], vec![4]))));
    c.same("the second where it stood", (position(&words, 1), steps_of(&words, 1)), (Ok((2, 2, 3)), Ok((vec![5, 3], vec![]))));
    c.same("outlines", (outline_of(&words, 0), outline_of(&words, 1)), (Ok(vec![0, 2]), Ok(vec![0, 5])));
    c.same("visible in both", visible_documents(&words), vec![2, 5]);
    c.same("forward in the second: nothing is there", go_in(&mut words, 1, 1), no(6));
    c.same("sound by windows: 4 is upcoming, and 5, a later step, is shown", broken(&words), vec![]);
    c.same("and not as one", History::of(&rows(&words)).well_formed(), false);
    let mut one_window = words.clone();
    [1, 3, 5].into_iter().for_each(|place| one_window[3 + 4 * place + 2] = 0);
    c.same("nor in one window", broken(&one_window), vec![7]);

    c.same("back in the second to its start", go_in(&mut words, 1, -2), Ok(vec![1, 5, 1, 1]));
    c.same("the first shows what it showed", words.clone(), flags([0, 1, 1, 0, 0, 0]));
    c.same("forward in the first", go_in(&mut words, 0, 1), Ok(vec![0, 2, 4, 1]));
    c.same("the second stays at its start", words.clone(), flags([0, 1, 0, 0, 1, 0]));
    c.same("by nothing", go_in(&mut words, 1, 0), Ok(vec![]));
    c.same("forward in the second by all", go_in(&mut words, 1, 2), Ok(vec![1, 1, 5, 1]));
    c.same("as they were", words, in_turn());

    // P9's third frame, of 2 and 4, as a window: 3 is upcoming in the other one.
    let p9 = record(8, 5, 3, &[[0, 0, NONE, 1], [1, 1, 0, 1], [2, 2, NONE, 0], [3, 1, 0, 0], [4, 2, NONE, 1]]);
    c.same("P9 in two windows", broken(&p9), vec![]);
    c.same("P9 in two windows: positions", (position(&p9, 0), position(&p9, 2)), (Ok((0, 1, 2)), Ok((1, 1, 2))));
}

/// L10: "the removal done by navigation [holds] per window".
fn upcoming_examples(c: &mut Checks) {
    // P10, a window with 2 upcoming and 3 beneath it, and beside it one with 5 upcoming and 6 beneath it.
    let mut words = fresh_record(8);
    open(&mut words, 0).and(navigate(&mut words, 0)).and(open(&mut words, 2)).and(go(&mut words, -1)).unwrap();
    c.same("a card", tab(&mut words), Ok((4, 3)));
    c.same("a link in it", navigate(&mut words, 4), Ok(5));
    c.same("a frame there", open(&mut words, 5), Ok((6, 4)));
    c.same("and back", go_in(&mut words, 3, -1), Ok(vec![3, 5, 4, 1]));
    let (card, link, beneath) = ([4, 3, NONE, 1], [5, 3, NONE, 0], [6, 4, 5, 1]);
    let rows = [[0, 0, NONE, 1], [1, 1, 0, 1], [2, 0, NONE, 0], [3, 2, 2, 1], card, link, beneath];
    c.same("upcoming in both", words.clone(), record(8, 7, 5, &rows));
    c.same("the steps of both", (steps_of(&words, 0), steps_of(&words, 3)), (Ok((vec![], vec![2])), Ok((vec![], vec![5]))));
    c.same("a document of neither", navigate(&mut words, 9), no(4));
    c.same("the next number", navigate(&mut words, 7), no(4));
    c.same("upcoming in the second window", navigate(&mut words, 5), hidden_by(5));
    c.same("beneath that", navigate(&mut words, 6), hidden_by(5));
    c.same("as it was", words.clone(), record(8, 7, 5, &rows));

    c.same("navigate in the first: 2 and 3 go, 5 and 6 stay", navigate(&mut words, 1), Ok(7));
    c.same("its words", words.clone(), record(8, 8, 5, &[[0, 0, NONE, 1], [1, 1, 0, 0], card, link, beneath, [7, 1, 0, 1]]));
    c.same("a step in the first", (position(&words, 0), position(&words, 3)), (Ok((1, 1, 2)), Ok((0, 1, 2))));
    c.same("forward in the second", go_in(&mut words.clone(), 3, 1), Ok(vec![3, 4, 5, 1]));
    c.same("back in the first", go_in(&mut words, 0, -1), Ok(vec![1, 7, 1, 1]));
    c.same("navigate in the second: 5 and 6 go, 7 stays", navigate(&mut words, 4), Ok(8));
    let rows = [[0, 0, NONE, 1], [1, 1, 0, 1], [4, 3, NONE, 0], [7, 1, 0, 0], [8, 3, NONE, 1]];
    c.same("its words", words.clone(), record(8, 9, 5, &rows));
    c.same("the steps of both", (steps_of(&words, 0), steps_of(&words, 3)), (Ok((vec![], vec![7])), Ok((vec![8], vec![]))));

    // Three rows, of which one is upcoming in the first window.
    let mut full = fresh_record(3);
    navigate(&mut full, 0).and(tab(&mut full)).and(go(&mut full, -1)).unwrap();
    let rows = [[0, 0, NONE, 1], [1, 0, NONE, 0], [2, 1, NONE, 1]];
    c.same("full", full.clone(), record(3, 3, 2, &rows));
    c.same("full: what is upcoming elsewhere makes no room", navigate(&mut full, 2), no(7));
    c.same("full: nor for a frame or a window", (open(&mut full, 2), tab(&mut full)), (no(7), no(7)));
    c.same("full, as it was", full.clone(), record(3, 3, 2, &rows));
    c.same("full: it does in its own window", navigate(&mut full, 0), Ok(3));
    c.same("full: 1 gone", full, record(3, 4, 2, &[[0, 0, NONE, 0], [2, 1, NONE, 1], [3, 0, NONE, 1]]));
}

/// Opening, removal and replacing in one window, and the climb, which ends at the window's own root.
fn beneath_examples(c: &mut Checks) {
    // X, and a card with a frame of two steps.
    let mut words = record_x();
    let x = words[3..3 + 4 * 6].to_vec();
    words.resize(3 + 4 * 12, 0);
    c.same("a card beside X", tab(&mut words), Ok((6, 4)));
    c.same("a frame in it", open(&mut words, 6), Ok((7, 5)));
    c.same("a link", navigate(&mut words, 7), Ok(8));
    c.same("another", navigate(&mut words, 8), Ok(9));
    let card = [[6, 4, NONE, 1], [7, 5, 6, 0], [8, 5, 6, 0], [9, 5, 6, 1]];
    let beside_x = |next_document: u32, next_frame: u32, card: &[[u32; 4]]| {
        let mut words = vec![0; 3 + 4 * 12];
        words[..3].copy_from_slice(&[6 + card.len() as u32, next_document, next_frame]);
        words[3..3 + 4 * 6].copy_from_slice(&x);
        words[3 + 4 * 6..3 + 4 * (6 + card.len())].copy_from_slice(&card.concat());
        words
    };
    c.same("X has its rows", words.clone(), beside_x(10, 6, &card));
    c.same("X stands where it stood", position(&words, 0), Ok((1, 2, 3)));
    c.same("the card's steps", (position(&words, 4), steps_of(&words, 4)), (Ok((2, 2, 3)), Ok((vec![9, 8], vec![]))));
    c.same("the card's outline", outline_of(&words, 4), Ok(vec![0, 6, 1, 9]));
    c.same("hidden by itself in the card", visible(&words, 8), hid(8, 0));
    c.same("one link to the card's root", visible(&words, 9), sees(1));

    let mut dropped = words.clone();
    c.same("the card's frame taken out", drop_frame(&mut dropped, 5), Ok(3));
    c.same("X stays", dropped.clone(), beside_x(10, 6, &card[..1]));
    c.same("the card has no step", (position(&dropped, 0), position(&dropped, 4)), (Ok((1, 2, 3)), Ok((0, 0, 1))));
    let mut dropped = words.clone();
    c.same("X's frame taken out", drop_frame(&mut dropped, 1), Ok(4));
    let left = [[0, 0, NONE, 1], [3, 3, 0, 1]];
    c.same("the card stays", dropped, record(12, 10, 6, &[left.as_slice(), &card].concat()));

    let mut replaced = words.clone();
    c.same("the card's root document replaced", replace(&mut replaced, 6), Ok(10));
    c.same("X stays", replaced.clone(), beside_x(11, 6, &[[10, 4, NONE, 1]]));
    c.same("its root frame has its number", position(&replaced, 4), Ok((0, 0, 1)));
    c.same("X's root document replaced", replace(&mut words, 0), Ok(10));
    c.same("the card stays", words.clone(), record(12, 11, 6, &[[[10, 0, NONE, 1]].as_slice(), &card].concat()));

    // The root frame of the card has steps of its own too, which hide what is beneath.
    c.same("the card's root navigated", navigate(&mut words, 6), Ok(11));
    c.same("9 is hidden by the card's old root", visible(&words, 9), hid(6, 1));
    c.same("opening there", open(&mut words, 9), hidden_by(6));
    c.same("its frame cannot be taken out", drop_frame(&mut words, 5), hidden_by(6));
    c.same("three steps", (position(&words, 4), steps_of(&words, 4)), (Ok((3, 3, 4)), Ok((vec![11, 9, 8], vec![]))));
    c.same("back by two", go_in(&mut words, 4, -2), Ok(vec![4, 11, 6, 1, 5, 9, 8, 1]));
    c.same("window 0 has none", position(&words, 0), Ok((0, 0, 1)));
}

/// L10: "13 when no root frame has that number, after 2": before 6 and 9, and for a frame that is not a root frame.
fn root_examples(c: &mut Checks) {
    let mut x = record_x();
    tab(&mut x).unwrap();
    let unsound = [&[7, 6], &x[2..]].concat();
    for root in [1, 2, 3, 5, 6, 7, NONE] {
        let mut words = x.clone();
        c.same("13 by nothing, by a step, and too far", [0, 1, 9].map(|delta| go_in(&mut words, root, delta)), [no(13), no(13), no(13)]);
        c.same("13 before 6, at the ends", [i32::MIN, i32::MAX].map(|delta| go_in(&mut words, root, delta)), [no(13), no(13)]);
        c.same("13 with no room", traverse(&mut words, root, 1, &mut []), no(13));
        c.same("13 keeps the words", words, x.clone());
        c.same("13 of position", position(&x, root), no(13));
        c.same("13 of lists", steps_of(&x, root), no(13));
        c.same("13 of lists before 9", lists(&x, root, &mut [], &mut []), no(13));
        c.same("13 of the outline", outline_of(&x, root), no(13));
        c.same("13 of the outline before 9", outline(&x, root, &mut []), no(13));
    }
    for root in [0, 4, 9] {
        c.same("2 before 13", (position(&unsound, root), outline_of(&unsound, root)), (no(2), no(2)));
        c.same("2 before 13", (steps_of(&unsound, root), go_in(&mut unsound.clone(), root, 0)), (no(2), no(2)));
        c.same("1 before 13", (position(&[9; 6], root), outline_of(&[9; 6], root)), (no(1), no(1)));
        c.same("1 before 13", (steps_of(&[9; 6], root), go_in(&mut [9; 6], root, 0)), (no(1), no(1)));
    }
    c.same("6 of the second window", go_in(&mut x, 4, 1), no(6));
    c.same("9 of the first", traverse(&mut x, 0, 1, &mut [0; 3]), no(9));
    c.same("6 before 9 in the second", traverse(&mut x, 4, -1, &mut []), no(6));
    c.same("9 of the second's outline", outline(&x, 4, &mut [0; 1]), no(9));
    c.same("no list is needed there", lists(&x, 4, &mut [], &mut []), Ok((0, 0)));
    c.same("9 of the first's lists", lists(&x, 0, &mut [0; 1], &mut []), no(9));

    // The root frame of a window is not 0 where its number is another.
    let renumbered = record(2, 10, 10, &[[7, 9, NONE, 1], [3, 5, 7, 1]]);
    c.same("no root frame 0", position(&renumbered, 0), no(13));
    c.same("root frame 9", outline_of(&renumbered, 9), Ok(vec![0, 7, 1, 3]));
    c.same("neither its document nor what is beneath", (position(&renumbered, 7), position(&renumbered, 5)), (no(13), no(13)));
}

/// A NaN with a payload, as a host may leave it in an entry that is free or of kind 0.
const ODD: u64 = 0x7ff0_0000_dead_beef;

/// An entry of a store.
fn entry(document: u64, kind: u64, x: f64, y: f64) -> [u64; 4] {
    [document, kind, x.to_bits(), y.to_bits()]
}

/// A point as it is given and answered.
fn point(x: f64, y: f64) -> [Double; 2] {
    [x.into(), y.into()]
}

/// What asking for a document's place answers where it is at a point.
fn stands(x: f64, y: f64) -> Answer<Place> {
    Ok(Place::Point(x.into(), y.into()))
}

/// L5: "the same bits back, negative zero included"; "15, right after 2"; "11 [..], then 12".
fn place_examples(c: &mut Checks) {
    let x = record_x();
    let free = [FREE, 9, ODD, ODD];
    let store = [free, free, entry(4, 1, 1.5, -0.0), [1, 0, ODD, ODD]].concat();
    c.same("a point, negative zero included", place(&x, &store, 4), stands(1.5, -0.0));
    c.same("itself", place(&x, &store, 1), Ok(Place::Itself));
    c.same("no entry", place(&x, &store, 0), Ok(Place::Itself));

    let after = |set: &dyn Fn(&mut Vec<u64>) -> Answer<()>| {
        let mut store = store.clone();
        (set(&mut store), store)
    };
    let with = |at: usize, entry: [u64; 4]| {
        let mut store = store.clone();
        store[4 * at..4 * at + 4].copy_from_slice(&entry);
        store
    };
    c.same("its own entry", after(&|s| place_at(&x, s, 4, point(-0.0, 7.0))), (Ok(()), with(2, entry(4, 1, -0.0, 7.0))));
    c.same("its own entry, which keeps its doubles", after(&|s| place_itself(&x, s, 4)), (Ok(()), with(2, entry(4, 0, 1.5, -0.0))));
    c.same("the first free one", after(&|s| place_at(&x, s, 5, point(0.0, 1.0))), (Ok(()), with(0, entry(5, 1, 0.0, 1.0))));
    c.same("the first free one, for either kind", after(&|s| place_itself(&x, s, 0)), (Ok(()), with(0, [0, 0, ODD, ODD])));
    for (name, coordinates) in [("NaN", [f64::NAN, 1.0]), ("infinite", [1.0, f64::INFINITY]), ("infinite", [f64::NEG_INFINITY, 1.0])] {
        c.same(name, after(&|s| place_at(&x, s, 4, coordinates.map(Double::from))), (no(11), store.clone()));
    }
    c.same("4 before 11", place_at(&x, &mut store.clone(), 6, point(f64::NAN, 0.0)), no(4));
    c.same("11 before 12", place_at(&x, &mut [], 0, point(f64::NAN, 0.0)), no(11));
    c.same("no entry at all", place_itself(&x, &mut [], 0), no(12));
    c.same("three words are no entry", place_itself(&x, &mut [FREE, 0, 0], 0), no(12));
    c.same("4294967295 is no document", place(&x, &store, NONE), no(4));

    for (name, entry) in [
        ("a document twice", [4, 0, 0, 0]),
        ("a kind above 1", [3, 2, 0, 0]),
        ("a kind above 32 bits", [3, 1 << 32, 0, 0]),
        ("x is NaN", [3, 1, ODD, 0]),
        ("y is infinite", [3, 1, 0, f64::INFINITY.to_bits()]),
        ("of a document that is gone", [1 << 40, 2, 0, 0]),
    ] {
        let bad = with(1, entry);
        c.same(name, place(&x, &bad, 0), no(15));
        c.same("15 before 4", place_at_zoom(&x, &bad, 9, f64::NAN.into()), no(15));
        let mut kept = bad.clone();
        c.same("15 before 11", place_at(&x, &mut kept, 0, point(f64::NAN, 0.0)), no(15));
        c.same("15 before 4", place_itself(&x, &mut kept, 9), no(15));
        c.same("15 keeps the store", kept, bad);
    }
    c.same("a gone document twice", place(&x, &[[1 << 40, 0, 0, 0], [1 << 40, 0, 0, 0]].concat(), 0), no(15));
    c.same("4 and 4 + 2^32 are two documents", place(&x, &with(1, entry(4 + (1 << 32), 1, 0.0, 0.0)), 4), stands(1.5, -0.0));
    c.same("free entries hold nothing twice", place(&x, &[free, free].concat(), 0), Ok(Place::Itself));
    c.same("past the last whole entry", place(&x, &[store.clone(), vec![4, 1, ODD]].concat(), 4), stands(1.5, -0.0));
    c.same("six words", place(&[9; 6], &[4, 7, 0, 0], 0), no(1));
    c.same("2 before 15", place(&[&[7], &x[1..]].concat(), &[4, 7, 0, 0], 0), no(2));
}

/// L5: "Setting first frees the entries of documents gone from the record, by their number alone".
fn freeing_examples(c: &mut Checks) {
    let x = record_x();
    let gone = [entry(1, 1, 3.0, 4.0), entry(6, 1, 5.0, 6.0), entry(1 << 32, 1, 7.0, 8.0), entry(2, 0, 1.0, 2.0)].concat();
    let mut store = gone.clone();
    c.same("a freed entry is taken", place_itself(&x, &mut store, 0), Ok(()));
    let after = [entry(1, 1, 3.0, 4.0), entry(0, 0, 5.0, 6.0), entry(FREE, 1, 7.0, 8.0), entry(2, 0, 1.0, 2.0)].concat();
    c.same("freeing changes the document alone, and kind 0 keeps the doubles", store, after);
    let mut store = gone.clone();
    c.same("refused", place_at(&x, &mut store, 0, point(0.0, f64::NAN)), no(11));
    c.same("a refused call frees nothing", store, gone.clone());
    c.same("asking frees nothing", place(&x, &gone, 1), stands(3.0, 4.0));
    let mut full = [entry(1, 1, 3.0, 4.0), entry(2, 0, 1.0, 2.0)].concat();
    let before = full.clone();
    c.same("no room even after freeing", place_at(&x, &mut full, 0, point(0.0, 0.0)), no(12));
    c.same("12 keeps the store", full, before);
    // "After a traversal it asks for a document's place": a hidden document has one too, and a gone one has none.
    let mut window = fresh_record(4);
    let mut store = vec![FREE; 9];
    c.same("scroll", place_at(&window, &mut store, 0, point(0.0, 1312.5)), Ok(()));
    c.same("follow a link", navigate(&mut window, 0), Ok(1));
    c.same("scroll there", place_at(&window, &mut store, 1, point(0.0, 64.0)), Ok(()));
    c.same("the place of a document that is not shown", place(&window, &store, 0), stands(0.0, 1312.5));
    c.same("go back", go(&mut window, -1), Ok(vec![0, 1, 0, 1]));
    c.same("the line is there again", place(&window, &store, 0), stands(0.0, 1312.5));
    c.same("follow another", navigate(&mut window, 0), Ok(2));
    c.same("1 is gone", place(&window, &store, 1), no(4));
    c.same("2 finds room after freeing", place_itself(&window, &mut store, 2), Ok(()));
    c.same("in the entry of 1", store, [&entry(0, 1, 0.0, 1312.5)[..], &entry(2, 0, 0.0, 64.0), &[FREE]].concat());
}

/// L5: "each coordinate times the zoom, rounded once"; "11 for a given coordinate, zoom or product that is NaN or infinite".
fn zoom_examples(c: &mut Checks) {
    let x = record_x();
    let store = [entry(4, 1, 1312.5, -0.0), entry(1, 1, f64::MAX, f64::MIN_POSITIVE), entry(0, 1, 0.1, 3.0), entry(3, 0, f64::NAN, 0.0)].concat();
    let at = |document: u32, zoom: f64| place_at_zoom(&x, &store, document, zoom.into());
    c.same("a zoom", at(4, 1.25), stands(1640.625, -0.0));
    c.same("the sign of zero", at(4, -2.0), stands(-2625.0, 0.0));
    c.same("a zoom of nothing", at(4, 0.0), stands(0.0, -0.0));
    c.same("0.1 three times is not 0.3", at(0, 3.0), stands(0.30000000000000004, 9.0));
    c.same("a subnormal product", at(1, 0.5), stands(f64::MAX / 2.0, f64::MIN_POSITIVE / 2.0));
    c.same("a product that is infinite", at(1, 1.0000000000000002), no(11));
    for zoom in [f64::NAN, f64::INFINITY, f64::NEG_INFINITY] {
        c.same("the zoom", at(4, zoom), no(11));
        c.same("the zoom where the page places itself", at(3, zoom), no(11));
        c.same("the zoom of a document without an entry", at(5, zoom), no(11));
        c.same("4 before 11", at(9, zoom), no(4));
    }
    c.same("itself at a zoom", at(3, 2.0), Ok(Place::Itself));
    let least = f64::from_bits(1);
    for (name, a, b, wanted) in [
        ("half of the least rounds to the even zero", least, 0.5, 0.0),
        ("more than half of it is the least", least, 0.5000000000000001, least),
        ("three halves of it round to the even two", f64::from_bits(3), 0.5, f64::from_bits(2)),
        ("rounded up to the least normal", f64::MIN_POSITIVE, 1.0 - f64::EPSILON / 2.0, f64::MIN_POSITIVE),
        ("half a last place above an even one", 4503599627370499.0, 3.0, 13510798882111496.0),
        ("half a last place above an odd one", 4503599627370497.0, 3.0, 13510798882111492.0),
        ("the largest", f64::MAX, -1.0, f64::MIN),
        ("beyond it", f64::MAX, 2.0, f64::INFINITY),
        ("far below the least", least, -least, -0.0),
    ] {
        c.same(name, product(a.into(), b.into()), wanted.into());
    }
}

fn to_bytes(numbers: &[u32]) -> Vec<u8> {
    numbers.iter().flat_map(|number| number.to_be_bytes()).collect()
}

/// What Save writes, in more room than that takes.
fn saved(words: &[u32]) -> Vec<u8> {
    let mut bytes = vec![0xee; 200];
    let length = save(words, &mut bytes).unwrap() as usize;
    assert!(bytes[length..].iter().all(|&byte| byte == 0xee), "bytes past the saved form are kept");
    bytes.truncate(length);
    bytes
}

/// L7: "each body entry becomes document number and row place, by rising row place, length 12 + 16F + 8n".
fn saved_examples(c: &mut Checks) {
    let mut bytes = [0xee; 40];
    c.same("saved fresh record", save(&fresh_record(1), &mut bytes), Ok(36));
    let numbers: Vec<u32> = bytes.chunks(4).map(|b| u32::from_be_bytes(b.try_into().unwrap())).collect();
    c.same("its numbers", numbers, vec![1, 1, 1, 0, NONE, 1, 0, 0, 0, 0xeeee_eeee]);
    c.same("saved in 35 bytes", save(&fresh_record(1), &mut bytes[..35]), no(9));
    c.same("empty bytes", load(&mut [0; 7], &[]), no(3));
    c.same("six words and empty bytes", load(&mut [0; 6], &[]), no(1));

    let x = record_x();
    let numbers = [
        [4, 6, 4].as_slice(),
        &[0, NONE, 1, 0, 1, 0, 2, 0, 2, 1, 2, 1, 3, 0, 1, 0],
        &[0, 0, 1, 1, 5, 5, 2, 2, 4, 4, 3, 3],
    ];
    let mut bytes = saved(&x);
    c.same("X saved", bytes.clone(), to_bytes(&numbers.concat()));
    let mut again = vec![5; x.len()];
    c.same("X loaded", load(&mut again, &bytes), Ok(6));
    c.same("X again", again, x);
    c.same("X in five rows", load(&mut [0; 23], &bytes), no(7));
    for cut in 0..bytes.len() {
        c.same("cut short", load(&mut [0; 35], &bytes[..cut]), no(3));
    }
    bytes.push(0);
    c.same("one byte more", load(&mut [0; 35], &bytes), no(3));
}

/// The saved form of records with documents replaced, byte for byte, and what is like it and no saved form.
fn replaced_saved_examples(c: &mut Checks) {
    let mut login = fresh_record(1);
    replace(&mut login, 0).unwrap();
    let bytes = [0, 0, 0, 1, 0, 0, 0, 2, 0, 0, 0, 1, 0, 0, 0, 0, 255, 255, 255, 255, 0, 0, 0, 1, 0, 0, 0, 0, 0, 0, 0, 1, 0, 0, 0, 0];
    c.same("the login page replaced, saved", saved(&login), bytes.to_vec());

    // A frame whose second document is upcoming and has the lower number, and another frame between its rows.
    let mut window = fresh_record(4);
    open(&mut window, 0).and(open(&mut window, 0)).and(navigate(&mut window, 1)).and(go(&mut window, -1)).unwrap();
    c.same("replaced", replace(&mut window, 1), Ok(4));
    c.same("its rows", window.clone(), record(4, 5, 3, &[[0, 0, NONE, 1], [4, 1, 0, 1], [2, 2, 0, 1], [3, 1, 0, 0]]));
    let told = |frames: [[u32; 4]; 3], bodies: [u32; 8]| to_bytes(&[[3, 5, 3].as_slice(), &frames.concat(), &bodies].concat());
    let (root, first, second) = ([0, NONE, 1, 0], [1, 0, 2, 0], [2, 0, 1, 0]);
    let bytes = told([root, first, second], [0, 0, 4, 1, 3, 3, 2, 2]);
    c.same("saved", saved(&window), bytes.clone());
    let mut again = vec![9; window.len()];
    c.same("loaded", load(&mut again, &bytes), Ok(4));
    c.same("again", again, window.clone());
    c.same("the same bytes as the old form", load_old(&mut window.clone(), &bytes), no(3));
    for (name, bytes) in [
        ("by rising document", told([root, first, second], [0, 0, 3, 3, 4, 1, 2, 2])),
        ("by rising document, and the second of them shown", told([root, [1, 0, 2, 1], second], [0, 0, 3, 3, 4, 1, 2, 2])),
        ("the place within the frame", told([root, first, second], [0, 0, 4, 0, 3, 1, 2, 0])),
        ("the place first", told([root, first, second], [0, 0, 1, 4, 3, 3, 2, 2])),
        ("places from 1 on", told([root, first, second], [0, 1, 4, 2, 3, 4, 2, 3])),
        ("a place twice", told([root, first, second], [0, 0, 4, 1, 3, 2, 2, 2])),
        ("a place left out", told([root, first, second], [0, 0, 4, 1, 3, 4, 2, 2])),
        ("a document twice", told([root, first, second], [0, 0, 4, 1, 2, 3, 2, 2])),
        ("a document that is not below the next number", told([root, first, second], [0, 0, 5, 1, 3, 3, 2, 2])),
        ("shown beyond the frame's documents", told([root, [1, 0, 2, 2], second], [0, 0, 4, 1, 3, 3, 2, 2])),
        ("frames that fall", told([root, second, first], [0, 0, 2, 2, 4, 1, 3, 3])),
        ("a parent that comes later", told([root, first, [2, 3, 1, 0]], [0, 0, 4, 1, 3, 3, 2, 2])),
    ] {
        c.same(name, load(&mut window.clone(), &bytes), no(3));
    }
    let other = told([root, first, second], [0, 0, 1, 1, 3, 3, 2, 2]);
    c.same("numbers that rise, with a gap", load(&mut window, &other), Ok(4));
    c.same("another record's saved form", saved(&window), other);
    let other = told([root, first, second], [0, 0, 4, 2, 3, 3, 2, 1]);
    c.same("other places", load(&mut window, &other), Ok(4));
    c.same("rows in another order", documents(&window), vec![0, 2, 4, 3]);
    c.same("its saved form", saved(&window), other);
}

/// "The old form has its own loading call, which accepts exactly what it accepted": document 01's "the m document numbers, rising".
fn old_saved_examples(c: &mut Checks) {
    let x = record_x();
    let contents = [4, 6, 4, 0, NONE, 1, 0, 1, 0, 2, 0, 2, 1, 2, 1, 3, 0, 1, 0];
    let old = |contents: [u32; 19], bodies: [u32; 6]| to_bytes(&[contents.as_slice(), &bodies].concat());
    let mut bytes = old(contents, [0, 1, 5, 2, 4, 3]);
    c.same("X in the old form", bytes.clone(), old_bytes_of(&x));
    c.same("is not in the new one", load(&mut [0; 35], &bytes), no(3));
    let mut again = vec![9; x.len()];
    c.same("X loaded from the old form", load_old(&mut again, &bytes), Ok(6));
    c.same("X again", again.clone(), x.clone());
    c.same("X saved again in the new form", saved(&again), saved(&x));
    c.same("which is not in the old one", load_old(&mut again, &saved(&x)), no(3));
    c.same("X in five rows", load_old(&mut [0; 23], &bytes), no(7));
    c.same("X in six words", load_old(&mut [0; 6], &bytes), no(1));
    c.same("six words and empty bytes", load_old(&mut [0; 6], &[]), no(1));
    for cut in 0..bytes.len() {
        c.same("cut short", load_old(&mut [0; 35], &bytes[..cut]), no(3));
    }
    bytes.push(0);
    c.same("one byte more", load_old(&mut [0; 35], &bytes), no(3));
    let mut fresh = [0; 7];
    c.same("a fresh record in the old form", load_old(&mut fresh, &to_bytes(&[1, 1, 1, 0, NONE, 1, 0, 0])), Ok(1));
    c.same("its words", fresh.to_vec(), fresh_record(1));

    // X with 3 replaced by 6: its numbers do not rise, so the old form would tell of other rows.
    let mut words = x.clone();
    replace(&mut words, 3).unwrap();
    let replaced = old([4, 7, 4, 0, NONE, 1, 0, 1, 0, 2, 0, 2, 1, 2, 1, 3, 0, 1, 0], [0, 1, 5, 2, 4, 6]);
    let mut again = vec![0; words.len()];
    c.same("6 is taken for the last row", load_old(&mut again, &replaced), Ok(6));
    c.same("and stands there", documents(&again), vec![0, 1, 2, 4, 5, 6]);
    for (name, bytes) in [
        ("documents that fall", old(contents, [0, 5, 1, 2, 4, 3])),
        ("a document twice", old(contents, [0, 1, 5, 2, 4, 4])),
        ("a step taken that is later than one upcoming", old([4, 7, 4, 0, NONE, 1, 0, 1, 0, 2, 0, 2, 1, 2, 1, 3, 0, 1, 0], [0, 1, 5, 2, 6, 3])),
        ("a parent with a higher number", old(contents, [0, 2, 5, 1, 4, 3])),
    ] {
        c.same(name, load_old(&mut again, &bytes), no(3));
    }
}

/// L10: "The saved layout is unchanged; new-form loading follows the wider S5, old-form loading the narrow one."
fn windows_saved_examples(c: &mut Checks) {
    // Two windows in turn, the first of them one step back.
    let mut words = in_turn();
    go(&mut words, -1).unwrap();
    let contents = [2, 6, 2, 0, NONE, 3, 1, 1, NONE, 3, 2];
    let bytes = to_bytes(&[contents.as_slice(), &[0, 0, 2, 2, 4, 4], &[1, 1, 3, 3, 5, 5]].concat());
    c.same("two windows saved", saved(&words), bytes.clone());
    let mut again = vec![9; words.len()];
    c.same("loaded", load(&mut again, &bytes), Ok(6));
    c.same("again", again.clone(), words.clone());
    c.same("two windows in five rows", load(&mut [0; 23], &bytes), no(7));
    c.same("in six words", load(&mut [0; 6], &bytes), no(1));
    c.same("not the old form", load_old(&mut again, &bytes), no(3));

    let old = to_bytes(&[contents.as_slice(), &[0, 2, 4], &[1, 3, 5]].concat());
    c.same("their rows in the old form", old.clone(), old_bytes_of(&words));
    c.same("which had one root frame", load_old(&mut again, &old), no(3));
    c.same("nor is it the new form", load(&mut again, &old), no(3));
    c.same("3 keeps the words", again, words);

    // A card beside a fresh window, which is in order as one; and the same with the card's frame beneath document 0.
    let fresh_card = |parent: u32| to_bytes(&[2, 2, 2, 0, NONE, 1, 0, 1, parent, 1, 0, 0, 1]);
    let mut two = [0; 11];
    c.same("two root frames in the old form", load_old(&mut two, &fresh_card(NONE)), no(3));
    c.same("one root frame in it", load_old(&mut two, &fresh_card(0)), Ok(2));
    let fresh_card = |parent: u32| to_bytes(&[2, 2, 2, 0, NONE, 1, 0, 1, parent, 1, 0, 0, 0, 1, 1]);
    c.same("two root frames", load(&mut two, &fresh_card(NONE)), Ok(2));
    c.same("their words", two.to_vec(), record(2, 2, 2, &[[0, 0, NONE, 1], [1, 1, NONE, 1]]));
    c.same("one root frame", load(&mut two, &fresh_card(0)), Ok(2));

    // P9, whose third frame is a window in the first of these and not in the second.
    let p9 = |parent: u32| to_bytes(&[3, 5, 3, 0, NONE, 1, 0, 1, 0, 2, 0, 2, parent, 2, 1, 0, 0, 1, 1, 3, 3, 2, 2, 4, 4]);
    c.same("in order by windows", load(&mut [0; 35], &p9(NONE)), Ok(5));
    c.same("not in order in one", load(&mut [0; 35], &p9(0)), no(3));
}

/// L8: "position is the sum of the shown places, steps the sum of m - 1", and when the contents are refused.
fn contents_examples(c: &mut Checks) {
    let x = record_x();
    let (bytes, old) = (saved(&x), old_bytes_of(&x));
    c.same("X", contents(&bytes), Ok((1, 2)));
    c.same("X in the old form", contents_old(&old), Ok((1, 2)));
    c.same("the caller names the form", (contents(&old), contents_old(&bytes)), (no(3), no(3)));
    for at in 0..bytes.len() {
        let mut other = bytes.clone();
        other[at] = 0xee;
        let after = at >= 12 + 16 * 4 || (4..12).contains(&at) || at >= 12 && (at - 12) % 16 < 8;
        c.same("next numbers, frames, parents and bodies have no part in it", contents(&other) == Ok((1, 2)), after);
        c.same("cut short", contents(&bytes[..at]), no(3));
    }
    // Lines with a frame and a parent that no record has, and bodies of sevens.
    let telling = |frames: u32, lines: &[[u32; 2]], rest: usize| {
        let numbers: Vec<u32> = [frames, 7, 7].into_iter().chain(lines.iter().flat_map(|[m, shown]| [7, 7, *m, *shown])).collect();
        [to_bytes(&numbers), vec![7; rest]].concat()
    };
    c.same("three frames", contents(&telling(3, &[[4, 2], [1, 0], [5, 4]], 80)), Ok((6, 7)));
    c.same("512 documents", contents(&telling(2, &[[500, 499], [12, 0]], 4096)), Ok((499, 510)));
    c.same("512 frames", contents_old(&telling(512, &[[1, 0]; 512], 2048)), Ok((0, 0)));
    for (name, bytes) in [
        ("no bytes", vec![]),
        ("no frame", telling(0, &[], 0)),
        ("a number alone", to_bytes(&[1])),
        ("no line", telling(1, &[], 0)),
        ("a line cut short", telling(1, &[], 15)),
        ("as many frames as there can be", telling(NONE, &[], 0)),
        ("12 + 16F is 12 in 32 bits", telling(1 << 28, &[], 0)),
        ("12 + 16F is 28 in 32 bits", telling((1 << 28) + 1, &[[1, 0]], 8)),
        ("a shown place equal to its m", telling(1, &[[1, 1]], 8)),
        ("one above it in the last frame", telling(2, &[[2, 0], [2, NONE]], 32)),
        ("no documents", telling(2, &[[0, 0], [1, 0]], 8)),
        ("513 documents", telling(2, &[[500, 499], [13, 0]], 4104)),
        ("1 document in 32 bits", telling(2, &[[NONE, 0], [2, 0]], 8)),
        ("513 frames", telling(513, &[[1, 0]; 513], 4104)),
        ("one byte more", telling(1, &[[3, 1]], 25)),
        ("one byte fewer", telling(1, &[[3, 1]], 23)),
        ("one entry more", telling(1, &[[3, 1]], 32)),
        ("no bodies", telling(1, &[[3, 1]], 0)),
    ] {
        c.same(name, contents(&bytes), no(3));
    }
    let mut window = in_turn();
    go(&mut window, -1).unwrap();
    c.same("the sums over two windows", contents(&saved(&window)), Ok((3, 4)));
}

/// One record for each clause, in which that clause alone fails.
fn sound_clauses(c: &mut Checks) {
    let changed = |places: &[(usize, u32)]| {
        let mut words = record_x();
        places.iter().for_each(|&(at, word)| words[at] = word);
        broken(&words)
    };
    c.same("S1 no rows", changed(&[(0, 0)]), vec![1]);
    c.same("S1 too many", changed(&[(0, 9)]), vec![1]);
    c.same("S2 the last below word 1", changed(&[(1, 5)]), vec![2]);
    c.same("S2 any below word 1", changed(&[(3 + 4 * 3, 6)]), vec![2]);
    c.same("S2 distinct", changed(&[(3 + 4 * 3, 2)]), vec![2]);
    c.same("S2 distinct, far apart", changed(&[(3 + 4 * 5, 3)]), vec![2]);
    c.same("S2 no longer rising", changed(&[(1, 7), (3 + 4 * 3, 6)]), vec![]);
    c.same("S2 falling", changed(&[(3 + 4 * 3, 5), (3 + 4 * 5, 3)]), vec![]);
    c.same("S3", changed(&[(2, 3)]), vec![3]);
    c.same("S4", changed(&[(3 + 4 * 3 + 2, 3)]), vec![4]);
    c.same("S5 one parent", changed(&[(3 + 4 * 5 + 2, 3)]), vec![5]);
    c.same("S5 one parent, none of them", changed(&[(3 + 4 * 5 + 2, NONE)]), vec![5]);
    c.same("S5 several root frames", changed(&[(3 + 4 * 3 + 2, NONE)]), vec![]);
    c.same("S6 flag", changed(&[(6, 2)]), vec![6]);
    c.same("S6 two shown", changed(&[(3 + 4 * 2 + 3, 1)]), vec![6]);
    // 2 shown instead of 4, and 5 instead of 1: 4 is upcoming, and the later step 5 is shown.
    let crossed = [(3 + 4 * 2 + 3, 1), (3 + 4 * 4 + 3, 0), (3 + 4 + 3, 0), (3 + 4 * 5 + 3, 1)];
    c.same("S7", changed(&crossed), vec![7]);
    c.same("S7 with 3 in a window of its own", changed(&[crossed.as_slice(), &[(3 + 4 * 3 + 2, NONE)]].concat()), vec![7]);
    c.same("S7 with 2 and 4 in one", changed(&[crossed.as_slice(), &[(3 + 4 * 2 + 2, NONE), (3 + 4 * 4 + 2, NONE)]].concat()), vec![]);
    c.same("S8", changed(&[(3 + 4 * 8 - 1, 1)]), vec![8]);
}

fn script_examples(c: &mut Checks) {
    let input = "open 0\nopen 0\nnav 1\nnav 2\ngo -2\ngo 1\nnav 3\nnav 4\ngo -3\n";
    let wanted = "ok 1 0/0\nok 2 0/0\nok 3 1/1\nok 4 2/2\nok 2 0/2\nok 1 1/2\nok 5 2/2\nno 4 2/2\nno 6 2/2\n";
    let text = |input: &str| String::from_utf8(script::output(input.as_bytes())).unwrap();
    c.same("the script", text(input), wanted.to_string());
    c.same("the last line may lack its newline", text(input.trim_end()), wanted.to_string());
    c.same("nothing in, nothing out", text(""), String::new());
    for bad in ["", "open", "open ", "open  0", " open 0", "open 00", "open 01", "open +1", "open -1", "open 4294967296", "nav 0 ", "nav x", "nav 0\r"] {
        c.same(bad, script::parse(bad.as_bytes()), None);
    }
    for bad in ["go -0", "go +1", "go --1", "go -", "go", "go 2147483648", "go -2147483649", "go 0x1", "Go 1", "go -01"] {
        c.same(bad, script::parse(bad.as_bytes()), None);
    }
    for bad in ["drop", "drop ", "drop  1", "drop 1 ", " drop 1", "drop 01", "drop 00", "drop +1", "drop -1", "drop -0", "drop 4294967296", "Drop 1", "drop 1\r"] {
        c.same(bad, script::parse(bad.as_bytes()), None);
    }
    for bad in ["replace", "replace ", "replace  1", "replace 1 ", " replace 1", "replace 01", "replace +1", "replace -1", "replace 4294967296", "Replace 1", "replaces 1"] {
        c.same(bad, script::parse(bad.as_bytes()), None);
    }
    let input = "open 0\nopen 1\nnav 2\nnav 1\ndrop 2\ngo -1\ndrop 2\ndrop 2\ndrop 0\ndrop 1\nopen 0\n";
    let wanted = "ok 1 0/0\nok 2 0/0\nok 3 1/1\nok 4 2/2\nno 5 at 1 2/2\nok 1 1/2\nok 2 0/1\nno 4 0/1\nno 10 0/1\nok 2 0/0\nok 5 0/0\n";
    c.same("a script with drops", text(input), wanted.to_string());
    let input = "open 0\nnav 0\nopen 2\nopen 1\nnav 0\ngo -1\nopen 3\nnav 2\ndrop 2\ndrop 0\nnav 9\n";
    let wanted = "ok 1 0/0\nok 2 1/1\nok 3 1/1\nno 5 at 0 1/1\nno 5 at 0 1/1\nok 1 0/1\nno 5 at 2 0/1\nno 5 at 2 0/1\nno 5 at 2 0/1\nno 10 0/1\nno 4 0/1\n";
    c.same("a script that asks of hidden documents", text(input), wanted.to_string());
    let input = "replace 0\ngo -1\nopen 1\nopen 2\nnav 3\nopen 1\nnav 5\ngo -1\nreplace 2\nreplace 3\ngo 1\nreplace 5\nreplace 6\ngo -1\n";
    let wanted = "ok 1 0/0\nno 6 0/0\nok 2 0/0\nok 3 0/0\nok 4 1/1\nok 5 1/1\nok 6 2/2\nok 1 1/2\nok 7 0/1\nno 4 0/1\nok 1 1/1\nno 5 at 5 1/1\nok 8 1/1\nok 1 0/1\n";
    c.same("a script with replacements", text(input), wanted.to_string());
    windows_script_examples(c, text);
    c.same("the largest document", script::parse(b"replace 4294967295"), Some(script::Line::Replace(NONE)));
    c.same("the largest number", script::parse(b"open 4294967295"), Some(script::Line::Open(NONE)));
    c.same("the largest frame number", script::parse(b"drop 4294967295"), Some(script::Line::Drop(NONE)));
    c.same("the least number", script::parse(b"go -2147483648"), Some(script::Line::Go(i32::MIN, 0)));
    c.same("the greatest number", script::parse(b"go 2147483647"), Some(script::Line::Go(i32::MAX, 0)));
}

/// L10: "`tab` (its value: document and root frame, one space between), and `go N R` for root frame R, R being 0 when left out; its position
/// field is that of window 0".
fn windows_script_examples(c: &mut Checks, text: impl Fn(&str) -> String) {
    for bad in ["tab ", " tab", "tab 0", "tab 1", "Tab", "ta", "tabs", "tab\r", "tab\t"] {
        c.same(bad, script::parse(bad.as_bytes()), None);
    }
    for bad in ["go 1 ", "go 1  0", "go  1 0", "go 1 0 ", "go 1 0 0", "go 1 +1", "go 1 -1", "go 1 -0", "go 1 00", "go 1 01", "go 1 4294967296", "go 1 x", "go 1 0\r", "go 1\t0"] {
        c.same(bad, script::parse(bad.as_bytes()), None);
    }
    for bad in ["go -0 1", "go +1 1", "go 01 1", "go 2147483648 0", "go -2147483649 0", "go - 1 0", "go  0", "go 1,0", "nav 0 0", "open 0 0", "drop 1 0", "replace 0 0"] {
        c.same(bad, script::parse(bad.as_bytes()), None);
    }
    for (line, delta, root) in [("go 1 0", 1, 0), ("go 1", 1, 0), ("go -3 12", -3, 12), ("go 0 4294967295", 0, NONE), ("go -2147483648 4294967294", i32::MIN, NONE - 1)] {
        c.same(line, script::parse(line.as_bytes()), Some(script::Line::Go(delta, root)));
    }
    c.same("tab", script::parse(b"tab"), Some(script::Line::Tab));
    let input = "tab\nnav 0\nnav 1\ngo -1\ngo -1 1\ngo 1 1\ngo 1 2\ngo 0 1\ngo -2 1\ngo 1 0\n";
    let wanted = "ok 1 1 0/0\nok 2 1/1\nok 3 1/1\nok 1 0/1\nok 1 0/1\nok 1 0/1\nno 13 0/1\nok 0 0/1\nno 6 0/1\nok 1 1/1\n";
    c.same("a script with two windows", text(input), wanted.to_string());
    let input = format!("{input}open 3\ngo 0 2\ndrop 1\ndrop 2\ntab\ngo 0 4294967295\ngo 9 9\nnav 9\ntab \n");
    let wanted = format!("{wanted}ok 4 1/1\nno 13 1/1\nno 10 1/1\nok 1 1/1\nok 5 3 1/1\nno 13 1/1\nno 13 1/1\nno 4 1/1\nbad\n");
    c.same("it goes on with a third", text(&input), wanted);
    let input = "nav 0\ntab\ngo -1\nnav 2\ngo 1\ngo -1\nnav 0\ngo -1 1\nnav 3\nreplace 2\ngo 1 1\n";
    let wanted = "ok 1 1/1\nok 2 1 1/1\nok 1 0/1\nok 3 0/1\nok 1 1/1\nok 1 0/1\nok 4 1/1\nok 1 1/1\nno 5 at 3 1/1\nok 5 1/1\nok 1 1/1\n";
    c.same("a script that navigates beside an upcoming step", text(input), wanted.to_string());
}

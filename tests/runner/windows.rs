//! What windows a call met: how many, which of them it is about, and what the others hold.
use crate::request::{Call, Request};
use reference::calls;
use reference::history::History;
use reference::record::{rows, Row, NONE};
use reference::windows::{root_frames, windows};

/// A record of several windows; one in which S7 holds by windows and not over all rows; and the window in question not being that of the first row.
const SEVERAL: &str = "several windows";
const APART: &str = "in order by windows alone";
const LATER: &str = "a later window";

/// Which number is no root frame's: that of a frame beneath one, of no frame, or none at all.
const NO_ROOTS: [&str; 3] = ["13 for a frame beneath", "13 for no frame", "13 for 4294967295"];

/// A navigation beside another window's upcoming steps, which stay; and one that is refused since they do.
const STAYING: [&str; 2] = ["upcoming steps of another window stay", "7 beside upcoming steps of another window"];

/// Which root frame cannot be taken out, and which number is used up for a new window, each alone.
const ROOTS: [&str; 2] = ["10 for the first row's frame", "10 for another root frame"];
const USED_UP: [&str; 2] = ["8 for the document alone", "8 for the frame alone"];

/// Whether a call is about a document, a frame or a window, and so about one window.
fn of_one_window(call: Call) -> bool {
    call.names_window() || call.has_store() || matches!(call, Call::Open | Call::Navigate | Call::Drop | Call::Replace | Call::Visible)
}

/// The ways that must occur.
pub fn ways_of(call: Call) -> Vec<&'static str> {
    let several = if call.examines() || call == Call::Load { [SEVERAL, APART].as_slice() } else { &[] };
    let later = if of_one_window(call) { [LATER].as_slice() } else { &[] };
    let own = match call {
        Call::Navigate => STAYING.as_slice(),
        Call::Drop => &ROOTS,
        Call::Tab => &USED_UP,
        _ if call.names_window() => &NO_ROOTS,
        _ => &[],
    };
    [several, later, own].concat()
}

/// The root frame of the window that a call is about; none where it is about no one window. The record is sound, and what is asked for there.
fn asked(request: &Request, rows: &[Row]) -> Option<u32> {
    let above = |found: &dyn Fn(&Row) -> bool| root_frames(rows)[rows.iter().position(found).expect("a row of the record")];
    match request.call {
        call if !of_one_window(call) => None,
        call if call.names_window() => Some(request.root),
        Call::Drop => Some(above(&|row| row.frame == request.number)),
        _ => Some(above(&|row| row.document == request.number)),
    }
}

/// Whether another window than that of this root frame has an upcoming step.
fn upcoming_elsewhere(rows: &[Row], root: u32) -> bool {
    windows(rows).into_iter().any(|(other, own)| other != root && !History::of(&own).joint_future().is_empty())
}

/// The rows of the record that a call is accepted on, or that it loads.
fn accepted_rows(request: &Request) -> Option<Vec<Row>> {
    let mut words = request.words.clone();
    match request.call {
        call if call.examines() => Some(rows(&words)),
        Call::Load => calls::load(&mut words, &request.bytes).ok().map(|_| rows(&words)),
        _ => None,
    }
}

/// The ways of an accepted call.
fn accepted(request: &Request) -> Vec<&'static str> {
    let Some(rows) = accepted_rows(request) else { return vec![] };
    let mut ways = Vec::new();
    let (several, asked) = (windows(&rows).len() > 1, asked(request, &rows));
    ways.extend(several.then_some(SEVERAL));
    ways.extend((!History::of(&rows).well_formed()).then_some(APART));
    ways.extend(asked.filter(|&root| root != rows[0].frame).map(|_| LATER));
    if request.call == Call::Navigate {
        ways.extend(asked.filter(|&root| upcoming_elsewhere(&rows, root)).map(|_| STAYING[0]));
    }
    ways
}

/// The ways in which a call came to this answer.
pub fn ways(request: &Request, refusal: u32) -> Vec<&'static str> {
    let words = &request.words;
    match refusal {
        0 => accepted(request),
        7 if request.call == Call::Navigate => {
            let rows = rows(words);
            asked(request, &rows).filter(|&root| upcoming_elsewhere(&rows, root)).map(|_| STAYING[1]).into_iter().collect()
        }
        8 if request.call == Call::Tab && words[1] != words[2] => vec![USED_UP[(words[2] == NONE) as usize]],
        10 => vec![ROOTS[(rows(words)[0].frame != request.number) as usize]],
        13 if request.root == NONE => vec![NO_ROOTS[2]],
        13 => vec![NO_ROOTS[!rows(words).iter().any(|row| row.frame == request.root) as usize]],
        _ => vec![],
    }
}

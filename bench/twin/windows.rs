//! Several windows in one table: which rows are of one, the order of steps within each, and a copy of one's rows.
use crate::record::{FRAME, MOST_ROWS, NONE, PARENT, Refusal, Row, SHOWN, Stand, Table, find, last_of, locate, step_place};

/// The root frame above a row.
pub fn root_of(rows: &[Row], mut at: usize) -> u32 {
    while rows[at][PARENT] != NONE {
        at = find(&rows[..at], rows[at][PARENT]).expect("a parent before its row");
    }
    rows[at][FRAME]
}

/// A window, by its root frame; the parents that were last found within it, found outside and missed need no look.
pub struct Window {
    root: u32,
    within: u32,
    outside: u32,
    missed: u32,
}

impl Window {
    /// The window above a row.
    pub fn above(rows: &[Row], at: usize) -> Window {
        Window::of(root_of(rows, at))
    }

    /// The window of a root frame.
    fn of(root: u32) -> Window {
        Window { root, within: NONE, outside: NONE, missed: NONE }
    }

    /// Whether a row is of the window, told by those before it; nothing where its parent is not among these.
    pub fn side(&mut self, before: &[Row], row: &Row) -> Option<bool> {
        let [_, frame, parent, _] = *row;
        if parent == NONE {
            return Some(frame == self.root);
        }
        if parent == self.within {
            return Some(true);
        }
        if parent == self.outside {
            return Some(false);
        }
        if parent == self.missed {
            return None;
        }
        let side = find(before, parent).map(|at| root_of(before, at) == self.root);
        match side {
            Some(true) => self.within = parent,
            Some(false) => self.outside = parent,
            None => self.missed = parent,
        }
        side
    }

    /// Whether a row is of the window.
    fn has(&mut self, rows: &[Row], at: usize) -> bool {
        self.side(&rows[..at], &rows[at]) == Some(true)
    }
}

/// Whether the row before a row in its frame is shown.
fn follows_shown(rows: &[Row], at: usize) -> bool {
    last_of(&rows[..at], rows[at][FRAME], NONE).is_some_and(|prior| rows[prior][SHOWN] == 1)
}

/// The frame number that no earlier one is above, with a row more.
fn higher(high: u32, row: &Row) -> u32 {
    high.max(row[FRAME])
}

/// Whether a shown step of a window stands at a place or later, where no earlier row has a frame number above `high`.
fn step_from(rows: &[Row], from: usize, mut high: u32, window: &mut Window) -> bool {
    for at in from..rows.len() {
        if rows[at][SHOWN] == 1 && window.has(rows, at) && last_of(&rows[..at], rows[at][FRAME], high).is_some() {
            return true;
        }
        high = higher(high, &rows[at]);
    }
    false
}

/// S7 within each window, and that no frame shows two rows, where the table is not in order as a whole: from the first upcoming step of a window, at `start`
/// that of all, a look at the later rows of it. A row of the window last looked at needs no look.
#[inline(never)]
pub fn each_ordered(rows: &[Row], start: usize) -> bool {
    let mut high = rows[..start].iter().fold(0, higher);
    let mut last: Option<Window> = None;
    for at in start..rows.len() {
        let inside = last.as_mut().is_some_and(|window| window.has(rows, at));
        if !inside && last_of(&rows[..at], rows[at][FRAME], high).is_some_and(|prior| rows[prior][SHOWN] == 1) {
            let mut window = Window::above(rows, at);
            window.within = rows[at][PARENT];
            if step_from(rows, at, high, &mut window) {
                return false;
            }
            last = Some(window);
        }
        high = higher(high, &rows[at]);
    }
    true
}

/// What to know of several windows: the place of the earliest upcoming step of any (the rows' end where there is none), and whether the table is in order as a
/// whole, with no shown step after that place.
#[derive(Clone, Copy)]
pub struct Several {
    pub upcoming: usize,
    pub ordered: bool,
}

impl Several {
    /// Whether a row, no earlier than the earliest upcoming step of any window, is upcoming; where the table is not in order, whether it is the first such
    /// of its frame.
    fn is_upcoming(self, rows: &[Row], at: usize) -> bool {
        rows[at][SHOWN] == 0 && (self.ordered || follows_shown(rows, at))
    }

    /// The place of the earliest upcoming step in a row's window; the rows' end where there is none.
    pub fn upcoming_beside(self, rows: &[Row], at: usize) -> usize {
        if self.upcoming == rows.len() {
            return rows.len();
        }
        let mut window = Window::above(rows, at);
        (self.upcoming..rows.len()).find(|&at| window.has(rows, at) && self.is_upcoming(rows, at)).unwrap_or(rows.len())
    }

    /// Copies the rows of a window, and tells where it stands, if there is one. Each of its frames shows one row, so it has as many steps as hidden rows, and
    /// as many of them are taken as are hidden before the earliest upcoming one.
    pub fn gather<'a>(self, rows: &[Row], root: u32, own: &'a mut [Row; MOST_ROWS]) -> Option<Stand<'a>> {
        let mut window = Window::of(root);
        let mut count = 0;
        let mut start = 0;
        for at in 0..rows.len() {
            if window.has(rows, at) {
                own[count] = rows[at];
                count += 1;
                start += (at < self.upcoming) as usize;
            }
        }
        let own = &own[..count];
        let upcoming = (start..count).find(|&at| self.is_upcoming(own, at)).unwrap_or(count);
        let hidden = |rows: &[Row]| rows.iter().filter(|row| row[SHOWN] == 0).count();
        let (steps, position) = (hidden(own), hidden(&own[..upcoming]));
        let last = if position == 0 { 0 } else { step_place(own, count - steps, position - 1) };
        (count > 0).then_some(Stand { rows: own, steps, position, upcoming, last })
    }
}

/// Position and steps of a window, after refusals 1, 2 and 13. Of several they are counted by its flags: it has as many steps as hidden rows, and as many taken ones as
/// are hidden before its latest shown step.
pub fn position(words: &[u32], root: u32) -> Result<(usize, usize), Refusal> {
    match locate(words)? {
        Table { stand, several: None } if stand.rows[0][FRAME] == root => Ok((stand.position, stand.steps)),
        Table { several: None, .. } => Err(Refusal::NoWindow),
        Table { stand, .. } => tally(stand.rows, root).ok_or(Refusal::NoWindow),
    }
}

/// The same of one of several windows, if there is one.
fn tally(rows: &[Row], root: u32) -> Option<(usize, usize)> {
    rows.iter().find(|row| row[PARENT] == NONE && row[FRAME] == root)?;
    let mut window = Window::of(root);
    let (mut taken, mut hidden, mut high) = (0, 0, 0);
    for at in 0..rows.len() {
        if window.has(rows, at) {
            if rows[at][SHOWN] == 0 {
                hidden += 1;
            } else if last_of(&rows[..at], rows[at][FRAME], high).is_some() {
                taken = hidden;
            }
        }
        high = higher(high, &rows[at]);
    }
    Some((taken, hidden))
}

/// What a window answers, after refusals 1, 2 and 13; one of several by a copy of its rows.
#[inline(always)]
pub fn ask<T>(words: &[u32], root: u32, answer: impl FnOnce(Stand) -> Result<T, Refusal>) -> Result<T, Refusal> {
    match locate(words)? {
        Table { stand, several: None } if stand.rows[0][FRAME] == root => answer(stand),
        Table { several: None, .. } => Err(Refusal::NoWindow),
        Table { stand, several: Some(several) } => ask_copy(stand.rows, several, root, answer),
    }
}

/// What one of several windows answers.
#[inline(never)]
fn ask_copy<T>(rows: &[Row], several: Several, root: u32, answer: impl FnOnce(Stand) -> Result<T, Refusal>) -> Result<T, Refusal> {
    let mut own = [[0; 4]; MOST_ROWS];
    answer(several.gather(rows, root, &mut own).ok_or(Refusal::NoWindow)?)
}

//! Document 001, section 2 with patches 1 to 4: H = (D, A, →, ≤, ∼).
use crate::record::{Row, NONE};
use std::collections::HashSet;

/// One member of D. `parent` is the d with d → this one, `session` its class under ∼, `active` whether it is in A.
#[derive(Clone, Debug, PartialEq, Eq)]
pub struct Document {
    pub number: u32,
    pub session: u32,
    pub parent: Option<u32>,
    pub active: bool,
}

/// D in chronological order: the order ≤ is the order of this list, so a document is named by its place in it.
#[derive(Clone, Debug, PartialEq, Eq)]
pub struct History {
    pub documents: Vec<Document>,
}

impl History {
    /// The history that the rows of a window stand for; or those of several windows, each a history beside the others.
    pub fn of(rows: &[Row]) -> History {
        let document = |row: &Row| Document {
            number: row.document,
            session: row.frame,
            parent: (row.parent != NONE).then_some(row.parent),
            active: row.shown == 1,
        };
        History { documents: rows.iter().map(document).collect() }
    }

    pub fn rows(&self) -> Vec<Row> {
        let row = |d: &Document| Row { document: d.number, frame: d.session, parent: d.parent.unwrap_or(NONE), shown: d.active as u32 };
        self.documents.iter().map(row).collect()
    }

    pub fn place(&self, number: u32) -> Option<usize> {
        self.documents.iter().position(|d| d.number == number)
    }

    fn same_session(&self, d: usize, e: usize) -> bool {
        self.documents[d].session == self.documents[e].session
    }

    /// "d ≲ e whenever d ∼ e and d < e"
    fn before_in_session(&self, d: usize, e: usize) -> bool {
        d < e && self.same_session(d, e)
    }

    /// "FA = {d | d0 ↠* d} (the fully active documents)": from the active root, of each window, along active children.
    pub fn fully_active(&self) -> HashSet<u32> {
        let mut reached = HashSet::new();
        loop {
            let more: Vec<u32> = self
                .documents
                .iter()
                .filter(|d| d.active && !reached.contains(&d.number))
                .filter(|d| d.parent.is_none_or(|p| reached.contains(&p)))
                .map(|d| d.number)
                .collect();
            if more.is_empty() {
                return reached;
            }
            reached.extend(more);
        }
    }

    /// A document of the record and those above it: "itself first and then upwards".
    pub fn upwards(&self, number: u32) -> Vec<&Document> {
        let found = |number: u32| &self.documents[self.place(number).expect("a parent is the document of an earlier row")];
        std::iter::successors(Some(found(number)), |d| d.parent.map(found)).collect()
    }

    /// "the nearest document, itself first and then upwards, that isn't shown"
    pub fn hiding(&self, number: u32) -> Option<u32> {
        self.upwards(number).into_iter().find(|d| !d.active).map(|d| d.number)
    }

    /// Patch 2: "the joint session future is {e | ∃ d ∈ A : d ≲ e}", earliest first.
    pub fn joint_future(&self) -> Vec<usize> {
        (0..self.documents.len()).filter(|&e| self.in_joint_future(e)).collect()
    }

    fn in_joint_future(&self, e: usize) -> bool {
        (0..e).any(|d| self.documents[d].active && self.before_in_session(d, e))
    }

    /// "a document d can go back [when] there is some c ≲ d": document 01's step.
    pub fn can_go_back(&self, d: usize) -> bool {
        (0..d).any(|c| self.before_in_session(c, d))
    }

    /// Document 01: a step is taken "when it is no later than its frame's shown document". Latest first.
    pub fn taken(&self) -> Vec<usize> {
        let no_later = |e: usize| (e..self.documents.len()).any(|d| self.documents[d].active && self.same_session(d, e));
        (0..self.documents.len()).rev().filter(|&e| self.can_go_back(e) && no_later(e)).collect()
    }

    /// "the back target b is the ≤-largest active document which can go back"
    pub fn back_target(&self) -> Option<usize> {
        (0..self.documents.len()).rev().find(|&d| self.documents[d].active && self.can_go_back(d))
    }

    /// "the forward target f is the ≤-smallest document in the joint session future"
    pub fn forward_target(&self) -> Option<usize> {
        (0..self.documents.len()).find(|&e| self.in_joint_future(e))
    }

    /// Definition 3: "e ∈ A' whenever d ≁ e ∈ A, or d = e".
    pub fn traverse_to(&mut self, d: usize) {
        for e in 0..self.documents.len() {
            self.documents[e].active = (!self.same_session(d, e) && self.documents[e].active) || d == e;
        }
    }

    /// Patch 3: traverses to the d with d ≲ d' such that "for any e ≲ d' we have e ≤ d".
    pub fn traverse_from(&mut self, from: usize) {
        let target = (0..from).rev().find(|&d| self.before_in_session(d, from));
        self.traverse_to(target.expect("only a document that can go back is traversed from"));
    }

    /// Definition 5, of a window: "for any a ≲ b and c ≲ d, if a ∈ A and d ∈ A then d ≤ b".
    pub fn well_formed(&self) -> bool {
        let last_step_shown = self.back_target();
        self.joint_future().iter().all(|&b| last_step_shown.is_none_or(|d| d <= b))
    }

    /// Definition 2, deleting: "D' = D \ {e | d →* e}", for every d of a set.
    pub fn delete(&mut self, doomed: &[usize]) {
        let mut gone: HashSet<u32> = doomed.iter().map(|&d| self.documents[d].number).collect();
        loop {
            let beneath: Vec<u32> = self
                .documents
                .iter()
                .filter(|e| !gone.contains(&e.number) && e.parent.is_some_and(|p| gone.contains(&p)))
                .map(|e| e.number)
                .collect();
            if beneath.is_empty() {
                break;
            }
            gone.extend(beneath);
        }
        self.documents.retain(|e| !gone.contains(&e.number));
    }

    /// Definition 2, replacing d by d': it comes last, in d's session, under d's parent, active instead of d.
    pub fn replace(&mut self, d: usize, number: u32) {
        let (session, parent) = (self.documents[d].session, self.documents[d].parent);
        self.documents[d].active = false;
        self.documents.push(Document { number, session, parent, active: true });
    }

    /// The documents of a session, earliest first.
    pub fn of_session(&self, session: u32) -> Vec<usize> {
        (0..self.documents.len()).filter(|&d| self.documents[d].session == session).collect()
    }

    /// The active document of a session.
    pub fn shown_in(&self, session: u32) -> u32 {
        let shown = self.documents.iter().find(|d| d.active && d.session == session);
        shown.expect("every session has an active document").number
    }

    /// All sessions, by rising number.
    pub fn sessions(&self) -> Vec<u32> {
        let mut out: Vec<u32> = self.documents.iter().map(|d| d.session).collect();
        out.sort();
        out.dedup();
        out
    }
}

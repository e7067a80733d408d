//! The table of document 01, "Nine ways to say no", with document 02's refusals, and a count of what occurred of it.
use crate::request::{Call, Request, CALLS};
use crate::saves::{self, UNORDERED};
use crate::{stores, windows};
use reference::calls::position;
use reference::record::{capacity, rows};
use reference::sound::{broken, one_root_frame, rises};
use reference::windows::root_frames;
use std::collections::BTreeMap;
use std::ops::RangeInclusive;

/// Acceptance, and the numbers of the refusals.
const NUMBERS: RangeInclusive<u32> = 0..=15;

/// Whether the table lets this call give this refusal; 0 stands for acceptance.
pub fn allowed(call: Call, refusal: u32) -> bool {
    use Call::*;
    match refusal {
        0 => true,
        1 => call != Stretch && !call.tells(),
        2 => call.examines(),
        3 => call.loads() || call.tells(),
        4 => matches!(call, Open | Navigate | Drop | Replace | Visible) || call.has_store(),
        5 => matches!(call, Open | Navigate | Drop | Replace),
        6 => matches!(call, Traverse | Stretch),
        7 => matches!(call, Open | Navigate | Tab) || call.loads(),
        8 => matches!(call, Open | Navigate | Replace | Tab),
        9 => matches!(call, Traverse | Lists | Outline | Save),
        10 => call == Drop,
        11 => matches!(call, PlaceAt | PlaceAtZoom),
        12 => matches!(call, PlaceItself | PlaceAt),
        13 => call.names_window(),
        15 => call.has_store(),
        _ => false,
    }
}

/// Who hides a document, with or without another above that is not shown either.
const HIDERS: [&str; 4] = ["hidden by itself", "hidden by itself before another", "hidden by one above", "hidden by one above before another"];

/// The one of HIDERS that a request has, by how far up those stand that are not shown; none where the document is visible.
fn hider(not_shown: &[usize]) -> Option<&'static str> {
    let &nearest = not_shown.first()?;
    Some(HIDERS[2 * (nearest > 0) as usize + (not_shown.len() > 1) as usize])
}

/// What a replacement met: nothing that goes, taken steps that do, an upcoming step that stays, no row to spare.
const REPLACEMENTS: [&str; 4] = ["nothing beneath", "taken steps beneath", "an upcoming step stays", "no row left"];

/// Those of REPLACEMENTS that an accepted one has.
fn replacement(request: &Request) -> Vec<&'static str> {
    let words = &request.words;
    let after = request.expected().words;
    let place = rows(words).iter().position(|row| row.document == request.number).expect("a document of the record");
    let root = root_frames(&rows(words))[place];
    let stands = |words: &[u32]| position(words, root).expect("an accepted call's record is sound and keeps its windows");
    let ((before, ..), (now, steps, _)) = (stands(words), stands(&after));
    let met = [after[0] == words[0], now < before, now < steps, words[0] as usize == capacity(words.len())];
    REPLACEMENTS.into_iter().zip(met).filter(|(_, met)| *met).map(|(way, _)| way).collect()
}

/// The ways that a call must have come to its answers: who hides a document, where it tells that; what the store or the saved bytes hold; what
/// windows it met; what a replacement met; and on a record whose numbers do not rise.
fn ways_of(call: Call) -> Vec<&'static str> {
    let hiders = if call == Call::Visible || allowed(call, 5) { HIDERS.as_slice() } else { &[] };
    let replacements = if call == Call::Replace { REPLACEMENTS.as_slice() } else { &[] };
    let unordered = if call.examines() { [UNORDERED].as_slice() } else { &[] };
    [hiders, &stores::ways_of(call), &saves::ways_of(call), &windows::ways_of(call), replacements, unordered].concat()
}

/// The ways in which a call came to this answer.
fn ways(request: &Request, refusal: u32) -> Vec<&'static str> {
    let call = request.call;
    let mut ways = windows::ways(request, refusal);
    if refusal == 5 || (call == Call::Visible && refusal == 0) {
        ways.extend(hider(&request.not_shown()));
    }
    if call.has_store() {
        ways.extend(stores::ways(request, refusal));
    }
    if call.loads() || call.tells() {
        ways.extend(saves::way(request, refusal));
    }
    if call == Call::Replace && refusal == 0 {
        ways.extend(replacement(request));
    }
    if call.examines() && refusal == 0 && !rises(&request.words) {
        ways.push(UNORDERED);
    }
    ways
}

/// The clauses of soundness, S2 by its two halves, S7 in a record of one window and of several.
const CLAUSES: [&str; 10] = ["S1", "S2, a number twice", "S2, one not below word 1", "S3", "S4", "S5", "S6", "S7", "S7 of several windows", "S8"];

/// The clause that alone fails of an unsound record; none where there are several.
fn failing(words: &[u32]) -> Option<&'static str> {
    let [clause] = broken(words)[..] else { return None };
    if clause == 7 && !one_root_frame(words) {
        return Some("S7 of several windows");
    }
    if clause != 2 {
        return CLAUSES.into_iter().find(|name| *name == format!("S{clause}"));
    }
    let below = rows(words).iter().all(|row| row.document < words[1]);
    let mut numbers: Vec<u32> = rows(words).iter().map(|row| row.document).collect();
    numbers.sort();
    let distinct = numbers.windows(2).all(|pair| pair[0] < pair[1]);
    (below != distinct).then_some(CLAUSES[1 + distinct as usize])
}

#[derive(Default)]
pub struct Seen {
    pairs: BTreeMap<(Call, u32), u64>,
    structs: BTreeMap<u32, u64>,
    clauses: BTreeMap<&'static str, u64>,
    ways: BTreeMap<(Call, &'static str), u64>,
    differing: BTreeMap<Call, u64>,
}

impl Seen {
    pub fn note(&mut self, request: &Request, refusal: u32) {
        let call = request.call;
        assert!(allowed(call, refusal), "the reference gives {refusal} for {call:?}, which the table does not have");
        *self.pairs.entry((call, refusal)).or_default() += 1;
        if request.lends_structs() {
            *self.structs.entry(refusal).or_default() += 1;
        }
        if refusal == 2 {
            failing(&request.words).into_iter().for_each(|clause| *self.clauses.entry(clause).or_default() += 1);
        }
        ways(request, refusal).into_iter().for_each(|way| *self.ways.entry((call, way)).or_default() += 1);
    }

    pub fn note_difference(&mut self, call: Call) {
        *self.differing.entry(call).or_default() += 1;
    }

    pub fn differences(&self) -> u64 {
        self.differing.values().sum()
    }

    pub fn pair_count(&self) -> usize {
        self.pairs.len()
    }

    /// The pairs of the table, those of Traverse with change rows as structs, the clauses of soundness (each failing alone), and the ways
    /// to an answer that did not occur.
    pub fn missing(&self) -> Vec<String> {
        let pairs = CALLS.iter().flat_map(|&call| NUMBERS.map(move |refusal| (call, refusal)));
        let pairs = pairs.filter(|&(call, refusal)| allowed(call, refusal) && !self.pairs.contains_key(&(call, refusal)));
        let structs = NUMBERS.filter(|&refusal| allowed(Call::Traverse, refusal) && !self.structs.contains_key(&refusal));
        let clauses = CLAUSES.into_iter().filter(|clause| !self.clauses.contains_key(clause));
        let ways = CALLS.iter().flat_map(|&call| ways_of(call).into_iter().map(move |way| (call, way)));
        let ways = ways.filter(|pair| !self.ways.contains_key(pair));
        pairs
            .map(|(call, refusal)| format!("{call:?} giving {refusal}"))
            .chain(structs.map(|refusal| format!("Traverse with structs giving {refusal}")))
            .chain(clauses.map(|clause| format!("{clause}, failing alone")))
            .chain(ways.map(|(call, way)| format!("{call:?}: {way}")))
            .collect()
    }

    pub fn print(&self) {
        for call in CALLS {
            let counts = NUMBERS.filter_map(|refusal| self.pairs.get(&(call, refusal)).map(|count| format!("{refusal}: {count}")));
            let differing = self.differing.get(&call).map(|count| format!("  DIFFERENT: {count}")).unwrap_or_default();
            println!("  {:11} {}{differing}", format!("{call:?}"), counts.collect::<Vec<_>>().join("  "));
        }
        let structs = self.structs.iter().map(|(refusal, count)| format!("{refusal}: {count}"));
        println!("  {:11} {}", "structs", structs.collect::<Vec<_>>().join("  "));
        let clauses = self.clauses.iter().map(|(clause, count)| format!("{clause}: {count}"));
        println!("  {:11} {}", "alone", clauses.collect::<Vec<_>>().join("  "));
        for call in CALLS.into_iter().filter(|&call| !ways_of(call).is_empty()) {
            let counts = ways_of(call).into_iter().filter_map(|way| self.ways.get(&(call, way)).map(|count| format!("{way}: {count}")));
            println!("  {:11} {}", format!("{call:?}"), counts.collect::<Vec<_>>().join("  "));
        }
    }
}

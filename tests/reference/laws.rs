//! Laws that the reference must keep on every record within a few moves of Fresh: document 001's theorem, its literal
//! patches and its deleting, demand 3, that windows have nothing to do with each other, and the round trips of the saved forms. Each panics when
//! it fails.
use crate::calls::*;
use crate::history::History;
use crate::record::{rows, write, Row, NONE};
use crate::saved::{bytes_of, old_bytes_of, old_record_of, record_of};
use crate::sound::{broken, is_sound, one_root_frame, rises};
use crate::windows::{root_frames, windows};
use std::collections::{BTreeMap, HashSet};

const ROOM: usize = 5;

/// A call that changes a record, with its document, its frame, or its root frame and δ.
#[derive(Clone, Copy, PartialEq)]
enum Move {
    Open(u32),
    Navigate(u32),
    Traverse(u32, i32),
    Drop(u32),
    Replace(u32),
    Tab,
}

/// How far to go from a start: so many moves to every record that the laws are tried on; for demand 3 so many to a note, and so many from there on.
struct Reach {
    moves: usize,
    noted_after: usize,
    moves_since: usize,
}

/// Checks every record in ROOM rows that is a few moves from a fresh one, of one window, and from one with two windows; answers how many there are.
pub fn check_all() -> usize {
    let mut one = vec![0; 3 + 4 * ROOM];
    fresh(&mut one).unwrap();
    let mut two = one.clone();
    tab(&mut two).unwrap();
    let within_one = check_from(&one, Reach { moves: 6, noted_after: 4, moves_since: 4 }, |made| made != Move::Tab);
    within_one + check_from(&two, Reach { moves: 4, noted_after: 2, moves_since: 3 }, |_| true)
}

/// Checks every record that these moves can reach from a start.
fn check_from(start: &[u32], reach: Reach, among: fn(Move) -> bool) -> usize {
    let any = |_: &[u32], made: Move, _: &[u32]| among(made);
    reached(start, reach.noted_after, any).iter().for_each(|note| noted(note, reach.moves_since, among));
    let reached = reached(start, reach.moves, any);
    for record in &reached {
        roots(record).into_iter().for_each(|root| traversal(record, root));
        opening(record);
        navigating(record);
        dropping(record);
        replacing(record);
        hiding(record);
        others_stay(record);
        answers_of_its_own(record);
        moves_of_its_own(record);
        sums(record);
        round_trip(record);
        well_formed_is_s7(record);
    }
    reached.len()
}

/// The root frames of a record, by rising number.
fn roots(record: &[u32]) -> Vec<u32> {
    windows(&rows(record)).into_keys().collect()
}

/// The rows of a window of a record.
fn own_rows(record: &[u32], root: u32) -> Vec<Row> {
    windows(&rows(record)).remove(&root).expect("a root frame of the record")
}

/// Every record that so many accepted moves can reach, of those moves that are allowed on a record and with what they give.
fn reached(start: &[u32], moves: usize, allowed: impl Fn(&[u32], Move, &[u32]) -> bool) -> HashSet<Vec<u32>> {
    let mut reached = HashSet::from([start.to_vec()]);
    let mut latest = vec![start.to_vec()];
    for _ in 0..moves {
        let mut next = Vec::new();
        for record in &latest {
            for (made, after) in successors(record) {
                if allowed(record, made, &after) && reached.insert(after.clone()) {
                    next.push(after);
                }
            }
        }
        latest = next;
    }
    reached
}

/// Demand 3 as L1, L7 and L10 word it: "no accepted navigation begun from a position lower than the noted one", "no removed row is one of the
/// noted position's taken steps", "no document that existed at the note is replaced". Each time the position is the noted one again, the
/// "noted documents still in the record" are visible as noted. This "holds per window, with any calls on others in between".
fn noted(note: &[u32], moves_since: usize, among: fn(Move) -> bool) {
    for root in roots(note) {
        let place = |words: &[u32]| position(words, root).unwrap().0;
        let has = |words: &[u32], document: u32| rows(words).iter().any(|row| row.document == document);
        let own = own_rows(note, root);
        let history = History::of(&own);
        let taken: Vec<u32> = history.taken().into_iter().map(|step| history.documents[step].number).collect();
        let allowed = |before: &[u32], made: Move, after: &[u32]| match made {
            Move::Navigate(_) => window_of(before, made) != root || place(before) >= place(note),
            Move::Drop(_) => taken.iter().all(|&step| has(after, step) || !has(before, step)),
            Move::Replace(document) => !own.iter().any(|row| row.document == document),
            Move::Open(_) | Move::Traverse(..) | Move::Tab => among(made),
        };
        for record in reached(note, moves_since, allowed).iter().filter(|record| place(record) == place(note)) {
            for row in own.iter().filter(|row| has(record, row.document)) {
                let seen = |words: &[u32]| visible(words, row.document).unwrap().visible();
                assert_eq!(seen(record), seen(note), "visible as noted");
            }
        }
    }
}

/// The window that a move is made on, by its root frame; that of Tab is the one that it opens.
fn window_of(record: &[u32], made: Move) -> u32 {
    let rows = rows(record);
    let above = |found: &dyn Fn(&Row) -> bool| root_frames(&rows)[rows.iter().position(found).expect("a row of the record")];
    match made {
        Move::Open(document) | Move::Navigate(document) | Move::Replace(document) => above(&|row| row.document == document),
        Move::Drop(frame) => above(&|row| row.frame == frame),
        Move::Traverse(root, _) => root,
        Move::Tab => record[2],
    }
}

/// What a move answers on a record, and the words then.
fn outcome(record: &[u32], made: Move) -> (Answer<Vec<u32>>, Vec<u32>) {
    let mut words = record.to_vec();
    let answer = match made {
        Move::Open(parent) => open(&mut words, parent).map(|(document, frame)| vec![document, frame]),
        Move::Navigate(from) => navigate(&mut words, from).map(|document| vec![document]),
        Move::Traverse(root, delta) => traverse(&mut words, root, delta, &mut [0; 4 * ROOM]).map(|count| vec![count]),
        Move::Drop(frame) => drop_frame(&mut words, frame).map(|removed| vec![removed]),
        Move::Replace(document) => replace(&mut words, document).map(|new| vec![new]),
        Move::Tab => tab(&mut words).map(|(document, frame)| vec![document, frame]),
    };
    (answer, words)
}

/// Opening, navigation and replacing of every document up to the next number, removal of every frame up to the next one, a new window, and of each
/// window every traversal that it has steps for.
fn moves(record: &[u32]) -> Vec<Move> {
    let of_document = |document: u32| [Move::Open(document), Move::Navigate(document), Move::Replace(document)];
    let mut moves: Vec<Move> = (0..=record[1]).flat_map(of_document).chain((0..=record[2]).map(Move::Drop)).collect();
    moves.push(Move::Tab);
    for root in roots(record) {
        let (position, steps, _) = position(record, root).unwrap();
        moves.extend((-(position as i32)..=(steps - position) as i32).map(|delta| Move::Traverse(root, delta)));
    }
    moves
}

/// What each accepted move gives. Numbers handed out are new, the record stays sound, and a refusal keeps every word.
fn successors(record: &[u32]) -> Vec<(Move, Vec<u32>)> {
    let mut out = Vec::new();
    for made in moves(record) {
        let (answer, words) = outcome(record, made);
        let Ok(numbers) = answer else {
            assert_eq!(words, record, "a refusal keeps every word");
            continue;
        };
        if matches!(made, Move::Traverse(..) | Move::Drop(_)) {
            assert_eq!(words[1..3], record[1..3], "the next numbers stay");
        } else {
            let (document, frame) = (numbers[0], numbers.get(1).copied());
            assert!(rows(record).iter().all(|row| row.document < document) && words[1] == document + 1, "a new document number");
            assert!(rows(record).iter().all(|row| frame.is_none_or(|frame| row.frame < frame)), "a new frame number");
            assert_eq!(words[2], frame.map_or(record[2], |frame| frame + 1), "the next frame number");
        }
        assert!(is_sound(&words), "sound stays sound");
        out.push((made, words));
    }
    out
}

/// The words after a traversal of a window.
fn go(record: &[u32], root: u32, delta: i64) -> Answer<Vec<u32>> {
    let (answer, words) = outcome(record, Move::Traverse(root, delta as i32));
    answer.map(|_| words)
}

/// Theorem 1, and the lists of patch 1 and patch 3 (without documents that cannot go back) read at once, of a window.
fn traversal(record: &[u32], root: u32) {
    let (here, steps, _) = position(record, root).unwrap();
    let (back, forward) = (-(here as i64), (steps - here) as i64);
    assert_eq!(go(record, root, back - 1), no(6));
    assert_eq!(go(record, root, forward + 1), no(6));
    for delta in back..=forward {
        let once = go(record, root, delta).unwrap();
        assert_eq!(once, by_the_lists(record, root, delta), "one step at a time and by the list");
        assert_eq!(position(&once, root).unwrap().0 as i64, here as i64 + delta, "the position moves by δ");
        for target in back..=forward {
            assert_eq!(go(&once, root, target - delta), go(record, root, target), "δ and then δ' is δ + δ'");
        }
    }
}

/// The words after a traversal of a window by its list; each of its rows is where it was among the others.
fn by_the_lists(record: &[u32], root: u32, delta: i64) -> Vec<u32> {
    let mut history = History::of(&own_rows(record, root));
    if delta > 0 {
        let list = history.joint_future();
        list[..delta as usize].iter().for_each(|&d| history.traverse_to(d));
    } else {
        // "the joint session past and active documents of H are d1 > .. > dδ > ..": those that can go back.
        let past_or_active = |e: usize| (e..history.documents.len()).any(|d| history.documents[d].active && history.documents[d].session == history.documents[e].session);
        let list: Vec<usize> = (0..history.documents.len()).rev().filter(|&d| past_or_active(d) && history.can_go_back(d)).collect();
        list[..-delta as usize].iter().for_each(|&d| history.traverse_from(d));
    }
    let (all, mut own, mut words) = (rows(record), history.rows().into_iter(), record.to_vec());
    let then = |(row, of): (&Row, u32)| if of == root { own.next().expect("as many rows as before") } else { *row };
    write(&mut words, record[1], record[2], &all.iter().zip(root_frames(&all)).map(then).collect::<Vec<_>>());
    words
}

/// Opening a frame or a window appends a row; all others stay.
fn opening(record: &[u32]) {
    let before = rows(record);
    for (made, parent) in before.iter().map(|row| (Move::Open(row.document), row.document)).chain([(Move::Tab, NONE)]) {
        if let (Ok(new), words) = outcome(record, made) {
            let last = Row { document: new[0], frame: new[1], parent, shown: 1 };
            assert_eq!(rows(&words), [before.as_slice(), &[last]].concat(), "a row more");
        }
    }
}

/// Navigate is patch 4 of the document's window alone: definition 2's deleting of its upcoming steps, one after the other, and then its replacing,
/// by which the new document comes last.
fn navigating(record: &[u32]) {
    let before = rows(record);
    for from in &before {
        let made = Move::Navigate(from.document);
        let window = History::of(&own_rows(record, window_of(record, made)));
        let left = window.joint_future().into_iter().fold(before.clone(), |left, step| deleted(&left, window.documents[step].number));
        let (answer, words) = outcome(record, made);
        let wanted = match visible(record, from.document).unwrap().hiding {
            Some(hiding) => hidden_by(hiding),
            None if left.len() == ROOM => no(7),
            None => Ok(vec![record[1]]),
        };
        assert_eq!(answer, wanted, "room for what is left");
        if wanted.is_ok() {
            let hidden = |row: &Row| Row { shown: if row.document == from.document { 0 } else { row.shown }, ..*row };
            let replaced = left.iter().map(hidden).chain([Row { document: record[1], shown: 1, ..*from }]);
            assert_eq!(rows(&words), replaced.collect::<Vec<_>>(), "upcoming steps deleted, and the document replaced");
        }
    }
}

/// Drop is definition 2's deleting of the frame's documents, one after the other; the answer is how many went, and "the position falls by
/// the taken steps removed".
fn dropping(record: &[u32]) {
    let before = rows(record);
    for frame in 0..record[2] + 1 {
        let mut words = record.to_vec();
        let own: Vec<Row> = before.iter().filter(|row| row.frame == frame).copied().collect();
        let wanted = match own[..] {
            [] => no(4),
            [row, ..] if row.parent == NONE => no(10),
            [row, ..] => match visible(record, row.parent).unwrap().hiding {
                Some(hiding) => hidden_by(hiding),
                None => Ok(own.iter().fold(before.clone(), |left, row| deleted(&left, row.document))),
            },
        };
        let removed = drop_frame(&mut words, frame);
        assert_eq!(removed, wanted.as_ref().map(|left| (before.len() - left.len()) as u32).map_err(|&refusal| refusal));
        if let Ok(left) = wanted {
            assert_eq!(rows(&words), left, "the frame's documents deleted");
            let root = window_of(record, Move::Drop(frame));
            let went = |&d: &usize| !left.iter().any(|row| row.document == before[d].document);
            let taken_gone = History::of(&before).taken().into_iter().filter(went).count() as u32;
            assert_eq!(position(&words, root).unwrap().0, position(record, root).unwrap().0 - taken_gone, "the taken steps removed");
        }
    }
}

/// Replace keeps every row but those beneath the document, all of them as they were but for its own number, which is the next one. "Position
/// may fall by taken steps beneath"; "upcoming steps elsewhere stay" upcoming, and Back does not come to the old document again.
fn replacing(record: &[u32]) {
    let before = rows(record);
    for document in 0..record[1] + 1 {
        let mut words = record.to_vec();
        let wanted = match visible(record, document) {
            Err(refusal) => Err(refusal),
            Ok(Sight { hiding: Some(hiding), .. }) => hidden_by(hiding),
            Ok(_) => Ok(record[1]),
        };
        assert_eq!(replace(&mut words, document), wanted, "4 and 5 as for navigation, and never 7");
        if wanted.is_ok() {
            let stays = |row: &&Row| row.document == document || !leads_to(&before, document, row.document);
            let renamed = |row: &Row| Row { document: if row.document == document { record[1] } else { row.document }, ..*row };
            assert_eq!(rows(&words), before.iter().filter(stays).map(renamed).collect::<Vec<_>>(), "in its own row");
            assert_eq!(words[1..3], [record[1] + 1, record[2]], "the next numbers");
            let numbers = |words: &[u32], places: fn(&History) -> Vec<usize>| -> Vec<u32> {
                let history = History::of(&rows(words));
                places(&history).into_iter().map(|place| history.documents[place].number).collect()
            };
            let root = window_of(record, Move::Replace(document));
            let beneath = |&step: &u32| step != document && leads_to(&before, document, step);
            let lost = numbers(record, History::taken).iter().filter(|step| beneath(step)).count() as u32;
            assert_eq!(position(&words, root).unwrap().0, position(record, root).unwrap().0 - lost, "the taken steps beneath");
            let ahead: Vec<u32> = numbers(record, History::joint_future).into_iter().filter(|step| !beneath(step)).collect();
            assert_eq!(numbers(&words, History::joint_future), ahead, "upcoming steps elsewhere");
        }
    }
}

/// Definition 2: "D' = D \ {e | d →* e}".
fn deleted(rows: &[Row], d: u32) -> Vec<Row> {
    rows.iter().filter(|e| !leads_to(rows, d, e.document)).copied().collect()
}

/// d →* e: they are the same, or d →* the parent of e.
fn leads_to(rows: &[Row], d: u32, e: u32) -> bool {
    d == e || rows.iter().any(|row| row.document == e && row.parent != NONE && leads_to(rows, d, row.parent))
}

/// Who hides a document: it is not shown, the document lies beneath it or is it, and every other such one lies above it. There is one exactly
/// where the document is not fully active, and refusal 5 carries it.
fn hiding(record: &[u32]) {
    let all = rows(record);
    let active = History::of(&all).fully_active();
    for d in all.iter().map(|row| row.document) {
        let not_shown: Vec<u32> = all.iter().filter(|row| row.shown == 0 && leads_to(&all, row.document, d)).map(|row| row.document).collect();
        let nearest = not_shown.iter().copied().find(|&h| not_shown.iter().all(|&e| leads_to(&all, e, h)));
        assert_eq!(nearest.is_none(), active.contains(&d), "hidden exactly where not fully active");
        let above = |row: &&Row| row.document != d && leads_to(&all, row.document, d) && nearest.is_none_or(|h| leads_to(&all, h, row.document));
        let links = all.iter().filter(above).count() as u32;
        assert_eq!(visible(record, d), Ok(Sight { hiding: nearest, links }), "the nearest that isn't shown, and a link for each document up to it");
        let carried = |refusal: Option<Refusal>| refusal.filter(|refusal| refusal.number == 5).and_then(|refusal| refusal.hiding);
        assert_eq!(carried(open(&mut record.to_vec(), d).err()), nearest, "refusal 5 carries it");
        assert_eq!(carried(navigate(&mut record.to_vec(), d).err()), nearest, "refusal 5 carries it");
    }
}

/// "On sound records, a call on one window leaves the other's rows as they were and in their order": all rows of the others, however many windows
/// they are of. A window is above each row by the climb to its root.
fn others_stay(record: &[u32]) {
    let outside = |words: &[u32], root: u32| -> Vec<Row> {
        let all = rows(words);
        let of_window = |row: &&Row| all.iter().any(|top| top.frame == root && top.parent == NONE && leads_to(&all, top.document, row.document));
        all.iter().filter(|row| !of_window(row)).copied().collect()
    };
    for (made, after) in successors(record) {
        let root = window_of(record, made);
        assert_eq!(outside(&after, root), outside(record, root), "the other windows' rows");
    }
}

/// "Traversal, lists, outline and position of a window depend only on its own rows and the caller's numbers and buffers": they are those of a
/// record that has these rows alone, which is sound. So two records with equal rows of a window answer the same of it.
fn answers_of_its_own(record: &[u32]) {
    for (root, own) in windows(&rows(record)) {
        let mut alone = vec![0; 3 + 4 * own.len()];
        let next = |number: fn(&Row) -> u32| own.iter().map(number).max().unwrap() + 1;
        write(&mut alone, next(|row| row.document), next(|row| row.frame), &own);
        assert!(is_sound(&alone), "a window's rows by themselves");
        assert_eq!(position(record, root), position(&alone, root), "position, steps and length");
        assert_eq!(listed(record, root), listed(&alone, root), "lists");
        assert_eq!(outlined(record, root), outlined(&alone, root), "outline");
        for delta in -(ROOM as i32)..=ROOM as i32 {
            assert_eq!(traversed(record, root, delta), traversed(&alone, root, delta), "traversal");
        }
    }
}

/// What Lists answers of a window, and the two runs then.
fn listed(record: &[u32], root: u32) -> (Answer<(u32, u32)>, [u32; ROOM], [u32; ROOM]) {
    let (mut taken, mut upcoming) = ([77; ROOM], [78; ROOM]);
    (lists(record, root, &mut taken, &mut upcoming), taken, upcoming)
}

/// What Outline answers of a window, and the pairs then.
fn outlined(record: &[u32], root: u32) -> (Answer<u32>, [u32; 2 * ROOM]) {
    let mut pairs = [77; 2 * ROOM];
    (outline(record, root, &mut pairs), pairs)
}

/// What Traverse answers of a window, the change rows then, and the window's own rows.
fn traversed(record: &[u32], root: u32, delta: i32) -> (Answer<u32>, [u32; 4 * ROOM], Vec<Row>) {
    let (mut words, mut changes) = (record.to_vec(), [77; 4 * ROOM]);
    (traverse(&mut words, root, delta, &mut changes), changes, own_rows(&words, root))
}

/// "opening, navigation, removal and replacing may depend besides on the total of rows that remain, the capacity and the two next numbers": with
/// these next numbers and as many rows left, a record that has a window's rows alone answers the same and has the same rows then.
fn moves_of_its_own(record: &[u32]) {
    for (root, own) in windows(&rows(record)) {
        let mut alone = vec![0; 3 + 4 * (ROOM - record[0] as usize + own.len())];
        write(&mut alone, record[1], record[2], &own);
        let of_row = |row: &Row| [Move::Open(row.document), Move::Navigate(row.document), Move::Replace(row.document), Move::Drop(row.frame)];
        for made in own.iter().flat_map(of_row) {
            let ((answer, words), (by_itself, then)) = (outcome(record, made), outcome(&alone, made));
            assert_eq!((answer, own_rows(&words, root), &words[1..3]), (by_itself, own_rows(&then, root), &then[1..3]), "a window by itself");
        }
    }
}

/// Positions and steps of all windows add up to the taken steps and the steps of all rows.
fn sums(record: &[u32]) {
    let all = rows(record);
    let first = |place: usize| all[..place].iter().all(|row| row.frame != all[place].frame);
    let no_later = |place: usize| all[place..].iter().any(|row| row.frame == all[place].frame && row.shown == 1);
    let steps: Vec<usize> = (0..all.len()).filter(|&place| !first(place)).collect();
    let taken = steps.iter().filter(|&&place| no_later(place)).count() as u32;
    let standing: Vec<(u32, u32, u32)> = roots(record).into_iter().map(|root| position(record, root).unwrap()).collect();
    let sum = |number: fn(&(u32, u32, u32)) -> u32| standing.iter().map(number).sum::<u32>();
    assert_eq!((sum(|at| at.0), sum(|at| at.1)), (taken, steps.len() as u32), "positions and steps over the whole table");
    let told = (contents(&bytes_of(record)), contents_old(&old_bytes_of(record)));
    assert_eq!(told, (Ok((taken, steps.len() as u32)), Ok((taken, steps.len() as u32))), "and so the contents of both forms tell");
}

/// "Demand 2's round trip is about the new form." The old form holds the records of one window whose numbers rise and no others, and no bytes are
/// of both.
fn round_trip(record: &[u32]) {
    let (bytes, old) = (bytes_of(record), old_bytes_of(record));
    let frames = u32::from_be_bytes(bytes[..4].try_into().unwrap()) as usize;
    assert_eq!(bytes.len(), 12 + 16 * frames + 8 * record[0] as usize, "length 12 + 16F + 8n");
    assert_eq!(old.len(), 12 + 16 * frames + 4 * record[0] as usize, "length 12 + 16F + 4n");
    let again = record_of(&bytes).expect("what Save writes, Load takes");
    assert_eq!(&again[..record.len()], record);
    let holds = old_record_of(&old).is_some_and(|again| again[..record.len()] == *record);
    assert_eq!(holds, rises(record) && one_root_frame(record), "the old form tells the order of rows by their numbers, and of one root frame");
    assert!(one_root_frame(record) || old_record_of(&old).is_none(), "no record of several windows is loaded from the old form");
    assert_eq!((record_of(&old), old_record_of(&bytes)), (None, None), "each form has its own loading call");
}

/// S7 is definition 5 word for word of each window, for every choice of one shown document in each frame.
fn well_formed_is_s7(record: &[u32]) {
    let rows = rows(record);
    let mut frames: BTreeMap<u32, Vec<usize>> = BTreeMap::new();
    for (place, row) in rows.iter().enumerate() {
        frames.entry(row.frame).or_default().push(place);
    }
    let choices: usize = frames.values().map(|places| places.len()).product();
    for choice in 0..choices {
        let mut left = choice;
        let mut chosen: Vec<Row> = rows.iter().map(|row| Row { shown: 0, ..*row }).collect();
        for places in frames.values() {
            chosen[places[left % places.len()]].shown = 1;
            left /= places.len();
        }
        let mut words = record.to_vec();
        write(&mut words, record[1], record[2], &chosen);
        let windows = windows(&chosen);
        let literal = windows.values().all(|own| literally_well_formed(own));
        assert_eq!(broken(&words), if literal { vec![] } else { vec![7] });
        assert_eq!(windows.values().all(|own| History::of(own).well_formed()), literal);
    }
}

/// Definition 5: "for any a ≲ b and c ≲ d, if a ∈ A and d ∈ A then d ≤ b".
fn literally_well_formed(rows: &[Row]) -> bool {
    let pairs: Vec<(usize, usize)> =
        (0..rows.len()).flat_map(|b| (0..b).map(move |a| (a, b))).filter(|&(a, b)| rows[a].frame == rows[b].frame).collect();
    pairs.iter().all(|&(a, b)| pairs.iter().all(|&(_c, d)| !(rows[a].shown == 1 && rows[d].shown == 1) || d <= b))
}

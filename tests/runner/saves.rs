//! Saved bytes for the loading calls and those that read the contents, of both forms: as Save writes them or wrote them, damaged, or made up; and why bytes are not taken.
use crate::random::Random;
use crate::request::{Call, Request};
use reference::record::{write, Row, MOST_ROWS, NONE};
use reference::saved::{bytes_of, old_bytes_of, old_record_of, record_of};
use reference::sound::{is_sound, one_root_frame, rises};
use std::collections::HashSet;

/// A saved form: with row places, or as it was before.
#[derive(Clone, Copy, PartialEq, Eq, Debug)]
pub enum Form {
    New,
    Old,
}

impl Form {
    /// The form that a call takes.
    pub fn of(call: Call) -> Form {
        if matches!(call, Call::LoadOld | Call::ContentsOld) { Form::Old } else { Form::New }
    }

    pub fn other(self) -> Form {
        if self == Form::New { Form::Old } else { Form::New }
    }

    /// How many numbers an entry of a body has.
    fn width(self) -> usize {
        if self == Form::New { 2 } else { 1 }
    }

    /// Whether the form has bytes for the sound record: the old one for those of one window whose numbers rise.
    pub fn holds(self, words: &[u32]) -> bool {
        self == Form::New || rises(words) && one_root_frame(words)
    }

    /// What stands in a sound record, in the layout of the form; where the form does not hold it, that is no saved form, or another record's.
    pub fn saved(self, words: &[u32]) -> Vec<u8> {
        if self == Form::New { bytes_of(words) } else { old_bytes_of(words) }
    }

    /// The record that bytes stand for.
    pub fn record(self, bytes: &[u8]) -> Option<Vec<u32>> {
        if self == Form::New { record_of(bytes) } else { old_record_of(bytes) }
    }
}

/// One frame with so many documents, which only the limit of 512 rows can refuse.
pub fn long_frame(random: &mut Random, form: Form, documents: usize) -> Vec<u8> {
    let first = random.pick(&[0, 5, NONE - 2000]);
    let next = first + documents as u32;
    let shown = random.below(documents) as u32;
    let mut numbers = vec![1, next, 8, random.below(8) as u32, NONE, documents as u32, shown];
    let turn = if form == Form::New { random.below(documents) as u32 } else { 0 };
    for place in 0..documents as u32 {
        let document = first + (place + turn) % documents as u32;
        numbers.extend(&[document, place][..form.width()]);
    }
    to_bytes(&numbers)
}

/// A few frames or some hundreds, each with some documents, about 512 in all or few; then bodies of the form's length that hold anything.
pub fn contents(random: &mut Random, form: Form) -> Vec<u8> {
    let frames = random.pick(&[1, 2, 3, 5, 40, 511, 512, 513]);
    let most = random.pick(&[1, 2, 512 / frames + 1, 1024 / frames + 1]);
    let sizes: Vec<u32> = (0..frames).map(|_| 1 + random.below(most) as u32).collect();
    let lines: Vec<[u32; 2]> = sizes.into_iter().map(|m| [m, random.below(m as usize) as u32]).collect();
    let rows: u32 = lines.iter().map(|[m, _]| m).sum();
    let mut numbers = vec![frames as u32, random.word(), random.word()];
    lines.iter().for_each(|[m, shown]| numbers.extend([random.word(), random.pick(&[NONE, 0, 1]), *m, *shown]));
    let bodies = 4 * form.width() * rows as usize;
    [to_bytes(&numbers), random.bytes(bodies)].concat()
}

pub fn to_bytes(numbers: &[u32]) -> Vec<u8> {
    numbers.iter().flat_map(|number| number.to_be_bytes()).collect()
}

fn to_numbers(bytes: &[u8]) -> Vec<u32> {
    bytes.chunks_exact(4).map(|four| u32::from_be_bytes(four.try_into().unwrap())).collect()
}

/// Where the entries of a frame's body begin.
fn body(numbers: &[u32], form: Form, frame: usize) -> Vec<usize> {
    let size = |frame: usize| numbers[3 + 4 * frame + 2] as usize;
    let before = (0..frame).map(size).sum::<usize>();
    (before..before + size(frame)).map(|entry| 3 + 4 * numbers[0] as usize + form.width() * entry).collect()
}

/// Changes bytes that Save wrote, in one way; now and then they stay such bytes.
pub fn damage(random: &mut Random, form: Form, bytes: &mut Vec<u8>) {
    match random.below(8) {
        0 => bytes.truncate(random.below(bytes.len())),
        1 => {
            let more = 1 + random.below(9);
            bytes.extend(random.bytes(more));
        }
        2 => {
            let at = random.below(bytes.len());
            bytes[at] = random.pick(&[bytes[at] ^ 1, bytes[at] ^ 0x80, 0, 255, bytes[at].wrapping_add(1)]);
        }
        kind => {
            let mut numbers = to_numbers(bytes);
            if kind > 5 && form == Form::New { damage_places(random, &mut numbers) } else { damage_numbers(random, form, &mut numbers) }
            *bytes = to_bytes(&numbers);
        }
    }
}

fn damage_numbers(random: &mut Random, form: Form, numbers: &mut [u32]) {
    let frames = numbers[0] as usize;
    let (frame, other) = (random.below(frames), random.below(frames));
    let (entry, other_entry) = (3 + 4 * frame, 3 + 4 * other);
    let (here, there) = (body(numbers, form, frame), body(numbers, form, other));
    let count = here.len() as u32;
    let place = random.below(here.len()) as u32;
    match random.below(12) {
        0 => numbers[0] = random.pick(&[0, frames as u32 - 1, frames as u32 + 1, 0x1000_0000, 0x1000_0001, 0x4000_0000, NONE]),
        1 => numbers[1] = random.pick(&[0, numbers[here[here.len() - 1]], NONE, NONE - 1]),
        2 => numbers[2] = random.pick(&[0, numbers[3 + 4 * (frames - 1)], NONE, NONE - 1]),
        3 => (0..4).for_each(|i| numbers.swap(entry + i, other_entry + i)),
        4 => swap_frames(numbers, form, frame),
        5 => {
            let (one, two) = (random.pick(&here), random.pick(&here));
            (0..form.width()).for_each(|i| numbers.swap(one + i, two + i));
        }
        6 => numbers[random.pick(&here)] = numbers[random.pick(&there)],
        7 => numbers[entry + 3] = random.pick(&[count, count + 1, NONE, place, 0]),
        8 => numbers[entry + 2] = random.pick(&[0, count.wrapping_sub(1), count + 1, 0x4000_0000, 0x4000_0000 + count, 0x8000_0000, NONE]),
        9 => numbers[entry + 1] = random.pick(&[NONE, numbers[there[0]], numbers[other_entry + 1], numbers[1]]),
        10 => numbers[entry] = random.pick(&[numbers[other_entry], numbers[entry].wrapping_add(1), numbers[2], NONE]),
        _ => {
            let at = random.below(numbers.len());
            numbers[at] = random.telling_word();
        }
    }
}

/// Changes row places of the new form, or the documents that stand at them.
fn damage_places(random: &mut Random, numbers: &mut [u32]) {
    let start = 3 + 4 * numbers[0] as usize;
    let rows = (numbers.len() - start) / 2;
    let document = |entry: usize| start + 2 * entry;
    let place = |entry: usize| start + 2 * entry + 1;
    let (one, two) = (random.below(rows), random.below(rows));
    match random.below(7) {
        0 | 1 => numbers[place(one)] = numbers[place(two)],
        2 => numbers[place(one)] = random.pick(&[rows as u32, rows as u32 + 1, 512, NONE, 0x8000_0000, numbers[document(one)]]),
        3 => numbers.swap(place(one), place(two)),
        4 => numbers.swap(document(one), document(two)),
        5 => (0..rows).for_each(|entry| numbers[place(entry)] += 1),
        _ => (0..rows).for_each(|entry| numbers[place(entry)] = (numbers[place(entry)] + 1) % rows as u32),
    }
}

/// Exchanges a frame with the next one, contents and body, so that only their order is wrong.
fn swap_frames(numbers: &mut [u32], form: Form, frame: usize) {
    if frame + 1 == numbers[0] as usize {
        return;
    }
    let (here, next) = (body(numbers, form, frame), body(numbers, form, frame + 1));
    let end = next[next.len() - 1] + form.width();
    numbers[here[0]..end].rotate_left(next[0] - here[0]);
    let entry = 3 + 4 * frame;
    numbers[entry..entry + 8].rotate_left(4);
}

/// Bytes that no Save wrote.
pub fn noise(random: &mut Random) -> Vec<u8> {
    let length = random.below(120);
    match random.below(3) {
        0 => random.bytes(length),
        1 => to_bytes(&(0..length / 4).map(|_| random.below(4) as u32).collect::<Vec<_>>()),
        _ => to_bytes(&(0..length / 4).map(|_| random.telling_word()).collect::<Vec<_>>()),
    }
}

/// Why bytes must have been refused, each alone: what both forms can lack, and what one of them can.
const LACKS: [&str; 6] = ["the other form", "another length", "frames that do not rise", "none shown", "more than 512 rows", "an unsound record"];
const NEW_LACKS: [&str; 3] = ["a place twice", "a place beyond", "places that fall"];
const OLD_LACKS: [&str; 3] = ["a document twice", "documents that fall", "several root frames"];

/// Why the contents must have been refused, each alone; and that they were told of bytes that loading refuses, and of several windows.
const NOT_TOLD: [&str; 6] = ["the other form", "another length", "no frame", "contents that don't fit", "none shown", "more than 512 rows"];
const TOLD: [&str; 3] = ["bytes that loading takes", "bytes that loading refuses", "several root frames"];

/// The ways that must occur of a loading call: each of those, and a record whose numbers do not rise.
pub fn ways_of(call: Call) -> Vec<&'static str> {
    match call {
        Call::Load => [LACKS.as_slice(), &NEW_LACKS, &[UNORDERED]].concat(),
        Call::LoadOld => [LACKS.as_slice(), &OLD_LACKS].concat(),
        Call::Contents | Call::ContentsOld => [NOT_TOLD.as_slice(), &TOLD].concat(),
        _ => vec![],
    }
}

/// A record whose numbers do not rise, which S2 allows since document 02's L7.
pub const UNORDERED: &str = "numbers that do not rise";

/// The way in which a call came to this answer.
pub fn way(request: &Request, refusal: u32) -> Option<&'static str> {
    let form = Form::of(request.call);
    match refusal {
        0 if request.call.tells() => Some(why_told(form, &request.bytes)),
        3 if request.call.tells() => why_not_told(form, &request.bytes),
        0 => form.record(&request.bytes).filter(|record| !rises(record)).map(|_| UNORDERED),
        3 => why_not(form, &request.bytes),
        _ => None,
    }
}

/// The one reason why bytes are not of a form; none where there are several.
fn why_not(form: Form, bytes: &[u8]) -> Option<&'static str> {
    if form.other().record(bytes).is_some() {
        return Some("the other form");
    }
    let Some(told) = told(form, bytes) else { return Some("another length") };
    let rows = told.entries.len();
    let within = |holds: &dyn Fn(&[u32], &[u32]) -> bool| told.bodies.iter().any(|body| body.windows(2).any(|pair| holds(&pair[0], &pair[1])));
    let of_entries = |column: usize| -> Vec<u32> { told.entries.iter().map(|(_, entry)| entry[column]).collect() };
    let twice = |numbers: &[u32]| numbers.iter().collect::<HashSet<_>>().len() < numbers.len();
    let mut reasons = vec![
        ("frames that do not rise", told.frames.windows(2).any(|pair| pair[0] >= pair[1])),
        ("none shown", told.none_shown),
        ("more than 512 rows", rows > MOST_ROWS),
    ];
    match form {
        Form::New => reasons.extend([
            ("a place twice", twice(&of_entries(1))),
            ("a place beyond", of_entries(1).iter().any(|&place| place as usize >= rows)),
            ("places that fall", within(&|one, two| one[1] > two[1])),
        ]),
        Form::Old => reasons.extend([("a document twice", twice(&of_entries(0))), ("documents that fall", within(&|one, two| one[0] > two[0]))]),
    }
    let mut held = reasons.iter().filter(|(_, holds)| *holds).map(|(reason, _)| *reason);
    match (held.next(), held.next()) {
        (None, _) => why_no_record(form, &told.record(form)),
        (Some(reason), None) => Some(reason),
        _ => None,
    }
}

/// Whether loading takes bytes of which the contents are told, and whether those tell of several root frames.
fn why_told(form: Form, bytes: &[u8]) -> &'static str {
    let numbers = to_numbers(bytes);
    let roots = (0..numbers[0] as usize).filter(|frame| numbers[4 + 4 * frame] == NONE).count();
    match form.record(bytes) {
        _ if roots > 1 => TOLD[2],
        Some(_) => TOLD[0],
        None => TOLD[1],
    }
}

/// The one reason why the contents are refused; none where there are several.
fn why_not_told(form: Form, bytes: &[u8]) -> Option<&'static str> {
    if form.other().record(bytes).is_some() {
        return Some("the other form");
    }
    let numbers = to_numbers(bytes);
    let frames = numbers.first().copied().unwrap_or(0) as u64;
    let contents = 12 + 16 * frames;
    if contents > bytes.len() as u64 {
        return (frames > 0).then_some("contents that don't fit");
    }
    let lines = || numbers[3..3 + 4 * frames as usize].chunks(4);
    let rows: u64 = lines().map(|line| line[2] as u64).sum();
    let reasons = [
        ("no frame", frames == 0),
        ("none shown", lines().any(|line| line[3] >= line[2])),
        ("more than 512 rows", rows > MOST_ROWS as u64),
        ("another length", bytes.len() as u64 != contents + 4 * form.width() as u64 * rows),
    ];
    let mut held = reasons.iter().filter(|(_, holds)| *holds).map(|(reason, _)| *reason);
    held.next().filter(|_| held.next().is_none())
}

/// The one reason why the record that bytes tell is not taken: it is unsound, or in the old form it has several root frames.
fn why_no_record(form: Form, record: &[u32]) -> Option<&'static str> {
    match (is_sound(record), form == Form::New || one_root_frame(record)) {
        (false, true) => Some("an unsound record"),
        (true, false) => Some("several root frames"),
        _ => None,
    }
}

/// What bytes of the form's length tell: the frames' numbers, whether one shows none of its documents, the bodies' entries by frame, and each with its row.
struct Told {
    next: [u32; 2],
    frames: Vec<u32>,
    none_shown: bool,
    bodies: Vec<Vec<Vec<u32>>>,
    entries: Vec<(Row, Vec<u32>)>,
}

impl Told {
    /// The record of at most 512 rows in the order of the places, or of the documents.
    fn record(&self, form: Form) -> Vec<u32> {
        let mut entries = self.entries.clone();
        entries.sort_by_key(|(_, entry)| entry[form.width() - 1]);
        let rows: Vec<Row> = entries.iter().map(|(row, _)| *row).collect();
        let mut record = vec![0; 3 + 4 * MOST_ROWS];
        write(&mut record, self.next[0], self.next[1], &rows);
        record
    }
}

fn told(form: Form, bytes: &[u8]) -> Option<Told> {
    let numbers = to_numbers(bytes);
    let frame_count = *numbers.first()? as usize;
    let contents = numbers.get(3..3 + 4 * frame_count)?;
    let rows: usize = contents.chunks(4).map(|entry| entry[2] as usize).sum();
    if bytes.len() != 12 + 16 * frame_count + 4 * form.width() * rows {
        return None;
    }
    let mut told = Told { next: [numbers[1], numbers[2]], frames: vec![], none_shown: false, bodies: vec![], entries: vec![] };
    for (which, contents) in contents.chunks(4).enumerate() {
        let &[frame, parent, count, shown] = contents else { unreachable!() };
        let body: Vec<Vec<u32>> = body(&numbers, form, which).iter().map(|&at| numbers[at..at + form.width()].to_vec()).collect();
        let row = |(which, entry): (usize, &Vec<u32>)| (Row { document: entry[0], frame, parent, shown: (which == shown as usize) as u32 }, entry.clone());
        told.entries.extend(body.iter().enumerate().map(row));
        told.frames.push(frame);
        told.none_shown |= shown >= count;
        told.bodies.push(body);
    }
    Some(told)
}

//! Every change of one byte of saved forms: the loading calls refuse it, or it is the saved form of another record. Both calls are given it.
use crate::compare::{print_difference, replies};
use crate::request::{Call, Reply, Request};
use crate::saves::Form;
use reference::calls::{fresh, navigate, open, replace, tab, traverse};
use reference::examples::record_x;
use reference::saved::old_bytes_of;

/// What came of the changes of a record's saved form.
#[derive(Default)]
struct Tally {
    refused: u64,
    taken: u64,
    wrong: u64,
}

impl Tally {
    /// Counts a call that went wrong, and prints the first ones.
    fn note_wrong(&mut self, request: &Request, wanted: &Reply, given: &Reply) {
        self.wrong += 1;
        if self.wrong <= PRINTED {
            print_difference(request, wanted, given);
        }
    }
}

const PRINTED: u64 = 2;

/// A fresh record, X of document 01, one with three frames and an upcoming step, the last two with a document replaced, and one of two windows, each
/// with a step, that is in order by windows alone.
fn records() -> Vec<(&'static str, Vec<u32>)> {
    let mut first = vec![0; 3 + 4 * 8];
    fresh(&mut first).unwrap();
    let mut three = first.clone();
    open(&mut three, 0).and(open(&mut three, 0)).and(navigate(&mut three, 1)).and(navigate(&mut three, 2)).unwrap();
    traverse(&mut three, 0, -1, &mut [0; 32]).unwrap();
    let mut two = first.clone();
    tab(&mut two).and(navigate(&mut two, 0)).and(navigate(&mut two, 1)).and(traverse(&mut two, 0, -1, &mut [0; 32])).unwrap();
    let with = |document: u32, words: &[u32]| {
        let mut words = words.to_vec();
        replace(&mut words, document).unwrap();
        words
    };
    let (x, replaced) = (record_x(), with(2, &three));
    let x_replaced = with(3, &x);
    vec![
        ("fresh", first),
        ("X", x),
        ("three frames", three),
        ("three frames, one replaced", replaced),
        ("X, one replaced", x_replaced),
        ("two windows", two),
    ]
}

/// The bytes with each byte changed to each other value.
fn changed(bytes: &[u8]) -> impl Iterator<Item = Vec<u8>> + '_ {
    let change = |at: usize, by: u8| {
        let mut other = bytes.to_vec();
        other[at] = other[at].wrapping_add(by);
        other
    };
    (0..bytes.len()).flat_map(move |at| (1..=255).map(move |by| change(at, by)))
}

/// A call with these runs, between guard words.
fn request(call: Call, words: Vec<u32>, bytes: Vec<u8>) -> Request {
    let (first, second, places) = (vec![], vec![], vec![]);
    Request { call, number: 0, root: 0, lie: 0, guard: 0x5a5a_1234, outs: [7; 3], given: [0; 2], doubles: [0; 2], words, first, second, places, bytes }
}

/// Gives bytes to a loading call, each in turn, and saves what it takes once more: both as the reference does, and the same bytes come back.
fn load_all(call: Call, all: &[Vec<u8>], driver: &[String]) -> Option<Tally> {
    let mut tally = Tally::default();
    let requests: Vec<Request> = all.iter().map(|bytes| request(call, vec![9; 3 + 4 * 8], bytes.clone())).collect();
    let mut saves = Vec::new();
    for (load, given) in requests.iter().zip(replies(&requests.iter().collect::<Vec<_>>(), driver)?) {
        let wanted = load.expected();
        let comes_back = given.refusal != 0 || Form::of(call) == Form::New || old_bytes_of(&given.words) == load.bytes;
        if given != wanted || !comes_back {
            tally.note_wrong(load, &wanted, &given);
        } else if given.refusal != 0 {
            tally.refused += 1;
        } else {
            tally.taken += 1;
            saves.extend((call == Call::Load).then(|| (request(Call::Save, given.words, vec![0xee; load.bytes.len()]), &load.bytes)));
        }
    }
    for ((save, bytes), given) in saves.iter().zip(replies(&saves.iter().map(|(save, _)| save).collect::<Vec<_>>(), driver)?) {
        if given.refusal != 0 || given.bytes != **bytes {
            tally.note_wrong(save, &save.expected(), &given);
        }
    }
    Some(tally)
}

/// The changes of a record's saved form, given to both loading calls; true when nothing went wrong, and the form's own call took some and refused some.
fn changes_of(name: &str, words: &[u32], form: Form, driver: &[String]) -> Option<bool> {
    let bytes = form.saved(words);
    let all: Vec<Vec<u8>> = changed(&bytes).collect();
    let (own, other) = if form == Form::New { (Call::Load, Call::LoadOld) } else { (Call::LoadOld, Call::Load) };
    let whole = load_all(own, &[bytes], driver)?;
    let (own, other) = (load_all(own, &all, driver)?, load_all(other, &all, driver)?);
    let wrong = whole.wrong + own.wrong + other.wrong;
    print!("  {form:?} form of {name}: {} changes, {} refused, {} of other records", all.len(), own.refused, own.taken);
    println!("; by the other call {} refused; {wrong} differences", other.refused);
    Some(whole.taken == 1 && wrong == 0 && own.taken > 0 && own.refused > 0)
}

/// All changes of all records in both forms, as far as the old one has them; true when each is refused or comes back.
pub fn run(driver: &[String]) -> bool {
    let mut passed = true;
    for (name, words) in records() {
        for form in [Form::New, Form::Old].into_iter().filter(|form| form.holds(&words)) {
            let answered = changes_of(name, &words, form, driver);
            if answered.is_none() {
                println!("runner: the driver ended early on the {form:?} form of {name}");
            }
            passed &= answered.unwrap_or(false);
        }
    }
    println!("runner: each byte of saved forms changed: {}", if passed { "refused, or of another record" } else { "FAILED" });
    passed
}

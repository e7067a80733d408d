//! Both libraries must answer alike and leave the same in all that is lent.
use crate::calls::{Call, Lent, make};
use crate::cases::{Case, after, last, saved, saved_before};
use crate::face::{OURS, TWIN};

/// Makes a call with both libraries; the answer, and what is left.
fn both(name: &str, call: Call, start: &Lent) -> (u32, Lent) {
    let (mut ours, mut twin) = (start.clone(), start.clone());
    let answers = (make(&OURS, call, &mut ours), make(&TWIN, call, &mut twin));
    assert_eq!(answers.0, answers.1, "{name}: the answers differ");
    assert!(ours == twin, "{name}: what is left differs");
    (answers.0, ours)
}

/// The same kind of call with every small argument, and of every window with a small root frame.
fn others(call: Call, most: u32) -> Vec<Call> {
    let amounts = || -(most as i32)..=most as i32;
    match call {
        Call::Open(_) => (0..=most).map(Call::Open).collect(),
        Call::Navigate(_) => (0..=most).map(Call::Navigate).collect(),
        Call::Visible(_) => (0..=most).map(Call::Visible).collect(),
        Call::Drop(_) => (0..=most).map(Call::Drop).collect(),
        Call::Replace(_) => (0..=most).map(Call::Replace).collect(),
        Call::PlaceItself(_) => (0..=most).map(Call::PlaceItself).collect(),
        Call::PlaceAt(_) => (0..=most).map(Call::PlaceAt).collect(),
        Call::Place(_) => (0..=most).map(Call::Place).collect(),
        Call::PlaceAtZoom(_) => (0..=most).map(Call::PlaceAtZoom).collect(),
        Call::Position(_) => (0..=most).map(Call::Position).collect(),
        Call::Lists(_) => (0..=most).map(Call::Lists).collect(),
        Call::Outline(_) => (0..=most).map(Call::Outline).collect(),
        Call::Traverse(..) => (0..=most).flat_map(|root| amounts().map(move |delta| Call::Traverse(root, delta))).collect(),
        Call::Stretch(_) => amounts().map(Call::Stretch).collect(),
        call => vec![call],
    }
}

/// Words of a store that tell: a free entry, what is above 32 bits, what is no kind, and doubles at the ends of their range.
const TELLING: [u64; 8] = [
    u32::MAX as u64,
    1 << 32,
    2,
    u64::MAX,
    f64::INFINITY.to_bits(),
    f64::MAX.to_bits(),
    1,
    1 << 63,
];

/// What is lent, with one word or byte changed, with the flags of a hidden and a shown row exchanged, or with one run cut short.
fn damaged(lent: &Lent) -> Vec<Lent> {
    let mut all = Vec::new();
    let mut with = |change: &dyn Fn(&mut Lent)| {
        let mut other = lent.clone();
        change(&mut other);
        all.push(other);
    };
    for k in 0..lent.words.len() {
        with(&|other| other.words.truncate(k));
        for value in [0, 1, 2, lent.words[k].wrapping_add(1), u32::MAX] {
            with(&|other| other.words[k] = value);
        }
    }
    let flags = || (6..lent.words.len()).step_by(4);
    for (hidden, shown) in flags().flat_map(|a| flags().map(move |b| (a, b))).filter(|&(a, b)| lent.words[a] < lent.words[b]) {
        with(&|other| other.words.swap(hidden, shown));
    }
    for k in 0..lent.first.len() {
        with(&|other| other.first.truncate(k));
        with(&|other| other.second.truncate(k));
    }
    for k in 0..lent.bytes.len() {
        with(&|other| other.bytes.truncate(k));
        with(&|other| other.bytes[k] = other.bytes[k].wrapping_add(1));
    }
    for k in 0..lent.places.len() {
        with(&|other| other.places.truncate(k));
        for value in TELLING.into_iter().chain([lent.places[k] + 1]) {
            with(&|other| other.places[k] = value);
        }
    }
    for k in 0..lent.given.len() {
        TELLING.iter().for_each(|&value| with(&|other| other.given[k] = value));
    }
    all
}

/// Fails where the libraries differ on a case, or where what is timed does not return to its start.
pub fn check(case: &Case) {
    let (answer, end) = both(case.name, case.call, &case.lent);
    assert_eq!(answer, 0, "{}: refused", case.name);
    if let Call::Traverse(root, delta) = case.call {
        let (_, back) = both(case.name, Call::Traverse(root, -delta), &end);
        assert!(back.words == case.lent.words, "{}: no way back", case.name);
    }
}

/// Fails where the libraries differ near a case: on other arguments, and on damaged and short runs.
pub fn check_near(case: &Case) {
    for call in others(case.call, case.lent.words[1] + 1) {
        both(case.name, call, &case.lent);
    }
    for lent in damaged(&case.lent) {
        both(case.name, case.call, &lent);
    }
}

/// Fails where the libraries differ on a record whose root is navigated: every document of that window but the new one is then hidden, by itself or from above.
pub fn check_hidden(words: &[u32]) {
    let lent = Lent::new(after(Call::Navigate(0), words).words);
    let (_, told) = both("hidden", Call::Visible(last(words)), &lent);
    assert_eq!(told.outs[..2], [0, 0], "the last document is not hidden by the root's");
    for call in [Call::Open(0), Call::Navigate(0), Call::Drop(0), Call::Replace(0), Call::Visible(0)] {
        for call in others(call, lent.words[0] + 1) {
            both("hidden", call, &lent);
        }
    }
}

/// Fails where the libraries differ on a record: on every call with every small argument, and on what is loaded of its saved form.
pub fn check_every(name: &str, words: &[u32]) {
    let lent = Lent::with_store(words.to_vec());
    let numbered = [Call::Open(0), Call::Navigate(0), Call::Drop(0), Call::Replace(0), Call::Visible(0), Call::PlaceItself(0), Call::Place(0)];
    let of_window = [Call::Traverse(0, 0), Call::Position(0), Call::Lists(0), Call::Outline(0)];
    for call in numbered.into_iter().chain(of_window).flat_map(|call| others(call, words[1] + 1)).chain([Call::Tab, Call::Save]) {
        both(name, call, &lent);
    }
    let (answer, again) = both(name, Call::Load, &saved(words));
    assert!(answer == 0 && again.words == words, "{name}: what is saved is not loaded again");
    both(name, Call::LoadOld, &saved(words));
    for (call, answer) in [(Call::Contents, 0), (Call::ContentsOld, 3)] {
        assert_eq!(both(name, call, &saved(words)).0, answer, "{name}: the contents of the new form");
        assert_eq!(both(name, call, &saved_before(words)).0, 3 - answer, "{name}: the contents of the old form");
    }
}

/// Fails where the libraries differ on a table of several windows: on every call, on damaged words, and on bytes of the old form, which has one window.
pub fn check_windows(name: &'static str, words: &[u32]) {
    check_every(name, words);
    for call in [Call::Position(0), Call::Navigate(words[3])] {
        check_near(&Case { name, call, lent: Lent::new(words.to_vec()) });
    }
    let (answer, _) = both(name, Call::LoadOld, &saved_before(words));
    assert_eq!(answer, 3, "{name}: the old form is loaded with several windows");
}

/// Fails where the libraries differ on a store without entries of the last documents, and with two others that are free or of documents that are gone.
pub fn check_stores(words: &[u32]) {
    let whole = Lent::with_store(words.to_vec());
    for (first, second) in TELLING[..4].iter().flat_map(|first| TELLING[..4].iter().map(move |second| (*first, *second))) {
        let mut lent = whole.clone();
        let end = lent.places.len();
        lent.places[end - 8] = first;
        lent.places[end - 4] = second;
        for call in [Call::PlaceItself(0), Call::PlaceAt(0), Call::Place(0), Call::PlaceAtZoom(0)] {
            for call in others(call, words[0] + 1) {
                both("stores", call, &lent);
            }
        }
    }
}

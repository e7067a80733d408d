//! Stores of scroll places: of documents that are in the record and of others, sound and damaged; and the ways in which a call comes to its answer.
use crate::doubles;
use crate::random::Random;
use crate::request::{Call, Request};
use reference::doubles::Double;
use reference::places::{entries, has_twice, Entry, FREE};
use reference::record::capacity;
use std::collections::HashSet;

/// The documents of a record's rows, sound or not.
fn documents(words: &[u32]) -> Vec<u64> {
    let count = words.first().map_or(0, |&count| (count as usize).min(capacity(words.len())));
    (0..count).map(|place| words[3 + 4 * place] as u64).collect()
}

/// A number that most likely no document has: above 32 bits, or from a record's other numbers.
fn gone(random: &mut Random, words: &[u32], document: u32) -> u64 {
    let next = words.get(1).copied().unwrap_or(7);
    match random.below(6) {
        0 => document as u64 + (1 << 32),
        1 => random.pick(&[u64::MAX, 1 << 63, 1 << 32, FREE + 1, FREE - 1, FREE + (1 << 32)]),
        2 => random.next(),
        3 => next as u64 + random.below(3) as u64,
        _ => random.below(next.max(1) as usize) as u64,
    }
}

/// The documents of the entries, each once: the asked one at some place or at none, others of the record, gone ones, free entries.
fn owners(random: &mut Random, words: &[u32], document: u32) -> Vec<u64> {
    let there = documents(words);
    let mut others: Vec<u64> = there.iter().copied().filter(|&other| other != document as u64).collect();
    (1..others.len()).rev().for_each(|i| others.swap(i, random.below(i + 1)));
    let count = match random.below(8) {
        0 => random.below(2),
        1..=3 => others.len(),
        4 => others.len() + 1,
        _ => random.below(10),
    };
    let live = random.pick(&[100, 100, 70, 40, 0]);
    let mut used: HashSet<u64> = there.iter().copied().collect();
    let mut owners = Vec::new();
    for _ in 0..count {
        let other = gone(random, words, document);
        owners.push(match others.pop() {
            Some(number) if random.chance(live) => number,
            _ if random.chance(50) && used.insert(other) => other,
            _ => FREE,
        });
    }
    if count > 0 && random.chance(65) {
        owners[random.below(count)] = document as u64;
    }
    owners
}

/// An entry that the test of a store lets pass; what is not used holds anything.
fn entry(random: &mut Random, owner: u64) -> [u64; 4] {
    let kind = if owner == FREE { random.pick(&[0, 1, 2, u64::MAX]) } else { random.pick(&[0, 1, 1]) };
    let coordinate = if owner != FREE && kind == 1 { doubles::finite } else { doubles::any };
    [owner, kind, coordinate(random), coordinate(random)]
}

/// Changes an entry, free or not, so that the store most likely does not pass.
fn damage(random: &mut Random, store: &mut [u64]) {
    let count = store.len() / 4;
    if count == 0 {
        return;
    }
    let (at, other) = (4 * random.below(count), 4 * random.below(count));
    match random.below(5) {
        0 | 1 => store[at] = store[other],
        2 => store[at + 1] = random.pick(&[2, 3, 1 << 32, (1 << 32) + 1, 1 << 63, u64::MAX]),
        3 => {
            store[at + 1] = 1;
            store[at + 2 + random.below(2)] = doubles::not_finite(random);
        }
        _ => store[at + random.below(4)] = random.next(),
    }
}

/// A store for a call on this record and document, often with words past its last whole entry.
pub fn store(random: &mut Random, words: &[u32], document: u32) -> Vec<u64> {
    let owners = owners(random, words, document);
    let mut store: Vec<u64> = owners.into_iter().flat_map(|owner| entry(random, owner)).collect();
    if random.chance(25) {
        damage(random, &mut store);
    }
    for _ in 0..random.pick(&[0, 0, 1, 2, 3]) {
        let any = random.next();
        store.push(random.pick(&[document as u64, FREE, any]));
    }
    store
}

/// The coordinates to set, or the zoom twice: most often finite.
pub fn given(random: &mut Random, store: &[u64], document: u32) -> [u64; 2] {
    let own = entries(store).iter().find(|entry| entry.document == document as u64).map_or(0, |entry| entry.point[0].0);
    let mut given = [doubles::factor(random, own), doubles::finite(random)];
    if random.chance(40) {
        given[random.below(2)] = doubles::any(random);
    }
    given
}

/// The ways that must occur: why a store does not pass, which entry a setting takes, where a question finds the place, what is not finite.
pub fn ways_of(call: Call) -> Vec<&'static str> {
    let bad = ["a document twice", "a kind above 1", "a point not finite"].as_slice();
    let sets = ["own entry", "free entry", "freed entry", "free entry before one to free", "refused, none freed"].as_slice();
    let asks = ["no entry", "itself", "a point"].as_slice();
    match call {
        Call::PlaceItself => [bad, sets].concat(),
        Call::PlaceAt => [bad, sets, &["x not finite", "y not finite"]].concat(),
        Call::Place => [bad, asks].concat(),
        Call::PlaceAtZoom => [bad, asks, &["zoom of itself", "zoom of a point", "product not finite"]].concat(),
        _ => vec![],
    }
}

/// The ways in which a call with a store came to this answer, where there is no more than one reason.
pub fn ways(request: &Request, refusal: u32) -> Vec<&'static str> {
    let entries = entries(&request.places);
    let there: HashSet<u64> = documents(&request.words).into_iter().collect();
    let first_of = |wanted: &dyn Fn(&Entry) -> bool| entries.iter().position(|entry| wanted(entry));
    let to_free = first_of(&|entry| !entry.is_free() && !there.contains(&entry.document));
    let own = first_of(&|entry| entry.document == request.number as u64);
    let asks = matches!(request.call, Call::Place | Call::PlaceAtZoom);
    let [x, y] = request.given.map(|bits| Double(bits).is_finite());
    let mut ways = Vec::new();
    match refusal {
        15 => ways.extend(why_bad(&entries)),
        0 if asks => ways.push(own.map_or("no entry", |own| if entries[own].kind == 1 { "a point" } else { "itself" })),
        0 => ways.push(match (own, first_of(&Entry::is_free), to_free) {
            (Some(_), _, _) => "own entry",
            (None, Some(free), Some(freed)) if free < freed => "free entry before one to free",
            (None, Some(_), None) => "free entry",
            _ => "freed entry",
        }),
        11 if !asks && x != y => ways.push(if x { "y not finite" } else { "x not finite" }),
        11 if asks && x => ways.push("product not finite"),
        11 if asks => ways.push(if own.is_some_and(|own| entries[own].kind == 1) { "zoom of a point" } else { "zoom of itself" }),
        _ => {}
    }
    if matches!(refusal, 4 | 11) && !asks && to_free.is_some() {
        ways.push("refused, none freed");
    }
    ways
}

/// The one reason why a store does not pass; none where there are several.
fn why_bad(entries: &[Entry]) -> Option<&'static str> {
    let taken = || entries.iter().filter(|entry| !entry.is_free());
    let reasons = [
        ("a document twice", has_twice(entries)),
        ("a kind above 1", taken().any(Entry::has_wrong_kind)),
        ("a point not finite", taken().any(Entry::has_wrong_point)),
    ];
    let mut held = reasons.iter().filter(|(_, holds)| *holds).map(|(reason, _)| *reason);
    held.next().filter(|_| held.next().is_none())
}

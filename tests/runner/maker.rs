//! Makes the calls: which one, on which record, with which numbers and buffers.
use crate::random::Random;
use crate::request::{Call, Reply, Request, CALLS};
use crate::saves::Form;
use crate::{doubles, records, saves, stores};
use reference::record::{capacity, NONE};
use reference::sound::{is_sound, rises};

/// Records that stay sound and go on from call to call: many small ones, some of middle size, a few of up to 512 rows.
pub struct Maker {
    random: Random,
    small: Vec<Vec<u32>>,
    middle: Vec<Vec<u32>>,
    large: Vec<Vec<u32>>,
    plain: Vec<Request>,
}

/// Where a call's record comes from; the place is the pool entry that an accepted call moves on.
struct Source {
    words: Vec<u32>,
    pool: Option<(usize, usize)>,
}

impl Maker {
    pub fn new(seed: u64) -> Maker {
        let mut random = Random::new(seed);
        let small = (0..40).map(|i| records::grown(&mut random, 1 + i % 12, 10, most_windows(0, i))).collect();
        let middle = (0..12).map(|i| records::grown(&mut random, 14 + 5 * i, 60, most_windows(1, i))).collect();
        let rooms = [200, 300, 511, 512, 512, 512].into_iter().enumerate();
        let large = rooms.map(|(i, room)| records::nearly_full(&mut random, room, most_windows(2, i))).collect();
        let plain = plain_calls(&mut random);
        Maker { random, small, middle, large, plain }
    }

    /// The next call and what the reference says of it.
    pub fn make(&mut self) -> (Request, Reply) {
        if let Some(request) = self.plain.pop() {
            let reply = request.expected();
            return (request, reply);
        }
        let call = self.random.pick(&CALLS);
        let source = self.source();
        let request = self.request(call, source.words);
        let reply = request.expected();
        if let (Some((pool, entry)), 0) = (source.pool, reply.refusal) {
            self.keep(call, pool, entry, &reply.words);
        }
        (request, reply)
    }

    fn pool(&mut self, pool: usize) -> &mut Vec<Vec<u32>> {
        [&mut self.small, &mut self.middle, &mut self.large].into_iter().nth(pool).unwrap()
    }

    /// An accepted move changes the record that the pool holds. Fresh, loading, Drop and large removals do so rarely or never,
    /// lest all records stay small; Replace does so of every other record, so that there are some whose numbers rise; and none leads to
    /// more windows than the record may have.
    fn keep(&mut self, call: Call, pool: usize, entry: usize, words: &[u32]) {
        let kept = match call {
            Call::Open | Call::Traverse | Call::Tab => true,
            Call::Navigate => pool == 0 || self.random.chance(3) || words[0] + 8 >= self.pool(pool)[entry][0],
            Call::Replace => entry % 2 == 1 && (self.random.chance(3) || words[0] + 8 >= self.pool(pool)[entry][0]),
            Call::Drop => self.random.chance(10),
            Call::Fresh | Call::Load | Call::LoadOld => pool == 0 && self.random.chance(10),
            _ => false,
        };
        if kept && records::window_count(words) <= most_windows(pool, entry) {
            assert!(is_sound(words), "a sound record stays sound");
            self.pool(pool)[entry] = words.to_vec();
        }
    }

    fn source(&mut self) -> Source {
        let pool = match self.random.below(100) {
            0..=79 => 0,
            80..=95 => 1,
            _ => 2,
        };
        let entries = self.pool(pool).len();
        let entry = self.random.below(entries);
        let mut words = self.pool(pool)[entry].clone();
        let random = &mut self.random;
        match random.below(100) {
            0..=54 => return Source { words, pool: Some((pool, entry)) },
            55..=64 => records::renumber(random, &mut words),
            65..=86 => {
                if random.chance(40) {
                    records::renumber(random, &mut words);
                }
                records::damage(random, &mut words);
            }
            87..=91 => {
                let length = random.below(60);
                words = records::noise(random, length);
            }
            92..=95 => words.truncate(random.below(31)),
            _ => {
                // Words more or fewer at the end, which may change the room.
                let length = (words.len() as i64 + random.between(-9, 9)).max(0) as usize;
                let filler = random.pick(&[0, 0, 1]);
                words.resize(length, filler);
            }
        }
        // A renumbered or resized record may go on in the pool.
        let goes_on = words.len() >= 7 && is_sound(&words) && pool < 2 && random.chance(30);
        Source { words, pool: goes_on.then_some((pool, entry)) }
    }

    fn request(&mut self, call: Call, words: Vec<u32>) -> Request {
        let random = &mut self.random;
        let mut request = blank(random, call, words);
        match call {
            Call::Fresh | Call::Tab => {}
            Call::Position => request.root = root(random, &request.words),
            Call::Open | Call::Navigate | Call::Visible => request.number = number(random, &request.words, 0, records::visible_document),
            Call::Drop => request.number = number(random, &request.words, 1, records::frame_to_drop),
            Call::Replace => request.number = number(random, &request.words, 0, records::document_to_replace),
            Call::Traverse => {
                request.root = root(random, &request.words);
                request.number = delta(random, &request.words, request.root) as u32;
                request.first = lent(random, needed(&request, |reply| 4 * reply.outs[0]));
            }
            Call::Lists => {
                request.root = root(random, &request.words);
                request.first = lent(random, needed(&request, |reply| reply.outs[0]));
                request.second = lent(random, needed(&request, |reply| reply.outs[1]));
            }
            Call::Outline => {
                request.root = root(random, &request.words);
                request.first = lent(random, needed(&request, |reply| 2 * reply.outs[0]));
            }
            Call::Save => {
                let length = near(random, needed(&request, |reply| reply.outs[0]));
                request.bytes = random.bytes(length);
            }
            Call::Stretch => stretch(random, &mut request),
            Call::PlaceItself | Call::PlaceAt | Call::Place | Call::PlaceAtZoom => {
                request.number = number(random, &request.words, 0, records::visible_document);
                request.places = stores::store(random, &request.words, request.number);
                request.given = stores::given(random, &request.places, request.number);
            }
            Call::Contents | Call::ContentsOld => request.bytes = self.told_bytes(Form::of(call)),
            Call::Load | Call::LoadOld => {
                request.bytes = self.load_bytes(Form::of(call));
                let random = &mut self.random;
                // The earlier words of the record do not matter, and its room is often just right or just too small.
                if random.chance(40) {
                    let rows = Form::of(call).record(&request.bytes).map_or(8, |record| record[0] as usize);
                    let length = random.pick(&[3 + 4 * rows, 2 + 4 * rows, 6 + 4 * rows, 2051, 2047, 2060]);
                    request.words = random.words(length);
                }
            }
        }
        request
    }

    /// Bytes for the call that reads the contents of a form: as for loading, or no frame, or contents that no record has.
    fn told_bytes(&mut self, own: Form) -> Vec<u8> {
        match self.random.below(20) {
            0 => saves::to_bytes(&[0, self.random.word(), self.random.word()]),
            1..=4 => saves::contents(&mut self.random, own),
            _ => self.load_bytes(own),
        }
    }

    /// Bytes for the loading call of a form, now and then of the other one.
    fn load_bytes(&mut self, own: Form) -> Vec<u8> {
        let pool = self.random.pick(&[0, 0, 0, 0, 0, 0, 0, 1, 1, 2]);
        let entries = self.pool(pool).len();
        let entry = self.random.below(entries);
        let mut words = self.pool(pool)[entry].clone();
        let random = &mut self.random;
        let form = if random.chance(88) { own } else { own.other() };
        if form == Form::Old && (!rises(&words) || random.chance(40)) {
            records::renumber_rising(random, &mut words);
        } else if form == Form::New && random.chance(40) {
            records::renumber(random, &mut words);
        }
        let mut bytes = form.saved(&words);
        match random.below(20) {
            0..=7 => bytes,
            8..=16 => {
                saves::damage(random, form, &mut bytes);
                bytes
            }
            17 => {
                let documents = random.pick(&[1, 2, 511, 512, 513, 514, 700]);
                saves::long_frame(random, form, documents)
            }
            _ => saves::noise(random),
        }
    }
}

/// How many windows a record of a pool may have: one, a few, or of a large one as many as rows.
fn most_windows(pool: usize, entry: usize) -> usize {
    match pool {
        0 => 1 + entry / 12,
        1 => 1 + entry % 4,
        _ => [1, 2, 3, 512, 1, 2][entry],
    }
}

/// A call with no buffers yet.
fn blank(random: &mut Random, call: Call, words: Vec<u32>) -> Request {
    let guard = random.word();
    let outs = [random.word(), random.word(), random.word()];
    let doubles = [doubles::any(random), doubles::any(random)];
    let lie = random.below(3) as u32;
    Request { call, number: 0, root: 0, lie, guard, outs, given: [0; 2], doubles, words, first: vec![], second: vec![], places: vec![], bytes: vec![] }
}

/// How much room the answer of this call wants; 2 where the call is refused whatever the room.
fn needed(request: &Request, size: fn(&Reply) -> u32) -> usize {
    let mut ample = request.clone();
    ample.first = vec![0; 2048];
    ample.second = vec![0; 2048];
    ample.bytes = vec![0; 12 + 24 * 512];
    let reply = ample.expected();
    if reply.refusal == 0 { size(&reply) as usize } else { 2 }
}

/// A length that is just right, one short, or something around it.
fn near(random: &mut Random, right: usize) -> usize {
    match random.below(20) {
        0..=9 => right,
        10..=12 => right.saturating_sub(1),
        13 => random.below(right + 1),
        14 => 0,
        15 | 16 => right + 1,
        _ => right + random.below(12),
    }
}

fn lent(random: &mut Random, right: usize) -> Vec<u32> {
    let length = near(random, right);
    random.words(length)
}

/// A document (column 0) or frame (column 1) that a sound record most likely accepts, or one of its rows', or most likely none.
fn number(random: &mut Random, words: &[u32], column: usize, accepted: fn(&mut Random, &[u32]) -> u32) -> u32 {
    let count = words.first().map_or(0, |&count| (count as usize).min(capacity(words.len())));
    match random.below(20) {
        0..=8 if words.len() >= 7 && is_sound(words) => accepted(random, words),
        0..=15 if count > 0 => words[3 + 4 * random.below(count) + column],
        16 => random.pick(&[NONE, NONE - 1, 0, 1]),
        17 if words.len() > 2 => words[random.below(3)],
        18 if count > 0 => words[3 + 4 * random.below(count) + column].wrapping_add(random.pick(&[1, NONE])),
        _ => random.telling_word(),
    }
}

/// The root frame of a window: most often one of a sound record; else also a frame beneath, or most likely none.
fn root(random: &mut Random, words: &[u32]) -> u32 {
    if random.chance(60) && words.len() >= 7 && is_sound(words) {
        return records::root_frame(random, words);
    }
    number(random, words, 1, records::root_frame)
}

/// A δ that the window of this root frame most likely accepts, or one just beyond, or at an end of its range.
fn delta(random: &mut Random, words: &[u32], root: u32) -> i32 {
    match random.below(20) {
        0..=13 => records::delta_within(random, words, root, 0),
        14 | 15 => records::delta_within(random, words, root, 1),
        16 => random.pick(&[i32::MIN, i32::MIN + 1, i32::MAX, i32::MAX - 1]),
        17 => random.word() as i32,
        _ => random.between(-3, 3) as i32,
    }
}

/// Two lists as they stand, and a δ near their lengths or at an end of its range.
fn stretch(random: &mut Random, request: &mut Request) {
    let longest = random.pick(&[1, 4, 20, 600]);
    let (taken, upcoming) = (random.below(longest), random.below(longest));
    request.words.clear();
    request.first = random.words(taken);
    request.second = random.words(upcoming);
    request.number = match random.below(10) {
        0..=3 => random.between(-(taken as i64) - 1, upcoming as i64 + 1) as u32,
        4 => -(taken as i64) as u32,
        5 => upcoming as u32,
        6 => -(taken as i64 + 1) as u32,
        7 => upcoming as u32 + 1,
        8 => random.pick(&[i32::MIN, i32::MIN + 1, i32::MAX, 0, -1, 1]) as u32,
        _ => random.word(),
    };
}

/// Every call on records of 0 to 30 words and some larger: zeros, a fresh record, and noise.
fn plain_calls(random: &mut Random) -> Vec<Request> {
    let mut requests = Vec::new();
    for length in (0..=30).chain([31, 2047, 2050, 2051, 2052, 2055, 2100, 8000]) {
        for call in CALLS {
            let mut fresh = random.words(length);
            let _ = reference::calls::fresh(&mut fresh);
            for words in [vec![0; length], fresh, records::noise(random, length)] {
                let mut request = blank(random, call, words);
                request.root = random.pick(&[0, 0, 1, NONE]);
                request.first = random.words(8);
                request.second = random.words(8);
                request.places = stores::store(random, &request.words, 0);
                request.bytes = if call.loads() || call.tells() { saves::long_frame(random, Form::of(call), 1 + length / 8) } else { random.bytes(40) };
                requests.push(request);
            }
        }
    }
    requests
}

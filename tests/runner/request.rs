//! One call with everything it is lent: as the driver is asked for it, and as the reference answers it.
use reference::calls::{self, Answer};
use reference::doubles::Double;
use reference::history::History;
use reference::places::{self, Place};
use reference::record::{rows, NONE};
use std::io::{self, Read};

#[derive(Clone, Copy, PartialEq, Eq, PartialOrd, Ord, Debug)]
pub enum Call {
    Fresh,
    Open,
    Navigate,
    Traverse,
    Drop,
    Replace,
    Tab,
    Position,
    Visible,
    Lists,
    Stretch,
    Outline,
    Save,
    Load,
    LoadOld,
    Contents,
    ContentsOld,
    PlaceItself,
    PlaceAt,
    Place,
    PlaceAtZoom,
}

/// In the order of the driver's numbers.
pub const CALLS: [Call; 21] = [
    Call::Fresh, Call::Open, Call::Navigate, Call::Traverse, Call::Drop, Call::Replace, Call::Tab, Call::Position, Call::Visible, Call::Lists, Call::Stretch,
    Call::Outline, Call::Save, Call::Load, Call::LoadOld, Call::Contents, Call::ContentsOld, Call::PlaceItself, Call::PlaceAt, Call::Place, Call::PlaceAtZoom,
];

impl Call {
    /// Which out word refusal 5 writes: the last one of the calls that have that refusal.
    fn hiding_word(self) -> Option<usize> {
        match self {
            Call::Open => Some(2),
            Call::Navigate | Call::Drop | Call::Replace => Some(1),
            _ => None,
        }
    }

    /// Whether it is lent a store of scroll places.
    pub fn has_store(self) -> bool {
        matches!(self, Call::PlaceItself | Call::PlaceAt | Call::Place | Call::PlaceAtZoom)
    }

    /// Whether it names a window by its root frame.
    pub fn names_window(self) -> bool {
        matches!(self, Call::Traverse | Call::Position | Call::Lists | Call::Outline)
    }

    /// Whether it fills a record from bytes.
    pub fn loads(self) -> bool {
        matches!(self, Call::Load | Call::LoadOld)
    }

    /// Whether it is lent bytes alone, and reads their contents.
    pub fn tells(self) -> bool {
        matches!(self, Call::Contents | Call::ContentsOld)
    }

    /// Whether it begins with the test of a record.
    pub fn examines(self) -> bool {
        !self.loads() && !self.tells() && !matches!(self, Call::Fresh | Call::Stretch)
    }
}

/// `first` and `second` are change rows, the two lists, or pairs; `places` is a store; `number` is a document, a frame or δ, and `root` the root frame of
/// a window. Doubles go by their bits: `given` is a point, or a zoom and nothing, and `doubles` is what the out doubles held.
#[derive(Clone)]
pub struct Request {
    pub call: Call,
    pub number: u32,
    pub root: u32,
    pub lie: u32,
    pub guard: u32,
    pub outs: [u32; 3],
    pub given: [u64; 2],
    pub doubles: [u64; 2],
    pub words: Vec<u32>,
    pub first: Vec<u32>,
    pub second: Vec<u32>,
    pub places: Vec<u64>,
    pub bytes: Vec<u8>,
}

#[derive(Clone, PartialEq, Eq)]
pub struct Reply {
    pub refusal: u32,
    pub outs: [u32; 3],
    pub doubles: [u64; 2],
    pub guards: u32,
    pub words: Vec<u32>,
    pub first: Vec<u32>,
    pub second: Vec<u32>,
    pub places: Vec<u64>,
    pub bytes: Vec<u8>,
}

impl Request {
    /// Whether the driver lends the change rows as structs: it does so for every traverse with an odd guard word.
    pub fn lends_structs(&self) -> bool {
        self.call == Call::Traverse && self.guard % 2 == 1
    }

    pub fn encode(&self, to: &mut Vec<u8>) {
        let counts = [self.words.len(), self.first.len(), self.second.len(), self.places.len(), self.bytes.len()].map(|count| count as u32);
        let doubles = halves(&[self.given, self.doubles].concat());
        let head = [[self.call as u32, self.number, self.lie, self.guard].as_slice(), &self.outs, &counts, &doubles, &[self.root]].concat();
        for word in head.iter().chain(&self.words).chain(&self.first).chain(&self.second).chain(&halves(&self.places)) {
            to.extend(word.to_le_bytes());
        }
        to.extend(&self.bytes);
        to.extend(vec![0; padding(self.bytes.len())]);
    }

    /// What the reference says that the call must leave.
    pub fn expected(&self) -> Reply {
        let mut reply = Reply {
            refusal: 0,
            outs: self.outs,
            doubles: self.doubles,
            guards: 0,
            words: self.words.clone(),
            first: self.first.clone(),
            second: self.second.clone(),
            places: self.places.clone(),
            bytes: self.bytes.clone(),
        };
        match self.answer(&mut reply) {
            Ok(answers) => reply.outs[..answers.len()].copy_from_slice(&answers),
            Err(refusal) => {
                reply.refusal = refusal.number;
                if let Some(document) = refusal.hiding {
                    reply.outs[self.call.hiding_word().expect("a call that has refusal 5")] = document;
                }
            }
        }
        reply
    }

    /// How far up those stand that are not shown, the nearest first, from the document that is asked for or has to be visible: 0 for itself.
    /// The record is sound, and the document there.
    pub fn not_shown(&self) -> Vec<usize> {
        let rows = rows(&self.words);
        let document = match self.call {
            Call::Drop => rows.iter().find(|row| row.frame == self.number).expect("a frame of the record").parent,
            _ => self.number,
        };
        History::of(&rows).upwards(document).iter().enumerate().filter(|(_, d)| !d.active).map(|(links, _)| links).collect()
    }

    /// The values of an accepted call, out word by out word.
    fn answer(&self, lent: &mut Reply) -> Answer<Vec<u32>> {
        let Reply { words, first, second, places, bytes, doubles, .. } = lent;
        let given = self.given.map(Double);
        Ok(match self.call {
            Call::Fresh => calls::fresh(words).map(|()| vec![])?,
            Call::Open => calls::open(words, self.number).map(|(document, frame)| vec![document, frame])?,
            Call::Navigate => vec![calls::navigate(words, self.number)?],
            Call::Traverse => vec![calls::traverse(words, self.root, self.number as i32, first)?],
            Call::Drop => vec![calls::drop_frame(words, self.number)?],
            Call::Replace => vec![calls::replace(words, self.number)?],
            Call::Tab => calls::tab(words).map(|(document, frame)| vec![document, frame])?,
            Call::Position => calls::position(words, self.root).map(|(position, steps, length)| vec![position, steps, length])?,
            Call::Visible => calls::visible(words, self.number).map(|sight| vec![sight.visible() as u32, sight.hiding.unwrap_or(NONE), sight.links])?,
            Call::Lists => calls::lists(words, self.root, first, second).map(|(taken, upcoming)| vec![taken, upcoming])?,
            Call::Stretch => vec![calls::stretch(first, second, self.number as i32)?.len() as u32],
            Call::Outline => vec![calls::outline(words, self.root, first)?],
            Call::Save => vec![calls::save(words, bytes)?],
            Call::Load => vec![calls::load(words, bytes)?],
            Call::LoadOld => vec![calls::load_old(words, bytes)?],
            Call::Contents => calls::contents(bytes).map(|(position, steps)| vec![position, steps])?,
            Call::ContentsOld => calls::contents_old(bytes).map(|(position, steps)| vec![position, steps])?,
            Call::PlaceItself => places::place_itself(words, places, self.number).map(|()| vec![])?,
            Call::PlaceAt => places::place_at(words, places, self.number, given).map(|()| vec![])?,
            Call::Place => vec![told(places::place(words, places, self.number)?, doubles)],
            Call::PlaceAtZoom => vec![told(places::place_at_zoom(words, places, self.number, given[0])?, doubles)],
        })
    }

    /// The call whole, for a reader who wants to repeat it by hand.
    pub fn print(&self) {
        println!("  call {:?}, number {} (signed {}), root {}, runs lie {}, guard {:#010x}", self.call, self.number, self.number as i32, self.root, self.lie, self.guard);
        println!("  out words before {:?}", self.outs);
        println!("  doubles given {:x?}, out doubles before {:x?}", self.given, self.doubles);
        print_runs(&self.words, &self.first, &self.second, &self.places, &self.bytes);
        if self.words.len() >= 7 {
            println!("  clauses broken in the record: {:?}", reference::sound::broken(&self.words));
        }
    }
}

impl Reply {
    pub fn read(from: &mut impl Read, request: &Request) -> io::Result<Reply> {
        let head = read_words(from, 9)?;
        let words = read_words(from, request.words.len())?;
        let first = read_words(from, request.first.len())?;
        let second = read_words(from, request.second.len())?;
        let places = wholes(&read_words(from, 2 * request.places.len())?);
        let mut bytes = vec![0; request.bytes.len() + padding(request.bytes.len())];
        from.read_exact(&mut bytes)?;
        bytes.truncate(request.bytes.len());
        let doubles = wholes(&head[5..]);
        Ok(Reply {
            refusal: head[0],
            outs: [head[1], head[2], head[3]],
            doubles: [doubles[0], doubles[1]],
            guards: head[4],
            words,
            first,
            second,
            places,
            bytes,
        })
    }

    pub fn print(&self) {
        println!("  refusal {}, out words {:?}, out doubles {:x?}, guards {}", self.refusal, self.outs, self.doubles, self.guards);
        print_runs(&self.words, &self.first, &self.second, &self.places, &self.bytes);
    }
}

fn print_runs(words: &[u32], first: &[u32], second: &[u32], places: &[u64], bytes: &[u8]) {
    println!("  words ({}) {words:?}", words.len());
    println!("  first run ({}) {first:?}", first.len());
    println!("  second run ({}) {second:?}", second.len());
    println!("  places ({}) {places:x?}", places.len());
    println!("  bytes ({}) {bytes:?}", bytes.len());
}

/// The kind of a place; a point goes out through the doubles, which keep what they held where the page places itself.
fn told(place: Place, doubles: &mut [u64; 2]) -> u32 {
    match place {
        Place::Itself => 0,
        Place::Point(x, y) => {
            *doubles = [x.0, y.0];
            1
        }
    }
}

/// Words of 64 bits as words of 32, the lower first, and back.
fn halves(wholes: &[u64]) -> Vec<u32> {
    wholes.iter().flat_map(|whole| [*whole as u32, (whole >> 32) as u32]).collect()
}

fn wholes(halves: &[u32]) -> Vec<u64> {
    halves.chunks(2).map(|two| two[0] as u64 | (two[1] as u64) << 32).collect()
}

fn padding(byte_count: usize) -> usize {
    byte_count.wrapping_neg() & 3
}

fn read_words(from: &mut impl Read, count: usize) -> io::Result<Vec<u32>> {
    let mut bytes = vec![0; 4 * count];
    from.read_exact(&mut bytes)?;
    Ok(bytes.chunks(4).map(|four| u32::from_le_bytes(four.try_into().unwrap())).collect())
}

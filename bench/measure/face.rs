//! Both libraries through one face.
use twin::face::{self, Point};

type Words = *mut u32;
type Read = *const u32;
type Out<'a> = &'a mut u32;
type Real<'a> = &'a mut f64;

/// The calls of include/frame_history.h.
pub struct Face {
    pub fresh: unsafe extern "C" fn(Words, usize) -> u32,
    pub open: unsafe extern "C" fn(Words, usize, u32, Out, Out, Out) -> u32,
    pub tab: unsafe extern "C" fn(Words, usize, Out, Out) -> u32,
    pub navigate: unsafe extern "C" fn(Words, usize, u32, Out, Out) -> u32,
    pub traverse: unsafe extern "C" fn(Words, usize, u32, i32, Words, usize, Out) -> u32,
    pub drop: unsafe extern "C" fn(Words, usize, u32, Out, Out) -> u32,
    pub replace: unsafe extern "C" fn(Words, usize, u32, Out, Out) -> u32,
    pub position: unsafe extern "C" fn(Read, usize, u32, Out, Out, Out) -> u32,
    pub visible: unsafe extern "C" fn(Read, usize, u32, Out, Out, Out) -> u32,
    pub lists: unsafe extern "C" fn(Read, usize, u32, Words, usize, Words, usize, Out, Out) -> u32,
    pub stretch: unsafe extern "C" fn(Read, usize, Read, usize, i32, Out) -> u32,
    pub outline: unsafe extern "C" fn(Read, usize, u32, Words, usize, Out) -> u32,
    pub save: unsafe extern "C" fn(Read, usize, *mut u8, usize, Out) -> u32,
    pub load: unsafe extern "C" fn(Words, usize, *const u8, usize, Out) -> u32,
    pub load_old: unsafe extern "C" fn(Words, usize, *const u8, usize, Out) -> u32,
    pub contents: unsafe extern "C" fn(*const u8, usize, Out, Out) -> u32,
    pub contents_old: unsafe extern "C" fn(*const u8, usize, Out, Out) -> u32,
    pub place_itself: unsafe extern "C" fn(Read, usize, *mut u64, usize, u32) -> u32,
    pub place_at: unsafe extern "C" fn(Read, usize, *mut u64, usize, u32, Point) -> u32,
    pub place: unsafe extern "C" fn(Read, usize, *const u64, usize, u32, Out, Real, Real) -> u32,
    pub place_at_zoom: unsafe extern "C" fn(Read, usize, *const u64, usize, u32, f64, Out, Real, Real) -> u32,
}

extern "C" {
    fn frame_history_fresh(words: Words, count: usize) -> u32;
    fn frame_history_open(words: Words, count: usize, parent: u32, document: Out, frame: Out, hiding: Out) -> u32;
    fn frame_history_tab(words: Words, count: usize, document: Out, frame: Out) -> u32;
    fn frame_history_navigate(words: Words, count: usize, from: u32, document: Out, hiding: Out) -> u32;
    fn frame_history_traverse(words: Words, count: usize, root: u32, delta: i32, changes: Words, changes_count: usize, changed: Out) -> u32;
    fn frame_history_drop(words: Words, count: usize, frame: u32, removed: Out, hiding: Out) -> u32;
    fn frame_history_replace(words: Words, count: usize, document: u32, replacement: Out, hiding: Out) -> u32;
    fn frame_history_position(words: Read, count: usize, root: u32, position: Out, steps: Out, length: Out) -> u32;
    fn frame_history_visible(words: Read, count: usize, document: u32, answer: Out, hiding: Out, links: Out) -> u32;
    fn frame_history_lists(
        words: Read,
        count: usize,
        root: u32,
        taken: Words,
        taken_count: usize,
        upcoming: Words,
        upcoming_count: usize,
        takens: Out,
        upcomings: Out,
    ) -> u32;
    fn frame_history_stretch(taken: Read, taken_count: usize, upcoming: Read, upcoming_count: usize, delta: i32, entries: Out) -> u32;
    fn frame_history_outline(words: Read, count: usize, root: u32, pairs: Words, pairs_count: usize, written: Out) -> u32;
    fn frame_history_save(words: Read, count: usize, bytes: *mut u8, bytes_count: usize, length: Out) -> u32;
    fn frame_history_load(words: Words, count: usize, bytes: *const u8, bytes_count: usize, rows: Out) -> u32;
    fn frame_history_load_old(words: Words, count: usize, bytes: *const u8, bytes_count: usize, rows: Out) -> u32;
    fn frame_history_contents(bytes: *const u8, bytes_count: usize, position: Out, steps: Out) -> u32;
    fn frame_history_contents_old(bytes: *const u8, bytes_count: usize, position: Out, steps: Out) -> u32;
    fn frame_history_place_itself(words: Read, count: usize, places: *mut u64, places_count: usize, document: u32) -> u32;
    fn frame_history_place_at(words: Read, count: usize, places: *mut u64, places_count: usize, document: u32, point: Point) -> u32;
    fn frame_history_place(words: Read, count: usize, places: *const u64, places_count: usize, document: u32, kind: Out, x: Real, y: Real) -> u32;
    fn frame_history_place_at_zoom(
        words: Read,
        count: usize,
        places: *const u64,
        places_count: usize,
        document: u32,
        zoom: f64,
        kind: Out,
        x: Real,
        y: Real,
    ) -> u32;
}

pub static OURS: Face = Face {
    fresh: frame_history_fresh,
    open: frame_history_open,
    tab: frame_history_tab,
    navigate: frame_history_navigate,
    traverse: frame_history_traverse,
    drop: frame_history_drop,
    replace: frame_history_replace,
    position: frame_history_position,
    visible: frame_history_visible,
    lists: frame_history_lists,
    stretch: frame_history_stretch,
    outline: frame_history_outline,
    save: frame_history_save,
    load: frame_history_load,
    load_old: frame_history_load_old,
    contents: frame_history_contents,
    contents_old: frame_history_contents_old,
    place_itself: frame_history_place_itself,
    place_at: frame_history_place_at,
    place: frame_history_place,
    place_at_zoom: frame_history_place_at_zoom,
};

pub static TWIN: Face = Face {
    fresh: face::fresh,
    open: face::open,
    tab: face::tab,
    navigate: face::navigate,
    traverse: face::traverse,
    drop: face::drop,
    replace: face::replace,
    position: face::position,
    visible: face::visible,
    lists: face::lists,
    stretch: face::stretch,
    outline: face::outline,
    save: face::save,
    load: face::load,
    load_old: face::load_old,
    contents: face::contents,
    contents_old: face::contents_old,
    place_itself: face::place_itself,
    place_at: face::place_at,
    place: face::place,
    place_at_zoom: face::place_at_zoom,
};

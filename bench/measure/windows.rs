//! Tables of many windows: what their test costs, asked by Position.
use crate::calls::{Call, Lent};
use crate::cases::Case;
use crate::shapes::many;
use crate::{RATIO, alike, clock, marked};

const ROWS: usize = 512;
const COUNTS: [usize; 6] = [1, 2, 8, 64, 128, 512];

pub const WHAT: &str = "The test of a table with 512 rows, by *position* of the first window. The windows stand one after the other with as many rows \
    each: a root document, and beneath it a frame that is navigated. *Not in order*: each went back one step, so that the taken steps of a window come \
    after an upcoming step of the one before it, and the test has to look at each window. One window cannot be so, nor can windows of one row, which \
    have no steps: 128 windows of four rows are as near as it goes";

const HEAD: &str = "\
| windows | in order: ours | twin | ratio | not in order: ours | twin | ratio |
|--:|--:|--:|--:|--:|--:|--:|";

/// Position of the first window on a table of so many.
fn case(windows: usize, back: bool) -> Case {
    Case { name: "many windows", call: Call::Position(0), lent: Lent::new(many(ROWS, windows, back)) }
}

/// Whether a table of so many windows can be other than in order: one window cannot, and those of one row have no steps.
fn can_part(windows: usize) -> bool {
    windows > 1 && ROWS / windows > 3
}

/// The tables of so many windows: in order, and where it can be, not in order.
fn pair(windows: usize) -> (Case, Option<Case>) {
    (case(windows, false), can_part(windows).then(|| case(windows, true)))
}

/// Fails where the libraries differ on these, or on small ones.
fn check() {
    for windows in COUNTS {
        let (ordered, parted) = pair(windows);
        [Some(ordered), parted].iter().flatten().for_each(alike::check);
    }
    for back in [false, true] {
        alike::check_windows("six windows", &many(24, 6, back));
    }
}

/// The times, a number a line: count by count ours and the twin's, in order, and where it can be, not in order.
pub fn print_times() {
    for windows in COUNTS {
        let (ordered, parted) = pair(windows);
        for case in [Some(ordered), parted].iter().flatten() {
            let (ours, twin) = clock::measure(case);
            println!("{ours}\n{twin}");
        }
    }
}

/// The table, from times in the order in which they are printed.
pub fn print(times: &mut impl Iterator<Item = f64>) {
    check();
    println!("{HEAD}");
    for windows in COUNTS {
        print!("| {windows} |");
        for there in [true, can_part(windows)] {
            if !there {
                print!(" | | |");
                continue;
            }
            let mut next = || times.next().expect("a time for each table");
            let (ours, twin) = (next(), next());
            print!(" {ours:.1} | {twin:.1} | {} |", marked(ours / twin, 2, RATIO));
        }
        println!();
    }
}

//! Scripts: one to run, and how fast both programs run it.
use crate::calls::{Call, Lent, make};
use crate::face::OURS;
use std::fs::File;
use std::io::Write;
use std::process::{Command, Stdio};
use std::time::Instant;

const ROUNDS: usize = 5;

/// A small generator of numbers that are the same in each run.
struct Random(u64);

impl Random {
    /// A number below a bound.
    fn below(&mut self, bound: u32) -> u32 {
        self.0 ^= self.0 << 13;
        self.0 ^= self.0 >> 7;
        self.0 ^= self.0 << 17;
        (self.0 >> 32) as u32 % bound
    }
}

/// Makes a call on the writer's own record; its first out word.
fn asked(lent: &mut Lent, call: Call) -> u32 {
    make(&OURS, call, lent);
    lent.outs[0]
}

/// A visible document of a window.
fn some_visible(lent: &mut Lent, root: u32, random: &mut Random) -> u32 {
    let pairs = asked(lent, Call::Outline(root));
    lent.first[2 * random.below(pairs) as usize + 1]
}

/// A document that Navigate refuses: one that is hidden, or where a visible one is met one that is not there.
fn some_refused(lent: &mut Lent, random: &mut Random) -> u32 {
    let document = lent.words[3 + 4 * random.below(lent.words[0]) as usize];
    if asked(lent, Call::Visible(document)) == 1 { u32::MAX } else { document }
}

/// The last visible document in a window's outline.
fn last_visible(lent: &mut Lent, root: u32) -> u32 {
    let pairs = asked(lent, Call::Outline(root));
    lent.first[2 * pairs as usize - 1]
}

/// The frame of the last visible document in a window's outline; the root frame where there is no other.
fn last_frame(lent: &mut Lent, root: u32) -> u32 {
    let document = last_visible(lent, root);
    let rows = lent.words[3..].as_chunks::<4>().0;
    rows.iter().find(|row| row[0] == document).expect("a row of the record")[1]
}

/// Writes a script of so many lines: in each of so many windows, which are opened first, sessions beneath a new root document, each left by going all the way
/// back. A window's root frame and its first document have one number. Some lines are bad, and some are refused.
pub fn write(lines: usize, windows: u32, out: &mut impl Write) -> std::io::Result<()> {
    let mut random = Random(20160818);
    let lent = &mut Lent::new(vec![0; 3 + 4 * 512]);
    asked(lent, Call::Fresh);
    for line in 0..lines {
        let root = if windows == 1 { 0 } else { random.below(windows) };
        let (name, call) = match (asked(lent, Call::Position(root)), random.below(22)) {
            _ if line + 1 < windows as usize => ("tab", Call::Tab),
            (0, _) => ("nav", Call::Navigate(root)),
            (position, _) if line % 100 == 0 => ("go", Call::Traverse(root, -(position as i32))),
            (_, 0..=5) => ("nav", Call::Navigate(some_visible(lent, root, &mut random))),
            (_, 6..=8) => ("open", Call::Open(some_visible(lent, root, &mut random))),
            (_, 9..=13) => ("go", Call::Traverse(root, -1)),
            (_, 14..=17) => ("go", Call::Traverse(root, 1)),
            (_, 18) => ("nav", Call::Navigate(some_refused(lent, &mut random))),
            (_, 19) => ("drop", Call::Drop(last_frame(lent, root))),
            (_, 20) => ("replace", Call::Replace(last_visible(lent, root))),
            _ => ("back", Call::Position(root)),
        };
        make(&OURS, call, lent);
        match call {
            Call::Navigate(number) | Call::Open(number) | Call::Drop(number) | Call::Replace(number) => writeln!(out, "{name} {number}")?,
            Call::Traverse(0, delta) => writeln!(out, "{name} {delta}")?,
            Call::Traverse(root, delta) => writeln!(out, "{name} {delta} {root}")?,
            _ => writeln!(out, "{name}")?,
        }
    }
    Ok(())
}

/// The seconds that a program takes for an input.
fn seconds(program: &str, input: &str) -> f64 {
    let input = File::open(input).expect("the script can be read");
    let start = Instant::now();
    let status = Command::new(program).stdin(input).stdout(Stdio::null()).status().expect("the program can be run");
    assert!(status.success(), "{program} fails");
    start.elapsed().as_secs_f64()
}

/// The seconds that the program and its twin take for an input, the least of rounds in turn.
pub fn measure(ours: &str, twin: &str, input: &str) -> (f64, f64) {
    let rounds = (0..ROUNDS).map(|_| (seconds(ours, input), seconds(twin, input)));
    rounds.fold((f64::MAX, f64::MAX), |least, round| (least.0.min(round.0), least.1.min(round.1)))
}

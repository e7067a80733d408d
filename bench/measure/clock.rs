//! Timing: rounds in turn, and of each the least.
use crate::calls::{Call, Lent, Undo, make};
use crate::cases::{Case, after};
use crate::face::{Face, OURS, TWIN};
use std::hint::black_box;
use std::time::Instant;

const ROUNDS: usize = 20;
const ROUND_NS: f64 = 200_000.0;

/// The nanoseconds that each of so many turns takes.
fn turns(times: u32, mut turn: impl FnMut()) -> f64 {
    let start = Instant::now();
    for _ in 0..times {
        turn();
    }
    start.elapsed().as_nanos() as f64 / times as f64
}

/// The nanoseconds of a call, over so many. A traversal goes there and back; the words that Open, Tab, Navigate, Drop and Replace change are put back.
fn time(face: &Face, call: Call, lent: &mut Lent, times: u32) -> f64 {
    match call {
        Call::Traverse(root, delta) => {
            let pair = turns(times, || {
                make(face, Call::Traverse(root, delta), lent);
                make(face, Call::Traverse(root, -delta), lent);
            });
            pair / 2.0
        }
        Call::Open(_) | Call::Tab | Call::Navigate(_) | Call::Drop(_) | Call::Replace(_) => {
            let undo = Undo::of(&lent.words, &after(call, &lent.words).words);
            turns(times, || {
                make(face, call, lent);
                undo.put_back(&mut lent.words);
            })
        }
        call => turns(times, || {
            make(face, call, lent);
        }),
    }
}

/// The nanoseconds of a case's call by the library and by its twin, which are lent the same.
pub fn measure(case: &Case) -> (f64, f64) {
    let lent = &mut case.lent.clone();
    let times = (ROUND_NS / time(&TWIN, case.call, lent, 3)).clamp(3.0, 20_000.0) as u32;
    let mut least = (f64::MAX, f64::MAX);
    for _ in 0..ROUNDS {
        least.0 = least.0.min(time(&OURS, case.call, lent, times));
        least.1 = least.1.min(time(&TWIN, case.call, lent, times));
    }
    least
}

/// One pass over a record: reads every word of every row once, tests each flag and adds all up.
#[inline(never)]
fn one_pass(words: &[u32]) -> Option<u32> {
    let mut sum = 0u32;
    for row in words[3..].as_chunks::<4>().0 {
        if row[3] > 1 {
            return None;
        }
        sum = row.iter().fold(sum, |sum, &word| sum.wrapping_add(word));
    }
    Some(sum)
}

/// The nanoseconds of one pass.
pub fn measure_pass(words: &[u32]) -> f64 {
    let round = |_| turns(1000, || _ = black_box(one_pass(black_box(words))));
    (0..ROUNDS).map(round).fold(f64::MAX, f64::min)
}

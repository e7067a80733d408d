//! measure calls: every call of the library beside its twin's, as tables.
//! measure times: the times of one run, which `calls` takes the least of.
//! measure script LINES WINDOWS: a script to run, with so many windows.
//! measure programs OURS TWIN LINES ONE TWO: both script programs on one with one window and on one with two, as a table.
mod alike;
mod calls;
mod cases;
mod clock;
mod face;
mod script;
mod shapes;
mod windows;
use cases::Case;
use shapes::{SHAPES, Shape, parted, record, replaced};
use std::io::{BufWriter, stdout};
use std::process::Command;

const ROWS: [usize; 3] = [3, 30, 512];
const RUNS: usize = 8;

/// The targets: for every ratio; for the passes of the shape desk, but of those that have to look at rows more than a few times; and for the time of a call on two
/// windows by that on the desk record.
const RATIO: f64 = 1.2;
const PASSES: f64 = 3.0;
const TO_DESK: f64 = 2.0;

const HEAD: &str = "\
| call | 3 rows: ours | twin | ratio | 30 rows: ours | twin | ratio | 512 rows: ours | twin | ratio | passes | 30 to 512: ours | twin |
|---|--:|--:|--:|--:|--:|--:|--:|--:|--:|--:|--:|--:|";

/// What the table of two windows has besides.
const DESK_HEAD: &str = " to desk: 3 rows | 30 rows | 512 rows |";
const DESK_RULE: &str = "--:|--:|--:|";

/// A number, marked where it is above its target as it is printed.
fn marked(number: f64, digits: usize, target: f64) -> String {
    let text = format!("{number:.digits$}");
    if text.parse::<f64>().is_ok_and(|shown| shown > target) { format!("**{text}**") } else { text }
}

/// The cases of a shape, size by size.
fn sizes(shape: Shape) -> [Vec<Case>; 3] {
    ROWS.map(|rows| cases::cases(shape, rows))
}

/// The times of a shape, a number a line: one pass at each size; then call by call and size by size ours and the twin's.
fn print_times(shape: Shape) {
    ROWS.iter().for_each(|&rows| println!("{}", clock::measure_pass(&record(shape, rows, rows))));
    let sizes = sizes(shape);
    for line in 0..sizes[0].len() {
        for size in &sizes {
            let (ours, twin) = clock::measure(&size[line]);
            println!("{ours}\n{twin}");
        }
    }
}

/// The least of each time over so many runs of this program: where a process happens to lie in memory moves its times.
fn least_times() -> Vec<f64> {
    let run = |_| {
        let this = std::env::current_exe().expect("this program has a name");
        let said = Command::new(this).arg("times").output().expect("this program can be run again");
        assert!(said.status.success(), "a run that only takes times failed");
        let text = String::from_utf8(said.stdout).expect("times are digits");
        text.lines().map(|line| line.parse().expect("a time")).collect::<Vec<f64>>()
    };
    let least = |a: Vec<f64>, b: Vec<f64>| a.iter().zip(b).map(|(a, b)| a.min(b)).collect();
    (0..RUNS).map(run).reduce(least).expect("one run or more")
}

/// Fails where the libraries differ on a shape.
fn check_shape(shape: Shape, sizes: &[Vec<Case>; 3]) {
    sizes.iter().flatten().for_each(alike::check);
    sizes[..2].iter().flatten().for_each(alike::check_near);
    ROWS[..2].iter().for_each(|&rows| alike::check_hidden(&record(shape, rows - 1, rows)));
    ROWS[..2].iter().for_each(|&rows| alike::check_stores(&record(shape, rows, rows)));
    match shape {
        Shape::Desk => ROWS[..2].iter().for_each(|&rows| alike::check_every("replaced", &replaced(rows, 10))),
        Shape::Beside => [12, 30].iter().for_each(|&rows| alike::check_windows("parted", &parted(rows))),
        _ => (),
    }
}

/// The library's times of a call at each size.
type Line = (&'static str, [f64; 3]);

/// What two windows cost by the same call on the desk record; nothing where that has none.
fn print_to_desk(name: &str, ours: [f64; 3], desk: &[Line]) {
    match desk.iter().find(|line| line.0 == name) {
        Some((_, times)) => ours.iter().zip(times).for_each(|(ours, desk)| print!(" {} |", marked(ours / desk, 2, TO_DESK))),
        None => print!(" | | |"),
    }
}

/// The table of a shape, from times in the order in which they are printed, beside the lines of the desk's; its own lines.
fn print_shape(shape: Shape, times: &mut impl Iterator<Item = f64>, desk: &[Line]) -> Vec<Line> {
    let mut next = || times.next().expect("a time for each call");
    let sizes = sizes(shape);
    check_shape(shape, &sizes);
    let pass = ROWS.map(|_| next());
    let (head, rule) = HEAD.split_once('\n').expect("two lines");
    let (more, more_rule) = if shape == Shape::Beside { (DESK_HEAD, DESK_RULE) } else { ("", "") };
    println!("{head}{more}\n{rule}{more_rule}");
    let mut lines = Vec::new();
    for case in &sizes[0] {
        let most_passes = if shape == Shape::Desk && !case.looks() { PASSES } else { f64::MAX };
        let [a, b, c] = ROWS.map(|_| (next(), next()));
        print!("| {} |", case.name);
        for (ours, twin) in [a, b, c] {
            print!(" {ours:.1} | {twin:.1} | {} |", marked(ours / twin, 2, RATIO));
        }
        print!(" {} | {:.1} | {:.1} |", marked(c.0 / pass[2], 1, most_passes), c.0 / b.0, c.1 / b.1);
        let ours = [a.0, b.0, c.0];
        if shape == Shape::Beside {
            print_to_desk(case.name, ours, desk);
        }
        println!();
        lines.push((case.name, ours));
    }
    print!("| *one pass* | | {:.1} | | | {:.1} | | | {:.1} | | 1.0 | | {:.1} |", pass[0], pass[1], pass[2], pass[2] / pass[1]);
    println!("{}", if shape == Shape::Beside { " | | |" } else { "" });
    lines
}

/// The table of the script programs, on scripts of so many lines.
fn print_programs(ours: &str, twin: &str, lines: f64, scripts: [(&str, &str); 2]) {
    println!("| script | lines | ours: lines a second | twin: lines a second | ratio of times |");
    println!("|---|--:|--:|--:|--:|");
    for (name, script) in scripts {
        let (a, b) = script::measure(ours, twin, script);
        println!("| {name} | {lines} | {:.0} | {:.0} | {} |", lines / a, lines / b, marked(a / b, 2, RATIO));
    }
}

/// The tables of all shapes, and that of many windows.
fn print_calls() {
    let mut times = least_times().into_iter();
    let mut desk = Vec::new();
    for (shape, name, what) in SHAPES {
        println!("## {name}\n\n{what}.\n");
        let lines = print_shape(shape, &mut times, &desk);
        if shape == Shape::Desk {
            desk = lines;
        }
        println!();
    }
    println!("## many windows\n\n{}.\n", windows::WHAT);
    windows::print(&mut times);
    println!();
}

fn main() {
    let words: Vec<String> = std::env::args().skip(1).collect();
    match words.iter().map(String::as_str).collect::<Vec<_>>()[..] {
        ["calls"] => print_calls(),
        ["times"] => {
            SHAPES.iter().for_each(|&(shape, _, _)| print_times(shape));
            windows::print_times();
        }
        ["script", lines, windows] => {
            let (lines, windows) = (lines.parse().expect("a number of lines"), windows.parse().expect("a number of windows"));
            script::write(lines, windows, &mut BufWriter::new(stdout())).expect("standard output can be written");
        }
        ["programs", ours, twin, lines, one, two] => {
            print_programs(ours, twin, lines.parse().expect("a number of lines"), [("one window", one), ("two windows", two)])
        }
        _ => {
            eprintln!("usage: measure calls | measure times | measure script LINES WINDOWS | measure programs OURS TWIN LINES ONE TWO");
            std::process::exit(2);
        }
    }
}

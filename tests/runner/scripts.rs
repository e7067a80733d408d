//! Random scripts for the script program, and the comparison of what it prints with what the reference prints.
use crate::random::Random;
use crate::records::{delta_within, document_to_replace, frame_to_drop, root_frame, visible_document};
use reference::script::{output, Table};
use std::io::{Read, Write};
use std::process::{Command, Stdio};

/// Lines that are `bad` for one small reason each.
const BAD: [&str; 88] = [
    "", " ", "open", "nav", "go", "open ", "nav ", "go ", "open  0", "open 0 ", " open 0", "open\t0", "Open 0", "OPEN 0", "opens 0", "open 00", "open 01",
    "open +1", "open -1", "open -0", "open 4294967296", "nav 4294967300", "nav 18446744073709551616", "nav 0x1", "nav 1.0", "nav 1,", "nav 0\r", "go -0",
    "go +1", "go 2147483648", "go -2147483649", "go --1", "go -", "go - 1", "go -01", "navigate 0",
    "drop", "drop ", "drop  1", "drop 1 ", " drop 1", "drop\t1", "Drop 1", "drops 1", "drop 01", "drop +1", "drop -1", "drop -0", "drop 4294967296",
    "drop 1\r", "replace", "replace ", "replace  1", "replace 1 ", " replace 1", "replace\t1", "Replace 1", "replaces 1", "replac 1", "replace 01",
    "replace -1", "replace 4294967296", "replace 1\r",
    "tab ", " tab", "tab 0", "Tab", "TAB", "tabs", "ta", "tab\t", "tab\r",
    "go 1 ", "go 1  0", "go  1 0", "go 1 0 ", "go 1 0 0", "go 1\t0", "go 1 +0", "go 1 -1", "go 1 -0", "go 1 00", "go 1 01", "go 1 4294967296",
    "go 1 18446744073709551616", "go 1 0x1", "go 1 0\r", "go -0 0",
];

/// A script of so many lines, and what the reference prints for it. It follows the table that the reference keeps,
/// so most lines mean something.
pub fn script(random: &mut Random, lines: usize) -> (Vec<u8>, Vec<u8>) {
    let mut table = Table::new();
    let (mut text, mut answers) = (Vec::new(), Vec::new());
    // A long script goes back, drops and replaces so little that the table gets full.
    let (bad_share, drop_share, replace_share, widest_go) =
        if lines > 1000 { (2, 1, 1, 1) } else { (random.pick(&[0, 2, 10, 60]), random.pick(&[0, 3, 15]), random.pick(&[0, 5, 20]), random.pick(&[1, 3, 600])) };
    let tab_share = random.pick(&[0, 2, 10]);
    for _ in 0..lines {
        let line = if random.chance(bad_share) {
            bad_line(random)
        } else if random.chance(drop_share) {
            drop_line(random, &table.words)
        } else if random.chance(replace_share) {
            replace_line(random, &table.words)
        } else if random.chance(tab_share) {
            b"tab".to_vec()
        } else {
            good_line(random, &table.words, widest_go)
        };
        answers.extend(table.answer(&line).bytes());
        answers.push(b'\n');
        text.extend(line);
        text.push(b'\n');
    }
    // The last line may lack its newline; an empty one would then be none.
    if random.chance(40) && text.len() > 1 && !text.ends_with(b"\n\n") {
        text.pop();
    }
    if lines <= 200 {
        assert!(output(&text) == answers, "line by line and whole, the reference prints the same");
    }
    (text, answers)
}

/// A document that is most likely visible, or any number.
fn document(random: &mut Random, words: &[u32], visible: fn(&mut Random, &[u32]) -> u32) -> u32 {
    match random.below(20) {
        0 => random.telling_word(),
        1 | 2 => random.below(words[1] as usize + 2) as u32,
        _ => visible(random, words),
    }
}

fn good_line(random: &mut Random, words: &[u32], widest_go: i64) -> Vec<u8> {
    let document = document(random, words, visible_document);
    let line = match random.below(20) {
        0..=7 => format!("open {document}"),
        8..=14 => format!("nav {document}"),
        15 => format!("go {}{}", random.pick(&[i32::MIN, i32::MAX, 0, 513, -513]), random.pick(&["", " 0", " 1"])),
        _ => go_line(random, words, widest_go),
    };
    line.into_bytes()
}

/// A traversal of a window that most likely accepts it; root frame 0 is left out or not.
fn go_line(random: &mut Random, words: &[u32], widest_go: i64) -> String {
    let root = match random.below(10) {
        0 => random.telling_word(),
        1 => random.below(words[2] as usize + 2) as u32,
        _ => root_frame(random, words),
    };
    let delta = (delta_within(random, words, root, 1) as i64).clamp(-widest_go, widest_go);
    if root == 0 && random.chance(60) { format!("go {delta}") } else { format!("go {delta} {root}") }
}

fn drop_line(random: &mut Random, words: &[u32]) -> Vec<u8> {
    let frame = match random.below(10) {
        0 => random.telling_word(),
        1 | 2 => random.below(words[2] as usize + 2) as u32,
        _ => frame_to_drop(random, words),
    };
    format!("drop {frame}").into_bytes()
}

fn replace_line(random: &mut Random, words: &[u32]) -> Vec<u8> {
    format!("replace {}", document(random, words, document_to_replace)).into_bytes()
}

fn bad_line(random: &mut Random) -> Vec<u8> {
    let length = random.pick(&[1, 10, 63, 64, 65, 66, 128, 4096, 70_000]);
    match random.below(8) {
        0..=3 => random.pick(&BAD).into(),
        // Digits up to and past the longest line, zeros in front among them.
        4 => [random.pick(&["nav ", "drop ", "replace ", "go 1 "]).as_bytes(), &vec![random.pick(b"0123456789"); length]].concat(),
        // A good line's text and then too much of it.
        5 => [random.pick(&["open 0", "tab", "go 0 0"]).as_bytes(), &vec![random.pick(b" 0x\r\0"); length]].concat(),
        6 => random.bytes(length).into_iter().filter(|&byte| byte != b'\n').collect(),
        _ => {
            // A good line with one byte changed; it may stay good.
            let good = ["open 0", "nav 12", "go -1", "go 1", "nav 4294967295", "go -2147483648", "drop 1", "replace 1", "tab", "go 1 0", "go -1 12", "go 0 4294967295"];
            let mut line = random.pick(&good).as_bytes().to_vec();
            let at = random.below(line.len());
            line[at] = random.pick(b" 0129-+/:abceglnoprt\0\xff\r");
            line
        }
    }
}

/// An input cut into pieces, in which it is written one after the other, so that a line may come in several reads.
fn pieces(random: &mut Random, input: &[u8]) -> Vec<Vec<u8>> {
    let longest = random.pick(&[1, 3, 20, 70, 5000]);
    let (mut cut, mut at) = (Vec::new(), 0);
    while at < input.len() && cut.len() < 200 {
        let end = (at + 1 + random.below(longest)).min(input.len());
        cut.push(input[at..end].to_vec());
        at = end;
    }
    cut.push(input[at..].to_vec());
    cut
}

/// What the command prints for an input, and whether it ended well. There is a pause between two pieces.
fn run_command(command: &[String], input: Vec<Vec<u8>>) -> (Vec<u8>, bool) {
    let child = Command::new(&command[0]).args(&command[1..]).stdin(Stdio::piped()).stdout(Stdio::piped()).spawn();
    let mut child = child.unwrap_or_else(|error| panic!("{} does not start: {error}", command[0]));
    let mut stdin = child.stdin.take().unwrap();
    let writer = std::thread::spawn(move || {
        for (number, piece) in input.iter().enumerate() {
            if number > 0 {
                std::thread::sleep(std::time::Duration::from_micros(300));
            }
            if stdin.write_all(piece).is_err() {
                break;
            }
        }
    });
    let mut printed = Vec::new();
    child.stdout.take().unwrap().read_to_end(&mut printed).expect("the command's output can be read");
    writer.join().unwrap();
    (printed, child.wait().is_ok_and(|status| status.success()))
}

/// Runs so many scripts; true when every output is the reference's.
pub fn run(seed: u64, scripts: u64, command: &[String]) -> bool {
    let mut random = Random::new(seed);
    let (mut differences, mut lines) = (0, 0);
    for number in 0..scripts {
        let size = match number {
            0 => 0,
            1 => 1,
            2 => 3000,
            _ => random.pick(&[2, 10, 10, 50, 50, 200, 200, 700]),
        };
        let (input, wanted) = script(&mut random, size);
        let whole = random.chance(30);
        let cut = if whole { vec![input.clone()] } else { pieces(&mut random, &input) };
        let (given, ended_well) = run_command(command, cut);
        lines += wanted.split(|&byte| byte == b'\n').count() - 1;
        if given != wanted || !ended_well {
            differences += 1;
            if differences <= 3 {
                report(seed, number, &input, &wanted, &given, ended_well);
            }
        }
    }
    println!("runner: {scripts} scripts, {lines} lines, {differences} differences (seed {seed})");
    differences == 0
}

fn report(seed: u64, number: u64, input: &[u8], wanted: &[u8], given: &[u8], ended_well: bool) {
    let split = |text: &[u8]| text.split(|&byte| byte == b'\n').map(|line| String::from_utf8_lossy(line).into_owned()).collect::<Vec<_>>();
    let (input_lines, wanted, given) = (split(input), split(wanted), split(given));
    let at = (0..wanted.len().max(given.len())).find(|&at| wanted.get(at) != given.get(at));
    println!("DIFFERENCE in script {number}, seed {seed}; the command ended {}", if ended_well { "well" } else { "with a failure" });
    if let Some(at) = at {
        println!("  line {}: {:?}", at + 1, input_lines.get(at));
        println!("  the reference: {:?}\n  the command:   {:?}", wanted.get(at), given.get(at));
    }
    println!("  the script up to there: {:?}", &input_lines[..input_lines.len().min(at.unwrap_or(0) + 1)]);
}

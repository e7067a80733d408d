//! Reads standard input to its end, line by line, and prints the answer to each line.
use std::io::{Read, Write, stdin, stdout};
use twin::script::Session;

const BUFFER: usize = 1 << 16;

/// Reads, splits and answers; a line that is longer than 64 bytes is bad whatever its 66th byte is, so 65 are kept.
fn main() -> std::io::Result<()> {
    let mut session = Session::new();
    let mut buffer = vec![0; BUFFER];
    let mut line = Vec::with_capacity(65);
    let mut out = Vec::with_capacity(BUFFER);
    let (mut input, mut output) = (stdin().lock(), stdout().lock());
    loop {
        let got = input.read(&mut buffer)?;
        if got == 0 {
            break;
        }
        for &byte in &buffer[..got] {
            if byte == b'\n' {
                session.turn(&line, &mut out);
                line.clear();
                if out.len() > BUFFER - 66 {
                    output.write_all(&out)?;
                    out.clear();
                }
            } else if line.len() < 65 {
                line.push(byte);
            }
        }
    }
    if !line.is_empty() {
        session.turn(&line, &mut out);
    }
    output.write_all(&out)
}

//! reference check: P1 to P12, document 01's small examples and those of document 02, computed by the reference, and laws on all small records.
//! reference script: the script program, from standard input to standard output.
use std::io::{Read, Write};

fn main() {
    match std::env::args().nth(1).as_deref() {
        Some("check") => {
            println!("reference: {} checks of the documents' examples hold", reference::examples::check_all());
            println!("reference: the laws hold on {} small records", reference::laws::check_all());
        }
        Some("script") => {
            let mut input = Vec::new();
            std::io::stdin().read_to_end(&mut input).expect("standard input can be read");
            std::io::stdout().write_all(&reference::script::output(&input)).expect("standard output can be written");
        }
        _ => {
            eprintln!("usage: reference check | reference script");
            std::process::exit(2);
        }
    }
}

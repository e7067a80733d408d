//! runner calls [--seed S] [--calls N] DRIVER [ARGUMENT..]: random calls through the driver, compared with the reference.
//! runner changes DRIVER [ARGUMENT..]: saved bytes of small records with every change of one byte, given to both loading calls.
//! runner listed [--seed S] [--calls N] DRIVER [ARGUMENT..]: so many saved windows, whose contents must tell what loading them does.
//! runner scripts [--seed S] [--scripts N] COMMAND [ARGUMENT..]: random scripts through a script program, compared likewise.
//! runner products [--seed S] [--calls N]: the reference's products of doubles, compared with the machine's own.
mod changes;
mod compare;
mod doubles;
mod listed;
mod maker;
mod random;
mod records;
mod request;
mod saves;
mod scripts;
mod stores;
mod table;
mod windows;

const USAGE: &str = "usage: runner calls [--seed S] [--calls N] DRIVER [ARGUMENT..]
       runner changes DRIVER [ARGUMENT..]
       runner listed [--seed S] [--calls N] DRIVER [ARGUMENT..]
       runner scripts [--seed S] [--scripts N] COMMAND [ARGUMENT..]
       runner products [--seed S] [--calls N]";

fn fail(why: &str) -> ! {
    eprintln!("{why}\n{USAGE}");
    std::process::exit(2);
}

fn main() {
    let mut arguments: Vec<String> = std::env::args().skip(1).collect();
    if arguments.is_empty() {
        fail("no mode is given");
    }
    let mode = arguments.remove(0);
    let (mut seed, mut count) = (20_160_818, None);
    while arguments.len() >= 2 && arguments[0].starts_with("--") {
        let value: u64 = arguments[1].parse().unwrap_or_else(|_| fail("a number is wanted"));
        match arguments[0].as_str() {
            "--seed" => seed = value,
            "--calls" | "--scripts" => count = Some(value),
            _ => fail("no such option"),
        }
        arguments.drain(..2);
    }
    if arguments.is_empty() != (mode == "products") {
        fail("a command is given, or is missing");
    }
    let passed = match mode.as_str() {
        "calls" => compare::run(seed, count.unwrap_or(300_000), &arguments),
        "changes" => changes::run(&arguments),
        "listed" => listed::run(seed, count.unwrap_or(600), &arguments),
        "scripts" => scripts::run(seed, count.unwrap_or(60), &arguments),
        "products" => doubles::run(seed, count.unwrap_or(5_000_000)),
        _ => fail("no such mode"),
    };
    std::process::exit(!passed as i32);
}

//! Sends the calls to the driver and compares what comes back, word by word and byte by byte.
use crate::maker::Maker;
use crate::request::{Reply, Request};
use crate::table::Seen;
use std::io::{self, BufReader, Write};
use std::process::{Child, Command, Stdio};
use std::sync::mpsc::sync_channel;
use std::sync::Arc;

type Batch = Arc<Vec<(Request, Reply)>>;

const BATCH: u64 = 128;
const PRINTED: u64 = 3;

fn start(driver: &[String]) -> Child {
    let child = Command::new(&driver[0]).args(&driver[1..]).stdin(Stdio::piped()).stdout(Stdio::piped()).spawn();
    child.unwrap_or_else(|error| panic!("{} does not start: {error}", driver[0]))
}

/// Runs so many calls; true when nothing differs and every pair of the table occurred.
pub fn run(seed: u64, calls: u64, driver: &[String]) -> bool {
    let mut child = start(driver);
    let mut to_driver = child.stdin.take().unwrap();
    let mut from_driver = BufReader::with_capacity(1 << 20, child.stdout.take().unwrap());
    let (send, receive) = sync_channel::<Batch>(8);
    // One thread makes the calls and writes them; the reader is told of a batch before it is written, so neither waits for the other.
    let maker = std::thread::spawn(move || {
        let mut maker = Maker::new(seed);
        let mut made = 0;
        while made < calls {
            let size = BATCH.min(calls - made);
            let batch: Batch = Arc::new((0..size).map(|_| maker.make()).collect());
            made += size;
            let mut bytes = Vec::new();
            batch.iter().for_each(|(request, _)| request.encode(&mut bytes));
            if send.send(batch).is_err() || to_driver.write_all(&bytes).is_err() {
                return;
            }
        }
    });
    let mut seen = Seen::default();
    let mut done = 0u64;
    let mut ended_early = false;
    'batches: for batch in &receive {
        for (at, (request, wanted)) in batch.iter().enumerate() {
            let Ok(given) = Reply::read(&mut from_driver, request) else {
                let later: Vec<Batch> = receive.iter().collect();
                let open: Vec<&Request> = batch[at..].iter().chain(later.iter().flat_map(|batch| batch.iter())).map(|(request, _)| request).collect();
                report_end(seed, done, &open, driver);
                ended_early = true;
                break 'batches;
            };
            if given != *wanted {
                seen.note_difference(request.call);
                if seen.differences() <= PRINTED {
                    report(seed, done, request, wanted, &given);
                }
            }
            seen.note(request, wanted.refusal);
            done += 1;
        }
    }
    drop(receive);
    drop(from_driver);
    let made_all = maker.join().is_ok();
    let ended_well = child.wait().is_ok_and(|status| status.success());
    seen.print();
    let missing = seen.missing();
    missing.iter().for_each(|what| println!("runner: never occurred: {what}"));
    if !made_all || ended_early || !ended_well {
        println!("runner: the driver or the maker ended early (seed {seed})");
    }
    let differences = seen.differences();
    println!("runner: {done} calls, {} pairs seen, {differences} differences (seed {seed})", seen.pair_count());
    differences == 0 && missing.is_empty() && made_all && !ended_early && ended_well && done == calls
}

fn report(seed: u64, number: u64, request: &Request, wanted: &Reply, given: &Reply) {
    println!("DIFFERENCE at call {number}, seed {seed}");
    print_difference(request, wanted, given);
}

pub fn print_difference(request: &Request, wanted: &Reply, given: &Reply) {
    request.print();
    println!(" the reference:");
    wanted.print();
    println!(" the library:");
    given.print();
}

/// The driver ended before it answered. Its last answers may be lost, so the first of the open calls that ends it is searched for.
fn report_end(seed: u64, number: u64, open: &[&Request], driver: &[String]) {
    if answers_all(open, driver) {
        println!("NO ANSWER to call {number} or one soon after it, seed {seed}; a driver started anew answers all of them");
        return;
    }
    // The first `good` of them are answered, the first `bad` are not.
    let (mut good, mut bad) = (0, open.len());
    while bad - good > 1 {
        let middle = good + (bad - good) / 2;
        if answers_all(&open[..middle], driver) { good = middle } else { bad = middle }
    }
    println!("NO ANSWER to call {}, seed {seed}: the driver ends", number + good as u64);
    open[good].print();
}

fn answers_all(requests: &[&Request], driver: &[String]) -> bool {
    replies(requests, driver).is_some()
}

/// What a driver started anew answers; none where it does not answer all, or does not end well.
pub fn replies(requests: &[&Request], driver: &[String]) -> Option<Vec<Reply>> {
    let mut child = start(driver);
    let mut to_driver = child.stdin.take().unwrap();
    let mut from_driver = BufReader::new(child.stdout.take().unwrap());
    let mut bytes = Vec::new();
    requests.iter().for_each(|request| request.encode(&mut bytes));
    let writer = std::thread::spawn(move || drop(to_driver.write_all(&bytes)));
    let replies: io::Result<Vec<Reply>> = requests.iter().map(|request| Reply::read(&mut from_driver, request)).collect();
    drop(from_driver);
    writer.join().unwrap();
    let ended_well = child.wait().is_ok_and(|status| status.success());
    replies.ok().filter(|_| ended_well)
}

//! The window list of document 02, L8: hundreds of saved windows, for each of which Back and Forward are greyed by its contents; compared with what loading it, and asking for
//! the position of each of its windows, tells. All of it is asked of the library.
use crate::compare::replies;
use crate::random::Random;
use crate::records;
use crate::request::{Call, Reply, Request};
use crate::saves::Form;
use reference::record::rows;
use reference::windows::windows;
use std::collections::BTreeMap;

/// A saved window of either form: of a few rows, of some, or of up to 512; of the new form now and then several windows in one table.
fn saved(random: &mut Random, which: usize) -> (Form, Vec<u8>) {
    let form = if which % 3 == 2 { Form::Old } else { Form::New };
    let most = if form == Form::New { 1 + which % 4 } else { 1 };
    let mut words = match which % 10 {
        0..=5 => records::grown(random, 4 + which % 12, 10, most),
        6..=8 => records::grown(random, 14 + which % 60, 80, most),
        _ => records::nearly_full(random, 200 + which % 313, most),
    };
    if form == Form::Old {
        records::renumber_rising(random, &mut words);
    }
    (form, form.saved(&words))
}

fn request(call: Call, words: Vec<u32>, bytes: Vec<u8>, root: u32) -> Request {
    let lie = bytes.len() as u32 % 3;
    Request { call, number: 0, root, lie, guard: 0x5a5a_5a5a, outs: [9; 3], given: [0; 2], doubles: [0; 2], words, first: vec![], second: vec![], places: vec![], bytes }
}

/// What the library answers to all of these; none where it does not answer all.
fn ask(requests: Vec<Request>, driver: &[String]) -> Option<Vec<Reply>> {
    replies(&requests.iter().collect::<Vec<_>>(), driver)
}

/// Whether Back and Forward work, by position and steps.
fn works(position: u32, steps: u32) -> (bool, bool) {
    (0 < position, position < steps)
}

/// The sums of position and steps over all windows of each record.
fn stands(records: &[Vec<u32>], driver: &[String]) -> Option<Vec<(u32, u32)>> {
    let roots: Vec<(usize, u32)> = records.iter().enumerate().flat_map(|(which, words)| windows(&rows(words)).into_keys().map(move |root| (which, root))).collect();
    let asked = ask(roots.iter().map(|&(which, root)| request(Call::Position, records[which].clone(), vec![], root)).collect(), driver)?;
    let mut sums = vec![(0, 0); records.len()];
    for (&(which, _), reply) in roots.iter().zip(&asked) {
        sums[which] = (sums[which].0 + reply.outs[0], sums[which].1 + reply.outs[1]);
    }
    asked.iter().all(|reply| reply.refusal == 0).then_some(sums)
}

/// Lists so many saved windows; true when the contents of each tell what loading it does, and each of the four ways to grey occurred.
pub fn run(seed: u64, count: u64, driver: &[String]) -> bool {
    let mut random = Random::new(seed);
    let list: Vec<(Form, Vec<u8>)> = (0..count as usize).map(|which| saved(&mut random, which)).collect();
    let calls = |new: Call, old: Call| move |form: Form| if form == Form::New { new } else { old };
    let all = |call: &dyn Fn(Form) -> Call, words: usize| list.iter().map(|(form, bytes)| request(call(*form), vec![7; words], bytes.clone(), 0)).collect();
    let told = ask(all(&calls(Call::Contents, Call::ContentsOld), 0), driver);
    let loaded = ask(all(&calls(Call::Load, Call::LoadOld), 2051), driver);
    let (Some(told), Some(loaded)) = (told, loaded) else { return false };
    let taken = told.iter().chain(&loaded).all(|reply| reply.refusal == 0 && reply.guards == 0);
    let records: Vec<Vec<u32>> = loaded.into_iter().map(|reply| reply.words).collect();
    let Some(stands) = stands(&records, driver).filter(|_| taken) else { return false };
    let mut greyed: BTreeMap<(bool, bool), u64> = BTreeMap::new();
    let mut differences = 0;
    for (reply, stand) in told.iter().zip(&stands) {
        let shown = (reply.outs[0], reply.outs[1]);
        differences += (shown != *stand || reply.outs[2] != 9) as u64;
        *greyed.entry(works(shown.0, shown.1)).or_default() += 1;
    }
    let several = records.iter().filter(|words| windows(&rows(words)).len() > 1).count();
    println!("runner: {count} saved windows listed, {several} of them several in a table, {differences} differences; Back and Forward work: {greyed:?}");
    differences == 0 && greyed.len() == 4 && several > 0
}

//! `bench`: the proved replay beside the checker, the same files in the same run, as a table of ratios, a swap in plain scans of its words, and
//! a plot (bench/growth.svg) of time against steps and against words.

mod files;
mod plot;
mod previews;
mod scan;
mod terms;

use bench::Pair;
use checker::words::part;
use std::collections::HashMap;
use std::hint::black_box;
use std::time::Instant;

/// Seconds for one of so many calls.
fn round<S>(state: &mut S, call: &impl Fn(&mut S) -> u64, calls: u32) -> f64 {
    let start = Instant::now();
    for _ in 0..calls {
        black_box(call(state));
    }
    start.elapsed().as_secs_f64() / f64::from(calls)
}

/// What a measurement gives with the stack so much deeper.
fn deeper<T>(levels: usize, measurement: &mut dyn FnMut() -> T) -> T {
    black_box([0u8; 256]);
    if levels == 0 { measurement() } else { black_box(deeper(levels - 1, measurement)) }
}

/// Microseconds for one call of each: the least of fifteen rounds of about ten milliseconds. They take turns, so that a machine whose speed
/// changes from second to second gives both the same chance, and each round has its own place on the stack: one that lies a multiple of 4 KB
/// away from the declarations would slow the copies down.
fn times<S>(state: &mut S, ours: impl Fn(&mut S) -> u64, theirs: impl Fn(&mut S) -> u64) -> (f64, f64) {
    let calls = |once: f64| (0.01 / once.max(1e-7)).ceil() as u32;
    let (n, m) = (calls(round(state, &ours, 1)), calls(round(state, &theirs, 1)));
    let rounds = (0..15).map(|k| deeper(k, &mut || (round(state, &ours, n), round(state, &theirs, m))));
    let least = rounds.reduce(|a, b| (a.0.min(b.0), a.1.min(b.1))).expect("fifteen rounds");
    (least.0 * 1e6, least.1 * 1e6)
}

fn measure(pair: &mut Pair, file: &[u8]) -> (f64, f64) {
    pair.agree(file).expect("both answer alike");
    times(pair, |pair| pair.proved(file), |pair| pair.checker(file))
}

/// The typing of single terms.
fn typing() {
    let (short, long) = (terms::Declared::short(), terms::Declared::long());
    println!("| term | words | words an index | proved (µs) | checker (µs) | ratio |\n|---|---|---|---|---|---|");
    for (name, is_long, text) in terms::table() {
        let term = terms::Typed::of(if is_long { &long } else { &short }, &text);
        assert_eq!(term.proved(), term.checker(), "{name}: both find one depth");
        let (ours, theirs) = times(&mut (), |_| term.proved(), |_| term.checker());
        println!("| {name} | {} | {} | {ours:.2} | {theirs:.2} | {:.2} |", term.length(), if is_long { 63 } else { 1 }, ours / theirs);
    }
    println!();
}

/// Steps shown first, beside the same steps taken on a copy, and all rules tried at a place.
fn previews() {
    println!("| step | words | code | preview (µs) | step on a copy (µs) | ratio | all rules there (µs) |\n|---|---|---|---|---|---|---|");
    for (name, mut shown) in previews::table() {
        let code = shown.preview();
        assert_eq!(code, shown.taken(), "{name}: the preview answers as the step does");
        let (ours, theirs) = times(&mut shown, |shown| shown.preview(), |shown| shown.taken());
        let (all, _) = times(&mut shown, |shown| shown.rules(), |_| 0);
        println!("| {name} | {} | {code} | {ours:.2} | {theirs:.2} | {:.2} | {all:.0} |", shown.length(), ours / theirs);
    }
    println!();
}

/// The files, and the times of each by its name.
fn replays(pair: &mut Pair) -> HashMap<&'static str, (f64, f64)> {
    let mut taken = HashMap::new();
    println!("| file | bytes | code | proved (µs) | checker (µs) | ratio |\n|---|---|---|---|---|---|");
    for (name, file) in files::table() {
        let code = pair.proved(&file);
        let (ours, theirs) = measure(pair, &file);
        println!("| {name} | {} | {code} | {ours:.1} | {theirs:.1} | {:.2} |", file.len(), ours / theirs);
        taken.insert(name, (ours, theirs));
    }
    println!();
    taken
}

/// One plain scan of a large term's words, and what a swap on them takes of it. A swap is what each of 1,000 adds to the file without steps.
fn scans(taken: &HashMap<&str, (f64, f64)>) {
    let words = terms::words(&files::sum(3826));
    assert_eq!(scan::end(&words), Some(part(&words, 0).words.len()), "both find one end");
    let plain = |words: &mut &[u16]| scan::end(black_box(words)).unwrap_or(0) as u64;
    let lookup = |words: &mut &[u16]| part(black_box(words), 0).depth as u64;
    let (plain, lookup) = times(&mut &words[..], plain, lookup);
    let (with, without) = (taken["1,000 swaps on 3,826 words"], taken["no steps on 3,826 words"]);
    let (ours, theirs) = ((with.0 - without.0) / 1000.0, (with.1 - without.1) / 1000.0);
    println!("one plain scan of {} words: {plain:.2} µs; a swap on them takes {:.1} of it", words.len(), ours / plain);
    println!("the checker's lookup of their end and depth: {lookup:.2} µs; its swap takes {:.1} of the scan", theirs / plain);
}

fn main() {
    typing();
    previews();
    let mut pair = Pair::default();
    let taken = replays(&mut pair);
    scans(&taken);
    let by_steps: Vec<_> = (0..=10).map(|k| (100 * k, measure(&mut pair, &files::swaps(30, 100 * k)))).collect();
    let by_words: Vec<_> = (1..=10).map(|k| (380 * k, measure(&mut pair, &files::swaps(380 * k, 100)))).collect();
    plot::draw("bench/growth.svg", &[("steps, on a sum of 30 words", &by_steps), ("words, with 100 swaps", &by_words)]).expect("bench/growth.svg is written");
}

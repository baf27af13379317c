//! `scale SEED COUNT`: COUNT random files of a seed through both, accepted, damaged and with near-miss steps. Every answer and every word of both
//! slices is compared; before every other file the slices are filled with rubbish. The exit status is 1 at the first difference.

use bench::{random_file, Pair};
use std::collections::BTreeMap;
use std::process::ExitCode;
use std::time::Instant;

fn argument(k: usize, otherwise: u64) -> u64 {
    std::env::args().nth(k).map_or(otherwise, |text| text.parse().expect("a number"))
}

fn main() -> ExitCode {
    let (seed, count) = (argument(1, 1), argument(2, 20_000));
    let mut pair = Pair::default();
    let mut codes: BTreeMap<u64, u64> = BTreeMap::new();
    let started = Instant::now();
    for k in 0..count {
        if k % 2 == 1 {
            pair.dirty();
        }
        let file = random_file(seed, k);
        match pair.agree(&file) {
            Ok(code) => *codes.entry(code).or_default() += 1,
            Err(what) => {
                eprintln!("file {k} of seed {seed} differs: {what}\n{}", String::from_utf8_lossy(&file));
                return ExitCode::FAILURE;
            }
        }
        if k % 100_000 == 99_999 {
            eprintln!("{} files, none differ", k + 1);
        }
    }
    let told: Vec<String> = codes.iter().map(|(code, n)| format!("{code}: {n}")).collect();
    println!("{count} files of seed {seed}, none differ, {:.0} s; by code {}", started.elapsed().as_secs_f64(), told.join(", "));
    ExitCode::SUCCESS
}

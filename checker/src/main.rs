//! The program: one file from standard input, or a folder of cases.

use checker::case::{self, Sort};
use checker::file::BYTES;
use checker::gen::{damaged, Gen};
use checker::lent::Rooms;
use checker::numbers;
use std::io::{self, Read, Write};
use std::path::Path;
use std::process::ExitCode;
use std::{env, fs};

const USAGE: &str = "\
checker replay < FILE               the answer to a file
checker typing < FILE               the answer to a typing case
checker step < FILE                 the answer to a step case
checker run < FILE                  the answer to a run case
checker preview < FILE              the answer to a preview case
checker vectors DIR                 runs the cases under a folder
checker gen SEED COUNT KIND DIR     writes cases; KIND is accepted, damaged, replay (files of
                                    all sorts), typing, step, run or preview
checker numbers KIND DIR IN OUT     writes a folder's cases and stored answers as numbers;
                                    KIND is replay, typing, step, run or preview
";

fn main() -> ExitCode {
    let words: Vec<String> = env::args().skip(1).collect();
    let words: Vec<&str> = words.iter().map(String::as_str).collect();
    let done = match words[..] {
        ["replay"] => answer(Sort::Replay),
        ["typing"] => answer(Sort::Typing),
        ["step"] => answer(Sort::Step),
        ["run"] => answer(Sort::Run),
        ["preview"] => answer(Sort::Preview),
        ["vectors", folder] => vectors(Path::new(folder)),
        ["gen", seed, count, kind, folder] => generate(seed, count, kind, Path::new(folder)),
        ["numbers", kind, folder, input, output] => {
            numbered(kind, Path::new(folder), input, output)
        }
        _ => Err(USAGE.to_string()),
    };
    match done {
        Ok(()) => ExitCode::SUCCESS,
        Err(message) => {
            eprintln!("{}", message.trim_end());
            ExitCode::FAILURE
        }
    }
}

fn told(error: io::Error) -> String {
    error.to_string()
}

/// Answers one case from standard input. No more than one byte past the limit
/// of a file is read; the other cases have none.
fn answer(sort: Sort) -> Result<(), String> {
    let most = if sort == Sort::Replay { BYTES as u64 + 1 } else { u64::MAX };
    let mut input = Vec::new();
    io::stdin().take(most).read_to_end(&mut input).map_err(told)?;
    let text = sort.answer(&input, &mut Rooms::default())?;
    io::stdout().write_all(text.as_bytes()).map_err(told)
}

fn vectors(folder: &Path) -> Result<(), String> {
    let (count, wrong) = case::run(folder).map_err(told)?;
    if count == 0 {
        return Err(format!("{}: no cases", folder.display()));
    }
    if wrong.is_empty() {
        return writeln!(io::stdout(), "{count} cases, all as stored").map_err(told);
    }
    Err(format!("{}\n{} of {count} cases differ", wrong.join("\n"), wrong.len()))
}

/// Writes cases with this checker's answers beside them.
fn generate(seed: &str, count: &str, kind: &str, folder: &Path) -> Result<(), String> {
    let seed: u64 = seed.parse().map_err(|_| "SEED is a number".to_string())?;
    let count: usize = count.parse().map_err(|_| "COUNT is a number".to_string())?;
    let sort = match kind {
        "accepted" | "damaged" | "replay" => Sort::Replay,
        "typing" => Sort::Typing,
        "step" => Sort::Step,
        "run" => Sort::Run,
        "preview" => Sort::Preview,
        _ => return Err(USAGE.to_string()),
    };
    let folder = folder.join(sort.folder());
    fs::create_dir_all(&folder).map_err(told)?;
    let mut gen = Gen::new(seed);
    let mut rooms = Rooms::default();
    for number in 0..count {
        let input = match kind {
            "accepted" => gen.accepted(30),
            "damaged" => {
                let file = gen.accepted(30);
                damaged(&mut gen.rng, &file)
            }
            "replay" => gen.replay_case(),
            "typing" => gen.typing_case(),
            "step" | "preview" => gen.step_case(),
            _ => gen.run_case(),
        };
        let path = folder.join(format!("{kind}-{seed}-{number:06}.in"));
        fs::write(path.with_extension("out"), sort.answer(&input, &mut rooms)?).map_err(told)?;
        fs::write(&path, input).map_err(told)?;
    }
    Ok(())
}

/// Writes a folder's cases to one file and their stored answers to another.
fn numbered(kind: &str, folder: &Path, input: &str, output: &str) -> Result<(), String> {
    let (cases, answers) = match kind {
        "replay" => numbers::replay(folder)?,
        "typing" => numbers::typing(folder)?,
        "step" => numbers::step(folder)?,
        "run" => numbers::run(folder)?,
        "preview" => numbers::preview(folder)?,
        _ => return Err(USAGE.to_string()),
    };
    fs::write(input, cases).map_err(told)?;
    fs::write(output, answers).map_err(told)
}

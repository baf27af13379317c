//! `batch [--json] [--only SUFFIX] PATH..`: replays files, and the files of folders, in the same two work slices. It begins with the longest
//! file and goes on with the shortest; the others follow in their order. Progress goes to standard error; what was refused and why, in words,
//! to standard output, with a summary; with `--json` a line a file instead. With `--only` a folder's files count only where their names end
//! so. The exit status is 0 only if every file was accepted; files that cannot be read are named and counted.

mod files;

use fejogbu::{replay, Answer, Code, Work};
use files::{files_under, progress, read};
use std::cmp::Reverse;
use std::fs;
use std::path::{Path, PathBuf};
use std::process::ExitCode;

const HELP: &str = "\
usage: batch [--json] [--only SUFFIX] PATH..   (a path is a file or a folder)
  --json         a line a file, for a machine
  --only SUFFIX  of a folder, only the files whose names end so
The longest file is replayed first and the shortest second, all in the same two work slices: should a short
term keep the tail of a longer one, that would show at once. The others follow in their order.";

/// What was asked for.
#[derive(Default)]
struct Asked {
    json: bool,
    only: String,
    paths: Vec<PathBuf>,
}

fn asked(mut words: impl Iterator<Item = String>) -> Option<Asked> {
    let mut asked = Asked::default();
    while let Some(word) = words.next() {
        match word.as_str() {
            "--json" => asked.json = true,
            "--only" => asked.only = words.next()?,
            _ if word.starts_with("--") => return None,
            _ => asked.paths.push(word.into()),
        }
    }
    (!asked.paths.is_empty()).then_some(asked)
}

/// The order of the replay: the longest file, the shortest, then the others as they come. So the customer's batches have begun ever since a short term kept the stale tail of a
/// longer one. Of files of one length the first counts, and a file without a length keeps its place.
fn in_order<F>(files: Vec<F>, length: impl Fn(&F) -> Option<u64>) -> Vec<F> {
    let lengths: Vec<(u64, usize)> = files
        .iter()
        .enumerate()
        .filter_map(|(k, file)| Some((length(file)?, k)))
        .collect();
    let longest = lengths.iter().max_by_key(|(n, k)| (*n, Reverse(*k)));
    let longest = longest.map(|&(_, k)| k);
    let others = lengths.iter().filter(|(_, k)| Some(*k) != longest);
    let shortest = others.min().map(|&(_, k)| k);
    let mut placed: Vec<(usize, F)> = files.into_iter().enumerate().collect();
    // The sort is stable.
    placed.sort_by_key(|&(k, _)| match Some(k) {
        place if place == longest => 0,
        place if place == shortest => 1,
        _ => 2,
    });
    placed.into_iter().map(|(_, file)| file).collect()
}

fn quoted(text: &str) -> String {
    let mut out = String::from('"');
    for c in text.chars() {
        match c {
            '"' | '\\' => out.extend(['\\', c]),
            c if (c as u32) < 32 => out += &format!("\\u{:04x}", c as u32),
            c => out.push(c),
        }
    }
    out.push('"');
    out
}

/// The rule of a file's step, counted from 1, as its line names it.
fn rule_of(file: &[u8], step: usize) -> Option<u16> {
    let lines = file
        .split(|&byte| byte == b'\n')
        .filter(|line| line.starts_with(b"step="));
    let line = std::str::from_utf8(lines.skip(step.checked_sub(1)?).next()?).ok()?;
    line.split(' ').nth(1)?.parse().ok()
}

/// What a replay answers, and the same in words.
struct Told {
    answer: Answer,
    words: String,
}

fn told(path: &Path, work: &mut Work) -> Result<Told, String> {
    let file = read(path).map_err(|e| e.to_string())?;
    let answer = replay(&file, work);
    let words = answer.told(rule_of(&file, answer.step));
    Ok(Told { answer, words })
}

fn json(path: &Path, answer: &Result<Told, String>) -> String {
    let file = quoted(&path.to_string_lossy());
    match answer {
        Ok(Told { answer: a, words }) => format!(
            r#"{{"file":{file},"code":{},"side":{},"step":{},"at":{},"left":{},"right":{},"words":{}}}"#,
            a.code.number(),
            a.side.map_or(0, |side| side.number()),
            a.step,
            a.at,
            a.left,
            a.right,
            quoted(words)
        ),
        Err(why) => format!(r#"{{"file":{file},"unreadable":{}}}"#, quoted(why)),
    }
}

/// How many files there were of each kind.
#[derive(Default)]
struct Counts {
    accepted: usize,
    refused: usize,
    unreadable: usize,
}

impl Counts {
    /// Counts a file, and has a line for one that was not accepted.
    fn add(&mut self, path: &Path, answer: &Result<Told, String>) -> Option<String> {
        let path = path.display();
        match answer {
            Ok(t) if t.answer.code == Code::Accepted => {
                self.accepted += 1;
                None
            }
            Ok(t) => {
                self.refused += 1;
                Some(format!("{path}\t{}\t{}", t.answer.code.number(), t.words))
            }
            Err(why) => {
                self.unreadable += 1;
                Some(format!("{path}\tunreadable\t{why}"))
            }
        }
    }
}

fn main() -> ExitCode {
    let Some(asked) = asked(std::env::args().skip(1)) else {
        eprintln!("{HELP}");
        return ExitCode::from(2);
    };
    let mut files = Vec::new();
    for path in &asked.paths {
        files_under(path, &asked.only, &mut files);
    }
    let files = in_order(files, |path| Some(fs::metadata(path).ok()?.len()));
    let mut work = Work::new();
    let mut counts = Counts::default();
    for (k, path) in files.iter().enumerate() {
        let answer = told(path, &mut work);
        let line = counts.add(path, &answer);
        if asked.json {
            println!("{}", json(path, &answer));
        } else if let Some(line) = line {
            println!("{line}");
        }
        progress(k + 1, files.len());
    }
    let Counts {
        accepted,
        refused,
        unreadable,
    } = counts;
    if !asked.json {
        println!(
            "{} files: {accepted} accepted, {refused} refused, {unreadable} unreadable",
            files.len()
        );
    }
    if refused + unreadable == 0 {
        ExitCode::SUCCESS
    } else {
        ExitCode::FAILURE
    }
}

#[cfg(test)]
mod tests {
    use super::in_order;

    fn replayed(lengths: &[u64]) -> Vec<u64> {
        in_order(lengths.to_vec(), |&n| (n != 0).then_some(n))
    }

    #[test]
    fn the_longest_comes_first_and_the_shortest_second() {
        assert_eq!(replayed(&[5, 3, 9, 4, 2, 7]), [9, 2, 5, 3, 4, 7]);
        assert_eq!(replayed(&[1, 2]), [2, 1]);
        assert_eq!(replayed(&[2, 1]), [2, 1]);
        assert_eq!(replayed(&[6]), [6]);
        assert!(replayed(&[]).is_empty());
    }

    #[test]
    fn of_files_of_one_length_the_first_counts() {
        let files = vec![(4, 'a'), (9, 'b'), (1, 'c'), (9, 'd'), (1, 'e')];
        let names = in_order(files, |&(n, _)| Some(n));
        assert_eq!(names.iter().map(|f| f.1).collect::<String>(), "bcade");
        let files = vec![(4, 'a'), (4, 'b'), (4, 'c')];
        let names = in_order(files, |&(n, _)| Some(n));
        assert_eq!(names.iter().map(|f| f.1).collect::<String>(), "abc");
    }

    /// Here 0 stands for no length.
    #[test]
    fn a_file_without_a_length_keeps_its_place() {
        assert_eq!(replayed(&[0, 3, 0, 9, 5]), [9, 3, 0, 0, 5]);
        assert_eq!(replayed(&[0, 0]), [0, 0]);
    }
}

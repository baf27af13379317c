//! The stored cases, and a row for each of them in their README.

use checker::{case, numbers};
use std::fs;
use std::path::Path;

#[test]
fn all_stored_cases() {
    let folder = Path::new(env!("CARGO_MANIFEST_DIR")).join("vectors");
    let (count, wrong) = case::run(&folder).expect("the folder of cases");
    assert!(wrong.is_empty(), "{}", wrong.join("\n"));
    assert!(count > 100, "{count} cases");
}

/// The codes of a folder's stored answers.
fn stored_codes(sort: case::Sort) -> Vec<u8> {
    let folder = Path::new(env!("CARGO_MANIFEST_DIR")).join("vectors").join(sort.folder());
    let mut codes = Vec::new();
    for entry in fs::read_dir(folder).unwrap() {
        let path = entry.unwrap().path();
        if path.extension().is_some_and(|extension| extension == "out") {
            let text = fs::read_to_string(path).unwrap();
            let code = text.lines().next().unwrap().strip_prefix("code=").unwrap();
            codes.push(code.parse::<u8>().unwrap());
        }
    }
    codes.sort();
    codes.dedup();
    codes
}

#[test]
fn every_code_has_a_case() {
    // 1 of a replay is tested by a call.
    let codes = [0, 2, 3, 4, 5, 6, 7, 8, 9, 10, 11, 12, 13, 20, 21, 22, 23, 30];
    assert_eq!(stored_codes(case::Sort::Replay), codes);
    assert_eq!(stored_codes(case::Sort::Typing), [0, 7, 8, 10, 11, 13]);
    let codes = [0, 1, 7, 8, 10, 11, 13, 20, 21, 22, 23];
    assert_eq!(stored_codes(case::Sort::Step), codes);
    assert_eq!(stored_codes(case::Sort::Preview), codes);
    let codes = [0, 1, 5, 6, 7, 8, 9, 10, 11, 12, 13, 20, 21, 22, 23, 30];
    assert_eq!(stored_codes(case::Sort::Run), codes);
}

#[test]
fn every_case_has_its_row() {
    let folder = Path::new(env!("CARGO_MANIFEST_DIR")).join("vectors");
    let table = fs::read_to_string(folder.join("README.md")).unwrap();
    for sort in case::Sort::ALL {
        for entry in fs::read_dir(folder.join(sort.folder())).unwrap() {
            let path = entry.unwrap().path();
            let name = path.file_stem().unwrap().to_str().unwrap();
            let row = format!("| {}/{name} |", sort.folder());
            assert!(table.contains(&row), "no row for {row}");
        }
    }
}

/// The stored cases of every sort as numbers, in the order of their numbers.
fn numbered() -> (Vec<u8>, Vec<u8>) {
    let folder = Path::new(env!("CARGO_MANIFEST_DIR")).join("vectors");
    let (mut cases, mut answers) = (Vec::new(), Vec::new());
    let sorts = [numbers::typing, numbers::step, numbers::run, numbers::replay, numbers::preview];
    for of_sort in sorts {
        let (more_cases, more_answers) = of_sort(&folder).expect("the cases as numbers");
        cases.extend(more_cases);
        answers.extend(more_answers.into_bytes());
    }
    (cases, answers)
}

/// The lines that stand in a file of the proved program before the stored cases
/// with which it ends.
fn lines_before(cases: &[u8], name: &str) -> Vec<String> {
    let folder = Path::new(env!("CARGO_MANIFEST_DIR")).join("../crates/cases");
    let stored = fs::read(folder.join(name)).expect(name);
    let before = stored.strip_suffix(cases);
    let before = before.unwrap_or_else(|| panic!("{name}: see `checker numbers` in README.md"));
    let text = std::str::from_utf8(before).expect(name);
    text.lines().map(String::from).collect()
}

#[test]
fn the_program_is_run_on_the_stored_cases() {
    let (cases, answers) = numbered();
    // The cases of terms as words, which have names and comments, come first.
    let mut by_hand = lines_before(&cases, "stdin");
    by_hand.retain(|line| !line.starts_with('#'));
    let answered = lines_before(&answers, "stdout");
    assert_eq!(by_hand.len(), answered.len());
    for (case, answer) in by_hand.iter().zip(&answered) {
        let (name, _) = answer.split_once('=').expect(answer);
        assert!(case.starts_with(&format!("1 {name}=")), "{case} is answered by {answer}");
    }
}

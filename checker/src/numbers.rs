//! Cases as lines of decimal numbers, for programs that read no text.
//!
//! A case begins with the number of its sort, by which one program answers all
//! sorts. But for a file its declarations follow: the number of types; the
//! number of bases and of each the length and words of its index; the number of
//! variables and of each its kind (0 scalar, 1 ket, 2 bra, 3 operator, and 4 more
//! where it is marked) and the lengths and words of two indices. What a slice begins
//! with is the length that is told, the number of words and the words.
//!
//! A typing case has these of its slice. A step or preview case has them, the
//! number of words of the whole slice, the word behind the first ones, the rule,
//! the place, i and j. A run case has for the left and then the right what the
//! slice begins with and how many words it has; then the count of steps that is
//! told, the number of the steps' words, and these. A file is no line of numbers:
//! it is its length, a line feed, and its bytes as they are.
//!
//! An answer begins with code, side, step, at. Typing and a preview add length,
//! depth, kind, and the lengths and words of the index of the rows and that of
//! the columns; a step the length and the slice, a run and a replay both lengths
//! and both slices: the number of words up to the last that is not zero, and these.
//! Answers are made of the stored `.out` alone: this checker neither types a
//! case nor takes its steps. Only the words that a replay leaves in its slices
//! are the checker's own, since the `.out` of a file does not tell them.

use crate::case::{inputs, Sort};
use crate::decl::{Declarations, Letter, Variable};
use crate::file::{number, words};
use crate::lent::{Case, Lent, RunCase};
use crate::replay::replay as replayed;
use crate::words::{split_part, used, WORDS};
use std::fs;
use std::path::Path;
use std::str::Lines;

/// The most bytes of a file that the program reads: more than a file may have.
const MOST: usize = 70_000;

/// Cases, and their answers a line each.
pub type Numbered = (Vec<u8>, String);

/// The files of a folder by name, and their stored answers with the words that
/// this checker's replay leaves.
pub fn replay(folder: &Path) -> Result<Numbered, String> {
    numbered(folder, Sort::Replay, |file| Ok(counted(file)), replay_answer)
}

/// The typing cases of a folder by name, and their stored answers.
pub fn typing(folder: &Path) -> Result<Numbered, String> {
    lines(folder, Sort::Typing, typing_case, typing_answer)
}

/// The step cases of a folder by name, and their stored answers.
pub fn step(folder: &Path) -> Result<Numbered, String> {
    lines(folder, Sort::Step, step_case, step_answer)
}

/// The run cases of a folder by name, and their stored answers.
pub fn run(folder: &Path) -> Result<Numbered, String> {
    lines(folder, Sort::Run, run_case, run_answer)
}

/// The preview cases of a folder by name, and their stored answers.
pub fn preview(folder: &Path) -> Result<Numbered, String> {
    lines(folder, Sort::Preview, step_case, preview_answer)
}

/// Cases that are a line each, and answers that are made of the stored ones.
fn lines(
    folder: &Path,
    sort: Sort,
    of_case: fn(&[u8]) -> Result<Vec<usize>, String>,
    of_answer: fn(Stored) -> Option<Vec<usize>>,
) -> Result<Numbered, String> {
    let of_case = |input: &[u8]| Ok(line(&of_case(input)?).into_bytes());
    numbered(folder, sort, of_case, |_, stored| of_answer(stored))
}

fn numbered(
    folder: &Path,
    sort: Sort,
    of_case: impl Fn(&[u8]) -> Result<Vec<u8>, String>,
    of_answer: impl Fn(&[u8], Stored) -> Option<Vec<usize>>,
) -> Result<Numbered, String> {
    let (mut cases, mut answers) = (Vec::new(), String::new());
    for input in inputs(&folder.join(sort.folder())).map_err(|error| error.to_string())? {
        let told = |error: String| format!("{}: {error}", input.display());
        let bytes = fs::read(&input).map_err(|error| told(error.to_string()))?;
        let stored = fs::read_to_string(input.with_extension("out"))
            .map_err(|error| told(error.to_string()))?;
        cases.extend(format!("{} ", number_of(sort)).into_bytes());
        cases.extend(of_case(&bytes).map_err(told)?);
        let answer = of_answer(&bytes, Stored(stored.lines()));
        answers += &line(&answer.ok_or_else(|| told("no answer".into()))?);
    }
    if cases.is_empty() {
        return Err(format!("{}: no {} cases", folder.display(), sort.folder()));
    }
    Ok((cases, answers))
}

/// The number that a case begins with. 1 is that of the cases of terms as words,
/// which are no files of a folder.
fn number_of(sort: Sort) -> usize {
    match sort {
        Sort::Typing => 2,
        Sort::Step => 3,
        Sort::Run => 4,
        Sort::Replay => 5,
        Sort::Preview => 6,
    }
}

fn line(numbers: &[usize]) -> String {
    let texts: Vec<String> = numbers.iter().map(usize::to_string).collect();
    texts.join(" ") + "\n"
}

/// Words with their number in front.
fn push(numbers: &mut Vec<usize>, words: &[u16]) {
    numbers.push(words.len());
    numbers.extend(words.iter().map(|&word| usize::from(word)));
}

/// The length that is told of a slice, and the words that it begins with.
fn push_lent(numbers: &mut Vec<usize>, lent: &Lent) {
    numbers.push(lent.length);
    push(numbers, &lent.words);
}

/// The bytes of a file behind their number; of a longer one the first that the
/// program reads, since all files of more than 65,536 bytes have one answer.
fn counted(file: &[u8]) -> Vec<u8> {
    let read = &file[..file.len().min(MOST)];
    [format!("{}\n", read.len()).as_bytes(), read].concat()
}

/// The slice is the one that the program lends, 4,096 words with zeros behind
/// the first ones.
fn typing_case(input: &[u8]) -> Result<Vec<usize>, String> {
    let case = Case::read(input)?;
    if case.lent.size != WORDS || case.behind != 0 {
        return Err("not as numbers".into());
    }
    let mut out = declared(&case.declared);
    push_lent(&mut out, &case.lent);
    Ok(out)
}

fn step_case(input: &[u8]) -> Result<Vec<usize>, String> {
    let (case, step) = Case::read_with_step(input)?;
    let mut out = declared(&case.declared);
    push_lent(&mut out, &case.lent);
    out.extend([case.lent.size, case.behind.into()]);
    out.extend([step.rule, step.place, step.i, step.j].map(usize::from));
    Ok(out)
}

fn run_case(input: &[u8]) -> Result<Vec<usize>, String> {
    let case = RunCase::read(input)?;
    let mut out = declared(&case.declared);
    for lent in [&case.left, &case.right] {
        push_lent(&mut out, lent);
        out.push(lent.size);
    }
    out.push(case.count);
    push(&mut out, &case.steps);
    Ok(out)
}

fn declared(declared: &Declarations) -> Vec<usize> {
    let mut out = vec![declared.types, declared.bases.len()];
    for index in &declared.bases {
        push(&mut out, index);
    }
    out.push(declared.variables.len());
    for variable in &declared.variables {
        let (first, second) = indices(variable);
        out.push(variable.kind.into());
        push(&mut out, first);
        push(&mut out, second);
    }
    out
}

/// A variable's words as two indices. Only an operator has a second, and what is of
/// no kind may: what stands behind its first. Words that fit no index stay, to be
/// refused.
fn indices(variable: &Variable) -> (&[u16], &[u16]) {
    let words = &variable.words[..];
    match variable.letter() {
        Some(Letter::Scalar | Letter::Ket | Letter::Bra) => (words, &[]),
        Some(Letter::Operator) | None => split_part(words),
    }
}

fn typing_answer(mut stored: Stored) -> Option<Vec<usize>> {
    let code = stored.number("code")?;
    let at = stored.number("at")?;
    let mut out = vec![code, 0, 0, at];
    out.extend(stored.term()?);
    Some(out)
}

fn preview_answer(mut stored: Stored) -> Option<Vec<usize>> {
    let mut out = stored.step_fields()?;
    out.extend(stored.term()?);
    Some(out)
}

fn step_answer(mut stored: Stored) -> Option<Vec<usize>> {
    let mut out = stored.step_fields()?;
    out.push(stored.number("length")?);
    push(&mut out, &stored.words("words")?);
    Some(out)
}

/// The six numbers are the stored ones. The words of the slices are those that
/// this checker's replay leaves, where zeros stood before.
fn replay_answer(file: &[u8], mut stored: Stored) -> Option<Vec<usize>> {
    let mut out = stored.fields()?;
    let (mut left, mut right) = ([0; WORDS], [0; WORDS]);
    replayed(file, &mut left, &mut right);
    push(&mut out, used(&left));
    push(&mut out, used(&right));
    Some(out)
}

fn run_answer(mut stored: Stored) -> Option<Vec<usize>> {
    let mut out = stored.fields()?;
    push(&mut out, &stored.words("left-words")?);
    push(&mut out, &stored.words("right-words")?);
    Some(out)
}

/// The lines of a stored answer that were not read yet.
struct Stored<'s>(Lines<'s>);

impl<'s> Stored<'s> {
    fn value(&mut self, key: &str) -> Option<&'s str> {
        self.0.next()?.strip_prefix(key)?.strip_prefix('=')
    }

    fn number(&mut self, key: &str) -> Option<usize> {
        number(self.value(key)?.as_bytes())
    }

    /// What a step's and a preview's answer begin with; they name no side.
    fn step_fields(&mut self) -> Option<Vec<usize>> {
        let code = self.number("code")?;
        let step = self.number("step")?;
        let at = self.number("at")?;
        Some(vec![code, 0, step, at])
    }

    /// A term's length, depth and type. A bra's index is that of its columns.
    fn term(&mut self) -> Option<Vec<usize>> {
        let length = self.number("length")?;
        let depth = self.number("depth")?;
        let name = self.value("kind")?;
        let kind = ["scalar", "ket", "bra", "operator"].iter().position(|&kind| kind == name)?;
        let (first, second) = (self.words("first")?, self.words("second")?);
        let (rows, columns) = if name == "bra" { (second, first) } else { (first, second) };
        let mut out = vec![length, depth, kind];
        push(&mut out, &rows);
        push(&mut out, &columns);
        Some(out)
    }

    /// The six numbers of a run or a replay.
    fn fields(&mut self) -> Option<Vec<usize>> {
        let keys = ["code", "side", "step", "at", "left", "right"];
        keys.iter().map(|key| self.number(key)).collect()
    }

    /// No tokens are no words.
    fn words(&mut self, key: &str) -> Option<Vec<u16>> {
        match self.value(key)? {
            "" => Some(Vec::new()),
            tokens => words(tokens.as_bytes()),
        }
    }
}

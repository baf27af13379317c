//! Stored cases: what goes in, what comes out, and the run over a folder.
//!
//! A folder has up to five sub-folders, `replay`, `typing`, `step`, `run` and
//! `preview`; each case is `NAME.in` with `NAME.out` beside it.

use crate::lent::{Case, Rooms, RunCase};
use crate::preview::preview;
use crate::replay::replay;
use crate::step::single;
use crate::typing::{typing, Kind, Type};
use crate::words::{tokens, used, WORDS};
use std::path::{Path, PathBuf};
use std::{fs, io};

#[derive(Clone, Copy, PartialEq, Eq, Debug)]
pub enum Sort {
    Replay,
    Typing,
    Step,
    Run,
    Preview,
}

impl Sort {
    pub const ALL: [Sort; 5] = [Sort::Replay, Sort::Typing, Sort::Step, Sort::Run, Sort::Preview];

    pub fn folder(self) -> &'static str {
        match self {
            Sort::Replay => "replay",
            Sort::Typing => "typing",
            Sort::Step => "step",
            Sort::Run => "run",
            Sort::Preview => "preview",
        }
    }

    /// What comes out; an error only when a case that is no file is not laid
    /// out as such. Only a run uses the rooms.
    pub fn answer(self, input: &[u8], rooms: &mut Rooms) -> Result<String, String> {
        match self {
            Sort::Replay => Ok(replay_text(input)),
            Sort::Typing => typing_text(input),
            Sort::Step => step_text(input),
            Sort::Run => run_text(input, rooms),
            Sort::Preview => preview_text(input),
        }
    }
}

fn replay_text(input: &[u8]) -> String {
    let (mut left, mut right) = ([0; WORDS], [0; WORDS]);
    replay(input, &mut left, &mut right).to_string()
}

fn typing_text(input: &[u8]) -> Result<String, String> {
    let case = Case::read(input)?;
    let answer = typing(&case.declared, &case.slice(), case.lent.length);
    let term = term_text(answer.length, answer.depth, &answer.found);
    Ok(format!("code={}\nat={}\n{term}", answer.code, answer.at))
}

fn preview_text(input: &[u8]) -> Result<String, String> {
    let (case, step) = Case::read_with_step(input)?;
    let answer = preview(&case.declared, &case.slice(), case.lent.length, step);
    let term = term_text(answer.length, answer.depth, &answer.found);
    Ok(format!("code={}\nstep={}\nat={}\n{term}", answer.code, answer.step, answer.at))
}

/// The lines of a term's length, depth and type.
fn term_text(length: usize, depth: usize, found: &Type) -> String {
    let kind = match found.kind {
        Kind::Scalar => "scalar",
        Kind::Ket(_) => "ket",
        Kind::Bra(_) => "bra",
        Kind::Operator(..) => "operator",
    };
    format!(
        "length={length}\ndepth={depth}\nkind={kind}\nfirst={}\nsecond={}\n",
        tokens(found.first()),
        tokens(found.second()),
    )
}

fn step_text(input: &[u8]) -> Result<String, String> {
    let (case, step) = Case::read_with_step(input)?;
    let mut slice = case.slice();
    let answer = single(&case.declared, &mut slice, case.lent.length, step);
    Ok(format!(
        "code={}\nstep={}\nat={}\nlength={}\nwords={}\n",
        answer.code,
        answer.step,
        answer.at,
        answer.length,
        tokens(used(&slice)),
    ))
}

fn run_text(input: &[u8], rooms: &mut Rooms) -> Result<String, String> {
    let (answer, left, right) = RunCase::read(input)?.run(rooms);
    let (left, right) = (tokens(used(left)), tokens(used(right)));
    Ok(format!("{answer}left-words={left}\nright-words={right}\n"))
}

/// Runs all cases under a folder, each sort's by name: how many there were, and
/// what was wrong.
pub fn run(folder: &Path) -> io::Result<(usize, Vec<String>)> {
    let mut wrong = Vec::new();
    let mut count = 0;
    let mut rooms = Rooms::default();
    for sort in Sort::ALL {
        for input in inputs(&folder.join(sort.folder()))? {
            count += 1;
            let expected = fs::read_to_string(input.with_extension("out"))?;
            let name = input.display();
            match sort.answer(&fs::read(&input)?, &mut rooms) {
                Ok(answer) if answer == expected => {}
                Ok(answer) => wrong.push(format!(
                    "{name}: stored {}, found {}",
                    expected.trim_end().replace('\n', " "),
                    answer.trim_end().replace('\n', " ")
                )),
                Err(message) => wrong.push(format!("{name}: {message}")),
            }
        }
    }
    Ok((count, wrong))
}

/// The `.in` files of a folder by name; none when there is no such folder.
pub(crate) fn inputs(folder: &Path) -> io::Result<Vec<PathBuf>> {
    if !folder.is_dir() {
        return Ok(Vec::new());
    }
    let mut found = Vec::new();
    for entry in fs::read_dir(folder)? {
        let path = entry?.path();
        if path.extension().is_some_and(|extension| extension == "in") {
            found.push(path);
        }
    }
    found.sort();
    Ok(found)
}

//! `page [--html DIR] [--card] [--only SUFFIX] PATH..`: shows derivations as a course would print them, from what the proved library answers.
//!
//! Each file is replayed, and each of its steps is taken by the proved single step; the page has both sides in Dirac notation, each step with its rule's name and the part that it
//! rewrites, and the verdict. Without options the pages are text on standard output. With `--html` each is a file of its own in a folder, and a folder of derivations has an index
//! beside them. With `--card` the record behind the word "verified" is written in place of the page, or at the end of each HTML page. Progress goes to standard error. The exit status is 0 only if every file
//! was accepted.
#[path = "../files/mod.rs"]
mod files;

mod ask;
mod card;
mod course;
mod derivation;
mod escape;
mod given;
mod html;
mod index;
mod mathml;
mod names;
mod notation;
mod plain;
#[cfg(test)]
mod reading_back;
mod rules;
#[cfg(test)]
mod rules_held;
mod shape;
mod sheet;
mod shown;
mod table;
mod text;

use ask::{asked, Asked, Source, HELP};
use fejogbu::Work;
use index::Entry;
use sheet::Sheet;
use std::fs;
use std::io::Write;
use std::path::Path;
use std::process::ExitCode;

/// A file's page, and its record where one was asked for.
struct Made {
    sheet: Sheet,
    card: Option<String>,
}

fn made(source: &Source, wants_card: bool, work: &mut Work) -> Result<Made, String> {
    let bytes = files::read(&source.path).map_err(|e| e.to_string())?;
    let course = course::course(&bytes, work)?;
    let text = files::read(&source.path.with_extension("md")).unwrap_or_default();
    let beside = given::beside(&String::from_utf8_lossy(&text));
    let card = match wants_card {
        true => Some(card::card(
            &source.path,
            &bytes,
            course.answer,
            &course.words,
        )?),
        false => None,
    };
    let sheet = sheet::sheet(&source.file, &bytes, &beside, course)?;
    Ok(Made { sheet, card })
}

/// A word to whoever called, about a file.
fn warn(source: &Source, why: &str) {
    eprintln!(
        "page: {}: {why}",
        escape::plain(&source.path.to_string_lossy())
    );
}

/// Writes what was asked for of one file: to standard output, or as a file in the folder for pages.
fn write(asked: &Asked, source: &Source, made: &Made) -> Result<(), String> {
    if let Some(folder) = &asked.html {
        let page = html::page(&made.sheet, &source.file, made.card.as_deref());
        return save(&folder.join(&source.page), &page);
    }
    let text = match &made.card {
        Some(card) => card.clone(),
        None => plain::page(&made.sheet),
    };
    writeln!(std::io::stdout(), "{text}").map_err(|e| e.to_string())
}

fn save(path: &Path, text: &str) -> Result<(), String> {
    let told = |e: std::io::Error| format!("{}: {e}", path.display());
    if let Some(folder) = path.parent() {
        fs::create_dir_all(folder).map_err(told)?;
    }
    fs::write(path, text).map_err(told)
}

/// The row of the index, and whether the file was accepted.
fn entry(source: &Source, made: &Result<Made, String>) -> Entry {
    let code = made.as_ref().map(|made| made.sheet.answer.code);
    Entry {
        title: match made {
            Ok(made) => made.sheet.title.clone(),
            Err(_) => source.file.clone(),
        },
        file: match code {
            Ok(code) => sheet::without_the_word(&source.file, code).to_string(),
            Err(_) => source.file.clone(),
        },
        page: made.as_ref().ok().map(|_| source.page.clone()),
        verdict: match made {
            Ok(made) if made.sheet.accepted() => "accepted".to_string(),
            Ok(made) => plain::verdict(&made.sheet),
            Err(why) => format!("no page: {why}"),
        },
        steps: made.as_ref().ok().and_then(|made| made.sheet.steps),
        accepted: made.as_ref().is_ok_and(|made| made.sheet.accepted()),
    }
}

/// Makes what was asked for. Whether every file was accepted.
fn run(asked: &Asked) -> Result<bool, String> {
    let sources = asked.sources()?;
    let mut work = Work::new();
    let mut entries = Vec::new();
    for (k, source) in sources.iter().enumerate() {
        let made = made(source, asked.card, &mut work);
        match &made {
            Ok(made) => {
                made.sheet.warning.iter().for_each(|why| warn(source, why));
                write(asked, source, made)?;
            }
            Err(why) => warn(source, why),
        }
        entries.push(entry(source, &made));
        if asked.html.is_some() {
            files::progress(k + 1, sources.len());
        }
    }
    if let Some(folder) = &asked.html {
        finish(asked, folder, &entries)?;
    }
    Ok(entries.iter().all(|entry| entry.accepted))
}

/// The index, where a path is a folder, and a line that says what to open.
fn finish(asked: &Asked, folder: &Path, entries: &[Entry]) -> Result<(), String> {
    let mut first = entries.iter().find_map(|entry| entry.page.clone());
    if let Some(of) = asked.folder() {
        save(&folder.join("index.html"), &index::index(&of, entries))?;
        first = Some("index.html".to_string());
    }
    let accepted = entries.iter().filter(|entry| entry.accepted).count();
    let missing = entries.iter().filter(|entry| entry.page.is_none()).count();
    let refused = entries.len() - accepted - missing;
    let files = match entries.len() {
        1 => "1 file".to_string(),
        n => format!("{n} files"),
    };
    println!("{files}: {accepted} accepted, {refused} refused, {missing} without a page");
    if let Some(page) = first {
        println!("open {}", folder.join(page).display());
    }
    Ok(())
}

fn main() -> ExitCode {
    let Some(asked) = asked(std::env::args().skip(1)) else {
        eprintln!("{HELP}");
        return ExitCode::from(2);
    };
    match run(&asked) {
        Ok(true) => ExitCode::SUCCESS,
        Ok(false) => ExitCode::FAILURE,
        Err(why) => {
            eprintln!("page: {why}");
            ExitCode::from(2)
        }
    }
}

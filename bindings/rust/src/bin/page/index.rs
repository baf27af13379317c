//! The index of a folder's pages: a row a derivation.
use crate::escape::{escaped, linked};
use crate::html::document;
use std::fmt::Write;

/// A row: what became of a file.
pub struct Entry {
    pub title: String,
    /// The file's name, without the folder.
    pub file: String,
    /// The page, from the index; none where there is no page.
    pub page: Option<String>,
    pub verdict: String,
    /// How many steps the file has, where it is of the form.
    pub steps: Option<usize>,
    pub accepted: bool,
}

/// The index page.
pub fn index(folder: &str, entries: &[Entry]) -> String {
    let accepted = entries.iter().filter(|entry| entry.accepted).count();
    let mut body = format!(
        "<header>\n<h1>Derivations of {}</h1>\n<p class=\"verdict {}\">{accepted} of {} accepted</p>\n</header>\n<main class=\"wide\">\n<table>\n<thead><tr><th scope=\"col\">derivation</th><th scope=\"col\">verdict</th><th scope=\"col\">steps</th></tr></thead>\n<tbody>\n",
        escaped(folder),
        if accepted == entries.len() { "accepted" } else { "refused" },
        entries.len()
    );
    for entry in entries {
        let _ = writeln!(body, "{}", row(entry));
    }
    body += "</tbody>\n</table>\n</main>\n";
    document(&format!("Derivations of {folder}"), &body)
}

fn row(entry: &Entry) -> String {
    let title = escaped(&entry.title);
    let title = match &entry.page {
        Some(page) => format!("<a href=\"{}\">{title}</a>", escaped(&linked(page))),
        None => title,
    };
    let class = if entry.accepted {
        "accepted"
    } else {
        "refused"
    };
    format!(
        "<tr><td>{title} <span class=\"faint\">{}</span></td><td class=\"is-{class}\">{}</td><td>{}</td></tr>",
        escaped(&entry.file),
        escaped(&entry.verdict),
        steps(entry.steps)
    )
}

fn steps(count: Option<usize>) -> String {
    match count {
        None => "–".to_string(),
        Some(1) => "1 step".to_string(),
        Some(n) => format!("{n} steps"),
    }
}

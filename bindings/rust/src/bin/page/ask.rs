//! What was asked for: the options, and the files with the names of their pages.
use crate::files::files_under;
use std::collections::HashSet;
use std::path::{Path, PathBuf};

pub const HELP: &str = "\
usage: page [--html DIR] [--card] [--only SUFFIX] PATH..   (a path is a file or a folder)
  --html DIR     a page a derivation in this folder, and index.html where a path is a folder
  --card         the record behind the word \"verified\", in place of the page or at the end of each HTML page
  --only SUFFIX  of a folder, only the files whose names end so; .fj where nothing is said
Letters and a title are taken from NAME.md beside NAME.fj, where there is one.";

#[derive(Debug, PartialEq, Eq)]
pub struct Asked {
    pub html: Option<PathBuf>,
    pub card: bool,
    only: String,
    paths: Vec<PathBuf>,
}

pub fn asked(mut words: impl Iterator<Item = String>) -> Option<Asked> {
    let mut asked = Asked {
        html: None,
        card: false,
        only: ".fj".to_string(),
        paths: Vec::new(),
    };
    while let Some(word) = words.next() {
        match word.as_str() {
            "--html" => asked.html = Some(words.next()?.into()),
            "--card" => asked.card = true,
            "--only" => asked.only = words.next()?,
            _ if word.starts_with("--") => return None,
            _ => asked.paths.push(word.into()),
        }
    }
    (!asked.paths.is_empty()).then_some(asked)
}

/// A file, the name by which it is told, and its page, from the folder of the pages.
pub struct Source {
    pub path: PathBuf,
    pub file: String,
    pub page: String,
}

impl Asked {
    /// The files, a folder's in their order. Pages of a folder stand as its files do; no two files have one page.
    pub fn sources(&self) -> Result<Vec<Source>, String> {
        let mut sources = Vec::new();
        let mut pages = HashSet::from(["index.html".to_string()]);
        for root in &self.paths {
            let mut found = Vec::new();
            files_under(root, &self.only, &mut found);
            for path in found {
                let source = source(root, path);
                if self.html.is_some() && !pages.insert(source.page.clone()) {
                    return Err(format!(
                        "two pages would be {}; make them in two folders",
                        source.page
                    ));
                }
                sources.push(source);
            }
        }
        Ok(sources)
    }

    /// The folders among the paths, where there is one.
    pub fn folder(&self) -> Option<String> {
        let folders = self.paths.iter().filter(|path| path.is_dir());
        let names: Vec<String> = folders
            .map(|path| path.to_string_lossy().into_owned())
            .collect();
        (!names.is_empty()).then(|| names.join(", "))
    }
}

fn source(root: &Path, path: PathBuf) -> Source {
    let inside = path
        .strip_prefix(root)
        .ok()
        .filter(|inside| inside.parent().is_some());
    let file = inside.or(path.file_name().map(Path::new)).unwrap_or(&path);
    let page = file.with_extension("html").to_string_lossy().into_owned();
    let file = file.to_string_lossy().into_owned();
    Source { path, file, page }
}

#[cfg(test)]
mod tests {
    use super::*;

    fn of(words: &str) -> Option<Asked> {
        asked(words.split_whitespace().map(str::to_string))
    }

    #[test]
    fn options() {
        let all = of("--html out --card --only .txt a b").unwrap();
        assert_eq!(all.html, Some("out".into()));
        assert!(all.card);
        assert_eq!((all.only.as_str(), all.paths.len()), (".txt", 2));
        for bad in ["", "--html", "--html out", "--unknown a", "--only"] {
            assert_eq!(of(bad), None, "{bad}");
        }
    }

    #[test]
    fn a_page_has_one_file() {
        let sources = of("--html out x/a.fj y/b.fj").unwrap().sources().unwrap();
        let pages: Vec<&str> = sources.iter().map(|source| source.page.as_str()).collect();
        assert_eq!(pages, ["a.html", "b.html"]);
        assert!(of("--html out x/a.fj y/a.fj").unwrap().sources().is_err());
        assert!(of("--html out x/index.fj").unwrap().sources().is_err());
        assert!(of("x/a.fj y/a.fj").unwrap().sources().is_ok());
    }
}

//! What the text beside a file says of it: `NAME.md` beside `NAME.fj` may have a title, its first line with `# `, and a line that begins with `Names: ` and gives letters. That line is written for people;
//! of it this reader takes the letters alone, and what they are declared as is the file's to say. Its clauses end in `;` or `.`:
//!
//! - `types 0 and 1: S, T`, `bases 0 and 1: s of S, t of S`, `variables 0 to 2: the ket |v⟩ of S, the operator A of S by T, the scalar x`: a letter that does not stand behind `of`, `by` or `on` is a name, in the order of the declarations;
//! - `i runs over the basis of S, j over that of T`: a letter that sums have, and the index that it runs over.
use crate::names::Given;

/// What stands beside a file.
#[derive(Debug, Default, PartialEq, Eq)]
pub struct Beside {
    pub title: Option<String>,
    pub given: Option<Given>,
}

/// Reads the text beside a file.
pub fn beside(text: &str) -> Beside {
    let title = text.lines().next().and_then(|line| line.strip_prefix("# "));
    let names = text.lines().find_map(|line| line.strip_prefix("Names: "));
    Beside {
        title: title.map(|title| title.trim().to_string()),
        given: names.map(given),
    }
}

fn given(line: &str) -> Given {
    let mut given = Given::default();
    for clause in line.trim_end_matches('.').split("; ") {
        let kind = clause.split(' ').next().unwrap_or_default();
        match (kind, clause.split_once(": ")) {
            ("type" | "types", Some((_, names))) => given.types = letters(names),
            ("basis" | "bases", Some((_, names))) => given.bases = letters(names),
            ("variable" | "variables", Some((_, names))) => given.variables = letters(names),
            _ => {
                let bound = bound(clause, &given.types);
                given.bound.extend(bound);
            }
        }
    }
    given
}

fn inside(word: &str, open: char, close: char) -> Option<&str> {
    word.strip_prefix(open)?.strip_suffix(close)
}

/// The letter of a word, without the signs of a ket or bra: one letter, and figures or primes behind it.
fn letter(word: &str) -> Option<&str> {
    let word = word.trim_end_matches([',', ';']);
    let ket_or_bra = inside(word, '|', '⟩').or(inside(word, '⟨', '|'));
    let inner = ket_or_bra.unwrap_or(word);
    let mut chars = inner.chars();
    let is_letter = chars.next().is_some_and(char::is_alphabetic);
    let behind = chars.all(|c| c == '\'' || c.is_ascii_digit() || ('₀'..='₉').contains(&c));
    (is_letter && behind && !matches!(inner, "δ" | "Σ")).then_some(inner)
}

/// The names of a clause, in their order.
fn letters(text: &str) -> Vec<String> {
    let words: Vec<&str> = text.split(' ').collect();
    let behind = std::iter::once("").chain(words.iter().copied());
    words
        .iter()
        .zip(behind)
        .filter(|(_, before)| !matches!(*before, "of" | "by" | "on"))
        .filter_map(|(word, _)| letter(word))
        .map(str::to_string)
        .collect()
}

/// The letters of sums, each with the words of its index.
fn bound(clause: &str, types: &[String]) -> Vec<(String, Vec<u16>)> {
    let mut found = Vec::new();
    for piece in clause.split(", ") {
        let names = piece.split("over").next().unwrap_or_default();
        let index = piece.rsplit(' ').next().unwrap_or_default();
        let Some(index) = index_words(index, types) else {
            continue;
        };
        found.extend(letters(names).into_iter().map(|name| (name, index.clone())));
    }
    found
}

/// The words of an index that is written with the names of types: a name, or a product of two, each a name or in brackets.
fn index_words(text: &str, types: &[String]) -> Option<Vec<u16>> {
    if let Some(k) = types.iter().position(|name| name == text) {
        return Some(vec![fejogbu::word(1, k as u8)]);
    }
    let mut depth = 0;
    let sign = text.char_indices().find(|&(_, c)| {
        depth += i32::from(c == '(') - i32::from(c == ')');
        depth == 0 && c == '×'
    });
    let (left, right) = text.split_at(sign?.0);
    let operand = |text: &str| {
        let inner = text
            .strip_prefix('(')
            .and_then(|rest| rest.strip_suffix(')'));
        index_words(inner.unwrap_or(text), types)
    };
    let mut words = vec![fejogbu::word(2, 0)];
    words.extend(operand(left)?);
    words.extend(operand(right.strip_prefix('×')?)?);
    Some(words)
}

#[cfg(test)]
mod tests {
    use super::*;

    fn read(line: &str) -> Given {
        let text = format!("# A title\n\nNames: {line}\n");
        let beside = beside(&text);
        assert_eq!(beside.title.as_deref(), Some("A title"));
        beside.given.unwrap()
    }

    #[test]
    fn names_of_what_is_declared() {
        let given = read("types 0 and 1: S, T; bases 0 and 1: s of S, t' of T; variables 0 to 4: the operators U on S and V on T, both declared unitary (`var=U`), the bra ⟨β| of S, the scalar x₁, and the ket |ψ⟩ of S×T.");
        assert_eq!(given.types, ["S", "T"]);
        assert_eq!(given.bases, ["s", "t'"]);
        assert_eq!(given.variables, ["U", "V", "β", "x₁", "ψ"]);
        assert!(given.bound.is_empty());
    }

    #[test]
    fn names_of_sums() {
        let given = read("types 0 and 1: S, T; k runs over the basis of (S×T)×S, i over that of S, j over that of T.");
        let wanted = [
            ("k", vec![512, 512, 256, 257, 256]),
            ("i", vec![256]),
            ("j", vec![257]),
        ];
        assert_eq!(
            given.bound,
            wanted.map(|(name, index)| (name.to_string(), index))
        );
        let given = read("type 0: S; i and j run over the basis of S.");
        assert_eq!(
            given.bound,
            ["i", "j"].map(|name| (name.to_string(), vec![256]))
        );
    }

    #[test]
    fn no_text_has_no_names() {
        assert_eq!(beside(""), Beside::default());
        assert_eq!(beside("Names are not given here\n"), Beside::default());
    }
}

//! The notation is read back: a small reader of its own, on random terms of all heads, typed and not. What it reads must be the words that were written, without the spaces and with the letters
//! alone; and without any of its brackets the text must be read as another term or as none.
use crate::names::{Given, Letter, Names};
use crate::notation::line;
use crate::shape::{Shape, Sort};
use crate::text::text;
use fejogbu::word;

const VARIABLES: [(&str, Letter); 7] = [
    ("x", Letter::Scalar),
    ("v", Letter::Ket),
    ("w'", Letter::Ket),
    ("b", Letter::Bra),
    ("A", Letter::Operator),
    ("B₁", Letter::Operator),
    ("U", Letter::Unitary),
];
const TYPES: [&str; 2] = ["S", "T"];
const BASES: [&str; 2] = ["s", "t"];

fn names() -> Names {
    let strings = |list: &[&str]| list.iter().map(|name| name.to_string()).collect();
    let given = Given {
        types: strings(&TYPES),
        bases: strings(&BASES),
        variables: VARIABLES.iter().map(|(name, _)| name.to_string()).collect(),
        bound: Vec::new(),
    };
    let letters = VARIABLES.map(|(_, letter)| letter);
    Names::of(2, 2, &letters, Some(&given)).unwrap()
}

/// A generator of numbers that look random, the same in every run.
struct Random(u64);

impl Random {
    fn below(&mut self, n: usize) -> usize {
        self.0 ^= self.0 << 13;
        self.0 ^= self.0 >> 7;
        self.0 ^= self.0 << 17;
        (self.0 >> 11) as usize % n
    }
}

/// A part of any head with any children, so many levels deep at most.
fn wild(random: &mut Random, depth: usize, out: &mut Vec<u16>) {
    let leaf = [1, 3, 5, 6, 26, 28];
    let inner = [
        2, 4, 7, 8, 9, 10, 11, 12, 13, 14, 15, 16, 17, 18, 19, 20, 21, 22, 23, 24, 25, 27,
    ];
    let head = match depth {
        1 => leaf[random.below(leaf.len())],
        _ if random.below(4) == 0 => leaf[random.below(leaf.len())],
        _ => inner[random.below(inner.len())],
    };
    let (a, n) = match head {
        1 | 3 => (random.below(2), 0),
        5 | 6 => (0, 0),
        26 => (random.below(VARIABLES.len()), 0),
        28 => (random.below(3), 0),
        7 | 8 | 20 => {
            let n = 1 + random.below(3);
            (n, n)
        }
        9 | 12 | 13 | 15..=18 => (0, 1),
        _ => (0, 2),
    };
    out.push(word(head, a as u8));
    for _ in 0..n {
        wild(random, depth - 1, out);
    }
}

/// What a typed part may begin with: a head, and the sorts of its children.
fn heads_of(sort: Sort) -> Vec<(u8, Vec<Sort>)> {
    use Sort::*;
    match sort {
        Index => vec![(1, vec![]), (2, vec![Index, Index])],
        Basis => vec![(3, vec![]), (4, vec![Basis, Basis]), (28, vec![])],
        Scalar => vec![
            (5, vec![]),
            (6, vec![]),
            (7, vec![Scalar]),
            (8, vec![Scalar]),
            (9, vec![Scalar]),
            (10, vec![Basis, Basis]),
            (11, vec![Bra, Ket]),
            (26, vec![]),
            (27, vec![Index, Scalar]),
        ],
        _ => heads_of_matrices(sort),
    }
}

fn heads_of_matrices(sort: Sort) -> Vec<(u8, Vec<Sort>)> {
    use Sort::*;
    let (adjoint, zero, of_basis, product) = match sort {
        Ket => (
            Bra,
            (12, vec![Index]),
            (16, vec![Basis]),
            (22, vec![Operator, Ket]),
        ),
        Bra => (
            Ket,
            (13, vec![Index]),
            (17, vec![Basis]),
            (23, vec![Bra, Operator]),
        ),
        _ => (
            Operator,
            (14, vec![Index, Index]),
            (15, vec![Index]),
            (25, vec![Operator, Operator]),
        ),
    };
    let mut heads = vec![
        (18, vec![adjoint]),
        (19, vec![Scalar, sort]),
        (20, vec![sort]),
        (21, vec![sort, sort]),
        (26, vec![]),
        (27, vec![Index, sort]),
    ];
    heads.extend([zero, of_basis, product]);
    heads.extend((sort == Operator).then(|| (24, vec![Ket, Bra])));
    heads
}

/// A part whose children are of the sorts that its head wants, in so many sums over a basis.
fn fitting(random: &mut Random, sort: Sort, depth: usize, around: usize, out: &mut Vec<u16>) {
    let mut heads = heads_of(sort);
    heads.retain(|(head, children)| {
        (depth > 1 || children.is_empty() || matches!(head, 12..=17) && depth > 0)
            && (*head != 28 || around > 0)
    });
    let (head, mut children) = heads[random.below(heads.len())].clone();
    let a = match head {
        1 | 3 => random.below(2),
        7 | 8 | 20 => 1 + random.below(3),
        26 => {
            let of = |k: &usize| VARIABLES[*k].1.sort() == sort;
            let fitting: Vec<usize> = (0..VARIABLES.len()).filter(of).collect();
            fitting[random.below(fitting.len())]
        }
        28 => random.below(around),
        _ => 0,
    };
    if matches!(head, 7 | 8 | 20) {
        children = vec![children[0]; a];
    }
    out.push(word(head, a as u8));
    for (k, child) in children.into_iter().enumerate() {
        let around = around + usize::from(head == 27 && k == 1);
        fitting(random, child, depth.saturating_sub(1), around, out);
    }
}

/// What is read: the words of a part, and its sort.
type Read = (Vec<u16>, Sort);

struct Reader<'a> {
    text: Vec<char>,
    at: usize,
    names: &'a Names,
    /// The bases that the sums around bind, the innermost last.
    around: Vec<String>,
    /// Where brackets stand that are there for the grouping alone.
    brackets: Vec<(usize, usize)>,
}

/// Reads a text, without its spaces. What was read, and where its brackets stand.
fn read(text: &[char], names: &Names) -> Option<(Vec<u16>, Vec<(usize, usize)>)> {
    let mut reader = Reader {
        text: text.to_vec(),
        at: 0,
        names,
        around: Vec::new(),
        brackets: Vec::new(),
    };
    let (words, _) = reader.sum()?;
    (reader.at == text.len()).then_some((words, reader.brackets))
}

impl Reader<'_> {
    fn peek(&self) -> Option<char> {
        self.text.get(self.at).copied()
    }

    fn take(&mut self, sign: char) -> Option<()> {
        (self.peek()? == sign).then(|| self.at += 1)
    }

    /// The number in small figures below a sign, if there is one.
    fn below(&mut self) -> Option<u8> {
        let mut number = None;
        while let Some(c @ '₀'..='₉') = self.peek() {
            self.at += 1;
            number = Some(number.unwrap_or(0) * 10 + (c as u32 - '₀' as u32) as u8);
        }
        number
    }

    fn sum(&mut self) -> Option<Read> {
        let first = self.product()?;
        if self.peek() != Some('+') {
            return Some(first);
        }
        let head = self.sign_of_sum(first.1)?;
        self.more(head, first, '+', Reader::product)
    }

    fn sign_of_sum(&mut self, first: Sort) -> Option<u8> {
        self.take('+')?;
        let usual = match first {
            Sort::Scalar => Some(7),
            Sort::Ket | Sort::Bra | Sort::Operator => Some(20),
            _ => None,
        };
        self.below().or(usual)
    }

    /// The other children of a sum or product, of which the first sign is read.
    fn more(
        &mut self,
        head: u8,
        first: Read,
        sign: char,
        child: fn(&mut Self) -> Option<Read>,
    ) -> Option<Read> {
        let mut children = vec![first, child(self)?];
        while self.take(sign).is_some() {
            self.below();
            children.push(child(self)?);
        }
        together(head, children.len() as u8, children)
    }

    fn product(&mut self) -> Option<Read> {
        let first = self.operand()?;
        let sign = match self.peek() {
            Some(sign @ ('·' | '⊗' | '.' | '×')) => sign,
            _ => return Some(first),
        };
        self.take(sign)?;
        let below = self.below();
        if sign == '×' {
            let usual = if first.1 == Sort::Index { 2 } else { 8 };
            let head = below.unwrap_or(usual);
            if head == 8 {
                return self.more(8, first, '×', Reader::operand);
            }
            let second = self.operand()?;
            return together(head, 0, vec![first, second]);
        }
        let second = self.operand()?;
        let usual = match (sign, first.1, second.1) {
            ('⊗', _, _) => Some(21),
            ('.', _, _) => Some(19),
            (_, Sort::Bra, Sort::Ket) => Some(11),
            (_, Sort::Operator, Sort::Ket) => Some(22),
            (_, Sort::Bra, Sort::Operator) => Some(23),
            (_, Sort::Ket, Sort::Bra) => Some(24),
            (_, Sort::Operator, Sort::Operator) => Some(25),
            _ => None,
        };
        together(below.or(usual)?, 0, vec![first, second])
    }

    fn operand(&mut self) -> Option<Read> {
        let mut read = self.primary()?;
        while let Some(sign @ ('†' | '*')) = self.peek() {
            self.take(sign)?;
            read = together(if sign == '†' { 18 } else { 9 }, 0, vec![read])?;
        }
        Some(read)
    }

    fn primary(&mut self) -> Option<Read> {
        match self.peek()? {
            '(' => self.brackets(),
            '|' => self.ket(16, '|', '⟩', Sort::Ket),
            '⟨' => self.ket(17, '⟨', '|', Sort::Bra),
            'δ' => {
                self.take('δ')?;
                self.called(10)
            }
            'Σ' => self.over_a_basis(),
            '0'..='9' => self.constant(),
            '+' => {
                self.take('+')?;
                let below = self.below();
                let only = self.list()?;
                let usual = if only.first()?.1 == Sort::Scalar {
                    7
                } else {
                    20
                };
                together(below.unwrap_or(usual), 1, only)
            }
            '×' => {
                self.take('×')?;
                self.below();
                let only = self.list()?;
                together(8, 1, only)
            }
            _ => self.name(),
        }
    }

    /// A pair, or brackets around a part.
    fn brackets(&mut self) -> Option<Read> {
        let begin = self.at;
        let mut list = self.list()?;
        if list.len() == 2 {
            return together(4, 0, list);
        }
        self.brackets.push((begin, self.at - 1));
        list.pop().filter(|_| list.is_empty())
    }

    /// Parts in brackets, with commas.
    fn list(&mut self) -> Option<Vec<Read>> {
        self.take('(')?;
        let mut list = vec![self.sum()?];
        while self.take(',').is_some() {
            list.push(self.sum()?);
        }
        self.take(')')?;
        Some(list)
    }

    fn called(&mut self, head: u8) -> Option<Read> {
        let list = self.list()?;
        let n = if matches!(head, 10 | 14) { 2 } else { 1 };
        (list.len() == n).then(|| together(head, 0, list))?
    }

    /// A variable that is a ket or bra, or that of a basis.
    fn ket(&mut self, head: u8, open: char, close: char, sort: Sort) -> Option<Read> {
        self.take(open)?;
        let begin = self.at;
        if let Some(name) = self.letter() {
            let variable = VARIABLES
                .iter()
                .position(|v| v.0 == name && v.1.sort() == sort);
            if let (Some(k), Some(())) = (variable, self.take(close)) {
                return Some((vec![word(26, k as u8)], sort));
            }
        }
        self.at = begin;
        let mut inner = self.sum()?;
        if self.take(',').is_some() {
            inner = together(4, 0, vec![inner, self.sum()?])?;
        }
        self.take(close)?;
        together(head, 0, vec![inner])
    }

    fn letter(&mut self) -> Option<String> {
        let first = self.peek().filter(|c| c.is_alphabetic())?;
        self.at += 1;
        let mut name = String::from(first);
        while let Some(c @ ('\'' | '₀'..='₉')) = self.peek() {
            name.push(c);
            self.at += 1;
        }
        Some(name)
    }

    fn name(&mut self) -> Option<Read> {
        let name = self.letter()?;
        if let Some(k) = TYPES.iter().position(|t| *t == name) {
            return Some((vec![word(1, k as u8)], Sort::Index));
        }
        if let Some(k) = BASES.iter().position(|b| *b == name) {
            return Some((vec![word(3, k as u8)], Sort::Basis));
        }
        if let Some(k) = self.around.iter().rev().position(|b| *b == name) {
            return Some((vec![word(28, k as u8)], Sort::Basis));
        }
        let k = VARIABLES.iter().position(|v| v.0 == name)?;
        let sort = VARIABLES[k].1.sort();
        (!matches!(sort, Sort::Ket | Sort::Bra)).then(|| (vec![word(26, k as u8)], sort))
    }

    fn over_a_basis(&mut self) -> Option<Read> {
        self.take('Σ')?;
        self.take('_')?;
        let name = self.letter()?;
        let bound = self
            .names
            .all_bound()
            .iter()
            .find(|bound| *bound.name == name)?;
        let index = match self.take('∈') {
            Some(()) => self.operand()?,
            None => (bound.index.clone()?, Sort::Index),
        };
        self.around.push(name);
        let body = self.list()?.pop()?;
        self.around.pop();
        together(27, 0, vec![index, body])
    }

    fn constant(&mut self) -> Option<Read> {
        let figures = |reader: &mut Self| {
            let begin = reader.at;
            while reader.peek().is_some_and(|c| c.is_ascii_digit()) {
                reader.at += 1;
            }
            reader.text[begin..reader.at].iter().collect::<String>()
        };
        let number = figures(self);
        if self.take(':').is_some() {
            let a = figures(self).parse().ok()?;
            return (number == "28").then(|| (vec![word(28, a)], Sort::Basis));
        }
        if self.take('_').is_some() {
            let letter = self.letter()?;
            return match (number.as_str(), letter.as_str()) {
                ("0", "K") => self.called(12),
                ("0", "B") => self.called(13),
                ("0", "O") => self.called(14),
                ("1", "O") => self.called(15),
                _ => None,
            };
        }
        match number.as_str() {
            "0" => Some((vec![word(5, 0)], Sort::Scalar)),
            "1" => Some((vec![word(6, 0)], Sort::Scalar)),
            _ => None,
        }
    }
}

/// A head over its children, with the sort that it then has.
fn together(head: u8, a: u8, children: Vec<Read>) -> Option<Read> {
    let first = children.first()?.1;
    let sort = match head {
        2 => Sort::Index,
        4 => Sort::Basis,
        7..=11 => Sort::Scalar,
        12 | 16 | 22 => Sort::Ket,
        13 | 17 | 23 => Sort::Bra,
        14 | 15 | 24 | 25 => Sort::Operator,
        18 => match first {
            Sort::Ket => Sort::Bra,
            Sort::Bra => Sort::Ket,
            other => other,
        },
        19 | 27 => children.last()?.1,
        20 | 21 => first,
        _ => return None,
    };
    let mut words = vec![word(head, a)];
    words.extend(children.into_iter().flat_map(|(words, _)| words));
    Some((words, sort))
}

/// Writes a term, reads it back, and tries it without each of its brackets. How many there were.
fn held(words: &[u16]) -> usize {
    let sorts = VARIABLES.map(|(_, letter)| letter.sort());
    let mut names = names();
    let shape = Shape::of(words, &sorts).unwrap();
    let text = text(&line(&shape, &mut names, None, None));
    let chars: Vec<char> = text.chars().filter(|&c| c != ' ').collect();
    let (back, brackets) = read(&chars, &names).unwrap_or_else(|| panic!("{text} is not read"));
    assert_eq!(back, words, "{text}");
    for &(open, close) in &brackets {
        let keep = |k: &usize| *k != open && *k != close;
        let fewer: Vec<char> = (0..chars.len()).filter(keep).map(|k| chars[k]).collect();
        let again = read(&fewer, &names).map(|(words, _)| words);
        assert_ne!(
            again.as_deref(),
            Some(words),
            "{text} has brackets at {open} for nothing"
        );
    }
    brackets.len()
}

#[test]
fn any_term_is_read_back() {
    let mut random = Random(32);
    let mut heads = [0; 29];
    let mut brackets = 0;
    for _ in 0..20_000 {
        let mut words = Vec::new();
        let depth = 1 + random.below(7);
        wild(&mut random, depth, &mut words);
        words.iter().for_each(|w| heads[usize::from(w >> 8)] += 1);
        brackets += held(&words);
    }
    assert!(heads[1..].iter().all(|&n| n > 1000), "{heads:?}");
    assert!(brackets > 10_000, "{brackets}");
}

#[test]
fn terms_whose_children_fit_are_read_back_and_have_no_number_below_a_sign() {
    let mut random = Random(7);
    let sorts = VARIABLES.map(|(_, letter)| letter.sort());
    let mut heads = [0; 29];
    for k in 0..20_000 {
        let mut words = Vec::new();
        let sort = [Sort::Scalar, Sort::Ket, Sort::Bra, Sort::Operator][k % 4];
        let depth = 2 + random.below(6);
        fitting(&mut random, sort, depth, 0, &mut words);
        words.iter().for_each(|w| heads[usize::from(w >> 8)] += 1);
        held(&words);
        let text = text(&line(
            &Shape::of(&words, &sorts).unwrap(),
            &mut names(),
            None,
            None,
        ));
        let plain = text
            .replace("B₁", "")
            .replace(|c: char| "ijklmnpq".contains(c), "#");
        let plain: Vec<char> = plain.chars().collect();
        let below =
            |pair: &[char]| ('₀'..='₉').contains(&pair[1]) && !"#₀₁₂₃₄₅₆₇₈₉".contains(pair[0]);
        assert!(!plain.windows(2).any(below), "{text}");
    }
    assert!(heads[1..].iter().all(|&n| n > 500), "{heads:?}");
}

#[test]
fn the_reader_tells_texts_apart() {
    let mut names = names();
    names.bound(Some(&[256]), 0);
    let read = |text: &str| read(&text.chars().collect::<Vec<_>>(), &names).map(|read| read.0);
    let of = |words: &str| crate::derivation::words(words);
    assert_eq!(read("A·|v⟩"), of("22 26:4 26:1"));
    assert_eq!(read("A·|s⟩"), of("22 26:4 16 3:0"));
    assert_eq!(read("|w'⟩†·|s,t⟩"), of("11 18 26:2 16 4 3:0 3:1"));
    assert_eq!(read("Σ_i(⟨s|·|i⟩)"), of("27 1:0 11 17 3:0 16 28:0"));
    assert_eq!(read("0_O(S×T,S)"), of("14 2 1:0 1:1 1:0"));
    assert_eq!(read("x×x×x"), of("8:3 26:0 26:0 26:0"));
    assert_eq!(read("x.(|v⟩+|v⟩)"), of("19 26:0 20:2 26:1 26:1"));
    assert_eq!(read("|v⟩·₁₁⟨b|"), of("11 26:1 26:3"));
    for no_text in [
        "",
        "A·",
        "A·A·A",
        "x.x.|v⟩",
        "(A",
        "A)",
        "v",
        "|v",
        "j",
        "28:1:1",
        "Σ_j(x)",
    ] {
        assert_eq!(read(no_text), None, "{no_text}");
    }
}

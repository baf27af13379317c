//! The letters of a derivation. A file has numbers in their place, so that letters are given by whoever wrote the file, or taken from the lists here. No two of one derivation are the same.
use crate::shape::Sort;
use std::collections::HashMap;
use std::rc::Rc;

const TYPES: [&str; 8] = ["S", "T", "U", "V", "W", "X", "Y", "Z"];
const BASES: [&str; 6] = ["s", "t", "u", "v", "w", "r"];
const SCALARS: [&str; 8] = ["a", "b", "c", "d", "e", "f", "g", "h"];
const KETS: [&str; 6] = ["ψ", "φ", "χ", "ξ", "η", "ζ"];
const BRAS: [&str; 6] = ["α", "β", "γ", "λ", "μ", "ν"];
const OPERATORS: [&str; 8] = ["A", "B", "C", "D", "E", "F", "G", "H"];
const UNITARIES: [&str; 6] = ["U", "V", "W", "P", "Q", "R"];
const BOUND: [&str; 8] = ["i", "j", "k", "l", "m", "n", "p", "q"];

/// What a variable is declared as.
#[derive(Clone, Copy, Debug, PartialEq, Eq)]
pub enum Letter {
    Scalar,
    Ket,
    Bra,
    Operator,
    Unitary,
}

impl Letter {
    pub fn sort(self) -> Sort {
        match self {
            Letter::Scalar => Sort::Scalar,
            Letter::Ket => Sort::Ket,
            Letter::Bra => Sort::Bra,
            Letter::Operator | Letter::Unitary => Sort::Operator,
        }
    }

    fn usual(self) -> &'static [&'static str] {
        match self {
            Letter::Scalar => &SCALARS,
            Letter::Ket => &KETS,
            Letter::Bra => &BRAS,
            Letter::Operator => &OPERATORS,
            Letter::Unitary => &UNITARIES,
        }
    }
}

/// Letters that are given, in the order of the declarations; a bound one with the words of the index that it runs over.
#[derive(Clone, Debug, Default, PartialEq, Eq)]
pub struct Given {
    pub types: Vec<String>,
    pub bases: Vec<String>,
    pub variables: Vec<String>,
    pub bound: Vec<(String, Vec<u16>)>,
}

impl Given {
    fn all(&self) -> impl Iterator<Item = &String> {
        let bound = self.bound.iter().map(|(name, _)| name);
        let declared = self.types.iter().chain(&self.bases);
        declared.chain(&self.variables).chain(bound)
    }

    /// Whether there is one for each that is declared, and no two are the same.
    fn fits(&self, types: usize, bases: usize, variables: usize) -> bool {
        let mut all: Vec<_> = self.all().collect();
        let count = all.len();
        all.sort();
        all.dedup();
        let wanted = [types, bases, variables];
        all.len() == count && [self.types.len(), self.bases.len(), self.variables.len()] == wanted
    }
}

/// A basis that sums bind: its letter, and the words of the index that it runs over; none where a sum has no index there, which no typed term has.
pub struct Bound {
    pub name: Rc<str>,
    pub index: Option<Vec<u16>>,
}

/// The letters of one derivation. Those of sums are given out as the sums are met, each for one index, so that a letter tells its index.
pub struct Names {
    pub types: Vec<Rc<str>>,
    pub bases: Vec<Rc<str>>,
    pub variables: Vec<Rc<str>>,
    /// Whether kets and bras among the variables are written as such, as in a derivation, or as a bare letter, as in the rules.
    pub bare: bool,
    bound: Vec<Bound>,
    by_index: HashMap<Option<Vec<u16>>, Vec<usize>>,
    tried: usize,
}

/// The k-th letter of a list that goes on with numbers.
fn letter(list: &[&str], k: usize) -> String {
    let letter = list[k % list.len()];
    match k / list.len() {
        0 => letter.to_string(),
        round => format!("{letter}{}", lowered(round)),
    }
}

/// A number in small figures.
pub fn lowered(number: usize) -> String {
    let figure = |c: char| char::from_u32('₀' as u32 + c as u32 - '0' as u32);
    number.to_string().chars().filter_map(figure).collect()
}

impl Names {
    /// The given letters where they fit the declarations, and what is wrong with them where not; else those of the lists.
    pub fn of(
        types: usize,
        bases: usize,
        variables: &[Letter],
        given: Option<&Given>,
    ) -> Result<Names, String> {
        let given = match given {
            Some(given) if given.fits(types, bases, variables.len()) => given.clone(),
            Some(_) => return Err("the letters given do not fit the declarations".to_string()),
            None => usual(types, bases, variables),
        };
        let rc = |names: Vec<String>| names.into_iter().map(Rc::from).collect();
        let mut names = Names {
            types: rc(given.types),
            bases: rc(given.bases),
            variables: rc(given.variables),
            bare: false,
            bound: Vec::new(),
            by_index: HashMap::new(),
            tried: 0,
        };
        for (name, index) in given.bound {
            names.add(name, Some(index));
        }
        Ok(names)
    }

    fn add(&mut self, name: String, index: Option<Vec<u16>>) {
        let place = self.bound.len();
        self.by_index.entry(index.clone()).or_default().push(place);
        let name = Rc::from(name);
        self.bound.push(Bound { name, index });
    }

    fn is_taken(&self, name: &str) -> bool {
        let declared = self.types.iter().chain(&self.bases).chain(&self.variables);
        let mut all = declared.chain(self.bound.iter().map(|bound| &bound.name));
        all.any(|taken| **taken == *name)
    }

    /// The letter of a sum over an index that stands in so many sums over the same index.
    pub fn bound(&mut self, index: Option<&[u16]>, around: usize) -> Rc<str> {
        let index = index.map(<[u16]>::to_vec);
        loop {
            if let Some(&place) = self.by_index.get(&index).and_then(|of| of.get(around)) {
                return self.bound[place].name.clone();
            }
            let name = letter(&BOUND, self.tried);
            self.tried += 1;
            if !self.is_taken(&name) {
                self.add(name, index.clone());
            }
        }
    }

    /// The letters that sums have been given so far.
    pub fn all_bound(&self) -> &[Bound] {
        &self.bound
    }
}

/// The first free letters of the lists.
fn usual(types: usize, bases: usize, variables: &[Letter]) -> Given {
    let mut taken: Vec<String> = Vec::new();
    let mut next = |list: &[&str]| {
        let name = (0..)
            .map(|k| letter(list, k))
            .find(|name| !taken.contains(name));
        taken.extend(name.clone());
        name.unwrap_or_default()
    };
    Given {
        types: (0..types).map(|_| next(&TYPES)).collect(),
        bases: (0..bases).map(|_| next(&BASES)).collect(),
        variables: variables.iter().map(|kind| next(kind.usual())).collect(),
        bound: Vec::new(),
    }
}

#[cfg(test)]
mod tests {
    use super::*;

    #[test]
    fn no_two_letters_are_the_same() {
        let kinds = [
            Letter::Unitary,
            Letter::Ket,
            Letter::Bra,
            Letter::Operator,
            Letter::Scalar,
        ];
        let variables: Vec<Letter> = (0..32).map(|k| kinds[k % 5]).collect();
        let mut names = Names::of(32, 32, &variables, None).unwrap();
        for k in 0..40 {
            names.bound(Some(&[256 + k]), 0);
            names.bound(Some(&[256 + k]), 1);
        }
        let declared = names
            .types
            .iter()
            .chain(&names.bases)
            .chain(&names.variables);
        let mut all: Vec<_> = declared
            .chain(names.bound.iter().map(|b| &b.name))
            .collect();
        assert_eq!(all.len(), 32 * 3 + 80);
        all.sort();
        all.dedup();
        assert_eq!(all.len(), 32 * 3 + 80);
    }

    #[test]
    fn a_bound_letter_has_one_index() {
        let mut names = Names::of(2, 0, &[], None).unwrap();
        let [s, t] = [[256], [257]];
        assert_eq!(&*names.bound(Some(&s), 0), "i");
        assert_eq!(&*names.bound(Some(&t), 0), "j");
        assert_eq!(&*names.bound(Some(&s), 0), "i");
        assert_eq!(&*names.bound(Some(&s), 1), "k");
        assert_eq!(&*names.bound(None, 0), "l");
    }

    #[test]
    fn letters_that_do_not_fit_are_refused() {
        let given = |types: &[&str], variables: &[&str]| Given {
            types: types.iter().map(|t| t.to_string()).collect(),
            variables: variables.iter().map(|v| v.to_string()).collect(),
            ..Given::default()
        };
        let kinds = [Letter::Scalar, Letter::Scalar];
        let with = |given: Given| Names::of(1, 0, &kinds, Some(&given));
        assert!(with(given(&["S"], &["x", "y"])).is_ok());
        assert!(with(given(&["S"], &["x"])).is_err());
        assert!(with(given(&["S"], &["x", "x"])).is_err());
        assert!(with(given(&["x"], &["x", "y"])).is_err());
        assert!(with(given(&[], &["x", "y"])).is_err());
    }
}

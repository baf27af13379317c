//! The shape of a term: where each of its parts ends, and what it is. The notation is written along it; whether the term is good is the library's to say.
use std::ops::Range;

/// What a part is, as far as its signs tell: the sort that its head gives, whether or not its children fit.
#[derive(Clone, Copy, Debug, PartialEq, Eq)]
pub enum Sort {
    Index,
    Basis,
    Scalar,
    Ket,
    Bra,
    Operator,
}

impl Sort {
    fn adjoint(self) -> Sort {
        match self {
            Sort::Ket => Sort::Bra,
            Sort::Bra => Sort::Ket,
            other => other,
        }
    }
}

/// How many children a word has, as the scope's table of heads says.
fn children(word: u16) -> Option<usize> {
    let [head, a] = word.to_be_bytes();
    match head {
        1 | 3 | 5 | 6 | 26 | 28 => Some(0),
        9 | 12 | 13 | 15..=18 => Some(1),
        2 | 4 | 10 | 11 | 14 | 19 | 21..=25 | 27 => Some(2),
        7 | 8 | 20 => (a > 0).then_some(usize::from(a)),
        _ => None,
    }
}

/// The words of one whole term, with the end and the sort of the part that begins at each.
pub struct Shape<'a> {
    words: &'a [u16],
    ends: Vec<usize>,
    sorts: Vec<Sort>,
}

impl<'a> Shape<'a> {
    /// Nothing where the words are not one whole term, or name a variable that has no sort.
    pub fn of(words: &'a [u16], variables: &[Sort]) -> Option<Shape<'a>> {
        let mut shape = Shape {
            words,
            ends: vec![0; words.len()],
            sorts: vec![Sort::Index; words.len()],
        };
        // Behind a word stand its children: those that begin last are met first.
        let mut begun: Vec<usize> = Vec::new();
        for at in (0..words.len()).rev() {
            let n = children(words[at])?;
            let behind = begun.len().checked_sub(n)?;
            shape.ends[at] = begun.get(behind).map_or(at + 1, |&last| shape.ends[last]);
            begun.truncate(behind);
            begun.push(at);
            shape.sorts[at] = shape.sort_of(at, variables)?;
        }
        (begun.len() == 1).then_some(shape)
    }

    fn sort_of(&self, at: usize, variables: &[Sort]) -> Option<Sort> {
        let [head, a] = self.words[at].to_be_bytes();
        Some(match head {
            1 | 2 => Sort::Index,
            3 | 4 | 28 => Sort::Basis,
            5..=11 => Sort::Scalar,
            12 | 16 | 22 => Sort::Ket,
            13 | 17 | 23 => Sort::Bra,
            14 | 15 | 24 | 25 => Sort::Operator,
            18 => self.sorts[at + 1].adjoint(),
            19 | 27 => self.sorts[self.ends[at + 1]],
            26 => *variables.get(usize::from(a))?,
            _ => *self.sorts.get(at + 1)?,
        })
    }

    pub fn words(&self) -> &'a [u16] {
        self.words
    }

    pub fn head(&self, at: usize) -> u8 {
        self.words[at].to_be_bytes()[0]
    }

    /// The name or the number of children beside the head.
    pub fn low(&self, at: usize) -> u8 {
        self.words[at].to_be_bytes()[1]
    }

    pub fn sort(&self, at: usize) -> Sort {
        self.sorts[at]
    }

    /// Where the part stands.
    pub fn part(&self, at: usize) -> Range<usize> {
        at..self.ends[at]
    }

    /// Where the children of the part begin.
    pub fn children(&self, at: usize) -> impl Iterator<Item = usize> + '_ {
        let mut next = at + 1;
        let end = self.ends[at];
        std::iter::from_fn(move || {
            let child = (next < end).then_some(next)?;
            next = self.ends[child];
            Some(child)
        })
    }

    /// Whether the part is made of type names and products of them alone.
    pub fn is_index(&self, at: usize) -> bool {
        self.part(at).all(|k| matches!(self.head(k), 1 | 2))
    }
}

#[cfg(test)]
mod tests {
    use super::*;
    use fejogbu::{part, word};

    #[test]
    fn parts_are_those_of_the_lookup() {
        // A·(|s⟩ + |v⟩), with a sum of three in a sum over a basis behind it
        let term = [
            (22, 0),
            (26, 0),
            (20, 2),
            (16, 0),
            (3, 0),
            (27, 0),
            (1, 0),
            (20, 3),
            (26, 1),
            (26, 1),
            (16, 0),
            (28, 0),
        ]
        .map(|(head, a)| word(head, a));
        let shape = Shape::of(&term, &[Sort::Operator, Sort::Ket]).unwrap();
        for at in 0..term.len() {
            assert_eq!(shape.part(at).len(), part(&term, at).words.len(), "{at}");
        }
        assert_eq!(shape.children(2).collect::<Vec<_>>(), [3, 5]);
        assert_eq!((shape.sort(0), shape.sort(5)), (Sort::Ket, Sort::Ket));
    }

    #[test]
    fn what_is_no_whole_term_has_no_shape() {
        for words in [
            &[][..],
            &[word(9, 0)],
            &[word(5, 0), word(5, 0)],
            &[word(29, 0)],
            &[word(7, 0)],
            &[word(18, 0), word(26, 2)],
        ] {
            assert!(Shape::of(words, &[Sort::Ket]).is_none(), "{words:?}");
        }
    }
}

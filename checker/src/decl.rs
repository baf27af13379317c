//! Declarations: how many types there are, the index of each basis name, the
//! kind, mark and indices of each variable.

use crate::words::{head, low, split_part, word, Names, INDEX, NAMES, PRODUCT, TYPE, VARIABLE};

/// What a variable is declared to be, by the word of its kind.
#[derive(Clone, Copy, PartialEq, Eq, Debug)]
pub enum Letter {
    Scalar = 0,
    Ket = 1,
    Bra = 2,
    Operator = 3,
}

impl Letter {
    pub const ALL: [Letter; 4] = [Letter::Scalar, Letter::Ket, Letter::Bra, Letter::Operator];

    pub fn read(letter: u8) -> Option<Self> {
        Some(match letter {
            b'S' => Letter::Scalar,
            b'K' => Letter::Ket,
            b'B' => Letter::Bra,
            b'O' => Letter::Operator,
            _ => return None,
        })
    }

    pub fn text(self) -> &'static str {
        match self {
            Letter::Scalar => "S",
            Letter::Ket => "K",
            Letter::Bra => "B",
            Letter::Operator => "O",
        }
    }

    /// How many indices the declaration has.
    pub fn indices(self) -> usize {
        match self {
            Letter::Scalar => 0,
            Letter::Ket | Letter::Bra => 1,
            Letter::Operator => 2,
        }
    }
}

/// What the word of a kind has more where the variable is declared unitary.
pub const MARK: u16 = 4;

#[derive(Clone, PartialEq, Eq, Debug)]
pub struct Variable {
    /// The word of its kind as it is lent, which may be that of none.
    pub kind: u16,
    /// Its indices, one behind the other.
    pub words: Vec<u16>,
}

impl Variable {
    /// A variable without a mark.
    pub fn new(letter: Letter, words: Vec<u16>) -> Self {
        Variable { kind: letter as u16, words }
    }

    /// A marked operator on an index, which is both its indices. Other words
    /// may be given: written twice, they are two equal indices exactly where
    /// they are one index.
    pub fn unitary(index: &[u16]) -> Self {
        Variable { kind: Letter::Operator as u16 + MARK, words: index.repeat(2) }
    }

    pub fn marked(&self) -> bool {
        self.kind >= MARK
    }

    /// What it is, marked or not; nothing when the word is no kind's.
    pub fn letter(&self) -> Option<Letter> {
        let kind = if self.marked() { self.kind - MARK } else { self.kind };
        Letter::ALL.get(usize::from(kind)).copied()
    }

    /// Whether its words are an index twice.
    fn square(&self) -> bool {
        let (rows, columns) = split_part(&self.words);
        rows == columns
    }
}

/// Declarations as they were lent; `good` says whether they hold.
#[derive(Clone, PartialEq, Eq, Debug, Default)]
pub struct Declarations {
    pub types: usize,
    pub bases: Vec<Vec<u16>>,
    pub variables: Vec<Variable>,
}

impl Declarations {
    pub fn names(&self) -> Names {
        Names { types: self.types, bases: self.bases.len(), variables: self.variables.len() }
    }

    pub fn good_basis(&self, words: &[u16]) -> bool {
        indices(words, self.types, 1)
    }

    /// Whether a variable has exactly the indices wanted and, where it is
    /// marked, is an operator with two equal ones.
    pub fn good_variable(&self, variable: &Variable) -> bool {
        let Some(letter) = variable.letter() else {
            return false;
        };
        let may_be_marked = letter == Letter::Operator && variable.square();
        indices(&variable.words, self.types, letter.indices())
            && (may_be_marked || !variable.marked())
    }

    /// Whether a part is a variable that is declared unitary.
    pub fn marks(&self, part: &[u16]) -> bool {
        let &[name] = part else {
            return false;
        };
        let variable = self.variables.get(usize::from(low(name)));
        head(name) == VARIABLE && variable.is_some_and(Variable::marked)
    }

    pub fn good(&self) -> bool {
        self.types <= NAMES
            && self.bases.len() <= NAMES
            && self.variables.len() <= NAMES
            && self.bases.iter().all(|words| self.good_basis(words))
            && self.variables.iter().all(|variable| self.good_variable(variable))
    }
}

/// Whether the words are exactly so many indices, each within its limit and
/// over type names below `types`.
fn indices(mut words: &[u16], types: usize, wanted: usize) -> bool {
    for _ in 0..wanted {
        let (index, behind) = split_part(words);
        if index.is_empty() || index.len() > INDEX {
            return false;
        }
        words = behind;
        let fits =
            |&w: &u16| w == word(PRODUCT, 0) || head(w) == TYPE && usize::from(low(w)) < types;
        if !index.iter().all(fits) {
            return false;
        }
    }
    words.is_empty()
}

//! What a term stands for under a choice: exact matrices of Gaussian integers.

use crate::decl::{Declarations, Letter, Variable};
use crate::words::*;

/// A Gaussian integer. Sums and products are nothing when a part passes 128
/// bits.
#[derive(Clone, Copy, PartialEq, Eq, Debug, Default)]
pub struct Gauss {
    pub re: i128,
    pub im: i128,
}

impl Gauss {
    pub const ZERO: Gauss = Gauss { re: 0, im: 0 };
    pub const ONE: Gauss = Gauss { re: 1, im: 0 };
    /// 1, i, -1, -i: what has the absolute value 1.
    pub const UNITS: [Gauss; 4] =
        [Gauss::ONE, Gauss { re: 0, im: 1 }, Gauss { re: -1, im: 0 }, Gauss { re: 0, im: -1 }];

    fn plus(self, other: Gauss) -> Option<Gauss> {
        Some(Gauss { re: self.re.checked_add(other.re)?, im: self.im.checked_add(other.im)? })
    }

    fn times(self, other: Gauss) -> Option<Gauss> {
        let (a, b, c, d) = (self.re, self.im, other.re, other.im);
        Some(Gauss {
            re: a.checked_mul(c)?.checked_sub(b.checked_mul(d)?)?,
            im: a.checked_mul(d)?.checked_add(b.checked_mul(c)?)?,
        })
    }

    fn conjugate(self) -> Option<Gauss> {
        Some(Gauss { re: self.re, im: self.im.checked_neg()? })
    }
}

/// A matrix, row by row.
#[derive(Clone, PartialEq, Eq, Debug)]
pub struct Matrix {
    pub rows: usize,
    pub columns: usize,
    pub entries: Vec<Gauss>,
}

/// The most entries that are worked out.
const ENTRIES: usize = 1 << 14;

/// The most words that are read; those of a body are read once for each basis.
const READ: usize = 1 << 16;

impl Matrix {
    /// The matrix with these entries, if it is not too large.
    pub fn new(
        rows: usize,
        columns: usize,
        mut entry: impl FnMut(usize, usize) -> Option<Gauss>,
    ) -> Option<Matrix> {
        let size = rows.checked_mul(columns).filter(|&size| size <= ENTRIES)?;
        let mut entries = Vec::with_capacity(size);
        for row in 0..rows {
            for column in 0..columns {
                entries.push(entry(row, column)?);
            }
        }
        Some(Matrix { rows, columns, entries })
    }

    pub fn at(&self, row: usize, column: usize) -> Gauss {
        self.entries[row * self.columns + column]
    }

    fn number(value: Gauss) -> Matrix {
        Matrix { rows: 1, columns: 1, entries: vec![value] }
    }

    /// The only entry of a scalar.
    fn scalar(&self) -> Option<Gauss> {
        match self.entries[..] {
            [value] => Some(value),
            _ => None,
        }
    }

    fn plus(&self, other: &Matrix) -> Option<Matrix> {
        if (self.rows, self.columns) != (other.rows, other.columns) {
            return None;
        }
        Matrix::new(self.rows, self.columns, |r, c| self.at(r, c).plus(other.at(r, c)))
    }

    fn scaled(&self, by: Gauss) -> Option<Matrix> {
        Matrix::new(self.rows, self.columns, |r, c| by.times(self.at(r, c)))
    }

    pub fn adjoint(&self) -> Option<Matrix> {
        Matrix::new(self.columns, self.rows, |r, c| self.at(c, r).conjugate())
    }

    fn times(&self, other: &Matrix) -> Option<Matrix> {
        if self.columns != other.rows {
            return None;
        }
        Matrix::new(self.rows, other.columns, |r, c| {
            let mut sum = Gauss::ZERO;
            for k in 0..self.columns {
                sum = sum.plus(self.at(r, k).times(other.at(k, c))?)?;
            }
            Some(sum)
        })
    }

    fn identity(d: usize) -> Option<Matrix> {
        Matrix::new(d, d, |r, c| Some(one_if(r == c)))
    }

    /// Whether the matrix times its adjoint is the identity, from both sides;
    /// nothing when that is too large to work out.
    pub fn unitary(&self) -> Option<bool> {
        let adjoint = self.adjoint()?;
        let one_side = self.times(&adjoint)? == Matrix::identity(self.rows)?;
        let other_side = adjoint.times(self)? == Matrix::identity(self.columns)?;
        Some(one_side && other_side)
    }

    /// The Kronecker product; the left index is the more significant.
    fn tensor(&self, other: &Matrix) -> Option<Matrix> {
        let rows = self.rows.checked_mul(other.rows)?;
        let columns = self.columns.checked_mul(other.columns)?;
        Matrix::new(rows, columns, |r, c| {
            let left = self.at(r / other.rows, c / other.columns);
            left.times(other.at(r % other.rows, c % other.columns))
        })
    }
}

/// A dimension for each type name, an index for each basis name, a matrix for
/// each variable. What a step keeps it keeps where the matrices of marked
/// variables are unitary.
#[derive(Clone, PartialEq, Eq, Debug)]
pub struct Choice {
    pub dimensions: Vec<usize>,
    pub bases: Vec<usize>,
    pub variables: Vec<Matrix>,
}

/// The dimension of an index.
pub fn dimension(index: &[u16], dimensions: &[usize]) -> Option<usize> {
    index.iter().filter(|&&word| head(word) == TYPE).try_fold(1usize, |product, &word| {
        product.checked_mul(*dimensions.get(usize::from(low(word)))?)
    })
}

/// The rows and columns of a variable.
pub fn shape(variable: &Variable, dimensions: &[usize]) -> Option<(usize, usize)> {
    let (first, second) = split_part(&variable.words);
    let first = dimension(first, dimensions)?;
    let second = dimension(second, dimensions)?;
    Some(match variable.letter()? {
        Letter::Scalar => (1, 1),
        Letter::Ket => (first, 1),
        Letter::Bra => (1, first),
        Letter::Operator => (first, second),
    })
}

/// The matrix of a typed term; nothing when it is too large to work out.
pub fn meaning(declared: &Declarations, choice: &Choice, words: &[u16]) -> Option<Matrix> {
    if !(1..=DEPTH).contains(&part(words, 0).depth) {
        return None;
    }
    Reader { declared, choice, words, at: 0, left: READ, bound: Vec::new() }.term()
}

struct Reader<'t> {
    declared: &'t Declarations,
    choice: &'t Choice,
    words: &'t [u16],
    at: usize,
    /// How many words may still be read.
    left: usize,
    /// The running index and the dimension of each sum around, outermost first.
    bound: Vec<(usize, usize)>,
}

impl Reader<'_> {
    fn next(&mut self) -> Option<u16> {
        let word = *self.words.get(self.at)?;
        self.left = self.left.checked_sub(1)?;
        self.at += 1;
        Some(word)
    }

    fn term(&mut self) -> Option<Matrix> {
        let word = self.next()?;
        match head(word) {
            ZERO => Some(Matrix::number(Gauss::ZERO)),
            ONE => Some(Matrix::number(Gauss::ONE)),
            ADDS | ADD => {
                let mut sum = self.term()?;
                for _ in 1..low(word) {
                    sum = sum.plus(&self.term()?)?;
                }
                Some(sum)
            }
            MULS => {
                let mut product = self.term()?.scalar()?;
                for _ in 1..low(word) {
                    product = product.times(self.term()?.scalar()?)?;
                }
                Some(Matrix::number(product))
            }
            CONJ => Some(Matrix::number(self.term()?.scalar()?.conjugate()?)),
            DELTA => {
                let (s, _) = self.basis()?;
                let (t, _) = self.basis()?;
                Some(Matrix::number(one_if(s == t)))
            }
            ZERO_KET => Matrix::new(self.index()?, 1, |_, _| Some(Gauss::ZERO)),
            ZERO_BRA => Matrix::new(1, self.index()?, |_, _| Some(Gauss::ZERO)),
            ZERO_OPERATOR => Matrix::new(self.index()?, self.index()?, |_, _| Some(Gauss::ZERO)),
            IDENTITY => Matrix::identity(self.index()?),
            KET => {
                let (value, d) = self.basis()?;
                Matrix::new(d, 1, |r, _| Some(one_if(r == value)))
            }
            BRA => {
                let (value, d) = self.basis()?;
                Matrix::new(1, d, |_, c| Some(one_if(c == value)))
            }
            ADJ => self.term()?.adjoint(),
            SCR => {
                let by = self.term()?.scalar()?;
                self.term()?.scaled(by)
            }
            TSR => self.term()?.tensor(&self.term()?),
            DOT | MULK | MULB | OUTER | MULO => self.term()?.times(&self.term()?),
            SUM => self.over(),
            VARIABLE => self.choice.variables.get(usize::from(low(word))).cloned(),
            _ => None,
        }
    }

    /// The sum of the body over all indices of the dimension.
    fn over(&mut self) -> Option<Matrix> {
        let d = self.index()?;
        let body = self.at;
        let mut sum = None;
        for value in 0..d {
            self.at = body;
            self.bound.push((value, d));
            let term = self.term()?;
            self.bound.pop();
            sum = Some(match sum {
                None => term,
                Some(sum) => term.plus(&sum)?,
            });
        }
        sum
    }

    /// The index that a basis names, and the dimension it is below.
    fn basis(&mut self) -> Option<(usize, usize)> {
        let word = self.next()?;
        match head(word) {
            BASIS => {
                let a = usize::from(low(word));
                let index = self.declared.bases.get(a)?;
                Some((*self.choice.bases.get(a)?, dimension(index, &self.choice.dimensions)?))
            }
            BOUND => {
                let outer = self.bound.len().checked_sub(usize::from(low(word)) + 1)?;
                Some(self.bound[outer])
            }
            PAIR => {
                let (s, d) = self.basis()?;
                let (t, e) = self.basis()?;
                Some((s.checked_mul(e)?.checked_add(t)?, d.checked_mul(e)?))
            }
            _ => None,
        }
    }

    /// The dimension of the index that stands next.
    fn index(&mut self) -> Option<usize> {
        let index = part(self.words, self.at).words;
        self.at += index.len();
        dimension(index, &self.choice.dimensions)
    }
}

fn one_if(condition: bool) -> Gauss {
    if condition {
        Gauss::ONE
    } else {
        Gauss::ZERO
    }
}

//! A generator with a seed: declarations, typed terms, instances of rules,
//! accepted derivations, damaged copies, and choices of matrices.

mod cases;
mod damage;
mod instances;
mod layers;
mod misses;
mod rng;
mod runs;
mod steps;
mod terms;
mod walks;

pub use damage::damaged;
pub use instances::Instance;
pub use rng::Rng;
pub use terms::Want;
pub use walks::Derivation;

use crate::decl::{Declarations, Letter, Variable};
use crate::matrix::{dimension, shape, Choice, Gauss, Matrix};
use crate::words::{word, TYPE};
use terms::product;

/// Declarations, and the numbers from which terms over them are made.
#[derive(Clone, Debug)]
pub struct Gen {
    pub rng: Rng,
    pub declared: Declarations,
    /// Whether terms have sums over a basis.
    sums: bool,
    /// The indices of the sums whose bodies hold what is made, outermost first.
    bound: Vec<Vec<u16>>,
}

impl Gen {
    /// A generator with declarations of its own.
    pub fn new(seed: u64) -> Self {
        let rng = Rng::new(seed);
        let mut gen =
            Gen { rng, declared: Declarations::default(), sums: false, bound: Vec::new() };
        gen.declare();
        gen
    }

    /// New declarations: a few types; bases and variables for each of them and
    /// for some products, so that a basis of a product need not be a pair; marked
    /// variables, of which there is at least one, for 190 and 191. Now and then
    /// terms over them have sums over a basis.
    pub fn declare(&mut self) {
        self.sums = self.rng.below(5) < 2;
        self.bound.clear();
        let types = self.rng.within(1, 3);
        self.declared = Declarations { types, ..Declarations::default() };
        let atoms: Vec<Vec<u16>> = (0..types).map(|a| vec![word(TYPE, a as u8)]).collect();
        let mut bases: Vec<Vec<u16>> = Vec::new();
        let mut variables = Vec::new();
        for _ in 0..self.rng.within(1, 3) {
            variables.push(Variable::new(Letter::Scalar, Vec::new()));
        }
        for index in &atoms {
            for _ in 0..self.rng.within(1, 3) {
                bases.push(index.clone());
            }
            variables.push(Variable::new(Letter::Ket, index.clone()));
            variables.push(Variable::new(Letter::Bra, index.clone()));
            if self.rng.once_in(2) {
                variables.push(Variable::unitary(index));
            }
            for columns in &atoms {
                let words = [&index[..], columns].concat();
                variables.push(Variable::new(Letter::Operator, words));
                if self.rng.once_in(2) {
                    bases.push(product(index, columns));
                }
            }
        }
        variables.push(Variable::unitary(&self.rng.pick(&atoms).clone()));
        for _ in 0..self.rng.within(0, 3) {
            self.declare_over_any(&mut bases, &mut variables);
        }
        self.rng.shuffle(&mut bases);
        self.rng.shuffle(&mut variables);
        self.declared.bases = bases;
        self.declared.variables = variables;
    }

    /// A few names of one index, which may be a product.
    fn declare_over_any(&mut self, bases: &mut Vec<Vec<u16>>, variables: &mut Vec<Variable>) {
        let index = self.index();
        if self.rng.once_in(2) {
            bases.push(index.clone());
        }
        for letter in [Letter::Ket, Letter::Bra] {
            if self.rng.once_in(2) {
                variables.push(Variable::new(letter, index.clone()));
            }
        }
        match self.rng.below(4) {
            0 => variables.push(Variable::unitary(&index)),
            1 => {
                let words = [index, self.index()].concat();
                variables.push(Variable::new(Letter::Operator, words));
            }
            _ => {}
        }
    }

    /// A choice with dimensions from 1 to `largest`, in which what is marked is
    /// unitary.
    pub fn choice(&mut self, largest: usize) -> Option<Choice> {
        let types = self.declared.types;
        let dimensions: Vec<usize> = (0..types).map(|_| self.rng.within(1, largest)).collect();
        let mut bases = Vec::new();
        for index in &self.declared.bases {
            bases.push(self.rng.below(dimension(index, &dimensions)?));
        }
        let mut variables = Vec::new();
        for variable in &self.declared.variables {
            let (rows, columns) = shape(variable, &dimensions)?;
            let rng = &mut self.rng;
            variables.push(match variable.marked() {
                true => unitary(rng, rows)?,
                false => matrix(rng, rows, columns)?,
            });
        }
        Some(Choice { dimensions, bases, variables })
    }
}

/// A matrix of small entries.
fn matrix(rng: &mut Rng, rows: usize, columns: usize) -> Option<Matrix> {
    let mut part = || rng.below(7) as i128 - 3;
    Matrix::new(rows, columns, |_, _| Some(Gauss { re: part(), im: part() }))
}

/// A unitary matrix: in each row and each column one entry is 1, i, -1 or -i,
/// the others are 0. Over the Gaussian integers there are no others, since the
/// squares of a row's absolute values are whole and add up to 1.
fn unitary(rng: &mut Rng, dimension: usize) -> Option<Matrix> {
    let mut entries: Vec<(usize, Gauss)> =
        (0..dimension).map(|column| (column, *rng.pick(&Gauss::UNITS))).collect();
    rng.shuffle(&mut entries);
    Matrix::new(dimension, dimension, |row, column| {
        let (filled, unit) = entries[row];
        Some(if filled == column { unit } else { Gauss::ZERO })
    })
}

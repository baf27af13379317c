//! Typed terms of a wanted type.

use super::Gen;
use crate::decl::{Letter, Variable};
use crate::notation::OWN;
use crate::words::*;

/// The type a term is wanted to have.
#[derive(Clone, PartialEq, Eq, Debug)]
pub enum Want {
    Scalar,
    Ket(Vec<u16>),
    Bra(Vec<u16>),
    Operator(Vec<u16>, Vec<u16>),
}
use Want::{Bra, Ket, Operator, Scalar};

/// The two factors of a product index.
pub fn factors(index: &[u16]) -> Option<(Vec<u16>, Vec<u16>)> {
    let (&first, rest) = index.split_first()?;
    if head(first) != PRODUCT {
        return None;
    }
    let (left, right) = split_part(rest);
    Some((left.to_vec(), right.to_vec()))
}

pub fn product(left: &[u16], right: &[u16]) -> Vec<u16> {
    [&[word(PRODUCT, 0)], left, right].concat()
}

/// The pair of wants whose tensor is wanted.
pub fn tensor_factors(want: &Want) -> Option<(Want, Want)> {
    Some(match want {
        Scalar => return None,
        Ket(index) => {
            let (left, right) = factors(index)?;
            (Ket(left), Ket(right))
        }
        Bra(index) => {
            let (left, right) = factors(index)?;
            (Bra(left), Bra(right))
        }
        Operator(rows, columns) => {
            let (a, b) = factors(rows)?;
            let (c, d) = factors(columns)?;
            (Operator(a, c), Operator(b, d))
        }
    })
}

pub fn adjoint(want: &Want) -> Option<Want> {
    Some(match want {
        Scalar => return None,
        Ket(index) => Bra(index.clone()),
        Bra(index) => Ket(index.clone()),
        Operator(rows, columns) => Operator(columns.clone(), rows.clone()),
    })
}

impl Gen {
    pub(super) fn atom(&mut self) -> Vec<u16> {
        vec![word(TYPE, self.rng.below(self.declared.types) as u8)]
    }

    /// An index of one to three names.
    pub fn index(&mut self) -> Vec<u16> {
        let first = self.atom();
        if self.rng.once_in(2) {
            return first;
        }
        let second = self.atom();
        let both = product(&first, &second);
        match self.rng.below(8) {
            0 => product(&both, &self.atom()),
            1 => product(&self.atom(), &both),
            _ => both,
        }
    }

    /// An index of so many names, nested at random.
    pub fn index_of(&mut self, names: usize) -> Vec<u16> {
        if names <= 1 {
            return self.atom();
        }
        let left = match self.rng.below(3) {
            0 => 1,
            1 => names - 1,
            _ => self.rng.within(1, names - 1),
        };
        product(&self.index_of(left), &self.index_of(names - left))
    }

    pub fn want(&mut self) -> Want {
        match self.rng.below(4) {
            0 => Scalar,
            _ => self.vector(),
        }
    }

    /// A type other than scalar.
    pub(super) fn vector(&mut self) -> Want {
        match self.rng.below(3) {
            0 => Ket(self.index()),
            1 => Bra(self.index()),
            _ => Operator(self.index(), self.index()),
        }
    }

    /// A typed term of the wanted type, at most about `fuel` levels deep.
    pub fn term(&mut self, want: &Want, fuel: usize) -> Vec<u16> {
        let mut out = Vec::new();
        self.put(want, fuel, &mut out);
        out
    }

    pub(super) fn put(&mut self, want: &Want, fuel: usize, out: &mut Vec<u16>) {
        if fuel == 0 || self.rng.once_in(6) {
            return self.leaf(want, out);
        }
        let fuel = fuel - 1;
        if self.sums && self.bound.len() < BODIES && self.rng.once_in(4) {
            return self.sum_over(want, fuel, out);
        }
        match self.rng.below(10) {
            0 | 1 => self.sum_of(want, fuel, out),
            2 if *want == Scalar => {
                out.push(word(CONJ, 0));
                self.put(want, fuel, out);
            }
            2 => {
                out.push(word(ADJ, 0));
                self.put(&adjoint(want).unwrap_or(Scalar), fuel, out);
            }
            3 if *want == Scalar => self.counted(MULS, want, fuel, out),
            3 => {
                out.push(word(SCR, 0));
                self.put(&Scalar, fuel, out);
                self.put(want, fuel, out);
            }
            4..7 if tensor_factors(want).is_some() => {
                if let Some((left, right)) = tensor_factors(want) {
                    self.two(TSR, &left, &right, fuel, out);
                }
            }
            _ => {
                let middle = self.middle();
                match want.clone() {
                    Scalar => self.two(DOT, &Bra(middle.clone()), &Ket(middle), fuel, out),
                    Ket(s) => {
                        self.two(MULK, &Operator(s, middle.clone()), &Ket(middle), fuel, out);
                    }
                    Bra(t) => {
                        self.two(MULB, &Bra(middle.clone()), &Operator(middle, t), fuel, out);
                    }
                    Operator(s, t) if s == t && self.undone(&s, out) => {}
                    Operator(s, t) if self.rng.once_in(2) => {
                        self.two(OUTER, &Ket(s), &Bra(t), fuel, out);
                    }
                    Operator(s, t) => {
                        let left = Operator(s, middle.clone());
                        self.two(MULO, &left, &Operator(middle, t), fuel, out);
                    }
                }
            }
        }
    }

    /// Now and then a variable times its adjoint, or its adjoint times it, where
    /// one on this index is marked.
    fn undone(&mut self, index: &[u16], out: &mut Vec<u16>) -> bool {
        let Some(name) = self.marked(index).filter(|_| self.rng.once_in(3)) else {
            return false;
        };
        let (name, adjoint) = (word(VARIABLE, name), word(ADJ, 0));
        out.push(word(MULO, 0));
        out.extend(match self.rng.once_in(2) {
            true => [adjoint, name, name],
            false => [name, adjoint, name],
        });
        true
    }

    /// An index; in a body often one that a sum around it runs over.
    pub(super) fn middle(&mut self) -> Vec<u16> {
        if self.bound.is_empty() || self.rng.once_in(3) {
            return self.index();
        }
        self.rng.pick(&self.bound).clone()
    }

    /// An index to sum a term over: often one of its type.
    pub(super) fn index_over(&mut self, want: &Want) -> Vec<u16> {
        match want {
            Ket(index) | Bra(index) | Operator(index, _) if !self.rng.once_in(3) => index.clone(),
            _ => self.middle(),
        }
    }

    /// A sum over a basis.
    fn sum_over(&mut self, want: &Want, fuel: usize, out: &mut Vec<u16>) {
        let index = self.index_over(want);
        put_index(SUM, &index, out);
        self.bound.push(index);
        self.body(want, fuel, out);
        self.bound.pop();
    }

    /// The body of a sum over a basis, often one that a rule is about.
    fn body(&mut self, want: &Want, fuel: usize, out: &mut Vec<u16>) {
        let index = self.bound.last().cloned().unwrap_or_default();
        let start = out.len();
        match (want, self.rng.below(5)) {
            (Scalar, 0) => return out.push(word(ZERO, 0)),
            (Scalar, 1) => {
                out.push(word(DELTA, 0));
                if self.basis(&index, out) {
                    return out.push(OWN);
                }
            }
            (Operator(rows, columns), 0..3) if *rows == index && *columns == index => {
                return out.extend([word(OUTER, 0), word(KET, 0), OWN, word(BRA, 0), OWN]);
            }
            (_, 3) => return self.sum_of(want, fuel, out),
            _ => {}
        }
        out.truncate(start);
        self.put(want, fuel, out);
    }

    fn two(&mut self, head: u8, left: &Want, right: &Want, fuel: usize, out: &mut Vec<u16>) {
        out.push(word(head, 0));
        self.put(left, fuel, out);
        self.put(right, fuel, out);
    }

    pub(super) fn counted(&mut self, head: u8, want: &Want, fuel: usize, out: &mut Vec<u16>) {
        let n = self.rng.within(1, 3);
        out.push(word(head, n as u8));
        for _ in 0..n {
            self.put(want, fuel, out);
        }
    }

    fn sum_of(&mut self, want: &Want, fuel: usize, out: &mut Vec<u16>) {
        self.counted(sum_head(want), want, fuel, out);
    }

    fn leaf(&mut self, want: &Want, out: &mut Vec<u16>) {
        if !self.rng.once_in(12) {
            // In a body most often, so that it uses its basis.
            let of_nine = if self.bound.is_empty() { 3 } else { 7 };
            if self.rng.below(9) < of_nine && self.named(want, out) {
                return;
            }
            if let Some(a) = self.variable(want) {
                return out.push(word(VARIABLE, a));
            }
            if self.named(want, out) {
                return;
            }
            if let Some((left, right)) = tensor_factors(want) {
                return self.two(TSR, &left, &right, 0, out);
            }
        }
        match want {
            Scalar => out.push(word(*self.rng.pick(&[ZERO, ONE]), 0)),
            Ket(index) => put_index(ZERO_KET, index, out),
            Bra(index) => put_index(ZERO_BRA, index, out),
            Operator(rows, columns) if rows == columns && self.rng.once_in(2) => {
                put_index(IDENTITY, rows, out);
            }
            Operator(rows, columns) => {
                put_index(ZERO_OPERATOR, rows, out);
                out.extend(columns);
            }
        }
    }

    /// A ket or bra of a basis, a delta, and an identity or, in a body, a ket times
    /// a bra, where there is one.
    fn named(&mut self, want: &Want, out: &mut Vec<u16>) -> bool {
        let start = out.len();
        let good = match want {
            Scalar => {
                let index = self.middle();
                out.push(word(DELTA, 0));
                self.basis(&index, out) && self.basis(&index, out)
            }
            Ket(index) => {
                out.push(word(KET, 0));
                self.basis(index, out)
            }
            Bra(index) => {
                out.push(word(BRA, 0));
                self.basis(index, out)
            }
            Operator(rows, columns) if !self.bound.is_empty() => {
                out.extend([word(OUTER, 0), word(KET, 0)]);
                let ket = self.basis(rows, out);
                out.push(word(BRA, 0));
                ket && self.basis(columns, out)
            }
            Operator(rows, columns) => {
                put_index(IDENTITY, rows, out);
                rows == columns
            }
        };
        if !good {
            out.truncate(start);
        }
        good
    }

    /// The bases of an index that are declared or bound.
    fn fitting(&self, index: &[u16]) -> Vec<u16> {
        let names = (0..).zip(&self.declared.bases).map(|(a, of)| (word(BASIS, a), of));
        let bound = (0..).zip(self.bound.iter().rev()).map(|(a, of)| (word(BOUND, a), of));
        // Twice, since there are more names.
        names
            .chain(bound.clone())
            .chain(bound)
            .filter(|(_, of)| *of == index)
            .map(|(basis, _)| basis)
            .collect()
    }

    /// A basis of an index, where one is declared, bound or can be paired.
    pub(super) fn basis(&mut self, index: &[u16], out: &mut Vec<u16>) -> bool {
        let fitting = self.fitting(index);
        match factors(index) {
            Some((left, right)) if fitting.is_empty() || self.rng.once_in(2) => {
                out.push(word(PAIR, 0));
                self.basis(&left, out) && self.basis(&right, out)
            }
            _ if fitting.is_empty() => false,
            _ => {
                out.push(*self.rng.pick(&fitting));
                true
            }
        }
    }

    /// A variable of the wanted type, if one is declared.
    fn variable(&mut self, want: &Want) -> Option<u8> {
        self.variable_that(|variable| match (variable.letter(), want) {
            (Some(Letter::Scalar), Scalar) => true,
            (Some(Letter::Ket), Ket(index)) | (Some(Letter::Bra), Bra(index)) => {
                variable.words == *index
            }
            (Some(Letter::Operator), Operator(rows, columns)) => {
                variable.words.strip_prefix(&rows[..]) == Some(columns)
            }
            _ => false,
        })
    }

    /// A marked variable on an index, if one is declared.
    pub(super) fn marked(&mut self, index: &[u16]) -> Option<u8> {
        let wanted = Variable::unitary(index);
        self.variable_that(|variable| *variable == wanted)
    }

    /// A variable that fits, if one is declared.
    pub(super) fn variable_that(&mut self, fits: impl Fn(&Variable) -> bool) -> Option<u8> {
        let variables = &self.declared.variables;
        let fitting: Vec<usize> = (0..variables.len()).filter(|&a| fits(&variables[a])).collect();
        if fitting.is_empty() {
            return None;
        }
        Some(*self.rng.pick(&fitting) as u8)
    }
}

pub(super) fn sum_head(want: &Want) -> u8 {
    match want {
        Scalar => ADDS,
        _ => ADD,
    }
}

pub(super) fn put_index(head: u8, index: &[u16], out: &mut Vec<u16>) {
    out.push(word(head, 0));
    out.extend(index);
}

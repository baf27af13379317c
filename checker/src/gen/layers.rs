//! Larger typed terms around a part.

use super::terms::{adjoint, product, sum_head, Want};
use super::Gen;
use crate::words::*;
use Want::{Bra, Ket, Operator, Scalar};

impl Gen {
    /// A term 60 to 64 deep with a term in it: the words, and where that begins.
    pub fn deepen(&mut self, want: &Want, words: &[u16]) -> (Vec<u16>, usize) {
        let wanted = self.rng.within(61, DEPTH);
        deepened(want, words, wanted)
    }

    /// Adds another term of its type to a term, before or behind it, so that
    /// the sum has so many words: the words, and where the term now begins.
    pub fn lengthen(&mut self, want: &Want, words: &[u16], total: usize) -> (Vec<u16>, usize) {
        let sum = vec![word(sum_head(want), 2)];
        let other = self.sized(want, total - 1 - words.len());
        if self.rng.once_in(2) {
            ([&sum, words, &other].concat(), 1)
        } else {
            ([&sum, &other, words].concat(), 1 + other.len())
        }
    }

    /// A term of exactly so many words: a scalar, or a leaf that one scales.
    fn sized(&mut self, want: &Want, words: usize) -> Vec<u16> {
        if *want == Scalar {
            return ones(words);
        }
        let leaf = self.term(want, 0);
        [vec![word(SCR, 0)], ones(words - 1 - leaf.len()), leaf].concat()
    }

    /// Opens a few bodies, in which the part that is made next stands, and
    /// leaves room for one more.
    pub(super) fn open_bodies(&mut self) {
        self.bound.clear();
        let most = match self.rng.below(16) {
            _ if !self.sums => 0,
            0 => BODIES - 1,
            _ => 2,
        };
        for _ in 0..self.rng.within(0, most) {
            let index = self.middle();
            self.bound.push(index);
        }
    }

    /// Puts a part into a larger typed term, and closes the bodies that were
    /// opened for it: the type, the words, and where the part now begins.
    pub fn wrap(&mut self, want: &Want, part: &[u16]) -> (Want, Vec<u16>, usize) {
        let (mut want, mut words, mut place) = (want.clone(), part.to_vec(), 0);
        loop {
            for _ in 0..self.rng.below(3) {
                let (around, before, behind) = self.layer(&want);
                place += before.len();
                words = [before, words, behind].concat();
                want = around;
            }
            let Some(index) = self.bound.pop() else {
                return (want, words, place);
            };
            place += 1 + index.len();
            words = [vec![word(SUM, 0)], index, words].concat();
        }
    }

    /// One layer around a part: the new type, the words before and behind.
    fn layer(&mut self, want: &Want) -> (Want, Vec<u16>, Vec<u16>) {
        let only = |head| vec![word(head, 0)];
        let none = Vec::new();
        match self.rng.below(8) {
            0 | 1 => {
                let head = match want {
                    Scalar => *self.rng.pick(&[ADDS, MULS]),
                    _ => ADD,
                };
                let (before, behind) = (self.rng.below(3), self.rng.below(2));
                let mut front = vec![word(head, (before + 1 + behind) as u8)];
                for _ in 0..before {
                    self.put(want, 1, &mut front);
                }
                let mut back = Vec::new();
                for _ in 0..behind {
                    self.put(want, 1, &mut back);
                }
                (want.clone(), front, back)
            }
            2 => match want {
                Scalar => (Scalar, only(CONJ), none),
                _ => (adjoint(want).unwrap_or(Scalar), only(ADJ), none),
            },
            3 => match want {
                Scalar => {
                    let scaled = self.vector();
                    let behind = self.term(&scaled, 1);
                    (scaled, only(SCR), behind)
                }
                _ => {
                    let before = [only(SCR), self.term(&Scalar, 1)].concat();
                    (want.clone(), before, none)
                }
            },
            4 => self.tensored(want),
            _ => self.multiplied(want),
        }
    }

    fn tensored(&mut self, want: &Want) -> (Want, Vec<u16>, Vec<u16>) {
        let other = match want {
            Scalar => return (Scalar, vec![word(CONJ, 0)], Vec::new()),
            Ket(_) => Ket(self.atom()),
            Bra(_) => Bra(self.atom()),
            Operator(..) => Operator(self.atom(), self.atom()),
        };
        let factor = self.term(&other, 1);
        let join = |left: &Want, right: &Want| match (left, right) {
            (Ket(a), Ket(b)) => Ket(product(a, b)),
            (Bra(a), Bra(b)) => Bra(product(a, b)),
            (Operator(a, b), Operator(c, d)) => Operator(product(a, c), product(b, d)),
            _ => Scalar,
        };
        if self.rng.once_in(2) {
            (join(want, &other), vec![word(TSR, 0)], factor)
        } else {
            (join(&other, want), [vec![word(TSR, 0)], factor].concat(), Vec::new())
        }
    }

    fn multiplied(&mut self, want: &Want) -> (Want, Vec<u16>, Vec<u16>) {
        let index = self.index();
        let first = self.rng.once_in(2);
        // Head, the other factor, whether the part comes first, the new type.
        let (head, other, first, around) = match want.clone() {
            Scalar => {
                let scaled = self.vector();
                (SCR, scaled.clone(), true, scaled)
            }
            Ket(s) => match self.rng.below(3) {
                0 => (DOT, Bra(s), false, Scalar),
                1 => (MULK, Operator(index.clone(), s), false, Ket(index)),
                _ => (OUTER, Bra(index.clone()), true, Operator(s, index)),
            },
            Bra(t) => match self.rng.below(3) {
                0 => (DOT, Ket(t), true, Scalar),
                1 => (MULB, Operator(t, index.clone()), true, Bra(index)),
                _ => (OUTER, Ket(index.clone()), false, Operator(index, t)),
            },
            Operator(s, t) => match self.rng.below(3) {
                0 => (MULK, Ket(t), true, Ket(s)),
                1 => (MULB, Bra(s), false, Bra(t)),
                _ if first => (MULO, Operator(t, index.clone()), true, Operator(s, index)),
                _ => (MULO, Operator(index.clone(), s), false, Operator(index, t)),
            },
        };
        let factor = self.term(&other, 1);
        if first {
            (around, vec![word(head, 0)], factor)
        } else {
            (around, [vec![word(head, 0)], factor].concat(), Vec::new())
        }
    }
}

/// Puts conjugates or adjoints before a term, which keep its type, until it is
/// so deep, or less by one: the words, and where the term now begins.
pub(super) fn deepened(want: &Want, words: &[u16], wanted: usize) -> (Vec<u16>, usize) {
    let missing = wanted.saturating_sub(part(words, 0).depth);
    let (head, above) = match want {
        Scalar => (CONJ, missing),
        _ => (ADJ, missing / 2 * 2),
    };
    ([&vec![word(head, 0); above], words].concat(), above)
}

/// A scalar of exactly so many words: 1, or sums of it.
fn ones(words: usize) -> Vec<u16> {
    if words == 1 {
        return vec![word(ONE, 0)];
    }
    let rest = words - 1;
    let n = rest.min(CHILDREN);
    let mut out = vec![word(ADDS, n as u8)];
    for k in 0..n {
        out.extend(ones(rest / n + usize::from(k < rest % n)));
    }
    out
}

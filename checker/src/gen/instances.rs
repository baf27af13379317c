//! Instances of a wanted rule.

use super::terms::{adjoint, factors, put_index, sum_head, tensor_factors, Want};
use super::Gen;
use crate::notation::{Item, Kind, Law, OWN, SLOTS};
use crate::rules::{Rule, Way};
use crate::words::*;
use Want::{Bra, Ket, Operator, Scalar};

/// An instance of a rule, and the indices with which it is one.
#[derive(Clone, Debug)]
pub struct Instance {
    pub want: Want,
    pub words: Vec<u16>,
    pub i: u16,
    pub j: u16,
}

impl Gen {
    /// An instance of a rule, which stands in the bodies that `wrap` closes.
    pub fn instance(&mut self, rule: &Rule) -> Option<Instance> {
        self.open_bodies();
        match &rule.way {
            Way::Law(law) => (0..10_000).find_map(|_| self.lawful(law)),
            Way::SpreadBody => Some(self.sum_of_a_sum()),
            Way::Swap if self.rng.once_in(4) => Some(self.delta()),
            way => Some(self.indexed(way)),
        }
    }

    fn sum_of_a_sum(&mut self) -> Instance {
        let want = self.want();
        let index = self.index_over(&want);
        let mut words = Vec::new();
        put_index(SUM, &index, &mut words);
        self.bound.push(index);
        self.counted(sum_head(&want), &want, 1, &mut words);
        self.bound.pop();
        Instance { want, words, i: 0, j: 0 }
    }

    /// A delta of two bases of an index; each declared type has one.
    fn delta(&mut self) -> Instance {
        let index = self.middle();
        let mut words = vec![word(DELTA, 0)];
        let done = self.basis(&index, &mut words) && self.basis(&index, &mut words);
        assert!(done, "a basis of {}", tokens(&index));
        Instance { want: Scalar, words, i: 0, j: 0 }
    }

    fn lawful(&mut self, law: &Law) -> Option<Instance> {
        let want = self.want();
        let mut build = Build { law, left: law.left.get(), bound: Default::default() };
        let mut words = Vec::new();
        build.put(self, Hole::Term(want.clone()), &mut words)?;
        Some(Instance { want, words, i: 0, j: 0 })
    }

    fn indexed(&mut self, way: &Way) -> Instance {
        let (head, want) = match way {
            Way::Remove { parent: ADDS, .. } => (ADDS, Scalar),
            Way::Remove { parent: MULS, .. } | Way::Absorb | Way::Spread => (MULS, Scalar),
            Way::Remove { unit: ZERO_KET, .. } => (ADD, Ket(self.index())),
            Way::Remove { unit: ZERO_BRA, .. } => (ADD, Bra(self.index())),
            Way::Remove { .. } => (ADD, Operator(self.index(), self.index())),
            Way::Collect { .. } => (ADD, self.vector()),
            _ => match self.rng.below(3) {
                0 => (ADDS, Scalar),
                1 => (MULS, Scalar),
                _ => (ADD, self.vector()),
            },
        };
        let fewest = match way {
            Way::Merge | Way::Absorb | Way::Spread => 1,
            _ => 2,
        };
        let n = self.rng.within(fewest, 4);
        let mut children: Vec<Vec<u16>> = (0..n).map(|_| self.term(&want, 1)).collect();
        let (mut i, mut j) = (self.rng.below(n), 0);
        match way {
            Way::Merge => {
                children[i].clear();
                let mut child = Vec::new();
                self.counted(head, &want, 1, &mut child);
                children[i] = child;
            }
            Way::Remove { unit, .. } => {
                children[i] = vec![word(*unit, 0)];
                match &want {
                    Scalar => {}
                    Ket(index) | Bra(index) => children[i].extend(index),
                    Operator(rows, columns) => {
                        children[i].extend(rows);
                        children[i].extend(columns);
                    }
                }
            }
            Way::Absorb => children[i] = vec![word(ZERO, 0)],
            Way::Spread => {
                let mut child = Vec::new();
                self.counted(ADDS, &want, 1, &mut child);
                children[i] = child;
            }
            Way::Collect { i_scaled, j_scaled } => {
                i = self.rng.below(n - 1);
                j = self.rng.within(i + 1, n - 1);
                let x = self.term(&want, 2);
                for (k, scaled) in [(i, i_scaled), (j, j_scaled)] {
                    children[k].clear();
                    if *scaled {
                        children[k].push(word(SCR, 0));
                        children[k].extend(self.term(&Scalar, 1));
                    }
                    children[k].extend(&x);
                }
            }
            Way::Swap => i = self.rng.below(n - 1),
            Way::Law(_) | Way::SpreadBody => {}
        }
        let words = [vec![word(head, n as u8)], children.concat()].concat();
        Instance { want, words, i: i as u16, j: j as u16 }
    }
}

/// What stands at a place of a pattern.
enum Hole {
    Term(Want),
    Basis(Vec<u16>),
    Index(Vec<u16>),
}

impl Hole {
    /// Whether a part that stands in another hole of its letter fits here too.
    /// Only terms can differ: no rule has an index twice, and the two bases of a
    /// delta are of one index.
    fn takes(&self, gen: &Gen, part: &[u16]) -> bool {
        match self {
            Hole::Term(want) => gen.want_of(part).as_ref() == Some(want),
            Hole::Basis(_) | Hole::Index(_) => true,
        }
    }
}

/// An instance of a law's left side in the making.
struct Build<'l> {
    law: &'l Law,
    /// The items still to come.
    left: &'l [Item],
    bound: [Option<Vec<u16>>; SLOTS],
}

impl Build<'_> {
    /// Fills the next item so that it fits the hole; nothing when it cannot.
    fn put(&mut self, gen: &mut Gen, hole: Hole, out: &mut Vec<u16>) -> Option<()> {
        let (&item, rest) = self.left.split_first()?;
        self.left = rest;
        match item {
            Item::Part(slot) | Item::Apart(slot) => {
                let slot = usize::from(slot);
                let part = match self.bound[slot].take() {
                    None => self.part(gen, slot, &hole)?,
                    Some(part) => Some(part).filter(|part| hole.takes(gen, part))?,
                };
                let fits = !matches!(item, Item::Apart(_)) || !part.contains(&OWN);
                out.extend(&part);
                self.bound[slot] = Some(part);
                fits.then_some(())
            }
            Item::Word(w) if head(w) == SUM => self.sum_over(gen, hole, out),
            Item::Each { head, .. } => {
                let Hole::Term(want) = hole else {
                    return None;
                };
                let fits = if want == Scalar { head != ADD } else { head == ADD };
                if !fits {
                    return None;
                }
                gen.counted(head, &want, 1, out);
                Some(())
            }
            Item::Word(w) => {
                out.push(w);
                for hole in holes(gen, w, hole)? {
                    self.put(gen, hole, out)?;
                }
                Some(())
            }
        }
    }

    /// A sum over a basis, and its body inside it.
    fn sum_over(&mut self, gen: &mut Gen, hole: Hole, out: &mut Vec<u16>) -> Option<()> {
        let Hole::Term(want) = hole else {
            return None;
        };
        out.push(word(SUM, 0));
        let index = gen.index_over(&want);
        self.put(gen, Hole::Index(index.clone()), out)?;
        gen.bound.push(index);
        let done = self.put(gen, Hole::Term(want), out);
        gen.bound.pop();
        done
    }

    fn part(&self, gen: &mut Gen, slot: usize, hole: &Hole) -> Option<Vec<u16>> {
        let mut out = Vec::new();
        match hole {
            Hole::Index(index) => out.extend(index),
            Hole::Basis(index) => gen.basis(index, &mut out).then_some(())?,
            Hole::Term(want) => {
                if let Some(premise) = self.law.premise.filter(|it| usize::from(it.slot) == slot) {
                    let fits = matches!(
                        (premise.kind, want),
                        (Kind::Ket, Ket(_)) | (Kind::Bra, Bra(_)) | (Kind::Operator, Operator(..))
                    );
                    fits.then_some(())?;
                    if premise.marked {
                        return marked(gen, want);
                    }
                }
                let fuel = gen.rng.below(3);
                gen.put(want, fuel, &mut out);
            }
        }
        Some(out)
    }
}

/// A marked variable of the wanted type, where there is one.
fn marked(gen: &mut Gen, want: &Want) -> Option<Vec<u16>> {
    match want {
        Operator(rows, columns) if rows == columns => {
            Some(vec![word(VARIABLE, gen.marked(rows)?)])
        }
        _ => None,
    }
}

/// What the children of a word must be for it to fit a hole.
fn holes(gen: &mut Gen, w: u16, hole: Hole) -> Option<Vec<Hole>> {
    let term = Hole::Term;
    let middle = gen.middle();
    Some(match (head(w), hole) {
        (ZERO | ONE, Hole::Term(Scalar)) => vec![],
        (ADDS | MULS, Hole::Term(Scalar)) => (0..low(w)).map(|_| term(Scalar)).collect(),
        (ADD, Hole::Term(want)) if want != Scalar => {
            (0..low(w)).map(|_| term(want.clone())).collect()
        }
        (CONJ, Hole::Term(Scalar)) => vec![term(Scalar)],
        (DELTA, Hole::Term(Scalar)) => vec![Hole::Basis(middle.clone()), Hole::Basis(middle)],
        (DOT, Hole::Term(Scalar)) => vec![term(Bra(middle.clone())), term(Ket(middle))],
        (ZERO_KET, Hole::Term(Ket(index))) => vec![Hole::Index(index)],
        (ZERO_BRA, Hole::Term(Bra(index))) => vec![Hole::Index(index)],
        (ZERO_OPERATOR, Hole::Term(Operator(rows, columns))) => {
            vec![Hole::Index(rows), Hole::Index(columns)]
        }
        (IDENTITY, Hole::Term(Operator(rows, columns))) if rows == columns => {
            vec![Hole::Index(rows)]
        }
        (KET, Hole::Term(Ket(index))) => vec![Hole::Basis(index)],
        (BRA, Hole::Term(Bra(index))) => vec![Hole::Basis(index)],
        (BOUND, Hole::Basis(index)) if gen.bound.last() == Some(&index) => vec![],
        (PAIR, Hole::Basis(index)) => {
            let (left, right) = factors(&index)?;
            vec![Hole::Basis(left), Hole::Basis(right)]
        }
        (ADJ, Hole::Term(want)) => vec![term(adjoint(&want)?)],
        (SCR, Hole::Term(want)) if want != Scalar => vec![term(Scalar), term(want)],
        (TSR, Hole::Term(want)) => {
            let (left, right) = tensor_factors(&want)?;
            vec![term(left), term(right)]
        }
        (MULK, Hole::Term(Ket(s))) => {
            vec![term(Operator(s, middle.clone())), term(Ket(middle))]
        }
        (MULB, Hole::Term(Bra(t))) => {
            vec![term(Bra(middle.clone())), term(Operator(middle, t))]
        }
        (OUTER, Hole::Term(Operator(s, t))) => vec![term(Ket(s)), term(Bra(t))],
        (MULO, Hole::Term(Operator(s, t))) => {
            vec![term(Operator(s, middle.clone())), term(Operator(middle, t))]
        }
        _ => return None,
    })
}

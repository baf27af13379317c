//! Cases for the single step: instances of every rule, also at the limits, and
//! what is refused before the step is looked at.

use super::cases::text;
use super::layers::deepened;
use super::terms::Want;
use super::Gen;
use crate::decl::Declarations;
use crate::lent::{Case, Lent};
use crate::rules::{by_number, RULES};
use crate::step::{rewrite, Step};
use crate::words::*;

/// Rules that come four times as often as the others: 170, which is for four
/// heads, and 190 and 191, which can be missed in many ways.
const OFTEN: [u16; 9] = [170, 170, 170, 190, 190, 190, 191, 191, 191];

impl Gen {
    /// A step case: a step at an instance of its rule, good or past a limit; or
    /// a near miss of one; or a case that is refused before the step.
    pub fn step_case(&mut self) -> Vec<u8> {
        self.declare();
        let (words, mut step) = match self.rng.below(32) {
            0 => self.broad(),
            1 => self.long(),
            2 => self.full(),
            3 => self.wide(),
            4..10 => self.deep(),
            _ => {
                let (_, words, step) = self.inside();
                (words, step)
            }
        };
        let mut case = self.case(words);
        match self.rng.below(16) {
            0..5 => {}
            5..14 => self.miss(&mut case.lent, &mut step),
            _ => self.refuse(&mut case.declared, &mut case.lent),
        }
        self.stale(&mut case);
        text(&Case { step: Some(step), ..case })
    }

    /// An instance of any rule inside a larger term of some type.
    pub(super) fn inside(&mut self) -> (Want, Vec<u16>, Step) {
        let k = self.rng.below(RULES.len() + OFTEN.len());
        let picked = RULES.get(k).or_else(|| by_number(OFTEN[k - RULES.len()]));
        let rule = picked.expect("a rule");
        let Some(instance) = self.instance(rule) else {
            return self.inside();
        };
        let (want, words, place) = self.wrap(&instance.want, &instance.words);
        let step = Step { rule: rule.number, place: place as u16, i: instance.i, j: instance.j };
        (want, words, step)
    }

    /// What a step leaves of a term.
    pub(super) fn result(&self, words: &[u16], step: Step) -> Vec<u16> {
        let mut slice = self.case(words.to_vec()).slice();
        let length = rewrite(&self.declared, &mut slice, words.len(), step, &mut [0; WORDS]);
        slice.truncate(length.unwrap_or(words.len()));
        slice
    }

    /// Whether a step of a term is past a limit, or else refused.
    pub(super) fn refused(&self, words: &[u16], step: Step) -> bool {
        let mut slice = self.case(words.to_vec()).slice();
        rewrite(&self.declared, &mut slice, words.len(), step, &mut [0; WORDS]).is_err()
    }

    /// An instance in a term so deep that the result is about 64 deep.
    pub(super) fn deep(&mut self) -> (Vec<u16>, Step) {
        let (want, words, mut step) = self.inside();
        let deep = |words: &[u16]| part(words, 0).depth;
        let after = self.rng.within(DEPTH, DEPTH + 1);
        let before = after + deep(&words) - deep(&self.result(&words, step));
        let (words, above) = deepened(&want, &words, before.min(DEPTH));
        step.place += above as u16;
        (words, step)
    }

    /// An instance in a term so long that the result has about 4,096 words.
    pub(super) fn full(&mut self) -> (Vec<u16>, Step) {
        let (want, words, mut step) = self.inside();
        let after = self.rng.within(WORDS - 2, WORDS + 2);
        let before = after + words.len() - self.result(&words, step).len();
        let (words, place) = self.lengthen(&want, &words, before.min(WORDS));
        step.place += place as u16;
        (words, step)
    }

    /// A sum or product with one of its own head in it that together have about
    /// 255 children.
    pub(super) fn broad(&mut self) -> (Vec<u16>, Step) {
        let (head, want) = match self.rng.below(3) {
            0 => (ADDS, Want::Scalar),
            1 => (MULS, Want::Scalar),
            _ => (ADD, self.vector()),
        };
        let (n, m) = (self.rng.within(CHILDREN - 2, CHILDREN), self.rng.within(1, 3));
        let i = self.rng.below(n);
        let (outer, inner) = (self.term(&want, 0), self.term(&want, 0));
        let words = [
            vec![word(head, n as u8)],
            outer.repeat(i),
            vec![word(head, m as u8)],
            inner.repeat(m),
            outer.repeat(n - 1 - i),
        ];
        (words.concat(), Step { rule: 1, place: 0, i: i as u16, j: 0 })
    }

    /// A conjugate of a sum that spreads to about 4,096 words.
    pub(super) fn long(&mut self) -> (Vec<u16>, Step) {
        let longer = self.rng.within(13, 17);
        let mut words = vec![word(CONJ, 0), word(ADDS, 255)];
        for k in 0..255 {
            let m = if k < longer { 15 } else { 14 };
            words.push(word(ADDS, m));
            words.extend(vec![word(ONE, 0); usize::from(m)]);
        }
        (words, Step { rule: 12, place: 0, i: 0, j: 0 })
    }

    /// A tensor that becomes one zero or identity, of an index near the limit.
    fn wide(&mut self) -> (Vec<u16>, Step) {
        const BECOME_ONE: [(u8, u16); 5] =
            [(ZERO_KET, 84), (ZERO_KET, 85), (ZERO_BRA, 87), (ZERO_BRA, 88), (IDENTITY, 92)];
        let &(head, rule) = self.rng.pick(&BECOME_ONE);
        (self.crowded(head), Step { rule, place: 0, i: 0, j: 0 })
    }

    /// What is refused with 1, 7, 8, 10, 11 or 13.
    pub(super) fn refuse(&mut self, declared: &mut Declarations, lent: &mut Lent) {
        match self.rng.below(9) {
            0 => lent.size = *self.rng.pick(&[0, 1, lent.words.len(), 4095, 4097, 5000]),
            1 => self.misdeclare(declared),
            2 => self.misspell(lent),
            3 => self.mistell(lent),
            4 => lent.length = self.rng.draw() as usize,
            // Too deep, which is refused before the type is looked at.
            5 => lent.hold(deepened(&Want::Scalar, &lent.words, DEPTH + 1).0),
            6 => self.mistype(lent),
            7 => self.unbind(lent),
            _ => {
                let words = self.basis_or_index();
                lent.hold(words);
            }
        }
    }

    /// Words behind the term, on which nothing may depend: one word up to the
    /// end of the slice, or the term once more.
    fn stale(&mut self, case: &mut Case) {
        match self.rng.below(4) {
            0 => case.behind = self.any_word(),
            1 => {
                case.lent.words.extend_from_within(..);
                case.lent.words.truncate(WORDS);
            }
            _ => {}
        }
    }
}

//! Cases as they are stored, those for typing, and what can be wrong with a
//! case before its step is looked at.

use super::walks::{declared_text, step_text};
use super::Gen;
use super::terms::product;
use crate::decl::{Declarations, Letter, Variable, MARK};
use crate::lent::{Case, Lent};
use crate::words::*;

/// The lines of a slice, whose keys begin so.
pub(super) fn lent_text(begin: &str, lent: &Lent) -> String {
    let mut text = format!("{begin}term={}\n", tokens(&lent.words));
    if lent.length != lent.words.len() {
        text += &format!("{begin}length={}\n", lent.length);
    }
    if lent.size != WORDS {
        text += &format!("{begin}slice={}\n", lent.size);
    }
    text
}

/// A case as `Case::read` reads it; what need not be said is left out.
pub(super) fn text(case: &Case) -> Vec<u8> {
    let mut text = declared_text(&case.declared);
    text += &lent_text("", &case.lent);
    if case.behind != 0 {
        text += &format!("behind={}\n", token(case.behind));
    }
    if let Some(step) = case.step {
        text += &format!("step={}\n", step_text(step));
    }
    text.into_bytes()
}

impl Gen {
    /// A typing case: often a good term, else one with a part of another sort
    /// in it, a word changed, a wrong length or a bad declaration.
    pub fn typing_case(&mut self) -> Vec<u8> {
        self.declare();
        // A single term seldom comes to have a sum.
        self.sums |= self.rng.once_in(3);
        let want = self.want();
        let fuel = self.rng.within(1, 4);
        let mut term = self.term(&want, fuel);
        if self.rng.once_in(8) {
            term = self.deepen(&want, &term).0;
        }
        let mut case = self.case(term);
        match self.rng.below(9) {
            0..4 => self.mistype(&mut case.lent),
            8 if self.sums => self.unbind(&mut case.lent),
            4 => self.misspell(&mut case.lent),
            5 if self.rng.once_in(2) => self.mistell(&mut case.lent),
            5 => self.misdeclare(&mut case.declared),
            _ => {}
        }
        text(&case)
    }

    /// A case of these words under these declarations.
    pub(super) fn case(&self, words: Vec<u16>) -> Case {
        Case::new(self.declared.clone(), words)
    }

    /// A part of another sort or size.
    pub(super) fn mistype(&mut self, lent: &mut Lent) {
        let words = self.misfit(&lent.words);
        lent.hold(words);
    }

    /// A bound basis that has no sum, or sums nested too deep, most often.
    pub(super) fn unbind(&mut self, lent: &mut Lent) {
        let words = self.unbound(&lent.words);
        lent.hold(words);
    }

    /// A word changed.
    pub(super) fn misspell(&mut self, lent: &mut Lent) {
        let place = self.rng.below(lent.words.len());
        lent.words[place] = self.any_word();
    }

    /// Another length told.
    pub(super) fn mistell(&mut self, lent: &mut Lent) {
        lent.length = self.rng.below(lent.words.len() + 2);
    }

    /// A declaration that breaks a limit or a name, or is not exactly the
    /// indices wanted.
    pub(super) fn misdeclare(&mut self, declared: &mut Declarations) {
        match self.rng.below(7) {
            5 | 6 => self.mismark(declared),
            0 => declared.types = NAMES + 1,
            1 => declared.bases.resize(NAMES + 1, self.atom()),
            2 => declared.bases.push(self.index_of(NAMES + 1)),
            3 => {
                let letter = *self.rng.pick(&Letter::ALL);
                let words = self.atom().repeat(letter.indices() + 1);
                declared.variables.push(Variable::new(letter, words));
            }
            _ => declared.bases.push(vec![*self.rng.pick(&[word(TYPE, 31), word(PRODUCT, 0)])]),
        }
    }

    /// A mark where none may be: on a scalar, a ket or a bra, or on an operator
    /// of two different indices; or a word that is no kind's. Either is put to a
    /// variable that is there, or lent as one more.
    fn mismark(&mut self, declared: &mut Declarations) {
        let no_operator = |letter: Letter| letter != Letter::Operator;
        let one = declared.variables.iter_mut().find(|it| it.letter().is_some_and(no_operator));
        match (one, self.rng.below(5)) {
            (Some(variable), 0 | 1) => variable.kind += MARK,
            (Some(variable), 2) => variable.kind += 2 * MARK,
            (_, 3) => {
                let kind = *self.rng.pick(&[2 * MARK, 2 * MARK, 11, 255, 263, u16::MAX]);
                declared.variables.push(Variable { kind, words: self.atom().repeat(2) });
            }
            _ => {
                let (one, other) = (self.atom(), self.atom());
                let words = [product(&one, &other), one].concat();
                declared.variables.push(Variable { words, ..Variable::unitary(&[]) });
            }
        }
    }

    /// The words with one part replaced by a part of any sort and size, which
    /// knows the bodies around it or, now and then, does not.
    pub fn misfit(&mut self, words: &[u16]) -> Vec<u16> {
        let place = self.rng.below(words.len());
        let end = part_end(words, place).unwrap_or(place + 1);
        if !self.rng.once_in(4) {
            self.stand(words, place);
        }
        let other = match self.rng.below(8) {
            6 if self.sums => vec![word(BOUND, *self.rng.pick(&[0, 0, 0, 1, 1, 2, 7, 8, 255]))],
            7 if self.sums => self.nest(&words[place..end]),
            0 => self.index(),
            1 => {
                let names = self.rng.within(28, 40);
                self.index_of(names)
            }
            2 => self.basis_or_index(),
            3 => self.crowded(ZERO_KET),
            _ => {
                let want = self.want();
                self.term(&want, 2)
            }
        };
        self.bound.clear();
        [&words[..place], &other, &words[end..]].concat()
    }

    /// The words with a bound basis in the place of a basis or, now and then, of
    /// an index; or with a part of them inside more bodies.
    pub(super) fn unbound(&mut self, words: &[u16]) -> Vec<u16> {
        let wanted: &[u8] = match self.rng.below(8) {
            0 => &[TYPE, PRODUCT],
            1..5 => &[BASIS, PAIR, BOUND],
            _ => &[],
        };
        let fits = |&at: &usize| wanted.is_empty() || wanted.contains(&head(words[at]));
        let places: Vec<usize> = (0..words.len()).filter(fits).collect();
        if places.is_empty() {
            return self.nest(words);
        }
        let place = *self.rng.pick(&places);
        let end = part_end(words, place).unwrap_or(place + 1);
        let other = match wanted {
            [] => self.nest(&words[place..end]),
            _ => vec![word(BOUND, *self.rng.pick(&[0, 1, 2, 8, 255]))],
        };
        [&words[..place], &other, &words[end..]].concat()
    }

    /// A part inside a few bodies more, or so many that one may be the ninth.
    fn nest(&mut self, part: &[u16]) -> Vec<u16> {
        let bodies = *self.rng.pick(&[1, 2, 6, 7, 8, 8, 9, 9]);
        let mut out = Vec::new();
        for _ in 0..bodies {
            out.push(word(SUM, 0));
            out.extend(self.middle());
        }
        out.extend(part);
        out
    }

    /// A basis of an index or, where there is none, the index.
    pub(super) fn basis_or_index(&mut self) -> Vec<u16> {
        let mut out = Vec::new();
        let index = self.index();
        if self.basis(&index, &mut out) {
            out
        } else {
            index
        }
    }

    /// A tensor of two heads over an index each that together are near the
    /// limit.
    pub(super) fn crowded(&mut self, head: u8) -> Vec<u16> {
        let (left, right) = (self.rng.within(14, 18), self.rng.within(14, 18));
        let mut out = vec![word(TSR, 0), word(head, 0)];
        out.extend(self.index_of(left));
        out.push(word(head, 0));
        out.extend(self.index_of(right));
        out
    }

    pub(super) fn any_word(&mut self) -> u16 {
        match self.rng.below(4) {
            0 => self.rng.draw() as u16,
            1 => word(self.rng.below(30) as u8, self.rng.below(4) as u8),
            _ => word(self.rng.below(30) as u8, 0),
        }
    }
}

//! Cases for the run: derivations short and long, most of them good, the others
//! with something wrong in a term, a step, or what is lent. Files for the replay,
//! of such derivations too.

use super::cases::lent_text;
use super::damage::damaged;
use super::terms::{put_index, sum_head};
use super::walks::{declared_text, Derivation};
use super::Gen;
use crate::file::STEPS;
use crate::lent::{Lent, RunCase};
use crate::run::{number, STEP_WORDS};
use crate::step::Step;
use crate::words::*;

/// A case as `RunCase::read` reads it; what need not be said is left out.
fn text(case: &RunCase) -> Vec<u8> {
    let mut text = declared_text(&case.declared);
    text += &lent_text("left-", &case.left);
    text += &lent_text("right-", &case.right);
    for step in case.steps.chunks(STEP_WORDS) {
        let mut words = used(step).to_vec();
        words.resize(words.len().max(5), 0);
        let words: Vec<String> = words.iter().map(u16::to_string).collect();
        text += &format!("step={}\n", words.join(" "));
    }
    let steps = case.steps.len().div_ceil(STEP_WORDS);
    if case.steps.len() != STEP_WORDS * steps {
        text += &format!("lent={}\n", case.steps.len());
    }
    if case.count != steps {
        text += &format!("count={}\n", case.count);
    }
    text.into_bytes()
}

fn other(side: Side) -> Side {
    match side {
        Side::Left => Side::Right,
        Side::Right => Side::Left,
    }
}

/// How many children a word has that 170 may exchange.
fn swappable(first: u16) -> usize {
    match form(head(first)) {
        Form::Count => low(first).into(),
        _ if head(first) == DELTA => 2,
        _ => 0,
    }
}

impl Gen {
    /// A run case: a derivation that is accepted, or one with something wrong,
    /// now and then with more than one thing.
    pub fn run_case(&mut self) -> Vec<u8> {
        let derivation = self.good_or_bad();
        let mut case = self.lend(derivation);
        while self.rng.once_in(5) {
            self.mislend(&mut case);
        }
        text(&case)
    }

    /// A file: of a short derivation that is accepted, or of one as a run case
    /// has it, now and then with another side. Half of them are damaged.
    pub fn replay_case(&mut self) -> Vec<u8> {
        let file = if self.rng.once_in(2) {
            self.accepted(30)
        } else {
            let mut derivation = self.good_or_bad();
            match self.rng.below(20) {
                0 => {
                    let want = self.want();
                    derivation.right = self.term(&want, 2);
                }
                1 => derivation.left = self.unbound(&derivation.left),
                2 => derivation.right = self.unbound(&derivation.right),
                _ => {}
            }
            self.file(&derivation)
        };
        if self.rng.once_in(2) {
            return file;
        }
        damaged(&mut self.rng, &file)
    }

    /// A derivation over new declarations that is accepted, or, once in five,
    /// one with a step or a term changed.
    fn good_or_bad(&mut self) -> Derivation {
        self.declare();
        let mut derivation = self.any_derivation();
        if self.rng.once_in(5) {
            self.misderive(&mut derivation);
        }
        derivation
    }

    /// Most often a short one; also long ones, and those that meet a limit.
    fn any_derivation(&mut self) -> Derivation {
        let (words, step) = match self.rng.below(200) {
            0 => return self.swaps(),
            1 | 2 => {
                let length = self.rng.within(100, 300);
                return self.derivation(length);
            }
            3 => self.full(),
            4 if self.rng.once_in(2) => self.long(),
            4..8 => self.broad(),
            8..20 => self.deep(),
            20..40 => {
                let (_, words, step) = self.inside();
                (words, step)
            }
            _ => {
                let length = self.rng.within(0, 16);
                return self.derivation(length);
            }
        };
        let mut steps = self.detour(&words);
        steps.push(step);
        if self.refused(&words, step) && self.rng.once_in(2) {
            return self.unmet(words, &steps);
        }
        let joined = self.rng.within(0, steps.len());
        self.meeting(words, &steps, joined)
    }

    /// Steps on the left, of which the last is past a limit: the ends are not
    /// compared, and the right is any short term of the type.
    fn unmet(&mut self, left: Vec<u16>, steps: &[Step]) -> Derivation {
        let right = self.want_of(&left).map(|want| self.term(&want, 1));
        let steps = self.interleave(steps, &[]);
        Derivation { right: right.unwrap_or_else(|| left.clone()), left, steps }
    }

    /// Hundreds of swaps in a sum of up to 255 children and thousands of words,
    /// which may be a body.
    fn swaps(&mut self) -> Derivation {
        let want = self.want();
        let total = self.rng.within(10, 3_600);
        let mut around = Vec::new();
        if self.sums {
            let index = self.index_over(&want);
            put_index(SUM, &index, &mut around);
            self.bound.push(index);
        }
        let (mut children, mut n) = (Vec::new(), 0);
        while n < 2 || n < CHILDREN && children.len() < total {
            self.put(&want, 3, &mut children);
            n += 1;
        }
        self.bound.clear();
        let place = around.len();
        let start = [around, vec![word(sum_head(&want), n as u8)], children].concat();
        let on_left = self.rng.within(100, STEPS);
        let on_right = self.rng.within(0, on_left).min(STEPS - on_left);
        let steps: Vec<Step> = (0..on_left).map(|_| self.swap(place, n)).collect();
        self.meeting(start, &steps, on_left - on_right)
    }

    /// A swap of two of the n children at a place.
    fn swap(&mut self, place: usize, n: usize) -> Step {
        Step { rule: 170, place: place as u16, i: self.rng.below(n - 1) as u16, j: 0 }
    }

    /// A few swaps that lead away from a term and back to it, where it has a
    /// delta, or a sum or product of more than one.
    fn detour(&mut self, words: &[u16]) -> Vec<Step> {
        let many = |&place: &usize| swappable(words[place]) > 1;
        let places: Vec<usize> = (0..words.len()).filter(many).collect();
        if places.is_empty() {
            return Vec::new();
        }
        let place = *self.rng.pick(&places);
        let n = swappable(words[place]);
        let there: Vec<Step> = (0..self.rng.below(4)).map(|_| self.swap(place, n)).collect();
        there.iter().chain(there.iter().rev()).copied().collect()
    }

    /// One step or a part of a term is changed.
    fn misderive(&mut self, derivation: &mut Derivation) {
        if derivation.steps.is_empty() || self.rng.once_in(6) {
            let side = self.either();
            return self.misbegin(derivation, side);
        }
        let k = self.rng.below(derivation.steps.len());
        match self.rng.below(9) {
            0 => {
                derivation.steps.remove(k);
            }
            1 => derivation.steps.insert(k, derivation.steps[k]),
            2 => derivation.steps[k].0 = other(derivation.steps[k].0),
            way => {
                let words = self.before(derivation, k);
                self.misstep(way - 3, &words, &mut derivation.steps[k].1);
            }
        }
    }

    fn either(&mut self) -> Side {
        *self.rng.pick(&[Side::Left, Side::Right])
    }

    /// Another part of the same sort in the first term of a side, so that a
    /// later step may be no instance, or the ends differ.
    fn misbegin(&mut self, derivation: &mut Derivation, side: Side) {
        let words = match side {
            Side::Left => &mut derivation.left,
            Side::Right => &mut derivation.right,
        };
        let at = self.rng.below(words.len());
        self.exchange(words, at);
    }

    /// The term that step k is to rewrite.
    fn before(&self, derivation: &Derivation, k: usize) -> Vec<u16> {
        let side = derivation.steps[k].0;
        let start = match side {
            Side::Left => &derivation.left,
            Side::Right => &derivation.right,
        };
        let on_side = derivation.steps[..k].iter().filter(|step| step.0 == side);
        on_side.fold(start.clone(), |words, &(_, step)| self.result(&words, step))
    }

    /// The derivation as it is lent. Now and then the words that are not looked
    /// at are not zeros.
    fn lend(&mut self, derivation: Derivation) -> RunCase {
        let Derivation { left, right, steps } = derivation;
        let mut case = RunCase::new(self.declared.clone(), left, right);
        let dirty = self.rng.once_in(8);
        for (side, step) in steps {
            let mut words = vec![number(side).into(), step.rule, step.place, step.i, step.j];
            if dirty {
                words.extend([(); 3].map(|_| self.any_word()));
            }
            case.push_step(&words);
        }
        case
    }

    /// What is refused before the first step, most often.
    fn mislend(&mut self, case: &mut RunCase) {
        let side = match self.either() {
            Side::Left => &mut case.left,
            Side::Right => &mut case.right,
        };
        match self.rng.below(12) {
            0..6 => self.refuse(&mut case.declared, side),
            6 => self.retype(side),
            7 => self.too_many(case),
            8 => {
                let kept = self.rng.below(case.steps.len() + 1);
                case.steps.truncate(kept);
            }
            9 => self.misside(case),
            10 => case.count = self.rng.below(case.count + 3),
            _ => {
                // More steps than are told; they are not looked at.
                let count = case.count;
                case.push_step(&[self.any_word(); STEP_WORDS]);
                case.count = count;
            }
        }
    }

    /// A term of another type, most often.
    fn retype(&mut self, side: &mut Lent) {
        let want = self.want();
        side.hold(self.term(&want, 2));
    }

    /// More than 1,000 steps; now and then the words of all are there.
    fn too_many(&mut self, case: &mut RunCase) {
        case.count = match self.rng.below(4) {
            0 => self.rng.draw() as usize,
            1 => usize::MAX,
            _ => self.rng.within(STEPS + 1, STEPS + 2),
        };
        if self.rng.once_in(4) {
            case.steps.resize(STEP_WORDS * (STEPS + 2), 1);
        }
    }

    /// A step of neither side.
    fn misside(&mut self, case: &mut RunCase) {
        if case.steps.is_empty() {
            case.push_step(&[0]);
        }
        let k = self.rng.below(case.steps.len().div_ceil(STEP_WORDS));
        case.steps[STEP_WORDS * k] = match self.rng.below(3) {
            0 => 0,
            1 => 3,
            _ => self.any_word(),
        };
    }
}

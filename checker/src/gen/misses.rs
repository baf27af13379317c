//! Near misses: steps at an instance of a rule of which one thing is changed.

use super::terms::Want;
use super::Gen;
use crate::bodies::Around;
use crate::decl::{Variable, MARK};
use crate::lent::Lent;
use crate::notation::{Item, Law, OWN, SLOTS};
use crate::rules::{by_number, Rule, Way, RULES};
use crate::step::Step;
use crate::typing::{type_around, Kind};
use crate::words::*;

impl Gen {
    /// Changes one thing about an instance, most often so that it is none.
    pub(super) fn miss(&mut self, lent: &mut Lent, step: &mut Step) {
        match self.rng.below(10) {
            way @ 0..6 => self.misstep(way, &lent.words, step),
            _ => {
                let mut words = lent.words.clone();
                self.other_part(&mut words, step);
                lent.hold(words);
            }
        }
    }

    /// Changes one thing about the step of an instance, in one of six ways.
    pub(super) fn misstep(&mut self, way: usize, words: &[u16], step: &mut Step) {
        match way {
            0 => step.rule = self.any_rule(step.rule),
            1 => step.rule = self.like_rule(step.rule, head(words[usize::from(step.place)])),
            2 => step.place = self.other_place(words.len(), step.place),
            _ => self.other_indices(step),
        }
    }

    /// A number that is most often no rule's.
    fn any_rule(&mut self, rule: u16) -> u16 {
        match self.rng.below(3) {
            0 => rule + 256,
            1 => self.rng.below(200) as u16,
            _ => self.rng.draw() as u16,
        }
    }

    /// Another rule for parts of this head.
    fn like_rule(&mut self, rule: u16, head: u8) -> u16 {
        let like = |it: &&Rule| it.number != rule && it.begins_with(head);
        let fitting: Vec<u16> = RULES.iter().filter(like).map(|it| it.number).collect();
        *self.rng.pick(&fitting)
    }

    /// Another place of the term, or one past its end.
    fn other_place(&mut self, length: usize, place: u16) -> u16 {
        match self.rng.below(4) {
            0 => place.wrapping_sub(1),
            1 => place + 1,
            2 => self.rng.below(length) as u16,
            _ => self.rng.within(length, length + 1) as u16,
        }
    }

    /// Indices next to these, exchanged, the same in their low byte, or any; an
    /// unused one is then seldom 0.
    fn other_indices(&mut self, step: &mut Step) {
        if step.i != step.j && self.rng.once_in(4) {
            return std::mem::swap(&mut step.i, &mut step.j);
        }
        let index = if self.rng.once_in(2) { &mut step.i } else { &mut step.j };
        *index = match self.rng.below(4) {
            0 => index.wrapping_sub(1),
            1 => *index + 1,
            2 => *index + 256,
            _ => self.rng.below(6) as u16,
        };
    }

    /// Another part at the step's place, of the same type.
    fn other_part(&mut self, words: &mut Vec<u16>, step: &mut Step) {
        let wanted = wanted(words, *step);
        let counted = form(head(words[usize::from(step.place)])) == Form::Count;
        match self.rng.below(6) {
            0..3 if matches!(step.rule, 181 | 183) => self.rebind(words, step.place.into()),
            0..5 if matches!(step.rule, 190 | 191) => self.unmark(words, step.place.into()),
            0 if counted => self.recount(words, step.place.into()),
            1 | 2 if counted => leave_one(words, step),
            _ if step.rule == 170 && !counted => undo_delta(words, step.place.into()),
            _ if wanted.is_empty() => self.recount(words, step.place.into()),
            _ => {
                let at = *self.rng.pick(&wanted);
                self.exchange(words, at);
            }
        }
    }

    /// For 181 and 183, whose bodies have two children: a bound basis of one sum
    /// further out, the children exchanged, or the second one twice.
    fn rebind(&mut self, words: &mut Vec<u16>, place: usize) {
        let body = children(words, place)[1];
        let end = part(words, body).words.len() + body;
        let second = children(words, body)[1];
        let own: Vec<usize> = (body..end).filter(|&at| words[at] == OWN).collect();
        match self.rng.below(3) {
            0 => words[*self.rng.pick(&own)] += 1,
            1 => words[body + 1..end].rotate_left(second - body - 1),
            _ => {
                let again = words[second..end].to_vec();
                words.splice(body + 1..second, again);
            }
        }
    }

    /// For 190 and 191: an unmarked variable twice, two different variables, the
    /// adjoint on the other side, on both sides, or on none.
    fn unmark(&mut self, words: &mut Vec<u16>, place: usize) {
        let (name, first) = (words[place + 3], words[place + 1] == word(ADJ, 0));
        let (other, unmarked) = (self.twin(name, true), self.twin(name, false));
        let way = self.rng.below(8);
        let (one, two) = match way {
            0 | 1 => (unmarked, unmarked),
            2 | 3 => (other, name),
            4 => (name, unmarked),
            _ => (name, name),
        };
        let (on_one, on_two) = match way {
            5 => (!first, first),
            6 => (true, true),
            7 => (false, false),
            _ => (first, !first),
        };
        let mut children = Vec::new();
        for (name, adjoint) in [(one, on_one), (two, on_two)] {
            children.extend(adjoint.then_some(word(ADJ, 0)));
            children.push(name);
        }
        words.splice(place + 1..place + 4, children);
    }

    /// Another variable of the type of a marked one, marked or not; the same
    /// where there is none.
    fn twin(&mut self, name: u16, marked: bool) -> u16 {
        let this = &self.declared.variables[usize::from(low(name))];
        let kind = if marked { this.kind } else { this.kind - MARK };
        let is_twin = |it: &Variable| it.kind == kind && it.words == this.words;
        let names = (0..).zip(&self.declared.variables);
        let twins = names.filter(|&(a, it)| a != low(name) && is_twin(it));
        let twins: Vec<u8> = twins.map(|(a, _)| a).collect();
        match twins[..] {
            [] => name,
            _ => word(VARIABLE, *self.rng.pick(&twins)),
        }
    }

    /// Takes a child off a sum or product, or doubles one.
    fn recount(&mut self, words: &mut Vec<u16>, place: usize) {
        let child = *self.rng.pick(&children(words, place));
        let one = part(words, child).words.to_vec();
        let n = usize::from(low(words[place]));
        if n == CHILDREN || n > 1 && self.rng.once_in(2) {
            words.drain(child..child + one.len());
            words[place] -= 1;
        } else {
            words.splice(child..child, one);
            words[place] += 1;
        }
    }

    /// Puts another part of its sort in the place of one, where one is found.
    /// Half of the time it begins with another word: the others can differ late.
    pub(super) fn exchange(&mut self, words: &mut Vec<u16>, at: usize) {
        let old = part(words, at).words.to_vec();
        self.stand(words, at);
        let early = self.rng.once_in(2);
        let differs = |new: &Vec<u16>| if early { new[0] != old[0] } else { *new != old };
        let new = (0..10).find_map(|_| self.alike(&old).filter(differs));
        words.splice(at..at + old.len(), new.unwrap_or_else(|| old.clone()));
        self.bound.clear();
    }

    /// Opens the bodies in which an offset stands.
    pub(super) fn stand(&mut self, words: &[u16], at: usize) {
        self.bound = Around::of(words, at).indices().map(<[u16]>::to_vec).collect();
    }

    /// A part of the same sort; nothing for an index, which is its own sort.
    fn alike(&mut self, part: &[u16]) -> Option<Vec<u16>> {
        match head(part[0]) {
            TYPE | PRODUCT => None,
            BASIS | PAIR | BOUND => {
                let ket = [&[word(KET, 0)], part].concat();
                let Want::Ket(index) = self.want_of(&ket)? else {
                    return None;
                };
                let mut out = Vec::new();
                self.basis(&index, &mut out).then_some(out)
            }
            _ => {
                let want = self.want_of(part)?;
                Some(self.term(&want, 1))
            }
        }
    }

    /// The type of a part that stands in the open bodies.
    pub(super) fn want_of(&self, part: &[u16]) -> Option<Want> {
        let found = type_around(&self.declared, Around::over(&self.bound), part).ok()?;
        let first = found.first().to_vec();
        Some(match found.kind {
            Kind::Scalar => Want::Scalar,
            Kind::Ket(_) => Want::Ket(first),
            Kind::Bra(_) => Want::Bra(first),
            Kind::Operator(..) => Want::Operator(first, found.second().to_vec()),
        })
    }
}

/// Leaves of a sum or product only the child that the step names.
fn leave_one(words: &mut Vec<u16>, step: &mut Step) {
    let place = usize::from(step.place);
    let whole = part(words, place).words;
    let child = parts(&whole[1..]).nth(step.i.into()).unwrap_or(&[]);
    let alone = [&[word(head(whole[0]), 1)], child].concat();
    words.splice(place..place + whole.len(), alone);
    (step.i, step.j) = (0, 0);
}

/// Puts ⟨s|t⟩ in the place of δ(s,t), which is equal and has an order.
fn undo_delta(words: &mut Vec<u16>, place: usize) {
    let second = children(words, place)[1];
    words.insert(second, word(KET, 0));
    words.splice(place..=place, [word(DOT, 0), word(BRA, 0)]);
}

/// Where the rule of a good step wants more of a part than its sort: that it
/// has a head, that it equals another, or that it is marked. The part at the
/// step's place is left out.
fn wanted(words: &[u16], step: Step) -> Vec<usize> {
    let place = usize::from(step.place);
    let child = |k: u16| children(words, place)[usize::from(k)];
    // The X of a summand a.X.
    let scaled = |at: usize| children(words, at)[1];
    match by_number(step.rule).map(|rule| &rule.way) {
        None => Vec::new(),
        Some(Way::Law(law)) => wanted_by_law(law, words, place),
        Some(Way::Collect { i_scaled, j_scaled }) => {
            let (i, j) = (child(step.i), child(step.j));
            let mut out = vec![i, j];
            out.extend(i_scaled.then(|| scaled(i)));
            out.extend(j_scaled.then(|| scaled(j)));
            out
        }
        // The body.
        Some(Way::SpreadBody) => vec![child(1)],
        Some(_) => vec![child(step.i)],
    }
}

fn wanted_by_law(law: &Law, words: &[u16], place: usize) -> Vec<usize> {
    let mut met = [false; SLOTS];
    // A marked variable is wanted already where its letter stands first.
    if let Some(premise) = law.premise.filter(|premise| premise.marked) {
        met[usize::from(premise.slot)] = true;
    }
    let mut at = place;
    let mut out = Vec::new();
    for item in law.left.get() {
        let (more, length) = match *item {
            Item::Word(_) => (at > place, 1),
            Item::Each { .. } => (true, part(words, at).words.len()),
            Item::Part(slot) => {
                let again = std::mem::replace(&mut met[usize::from(slot)], true);
                (again, part(words, at).words.len())
            }
            Item::Apart(_) => (true, part(words, at).words.len()),
        };
        out.extend(more.then_some(at));
        at += length;
    }
    out
}

/// Where the children of the part at an offset begin.
fn children(words: &[u16], at: usize) -> Vec<usize> {
    let mut begin = at + 1;
    let mut out = Vec::new();
    for child in parts(&part(words, at).words[1..]) {
        out.push(begin);
        begin += child.len();
    }
    out
}

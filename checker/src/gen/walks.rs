//! Accepted derivations, and their files.

use super::Gen;
use crate::decl::{Declarations, Variable};
use crate::rules::{Out, Spot, Way, RULES};
use crate::step::{rewrite, Step};
use crate::words::*;

/// A derivation as a file would have it.
#[derive(Clone, Debug)]
pub struct Derivation {
    pub left: Vec<u16>,
    pub right: Vec<u16>,
    pub steps: Vec<(Side, Step)>,
}

impl Gen {
    /// All steps that a typed term allows.
    pub fn moves(&self, words: &[u16]) -> Vec<Step> {
        let mut scratch = vec![0; WORDS];
        let mut found = Vec::new();
        for place in 0..words.len() {
            let part = part(words, place).words;
            let n = match form(head(part[0])) {
                Form::Count => usize::from(low(part[0])),
                _ => 1,
            };
            for rule in RULES.iter().filter(|rule| rule.begins_with(head(part[0]))) {
                let mut attempt = |i: usize, j: usize| {
                    let mut out = Out::new(&mut scratch);
                    let spot = Spot { term: words, place, part };
                    if rule.apply(&self.declared, spot, i, j, &mut out).is_some() {
                        found.push(Step {
                            rule: rule.number,
                            place: place as u16,
                            i: i as u16,
                            j: j as u16,
                        });
                    }
                };
                match rule.way {
                    Way::Law(_) | Way::SpreadBody => attempt(0, 0),
                    Way::Collect { .. } => {
                        for j in 1..n {
                            (0..j).for_each(|i| attempt(i, j));
                        }
                    }
                    _ => (0..n).for_each(|i| attempt(i, 0)),
                }
            }
        }
        found
    }

    /// A derivation of exactly so many steps that is accepted: the left takes
    /// a walk, the right starts somewhere along it and takes the rest.
    pub fn derivation(&mut self, length: usize) -> Derivation {
        let on_left = self.rng.within(length.div_ceil(2), length);
        let on_right = length - on_left;
        loop {
            let want = self.want();
            let fuel = self.rng.within(2, 5);
            let start = self.term(&want, fuel);
            if let Some(steps) = self.walk(start.clone(), on_left) {
                return self.meeting(start, &steps, on_left - on_right);
            }
        }
    }

    /// The left takes these steps, the right starts behind so many of them and
    /// takes the rest.
    pub(super) fn meeting(&mut self, left: Vec<u16>, steps: &[Step], joined: usize) -> Derivation {
        let (before, behind) = steps.split_at(joined);
        let right = before.iter().fold(left.clone(), |words, &step| self.result(&words, step));
        Derivation { left, right, steps: self.interleave(steps, behind) }
    }

    /// So many random steps from a term.
    fn walk(&mut self, start: Vec<u16>, length: usize) -> Option<Vec<Step>> {
        const LARGEST: usize = 300;
        let mut scratch = vec![0; WORDS];
        let mut now = start;
        let mut steps = Vec::new();
        while steps.len() < length {
            let moves = self.moves(&now);
            let mut next = None;
            for _ in 0..4 {
                if moves.is_empty() {
                    break;
                }
                let step = *self.rng.pick(&moves);
                if step.rule == 170 && !self.rng.once_in(4) {
                    continue;
                }
                let mut slice = vec![0; WORDS];
                slice[..now.len()].copy_from_slice(&now);
                let end = rewrite(&self.declared, &mut slice, now.len(), step, &mut scratch);
                if let Some(end) = end.ok().filter(|&end| end <= LARGEST) {
                    slice.truncate(end);
                    next = Some((slice, step));
                    break;
                }
            }
            match next {
                Some((term, step)) => {
                    now = term;
                    steps.push(step);
                }
                // An exchange keeps the length, so one is found in the end where the term is not too large already.
                None if now.len() <= LARGEST && moves.iter().any(|step| step.rule == 170) => {}
                None => return None,
            }
        }
        Some(steps)
    }

    pub(super) fn interleave(&mut self, left: &[Step], right: &[Step]) -> Vec<(Side, Step)> {
        let (mut left, mut right) = (left.iter().peekable(), right.iter().peekable());
        let mut steps = Vec::new();
        loop {
            let first = right.peek().is_none() || self.rng.once_in(2);
            let next = match left.next_if(|_| first) {
                Some(step) => Some((Side::Left, *step)),
                None => right.next().map(|step| (Side::Right, *step)),
            };
            match next {
                Some(step) => steps.push(step),
                None => return steps,
            }
        }
    }

    /// The file of a derivation over these declarations.
    pub fn file(&self, derivation: &Derivation) -> Vec<u8> {
        let mut text = declared_text(&self.declared);
        text += &format!("left={}\n", tokens(&derivation.left));
        text += &format!("right={}\n", tokens(&derivation.right));
        for (side, step) in &derivation.steps {
            let side = match side {
                Side::Left => 'L',
                Side::Right => 'R',
            };
            text += &format!("step={side} {}\n", step_text(*step));
        }
        text += &format!("end={}\n", derivation.steps.len());
        text.into_bytes()
    }

    /// The file of an accepted derivation over new declarations.
    pub fn accepted(&mut self, longest: usize) -> Vec<u8> {
        self.declare();
        let length = self.rng.within(0, longest);
        let derivation = self.derivation(length);
        self.file(&derivation)
    }
}

pub fn declared_text(declared: &Declarations) -> String {
    let mut text = format!("types={}\n", declared.types);
    for index in &declared.bases {
        text += &format!("basis={}\n", tokens(index));
    }
    for variable in &declared.variables {
        text += &variable_text(variable);
    }
    text
}

/// The line of a variable. What no var line says stands by the word of its kind,
/// as only a caller can lend it.
fn variable_text(variable: &Variable) -> String {
    let words = &variable.words[..];
    let once = &words[..words.len() / 2];
    let (mut text, words) = match variable.letter() {
        Some(letter) if !variable.marked() => (format!("var={}", letter.text()), words),
        _ if *variable == Variable::unitary(once) => ("var=U".to_string(), once),
        _ => (format!("kind={}", variable.kind), words),
    };
    if !words.is_empty() {
        text += &format!(" {}", tokens(words));
    }
    text + "\n"
}

pub fn step_text(step: Step) -> String {
    format!("{} {} {} {}", step.rule, step.place, step.i, step.j)
}

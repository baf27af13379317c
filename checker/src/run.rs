//! The steps of a derivation on two sides: both are typed, the steps are taken
//! one after the other, the ends are compared.

use crate::decl::Declarations;
use crate::file::{Script, STEPS};
use crate::step::{rewrite, Step};
use crate::typing::{type_of, Type};
use crate::words::{test, Side, WORDS};
use std::fmt;

/// The words of a lent step: side (1 left, 2 right), rule, place, i, j, and
/// three that are not looked at.
pub const STEP_WORDS: usize = 8;

/// The answer, and the lengths of the terms that the slices hold.
#[derive(Clone, Copy, PartialEq, Eq, Debug, Default)]
pub struct Answer {
    pub code: u8,
    /// 0 none, 1 left, 2 right.
    pub side: u8,
    pub step: usize,
    pub at: usize,
    pub left: usize,
    pub right: usize,
}

impl Answer {
    /// A refusal that names nothing but its code.
    fn refused(code: u8) -> Self {
        Answer { code, ..Answer::default() }
    }
}

impl fmt::Display for Answer {
    fn fmt(&self, f: &mut fmt::Formatter) -> fmt::Result {
        writeln!(f, "code={}", self.code)?;
        writeln!(f, "side={}", self.side)?;
        writeln!(f, "step={}", self.step)?;
        writeln!(f, "at={}", self.at)?;
        writeln!(f, "left={}", self.left)?;
        writeln!(f, "right={}", self.right)
    }
}

pub(crate) fn number(side: Side) -> u8 {
    match side {
        Side::Left => 1,
        Side::Right => 2,
    }
}

/// The run of a derivation's steps, for a caller who lends declarations, two
/// work slices with the lengths of their terms, and steps of which the first
/// `count` are to be taken.
pub fn run(
    declared: &Declarations,
    left: &mut [u16],
    n: usize,
    right: &mut [u16],
    m: usize,
    steps: &[u16],
    count: usize,
) -> Answer {
    run_in(left, right, |left, right| {
        let is_term = |slice: &[u16], length: usize| {
            slice.get(..length).is_some_and(|words| test(words, declared.names()).is_some())
        };
        if !declared.good() {
            return Err(Answer::refused(7));
        }
        if !is_term(left, n) || !is_term(right, m) {
            return Err(Answer::refused(8));
        }
        let steps = lent_steps(steps, count).map_err(Answer::refused)?;
        Ok(Script { declared: declared.clone(), left: n, right: m, steps })
    })
}

/// The first `count` of lent steps, or the code that they are refused with.
fn lent_steps(words: &[u16], count: usize) -> Result<Vec<(Side, Step)>, u8> {
    if count > STEPS {
        return Err(6);
    }
    let words = words.get(..STEP_WORDS * count).ok_or(9)?;
    words.chunks(STEP_WORDS).map(lent_step).collect::<Option<_>>().ok_or(5)
}

fn lent_step(words: &[u16]) -> Option<(Side, Step)> {
    let &[side, rule, place, i, j, ..] = words else {
        return None;
    };
    let side = match side {
        1 => Side::Left,
        2 => Side::Right,
        _ => return None,
    };
    Some((side, Step { rule, place, i, j }))
}

/// Runs a derivation in two work slices, to whose front `start` puts its terms,
/// where they do not stand there yet.
pub(crate) fn run_in(
    left: &mut [u16],
    right: &mut [u16],
    start: impl FnOnce(&mut [u16], &mut [u16]) -> Result<Script, Answer>,
) -> Answer {
    if left.len() != WORDS || right.len() != WORDS {
        return Answer::refused(1);
    }
    match start(left, right).and_then(|script| typed_alike(script, left, right)) {
        Ok(script) => {
            left[script.left..].fill(0);
            right[script.right..].fill(0);
            take(&script, left, right)
        }
        Err(refusal) => {
            left.fill(0);
            right.fill(0);
            refusal
        }
    }
}

/// The script again, where its terms have types and these are equal: codes 10
/// to 13.
fn typed_alike(script: Script, left: &[u16], right: &[u16]) -> Result<Script, Answer> {
    let type_of_left = typed(&script, Side::Left, &left[..script.left])?;
    let type_of_right = typed(&script, Side::Right, &right[..script.right])?;
    if type_of_left != type_of_right {
        return Err(Answer::refused(12));
    }
    Ok(script)
}

fn typed(script: &Script, side: Side, words: &[u16]) -> Result<Type, Answer> {
    type_of(&script.declared, words).map_err(|untyped| {
        let (code, at) = untyped.code();
        Answer { side: number(side), at, ..Answer::refused(code) }
    })
}

/// Takes the steps and compares the ends: codes 20 to 30 and 0.
fn take(script: &Script, left: &mut [u16], right: &mut [u16]) -> Answer {
    let mut answer = Answer { left: script.left, right: script.right, ..Answer::default() };
    let mut scratch = [0; WORDS];
    for &(side, step) in &script.steps {
        answer.step += 1;
        let (slice, length) = match side {
            Side::Left => (&mut *left, &mut answer.left),
            Side::Right => (&mut *right, &mut answer.right),
        };
        match rewrite(&script.declared, slice, *length, step, &mut scratch) {
            Ok(new) => *length = new,
            Err(code) => {
                return Answer { code, side: number(side), at: step.place.into(), ..answer };
            }
        }
    }
    // Zeros stand behind both terms, and no term goes on where another ends.
    match left.iter().zip(right.iter()).position(|(l, r)| l != r) {
        Some(at) => Answer { code: 30, at, ..answer },
        None => answer,
    }
}

//! One step: a rule at a place, with its limits on the whole result.

use crate::decl::Declarations;
use crate::rules::{by_number, Out, Spot};
use crate::typing::typing;
use crate::words::{ancestors, part, Part, DEPTH, WORDS};

/// What a step line says, without its side.
#[derive(Clone, Copy, PartialEq, Eq, Debug)]
pub struct Step {
    pub rule: u16,
    pub place: u16,
    pub i: u16,
    pub j: u16,
}

/// Rewrites the typed term that fills the first `length` words of `slice`,
/// zeros behind it, and gives the new length; or leaves all as it is and gives
/// the code 20 to 23. `scratch` is as long as `slice`; its words do not matter.
pub(crate) fn rewrite(
    declared: &Declarations,
    slice: &mut [u16],
    length: usize,
    step: Step,
    scratch: &mut [u16],
) -> Result<usize, u8> {
    let rule = by_number(step.rule).ok_or(20)?;
    let place = usize::from(step.place);
    if place >= length {
        return Err(21);
    }
    let term = &slice[..length];
    let Part { words: old, depth: before } = part(term, place);
    let room = scratch.len() - (length - old.len());
    let mut out = Out::new(&mut scratch[..room]);
    let spot = Spot { term, place, part: old };
    rule.apply(declared, spot, step.i.into(), step.j.into(), &mut out).ok_or(22)?;
    let new = out.done().ok_or(23)?;

    // A place has at most as many ancestors as words before it, and only a
    // part that grew deeper can make the whole too deep.
    let deep = part(new, 0).depth;
    if place + deep > DEPTH
        && deep > before
        && ancestors(slice, place).is_none_or(|above| above + deep > DEPTH)
    {
        return Err(23);
    }

    let end = place + old.len();
    let new_length = length - old.len() + new.len();
    slice.copy_within(end..length, place + new.len());
    slice[place..place + new.len()].copy_from_slice(new);
    if new_length < length {
        slice[new_length..length].fill(0);
    }
    Ok(new_length)
}

/// The answer of a single step.
#[derive(Clone, Copy, PartialEq, Eq, Debug)]
pub struct Stepped {
    pub code: u8,
    pub step: usize,
    pub at: usize,
    pub length: usize,
}

/// A single step, for a caller who lends declarations, a work slice and a
/// length.
pub fn single(declared: &Declarations, slice: &mut [u16], length: usize, step: Step) -> Stepped {
    let typed = typing(declared, slice, length);
    if typed.code == 1 {
        return Stepped { code: 1, step: 0, at: 0, length: 0 };
    }
    if typed.code != 0 {
        slice.fill(0);
        return Stepped { code: typed.code, step: 0, at: typed.at, length: 0 };
    }
    slice[length..].fill(0);
    match rewrite(declared, slice, length, step, &mut [0; WORDS]) {
        Ok(length) => Stepped { code: 0, step: 1, at: 0, length },
        Err(code) => Stepped { code, step: 1, at: step.place.into(), length },
    }
}
